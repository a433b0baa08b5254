#!/usr/bin/env python3
"""Draws event files at random, and compares what `statement` prints with what the model works out:

    python3 tools/try_statements.py SEED FILES

The program has to be built before (`./run`). A file whose statement differs is written to the folder that is current.
"""
import pathlib
import random
import subprocess
import sys

from make_events import BLANK, block, entry
from statement_model import statement

PROGRAM = pathlib.Path(__file__).resolve().parent.parent / "crates" / "statement" / "out" / "statement"
LABELS = ["a", "two words", " blank first", "", "sixteen letters!", "blanks last   "]
NO_DATES = [0, 20091231, 20110229, 20990101, 2**32 - 1]


class Drawing:
    """One file drawn at random: mostly events that a zone may take, in order of their dates."""

    def __init__(self, source):
        self.source = source
        self.year, self.month, self.day = 2010, 1, 1

    def often(self, hundredths):
        return self.source.random() * 100 < hundredths

    def date(self):
        if self.often(30):
            months = self.month - 1 + self.source.choice([0, 0, 1, 1, 2, 5, 14])
            self.year, self.month = min(self.year + months // 12, 2099), months % 12 + 1
            self.day = self.source.randint(1, 31)
        if self.often(5):
            return self.source.choice(NO_DATES)
        return self.year * 10_000 + self.month * 100 + self.day

    def entry(self):
        source, date = self.source, self.date()
        operator, number = source.randint(0, 20), source.randint(0, 90)
        letter = source.choices("EAPSL", [25, 25, 22, 22, 6])[0]
        if letter in "EA":
            made = entry(letter, date, operator, source.choice([0, 1, 2, 3, 4, 9, 20, 21]), 0, source.choice(LABELS))
        elif letter == "L":
            made = entry(letter, date, 0, 0, 0, source.choice(LABELS))
        else:
            form = source.randint(0, 2) if letter == "S" else 0
            dwellings = source.choice([0, 1, 12, 300, 9_999, 10_000, 10_001])
            made = entry(letter, date, number, dwellings, form, source.choice(LABELS))
        if self.often(5):
            at = source.randrange(30)
            made = made[:at] + bytes([source.randrange(256)]) + made[at + 1 :]
        return BLANK if self.often(1) else made

    def file(self):
        count = self.source.randint(1, 6)
        blocks = [block([self.entry() for _ in range(17)], 1 if self.often(2) else 0) for _ in range(count)]
        data = b"".join(blocks)
        if self.often(2):
            data = data[: self.source.randrange(len(data))]
        if data and self.often(3):
            at = self.source.randrange(len(data))
            data = data[:at] + bytes([data[at] ^ 1 << self.source.randrange(8)]) + data[at + 1 :]
        return data


def main():
    source = random.Random(int(sys.argv[1]))
    differ = 0
    for number in range(int(sys.argv[2])):
        data = Drawing(source).file()
        printed = subprocess.run([PROGRAM], input=data, capture_output=True, check=True).stdout.decode("ascii")
        if printed != "\n".join(statement(data)) + "\n":
            differ += 1
            pathlib.Path(f"differs-{number}").write_bytes(data)
    print(f"{sys.argv[2]} files, {differ} differ")
    sys.exit(1 if differ else 0)


if __name__ == "__main__":
    main()
