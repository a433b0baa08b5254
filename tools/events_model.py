#!/usr/bin/env python3
"""Reads event files, and lists them as the program `events` does:

    python3 tools/events_model.py < crates/events/stdin > crates/events/stdout

It is written from docs/FORMAT.md and the sentences of docs/RULES.md, and shares nothing with the programs. It works the
check out as one number of 510 bytes, where the programs go byte by byte.
"""
import sys

BLOCK, ENTRY, ENTRIES = 512, 30, 17
MOST_BLOCKS = 128
MODULUS = 65_521

SENTENCES = {
    19: "the file is no whole number of blocks, or too long",
    20: "the block does not match its check",
    21: "the entry's letter is unknown",
    22: "a blank is not all zero, or an entry follows a blank",
    23: "the form, a field that must be zero, or the label is wrong",
}

# What the second and the third number of an event are called.
NUMBERS = {
    "E": ("operator", "rate"),
    "A": ("operator", "rate"),
    "P": ("object", "dwellings"),
    "S": ("object", "dwellings"),
    "L": (),
}


class Entry:
    """The thirty bytes of an entry, taken apart."""

    def __init__(self, raw):
        self.raw = raw
        self.letter = chr(raw[0])
        self.date, *self.numbers = (int.from_bytes(raw[at : at + 4], "big") for at in (1, 5, 9))
        self.form = raw[13]
        self.label = raw[14:]

    def is_blank(self):
        return self.raw == bytes(ENTRY)

    def fault(self, after_blank):
        """The number by which it is refused, or None."""
        if self.letter == "\0":
            return None if self.is_blank() else 22
        if self.letter not in NUMBERS:
            return 21
        if after_blank:
            return 22
        filled_in_vain = self.letter == "L" and any(self.numbers)
        unprinted = any(not 32 <= byte <= 126 for byte in self.label)
        if self.form > (self.letter == "S") or filled_in_vain or unprinted:
            return 23
        return None


def entries_of(data):
    """Block, place, entry and fault of each entry. A file or block that is refused has no entry, and is the last."""
    if len(data) % BLOCK or len(data) > MOST_BLOCKS * BLOCK:
        yield 0, 0, None, 19
        return
    for number in range(len(data) // BLOCK):
        block = data[number * BLOCK : (number + 1) * BLOCK]
        checked, check = block[: ENTRY * ENTRIES], block[ENTRY * ENTRIES :]
        if int.from_bytes(checked, "big") % MODULUS != int.from_bytes(check, "big"):
            yield number + 1, 0, None, 20
            return
        after_blank = False
        for place in range(ENTRIES):
            entry = Entry(checked[place * ENTRY : (place + 1) * ENTRY])
            yield number + 1, place + 1, entry, entry.fault(after_blank)
            after_blank = after_blank or entry.is_blank()


def told(entry):
    """What an entry that is not refused tells, in words."""
    if entry.is_blank():
        return "blank"
    words = [entry.letter, "date", entry.date]
    for name, number in zip(NUMBERS[entry.letter], entry.numbers):
        words += [name, number]
    words += ["form", entry.form, "label", '"' + entry.label.decode("ascii") + '"']
    return " ".join(map(str, words))


def listing(data):
    """The lines that `events` prints."""
    for block, place, entry, fault in entries_of(data):
        where = f"block {block} entry {place}" if place else f"block {block}" if block else "file"
        yield f"{where}: " + (f"refused {fault}, {SENTENCES[fault]}" if fault else told(entry))


if __name__ == "__main__":
    print("".join(line + "\n" for line in listing(sys.stdin.buffer.read())), end="")
