#!/usr/bin/env python3
"""Plays a script of small lives of a zone, as the program `life_cases` does:

    python3 tools/life_model.py < crates/life_cases/stdin > crates/life_cases/stdout

It is written from docs/RULES.md and shares nothing with the programs. A line of a script says one thing:

    life TITLE..                       an empty zone with blank tables, all of which calls are lent, and the first sheet
    sheet flat|indexed|dated           the sheet of the calls below
    prices COVERED CONNECTABLE THIRD   in micro-euros; 6910000 18770000 16200000 at first
    contribution N                     in hundredths; 15 at first
    weights N..                        by year index from 0 on, the last one to index 40; 100 at first
    wages DATE N, consumer DATE N      one more index number
    record DATE COVERED CONNECTABLE THIRD   one more price record
    lend ROLL REGISTER STRIP           the places that calls are lent, of 17, 70 and 1200
    share N                            the places that a share-out is lent first, of 16384
    balance OPERATOR MICROS            a balance written straight into the table
    E DATE OPERATOR RATE               a commitment
    A DATE OPERATOR RATE               a raise
    L DATE                             the launch
    P DATE OBJECT DWELLINGS            an opening
    S DATE OBJECT DWELLINGS            a cabling
    T DATE OBJECT DWELLINGS            a cabling by a third party

A line of more than 4,096 bytes cannot be read, whatever it begins with.

A commitment or raise that bills is shared out at once; where the places lent first are too few, on 16,384.
"""
import re
import sys

from zone_model import CONNECTABLE, COVERED, THIRD_PARTY, Dated, Flat, Indexed, Refused, Zone

INSTALLED = {"P": COVERED, "S": CONNECTABLE, "T": THIRD_PARTY}
WIDEST = 16_384
LONGEST = 4_096


class Unreadable(Exception):
    pass


class NotTaken(Exception):
    pass


def number(word, bits=32):
    if not re.fullmatch("[0-9]+", word) or int(word) >= 2**bits:
        raise Unreadable
    return int(word)


def numbers(words, count):
    if len(words) != count:
        raise Unreadable
    return [number(word) for word in words]


class Unmade:
    """The sheet of a zone that no call has asked for yet."""


class Life:
    """A zone, and what its calls are lent."""

    def __init__(self):
        self.zone = Zone(Unmade(), roll_places=17, register_places=70)
        self.kind = "flat"
        self.prices = (6_910_000, 18_770_000, 16_200_000)
        self.contribution = 15
        self.weights = [100] * 41
        self.wages, self.consumer, self.records = [], [], []
        self.strip = 1_200
        self.share = WIDEST

    def sheet(self):
        if self.kind == "flat":
            return Flat(self.prices, self.contribution, self.weights)
        if self.kind == "indexed":
            return Indexed(self.prices, self.contribution, self.weights, self.wages, self.consumer)
        return Dated(self.records, self.contribution, self.weights)

    # Each answers the lines that it prints

    def take(self, words, text):
        if words[0] in ("E", "A", "P", "S", "T"):
            given = numbers(words[1:], 3)
            return self.call(text, lambda: self.charged(words[0], *given))
        if words[0] == "L":
            given = numbers(words[1:], 1)
            return self.call(text, lambda: self.launch(*given))
        self.set(words[0], words[1:])
        return []

    def call(self, text, play):
        try:
            return ["> " + text] + play()
        except NotTaken:
            return ["> " + text, "NOT TAKEN"]
        except Refused as refused:
            return ["> " + text, f"REFUSED {refused.number}"]

    def launch(self, date):
        if self.zone.launched is not None:
            raise NotTaken
        return shown(self.zone.launch(date))

    def charged(self, letter, date, which, amount):
        zone = self.zone
        if zone.launched is None:
            if letter in INSTALLED:
                raise NotTaken
        else:
            zone.sheet = self.sheet()
        if letter in INSTALLED:
            return shown(zone.install(INSTALLED[letter], date, which, amount, self.strip))
        call = zone.commitment if letter == "E" else zone.raise_to
        lines = shown(call(date, which, amount, self.strip))
        if zone.levy is None:
            return lines
        try:
            return lines + shown(zone.share_out(min(self.share, WIDEST)))
        except Refused as refused:
            assert refused.number == 16
            return lines + ["REFUSED 16"] + shown(zone.share_out(WIDEST))

    def set(self, what, words):
        if what == "sheet" and words in (["flat"], ["indexed"], ["dated"]):
            self.kind = words[0]
        elif what == "prices":
            self.prices = tuple(numbers(words, 3))
        elif what == "contribution":
            (self.contribution,) = numbers(words, 1)
        elif what == "weights" and 1 <= len(words) <= 41:
            given = numbers(words, len(words))
            self.weights = given + given[-1:] * (41 - len(given))
        elif what in ("wages", "consumer"):
            getattr(self, what).append(tuple(numbers(words, 2)))
        elif what == "record":
            date, *prices = numbers(words, 4)
            self.records.append((date, tuple(prices)))
        else:
            self.lend(what, words)

    def lend(self, what, words):
        if what == "lend":
            roll, register, strip = numbers(words, 3)
            self.zone.roll_places = min(roll, 17)
            self.zone.register_places = min(register, 70)
            self.strip = min(strip, 1_200)
        elif what == "share":
            (self.share,) = numbers(words, 1)
        elif what == "balance" and len(words) == 2:
            operator, micros = number(words[0]), number(words[1], 64)
            for one in self.zone.operators:
                if one.number == operator:
                    one.balance = micros
        else:
            raise Unreadable

    def end(self):
        zone = self.zone
        lines = [f"OP {one.number} TRANCHES {one.rate()} BALANCE {one.balance}" for one in zone.operators]
        lines += [f"OBJECT {one.number} INSTALLED {one.installed} DWELLINGS {one.dwellings}" for one in zone.objects]
        last, launched = (day or "none" for day in (zone.last, zone.launched))
        lines.append(
            f"TOTAL {zone.contributed} CREDITED {zone.credited} UNSHARED {zone.unshared}"
            f" LINES {zone.credit_lines} LAST {last} LAUNCHED {launched}"
        )
        return lines


def shown(lines):
    return [
        f"LINE {line.nature} {line.operator} {line.object} {line.unit} {line.quantity} {line.total}" for line in lines
    ]


def played(script):
    """The lines that a script prints."""
    life = None
    for text in script:
        if len(text.encode()) > LONGEST:
            yield "UNREADABLE"
            continue
        words = text.split()
        if not words or words[0].startswith("#"):
            continue
        if words[0] == "life":
            if life:
                yield from life.end()
            life = Life()
            yield text
            continue
        try:
            if life is None:
                raise Unreadable
            yield from life.take(words, text)
        except Unreadable:
            yield "UNREADABLE"
    if life:
        yield from life.end()


def main():
    print("\n".join(played(sys.stdin.read().splitlines())))


if __name__ == "__main__":
    main()
