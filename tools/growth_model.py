#!/usr/bin/env python3
"""Grows a zone to one raise and one share-out of it, as the program `growth` does, and prints the line that it prints:

    python3 tools/growth_model.py OBJECTS ORDER

ORDER is rising or mixed. It shares nothing with the program; what the zone does is in tools/zone_model.py.

Sixteen operators, numbered in no order, take a tranche each before the launch; then so many PMs, 1 to 1,024, are opened
on one day, numbered in that order; years later the last operator takes one tranche more, and its levy is shared out.
"""
import re
import sys

from zone_model import COVERED, Flat, Zone

# What the gate runs `growth` on
STORED = ["1024", "mixed"]

ORDERS = {"rising": lambda place: place, "mixed": lambda place: place * 2_654_435_769 % 2**32}


def line(objects, order):
    """What the raise and its share-out wrote, and the totals after them."""
    mixed, number = ORDERS["mixed"], ORDERS[order]
    zone = Zone(Flat((6_910_000, 18_770_000, 16_200_000), 15, [100] * 41))
    for place in range(1, 17):
        zone.commitment(20090302, mixed(place), 1)
    zone.launch(20090415)
    for place in range(1, objects + 1):
        zone.install(COVERED, 20100601, number(place), place * 7_919 % 10_000 + 1)
    billed = zone.raise_to(20180918, mixed(16), 2, strip=2_048)
    shared = zone.share_out(strip=16_384)
    return (
        f"BILLED {len(billed)} SHARED {len(shared)} TOTAL {zone.contributed} CREDITED {zone.credited}"
        f" UNSHARED {zone.unshared} LINES {zone.credit_lines}"
    )


def grown(words):
    """The line for the words that the program is given, or None where it cannot read them."""
    if len(words) != 2 or words[1] not in ORDERS:
        return None
    if not re.fullmatch("[0-9]+", words[0]) or not 1 <= int(words[0]) <= 1_024:
        return None
    return line(int(words[0]), words[1])


def main():
    text = grown(sys.argv[1:])
    if text is None:
        sys.exit(__doc__)
    print(text)


if __name__ == "__main__":
    main()
