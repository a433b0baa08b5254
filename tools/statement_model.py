#!/usr/bin/env python3
"""States the accounts of event files on the network's sheet, as the program `statement` does:

    python3 tools/statement_model.py < crates/statement/stdin

Given names of files, it prints each name above the statement of that file, as the program `statement_cases` does.

It is written from docs/RULES.md and docs/FORMAT.md and shares nothing with the programs.
"""
import sys

from events_model import entries_of
from zone_model import (
    CONNECTABLE,
    COVERED,
    NETWORK_RECORDS,
    THIRD_PARTY,
    Dated,
    Refused,
    Zone,
    euros,
    refuse_if,
)


def take(zone, entry):
    """The call of an entry's letter, with its levy shared out at once."""
    if entry.letter in "PS":
        refuse_if(zone.launched is None, 24)
        kind = COVERED if entry.letter == "P" else THIRD_PARTY if entry.form else CONNECTABLE
        zone.install(kind, entry.date, *entry.numbers)
    elif entry.letter == "L":
        refuse_if(zone.launched is not None, 24)
        zone.launch(entry.date)
    else:
        call = zone.commitment if entry.letter == "E" else zone.raise_to
        call(entry.date, *entry.numbers)
        if zone.levy:
            zone.share_out()


def statement(data):
    """The lines that `statement` prints."""
    zone = Zone(Dated(NETWORK_RECORDS, 15, [100] * 41), roll_places=16, register_places=64)
    lines = []
    for block, place, entry, fault in entries_of(data):
        label = ""
        if fault is None:
            try:
                if not entry.is_blank():
                    take(zone, entry)
                continue
            except Refused as refused:
                fault = refused.number
                label = entry.label.decode("ascii").rstrip(" ")
        lines.append(f"REFUSED {fault} BLOCK {block} ENTRY {place}" + (" " + label if label else ""))
    for one in zone.operators:
        lines.append(f"OP {one.number} TRANCHES {one.rate()} BALANCE {euros(one.balance)}")
    held = zone.contributed - zone.credited - zone.unshared
    lines.append(
        f"TOTAL {euros(zone.contributed)} CREDITED {euros(zone.credited)}"
        f" UNSHARED {euros(zone.unshared)} HELD {euros(held)}"
    )
    return lines


def main():
    if len(sys.argv) == 1:
        print("\n".join(statement(sys.stdin.buffer.read())))
    for name in sys.argv[1:]:
        with open(name, "rb") as file:
            print("\n".join([name] + statement(file.read())))


if __name__ == "__main__":
    main()
