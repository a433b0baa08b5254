#!/usr/bin/env python3
"""Makes the example file of the program `events`:

    python3 tools/make_events.py > crates/events/stdin

It works from the description of the format in docs/FORMAT.md and shares no code with the reader.
"""
import sys

BLANK = bytes(30)


def entry(letter, date, number, amount, form, label):
    """Thirty bytes: letter, three numbers high byte first, form, and the label filled up with spaces."""
    numbers = b"".join(n.to_bytes(4, "big") for n in (date, number, amount))
    return letter.encode("latin-1") + numbers + bytes([form]) + label.ljust(16).encode("latin-1")


def block(entries, check_off_by=0):
    """512 bytes: the entries, blanks up to seventeen, and the check, off by a number if it is to be wrong."""
    data = b"".join(entries + [BLANK] * (17 - len(entries)))
    assert len(data) == 510, "an entry has not 30 bytes"
    check = (int.from_bytes(data, "big") + check_off_by) % 65521
    return data + check.to_bytes(2, "big")


def example():
    """The file: every letter, every refusal of an entry and of a block, and a block that is never read."""
    all_letters_and_faults = [
        entry("E", 20170301, 1, 4, 0, "first operator"),
        entry("E", 20170301, 2, 2, 0, "second"),
        entry("L", 20170315, 0, 0, 0, "launch"),
        entry("P", 20170401, 7, 300, 0, "PM north"),
        entry("S", 20170402, 8, 12, 0, "site, own cable"),
        entry("S", 20170403, 9, 24, 1, "site, 3rd party"),
        entry("A", 20180410, 2, 3, 0, "second goes up"),
        entry("P", 4294967295, 0, 16909060, 0, " ~ sixteen long~"),
        entry("X", 20180411, 1, 1, 0, "no such letter"),
        entry("0", 0, 0, 0, 0, "digit, not zero"),
        entry("P", 20180411, 10, 5, 1, "form of a site"),
        entry("S", 20180411, 10, 5, 2, "form too high"),
        entry("L", 20180411, 0, 1, 0, "field filled"),
        entry("E", 20180411, 3, 1, 0, "not \x7f printable"),
        bytes(29) + b"\x01",
        BLANK,
        entry("E", 20180412, 3, 1, 0, "after a blank"),
    ]
    after_blank = [
        BLANK,
        entry("x", 20180413, 1, 1, 0, "letter first"),
        entry("A", 20180413, 1, 5, 9, "then blank rule"),
    ]
    return (
        block(all_letters_and_faults)
        + block(after_blank)
        + block([entry("A", 20180414, 1, 5, 0, "fresh block")])
        + block([entry("A", 20180415, 1, 6, 0, "never read")], 1)
        + block([entry("A", 20180416, 1, 7, 0, "nor this")])
    )


if __name__ == "__main__":
    sys.stdout.buffer.write(example())
