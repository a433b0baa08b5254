#!/usr/bin/env python3
"""Makes the event files that the statement is tried on, each where its program finds it:

    python3 tools/make_statement_files.py

The small example is that of docs/RULES.md. The long one is a zone of twenty years, and then of its last year index, with
every refusal that a file can meet but 19, which leaves nothing else of a file. The others are damaged, each in its way,
or at a limit.
"""
import pathlib

from make_events import BLANK, block, entry

CRATES = pathlib.Path(__file__).resolve().parent.parent / "crates"


def blocks(entries):
    return b"".join(block(entries[first : first + 17]) for first in range(0, len(entries), 17))


def commits(date, operator, rate, label=""):
    return entry("E", date, operator, rate, 0, label)


def raises(date, operator, rate, label=""):
    return entry("A", date, operator, rate, 0, label)


def opens(date, number, dwellings, label=""):
    return entry("P", date, number, dwellings, 0, label)


def cables(date, number, dwellings, third_party=False, label=""):
    return entry("S", date, number, dwellings, 1 if third_party else 0, label)


def launches(date, label=""):
    return entry("L", date, 0, 0, 0, label)


SMALL = [
    commits(20170301, 1, 4, "a"),
    commits(20170301, 2, 2, "b"),
    launches(20170315, "c"),
    opens(20170401, 7, 300, "d"),
    commits(20180410, 3, 1, "e"),
    opens(20180409, 8, 100, "f"),
]


def prepared_years():
    """Before the launch: who begins, and what a zone in preparation refuses."""
    return [
        opens(20091201, 1, 100, "PM too early"),
        cables(20091201, 1, 100, label="site too early"),
        commits(20091401, 11, 3, "month 14"),
        commits(20091201, 11, 3, "first of all"),
        commits(20091201, 12, 1, "same day"),
        commits(20091130, 13, 1, "the day before"),
        raises(20091215, 13, 2, "nobody to raise"),
        raises(20091215, 11, 3, "no higher"),
        raises(20091215, 11, 5, "up to 25%"),
        commits(20091216, 12, 2, "twice the same"),
        commits(20091216, 0, 2, "nobody"),
        commits(20091216, 13, 0, "no tranche"),
        commits(20091216, 13, 21, "105%"),
        launches(20091131, "31 November"),
        launches(20100315, "the launch"),
        launches(20100315, "launched twice"),
    ]


def first_years():
    """The first objects, and the first who join after the launch."""
    return [
        opens(20100315, 101, 420, "PM on the day"),
        cables(20100401, 201, 36, label="own cable"),
        cables(20100401, 202, 48, True, "third party"),
        commits(20100401, 13, 2, "same day as both"),
        opens(20100402, 101, 420, "101 once more"),
        opens(20100402, 0, 420, "no object number"),
        opens(20100402, 102, 0, "no dwelling"),
        opens(20100402, 102, 10001, "too many"),
        opens(20100402, 102, 10000, "as many as may"),
        commits(20110228, 14, 4, "joins in year 2"),
        raises(20110228, 13, 6, "the same day"),
        commits(20110229, 15, 1, "29 Feb 2011"),
        commits(20120229, 15, 1, "29 Feb 2012"),
        raises(20120301, 11, 9, "            "),
        raises(20120301, 11, 9, "no higher  now"),
        raises(20120301, 11, 8, ""),
        entry("X", 20120302, 1, 1, 0, "what letter"),
        entry("P", 20120302, 103, 40, 1, "form of a site"),
        entry("L", 20120302, 0, 1, 0, "a field too many"),
        entry("E", 20120302, 16, 1, 0, "tab\there"),
    ]


def middle_years():
    """More objects than the register has places for, and more operators than the roll has."""
    entries = []
    for number in range(58):
        date = 20130110 + number % 12 * 100 + number // 12 * 10_000
        which = number % 3
        if which == 0:
            entries.append(opens(date, 300 + number, 15 + 7 * number, f"PM {300 + number}"))
        else:
            entries.append(cables(date, 300 + number, 8 + number, which == 2, f"site {300 + number}"))
        if number % 6 == 5:
            operator = 20 + number // 6
            entries.append(commits(date, operator, 1 + number % 4, f"op {operator} joins"))
        if number % 15 == 14:
            entries.append(raises(date, 12, 2 + number // 15, "op 12 again"))
    return entries


def last_years():
    """To the end of twenty years, with the prices of each new record."""
    return [
        opens(20190101, 900, 77, "63rd object"),
        opens(20190101, 901, 9, "64th object"),
        opens(20190101, 902, 9, "65th object"),
        commits(20190101, 29, 3, "15th operator"),
        commits(20190101, 30, 2, "16th operator"),
        commits(20190101, 31, 1, "17th operator"),
        raises(20190630, 15, 20, "up to 100%"),
        raises(20190630, 15, 20, "all it can have"),
        raises(20210930, 14, 7, "on old prices"),
        raises(20211001, 14, 8, "a new record"),
        raises(20300315, 12, 12, "twenty years on"),
        raises(20491231, 12, 13, "index 40"),
        raises(20500101, 12, 14, "index 41"),
        raises(20500101, 12, 4294967295, "index, then rate"),
        raises(20491231, 12, 20, "the last raise"),
    ]


def twenty_years():
    entries = prepared_years() + first_years() + middle_years() + last_years()
    after_blank = [
        BLANK,
        raises(20491231, 11, 10, "after a blank"),
        bytes(29) + b"\x20",
        BLANK,
    ]
    damaged = block([raises(20491231, 11, 20, "never read")], 1)
    unread = block([raises(20491231, 11, 19, "nor this")])
    return blocks(entries) + block(after_blank) + damaged + unread


def with_check(data, check):
    return data[:510] + check.to_bytes(2, "big") + data[512:]


def changed(data, at, byte):
    return data[:at] + bytes([byte]) + data[at + 1 :]


def weighs_alike(operators):
    """So many operators with a tranche each, one PM, and one more operator a year later."""
    begin = [commits(20170301, number, 1, f"op {number}") for number in range(1, operators + 1)]
    return begin + [
        launches(20170315, "launch"),
        opens(20170401, 7, 300, "PM"),
        commits(20180410, 99, 1, "who joins"),
    ]


def full_file():
    """128 blocks of 17 entries each: a lawful zone at the limits of its tables, then raises that are refused."""
    entries = [commits(20100101, number, 1, f"op {number}") for number in range(1, 17)] + [launches(20100102, "launch")]
    entries += [opens(20100103, number, 10_000, f"PM {number}") for number in range(1, 65)]
    for rate in range(2, 21):
        date = 20110101 + (rate - 2) * 10_000
        entries += [raises(date, number, rate, f"{number} to {rate}") for number in range(1, 17)]
    while len(entries) < 128 * 17:
        entries.append(raises(20491231, 1 + len(entries) % 16, 20, f"entry {len(entries) + 1}"))
    return blocks(entries)


def cases():
    small = blocks(SMALL)
    blank_block = block([])
    early = [opens(20100101, 1, 1, "P too early"), cables(20100101, 1, 1, True, "S too early")]
    return {
        "empty": b"",
        "half_a_block": small[:256],
        "one_byte_short": small[:511],
        "one_byte_more": small + b"\0",
        "one_block_too_many": blank_block * 129,
        "one_byte_too_long": blank_block * 128 + b"\0",
        "blanks_alone": blank_block * 128,
        "check_too_high": block(SMALL, 1),
        "check_above_all": with_check(blank_block, 65_521),
        "check_bytes_turned": small[:510] + small[511:512] + small[510:511],
        "byte_of_a_date": changed(small, 4, small[4] ^ 1),
        "second_block": small + changed(block([launches(20190101, "never read")]), 509, 1) + small,
        "first_of_all": blocks([commits(0, 0, 0, "no date first"), commits(20170301, 0, 0, "then operator")]),
        "letters": blocks(
            [entry(chr(byte), 20170301, 1, 1, 0, f"byte {byte}") for byte in (1, 48, 64, 66, 101, 255)]
            + SMALL[:1]
            + [BLANK, entry("Z", 20170301, 1, 1, 0, "also after blank")]
        ),
        "blanks": blocks(
            [changed(BLANK, at, 1) for at in (1, 8, 13, 14, 29)]
            + SMALL[:2]
            + [BLANK, SMALL[2], entry("P", 20170401, 7, 300, 9, "a blank first"), BLANK]
        ),
        "forms_and_fields": blocks(
            [
                entry("E", 20170301, 1, 4, 1, "E of form 1"),
                entry("A", 20170301, 1, 4, 255, "A of form 255"),
                entry("P", 20170301, 1, 4, 1, "P of form 1"),
                entry("S", 20170301, 1, 4, 2, "S of form 2"),
                entry("L", 20170301, 0, 0, 1, "L of form 1"),
                entry("L", 20170301, 1, 0, 0, "L with a number"),
                entry("L", 20170301, 0, 16_777_216, 0, "L with another"),
                entry("E", 20170301, 1, 4, 0, "\x1f and a label"),
                entry("E", 20170301, 1, 4, 0, "a label and a \x7f"),
                entry("E", 20170301, 1, 4, 0, "a \xe9 in a label"),
                entry("E", 20170301, 1, 4, 0, "~ in a label"),
            ]
        ),
        "out_of_turn": blocks(
            early
            + [opens(0, 0, 0, "24 before 2"), entry("P", 0, 0, 0, 1, "23 before 24")]
            + [launches(20170315, "launch"), launches(20170315, "again"), launches(0, "again, no date")]
        ),
        "seven_alike": blocks(weighs_alike(7)),
        "three_alike": blocks(weighs_alike(3)),
        "nobody_before": blocks(weighs_alike(0)),
        "full": full_file(),
        "twenty_years": twenty_years(),
    }


def files():
    """Each file that is made here, by its path under crates/."""
    made = {"statement/stdin": blocks(SMALL)}
    made |= {"statement_cases/data/" + name: content for name, content in cases().items()}
    made["statement_cases/args"] = "".join(name + "\n" for name in cases()).encode("ascii")
    return made


if __name__ == "__main__":
    for path, content in files().items():
        (CRATES / path).parent.mkdir(exist_ok=True)
        (CRATES / path).write_bytes(content)
