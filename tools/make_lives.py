#!/usr/bin/env python3
"""Makes the script of small lives that the program `life_cases` plays:

    python3 tools/make_lives.py > crates/life_cases/stdin
    python3 tools/life_model.py < crates/life_cases/stdin > crates/life_cases/stdout

The lives written by hand aim at the sums of docs/RULES.md, at every refusal of each kind of call, and at the order of
the conditions. Those after them are drawn at random, from a fixed seed, or from the seed and as many as are named:

    python3 tools/make_lives.py SEED DRAWN

The last one, by hand too, has lines of the longest length, and longer ones. tools/life_model.py describes the lines.
"""
import random
import sys

SEED = 20170315
DRAWN = 60
LONGEST = 4_096  # bytes of a line


def calls(text):
    """The lines of a script, given one after the other."""
    return text.split(", ")


# Two operators, a launch and a PM: the beginning of many lives.
BEGUN = calls("E 20170301 1 4, E 20170301 2 2, L 20170315, P 20170401 7 300")

UNREADABLE = [
    "E 20170301 1",
    "E 20170301 1 4 5",
    "E 2017-03-01 1 4",
    "E 20170301 one 4",
    "E 4294967296 1 4",
    "E 20170301 4294967296 4",
    "E 20170301 1 -4",
    "e 20170301 1 4",
    "Q 20170301 1 4",
    "L",
    "L 20170315 1",
    "P 20170401 7",
    "sheet",
    "sheet red",
    "sheet flat dated",
    "prices 1 2",
    "prices 1 2 3 4",
    "contribution",
    "contribution 1.5",
    "weights",
    "weights 1 x",
    "weights" + " 1" * 42,
    "wages 20170101",
    "consumer 20170101 1 1",
    "record 20170101 1 2",
    "lend 1 2",
    "share",
    "balance 1",
    "balance 1 18446744073709551616",
    "?",
]


def sums():
    """The sums that docs/RULES.md works out, and others like them."""
    seven = [f"E 20170301 {number} 1" for number in range(1, 8)] + calls("L 20170315, P 20170401 7 300")
    yield "a small life", BEGUN + calls("E 20180410 3 1, P 20180409 8 100")
    yield "seven equal weights, five-down", seven + ["E 20180410 8 1"]
    yield "seven equal weights, five-up", calls("sheet dated, record 20080101 6910000 18770000 16200000") + seven + [
        "E 20180410 8 1"
    ]
    yield "a raise from 2 to 5 at once", BEGUN + ["A 20181201 2 5"]
    yield "a raise from 2 to 5 in parts", BEGUN + [f"A 20181201 2 {rate}" for rate in (3, 4, 5)]
    falling = calls("weights 100 91 82 74 67, E 20120301 1 3, E 20120301 2 1, L 20120331, P 20120401 7 100")
    yield "quotas of falling weights", falling + calls("A 20130501 2 3, E 20150601 3 1")
    yield "quotas of falling weights, a site after them", falling + calls(
        "A 20130501 2 3, S 20140101 8 12, E 20150601 3 1, E 20160601 4 2, A 20200101 1 20"
    )
    yield "nobody before", calls("L 20170315, P 20170401 7 300, E 20180410 3 1, E 20180411 4 1")
    yield "weights of 0 alone", ["weights 0"] + BEGUN + calls("E 20180410 3 1, A 20180411 3 2")
    yield "an operator of weight 0 among others", ["weights 100 0 100"] + BEGUN + calls(
        "E 20170501 3 5, E 20180410 4 1, A 20180410 3 6, E 20180410 5 1"
    )
    yield "weights of 0 at first, of 200 later", ["weights 0 200"] + BEGUN + calls(
        "E 20170501 3 5, E 20180410 4 1, E 20190410 5 1"
    )
    yield "a weight for the last year alone", ["weights" + " 0" * 40 + " 200"] + calls(
        "E 20080101 1 1, L 20080101, P 20080102 1 9, E 20470101 2 1, E 20470102 3 1"
    )
    yield "no contribution", calls("contribution 0, share 0") + BEGUN + calls("E 20180410 3 1, A 20180411 2 20")
    yield "the whole price as contribution", ["contribution 100"] + BEGUN + ["E 20180410 3 1"]
    small = calls("prices 1 1 1, contribution 100, E 20170301 1 1, E 20170301 2 1, E 20170301 3 1, L 20170315")
    yield "1 and 2 micro-euros among three, five-down", small + calls(
        "P 20170401 1 1, P 20170401 2 2, E 20170402 4 1"
    )
    yield "1 and 2 micro-euros among three, five-up", calls("sheet dated, record 20080101 1 1 1") + small[1:] + calls(
        "P 20170401 1 1, P 20170401 2 2, E 20170402 4 1"
    )
    pair = calls("E 20170301 1 1, E 20170301 2 1, L 20170315, P 20170401 1 1, P 20170401 2 3, E 20170402 3 1")
    yield "halves, five-down", calls("prices 1 1 1, contribution 100") + pair
    yield "halves, five-up", calls("contribution 100, sheet dated, record 20170401 1 1 1") + pair
    yield "a contribution that rounds to 0", ["prices 3 3 3"] + BEGUN + calls("E 20180410 3 1, E 20180411 4 2")
    yield "installed on the day of the event", BEGUN + calls(
        "S 20180410 8 20, E 20180410 3 1, T 20180410 9 30, A 20180410 3 2, A 20180411 3 3"
    )
    yield "all three kinds", BEGUN + calls("S 20170501 8 20, T 20170601 9 30, E 20190101 3 4, A 20190101 1 20")
    yield "from the first day of all to the last", calls(
        "E 20080101 4294967295 20, L 20600229, P 20600229 4294967295 10000, A 20991231 4294967295 20, "
        "E 20991231 1 20, E 21000101 2 1"
    )
    yield "every year of the common row", calls("E 20170301 1 1, L 20170315, P 20170401 7 1") + [
        f"E {20170000 + 10000 * years + 400 + years + 1} {years + 2} 1" for years in range(0, 22, 2)
    ]


def indexed_sums():
    given = calls("sheet indexed, prices 16910000 18770000 16200000")
    numbers = calls("wages 20180101 1000, wages 20190101 1040, consumer 20180101 1000, consumer 20190101 1020")
    life = calls("E 20180102 1 4, L 20180103, P 20180310 7 10, E 20190910 2 1")
    yield "indexed: consumer prices are the smaller ratio", given + numbers + life
    yield "indexed: wages are the smaller ratio", given + calls(
        "wages 20180101 1000, wages 20190101 1010, consumer 20180101 1000, consumer 20190101 1020"
    ) + life
    yield "indexed: the ratios are equal", given + calls(
        "wages 20180101 1000, wages 20190101 1040, consumer 20180101 1000, consumer 20190101 1030"
    ) + life
    yield "indexed: numbers that fall", given + calls(
        "wages 20180101 50000, wages 20190101 1, consumer 20180101 1000, consumer 20190101 999"
    ) + life
    yield "indexed: a number of the very day does not count", given + numbers + calls(
        "E 20171201 1 4, L 20171201, P 20180101 6 10, E 20180102 2 1, P 20180102 7 10, E 20190101 2 1, "
        "E 20190102 3 1"
    )
    yield "indexed: a number counts from the day after", given + numbers + calls(
        "E 20171201 1 4, L 20171201, P 20180102 7 10, E 20190101 2 1, E 20190102 3 1"
    )
    yield "indexed: no number before", given + ["wages 20180101 1000"] + life + calls(
        "consumer 20180310 1, A 20200101 1 5, sheet flat, A 20200101 1 5"
    )
    yield "indexed: 4 is a coefficient, and more is none", given + calls(
        "wages 20200101 1000, wages 20200103 5000, consumer 20200101 1000, consumer 20200103 5000, "
        "E 20200101 1 1, L 20200101, P 20200102 7 10, E 20200110 2 1, E 20200210 3 1, A 20200210 2 2"
    )
    yield "dated: the record of the day counts", calls(
        "sheet dated, record 20170401 6910000 18770000 16200000, record 20180401 7000001 19000003 17000005, "
        "E 20170301 1 4, L 20170315, P 20170331 6 10, P 20170401 7 10, S 20180331 8 10, T 20180401 9 10, "
        "E 20181224 2 3"
    )


def refusals_of_prepared():
    full = [f"E 20170301 {number} 1" for number in range(1, 17)]
    yield "a commitment before the launch", calls(
        "E 20170301 1 4, E 20170229 2 4, E 0 2 4, E 4294967295 2 4, E 20071231 2 4, E 21000101 2 4, "
        "E 20170228 2 4, E 20170301 0 4, E 20170301 2 0, E 20170301 2 21, E 20170301 1 5, lend 1 70 1200, "
        "E 20170301 2 4, lend 0 70 1200, E 20170301 2 4, lend 17 0 0, E 20170301 2 20"
    )
    yield "a raise before the launch", calls(
        "A 20170301 1 4, E 20170301 1 4, A 20171301 1 5, A 20170228 1 5, A 20170301 0 5, A 20170301 1 0, "
        "A 20170301 1 21, A 20170301 2 5, A 20170301 1 4, A 20170301 1 3, lend 0 70 1200, A 20170301 1 5, "
        "lend 1 0 0, A 20170301 1 5, A 20170302 1 20"
    )
    yield "a launch", calls(
        "E 20170301 1 4, L 20170300, L 20170228, lend 0 70 1200, L 20170301, lend 1 0 0, L 20170301, "
        "L 20170302"
    )
    yield "a launch of nobody", calls("L 20120229, A 20120229 1 4, E 20120229 1 4")
    yield "not taken", calls(
        "P 20170301 1 1, S 20170301 1 1, T 20170301 1 1, E 20170301 1 4, P 0 0 0, L 20170315, L 20170315, L 0, "
        "sheet dated, contribution 101, L 20170316"
    )
    yield "sixteen operators and one more before the launch", full + calls(
        "E 20170301 17 1, A 20170301 16 2, L 20170301"
    )
    yield "balances beside the limit before the launch", calls(
        "E 20170301 1 4, balance 1 4000000000000000000, E 20170302 2 4, balance 1 4000000000000000001, "
        "E 20170303 3 4, A 20170303 1 5, L 20170303, balance 1 0, L 20170303"
    )
    yield "order before the launch", calls(
        "E 20170301 1 4, lend 0 70 1200, E 0 0 0, A 0 0 0, L 0, lend 1 70 1200, E 0 0 0, E 20170228 0 0, "
        "E 20170301 0 0, E 20170301 1 0, E 20170301 1 4, E 20170301 2 0, A 0 0 0, A 20170228 0 0, "
        "A 20170301 0 0, A 20170301 2 21, A 20170301 1 21, A 20170301 2 4"
    )
    yield "a sheet that cannot be made matters after the launch alone", calls(
        "prices 0 1 1, E 20170301 1 4, A 20170302 1 5, P 20170302 1 1, L 20170302, E 20170303 2 4, "
        "A 20170303 1 6, P 20170303 1 1, S 20170303 1 1, T 20170303 1 1, L 20170304, E 0 0 0, prices 1 1 1, "
        "E 20170303 2 4"
    )


def refusals_of_launched():
    for letter in "PST":
        yield f"an installation by {letter}", BEGUN + calls(
            f"{letter} 20170431 8 300, {letter} 20170331 8 300, {letter} 20580101 8 300, {letter} 20570101 0 300, "
            f"{letter} 20170401 7 300, {letter} 20170401 8 0, {letter} 20170401 8 10001, "
            f"lend 17 1 1200, {letter} 20170401 8 300, lend 17 0 1200, {letter} 20170401 8 300, "
            f"lend 1 70 1200, {letter} 20170401 8 300, lend 2 70 1, {letter} 20170401 8 300, "
            f"lend 2 2 2, {letter} 20170401 8 300"
        )
        yield f"an installation by {letter} without a sheet or a price", BEGUN + calls(
            f"sheet dated, {letter} 20170401 8 300, record 20170402 1 2 3, {letter} 20170401 8 300, "
            f"{letter} 20170402 8 300, record 20170402 1 2 3, {letter} 20170402 9 300, "
            f"sheet flat, {letter} 20170402 9 300, balance 2 4000000000000000001, {letter} 20170402 10 300, "
            f"balance 2 4000000000000000000, {letter} 20170402 10 10000"
        )
        yield f"order of an installation by {letter}", BEGUN + calls(
            f"sheet dated, lend 2 1 0, {letter} 0 0 0, {letter} 20170331 0 0, {letter} 20580101 0 0, "
            f"{letter} 20170402 0 0, {letter} 20170402 7 0, {letter} 20170402 8 0, {letter} 20170402 8 1, "
            f"lend 2 2 0, {letter} 20170402 8 1, record 20170101 1 2 3, {letter} 20170402 8 1, "
            f"lend 1 2 0, {letter} 0 0 0"
        )
    yield "a commitment after the launch", BEGUN + calls(
        "E 20180229 3 1, E 20170331 3 1, E 20580101 3 1, E 20180410 0 1, E 20180410 3 0, E 20180410 3 21, "
        "E 20180410 1 5, lend 2 70 1200, E 20180410 3 1, lend 1 70 1200, E 20180410 3 1, lend 3 0 1200, "
        "E 20180410 3 1, lend 3 1 1, E 20180410 3 1, lend 3 1 2, E 20180410 3 1"
    )
    yield "a raise after the launch", BEGUN + calls(
        "A 20180229 1 5, A 20170331 1 5, A 20580101 1 5, A 20180410 0 5, A 20180410 1 0, A 20180410 1 21, "
        "A 20180410 3 5, A 20180410 1 4, A 20180410 1 3, lend 1 70 1200, A 20180410 1 5, lend 2 0 1200, "
        "A 20180410 1 5, lend 2 1 1, A 20180410 1 5, lend 2 1 2, A 20180410 1 5"
    )
    for letter, who in (("E", "3 1"), ("A", "1 5")):
        yield f"bills by {letter} without a sheet, a price or a coefficient", BEGUN + calls(
            f"contribution 101, {letter} 20180410 {who}, contribution 15, sheet dated, {letter} 20180410 {who}, "
            f"record 20170402 1 2 3, {letter} 20180410 {who}, sheet indexed, {letter} 20180410 {who}, "
            f"{letter} 20170401 {who}, sheet flat, balance 1 4000000000000000001, {letter} 20180410 9 9, "
            f"balance 1 18446744073709551615, {letter} 20180410 9 9, balance 1 4000000000000000000, "
            f"{letter} 20180410 2 9, E 20180411 5 1, A 20180412 2 8"
        )
    yield "order of a commitment after the launch", BEGUN + calls(
        "sheet dated, lend 1 70 0, E 0 0 0, lend 2 70 0, E 0 0 0, E 20170331 0 0, E 20580101 0 0, "
        "E 20180410 0 0, E 20180410 1 0, E 20180410 1 4, E 20180410 3 1, lend 3 70 0, E 20180410 3 1, "
        "sheet indexed, E 20180410 3 1, sheet flat, E 20180410 3 1"
    )
    yield "order of a raise after the launch", BEGUN + calls(
        "sheet dated, lend 1 70 0, A 0 0 0, lend 2 70 0, A 0 0 0, A 20170331 0 0, A 20580101 0 0, "
        "A 20180410 0 0, A 20180410 1 0, A 20180410 3 5, A 20180410 1 4, A 20180410 1 5, sheet indexed, "
        "A 20180410 1 5, sheet flat, A 20180410 1 5, A 20580101 3 21"
    )
    yield "no price for the second object alone", BEGUN + calls(
        "P 20170501 8 10, sheet dated, record 20170401 1 2 3, record 20170402 1 2 3, E 20170601 3 1, "
        "P 20170601 9 10"
    )
    yield "no price for the first object alone", BEGUN + calls(
        "P 20170501 8 10, sheet dated, record 20170402 1 2 3, E 20170601 3 1, P 20170601 9 10"
    )
    yield "no coefficient for the first object alone", BEGUN + calls(
        "P 20170501 8 10, sheet indexed, wages 20170402 1, consumer 20170402 1, E 20170601 3 1, "
        "A 20170601 1 5"
    )
    yield "the last year index", calls(
        "E 20080101 1 1, L 20080101, P 20471231 1 10, P 20480101 2 10, E 20471231 2 1, E 20480101 3 1, "
        "S 20480101 2 10, T 20480101 2 10, A 20480101 1 2, A 20471231 1 2"
    )
    yield "launched on the last day of a year", calls(
        "E 20151231 1 1, L 20151231, P 20151231 1 10, E 20151231 2 1, E 20160101 3 1, E 20551231 4 1, "
        "E 20560101 5 1"
    )


def limits():
    many = [f"E 20170301 {number} {number}" for number in range(1, 17)]
    yield "sixteen operators", many + calls(
        "L 20170315, P 20170401 7 300, S 20170402 8 20, E 20180410 17 1, A 20180410 16 17, A 20180410 1 20, "
        "lend 16 70 1200, A 20180411 2 20, E 20180412 18 1"
    )
    yield "a roll of three places", ["lend 3 70 1200"] + BEGUN + calls(
        "E 20170402 3 1, E 20170402 4 1, E 20170402 3 1, sheet dated, E 20170402 4 1"
    )
    yield "twelve calls in one day", calls("E 20170301 1 4, L 20170301") + [
        f"{letter} 20170301 {number} {amount}" for letter, number, amount in (
            ("P", 1, 100), ("E", 2, 3), ("A", 1, 5), ("S", 2, 10), ("E", 3, 1), ("T", 3, 10), ("A", 2, 4), ("A", 3, 2),
            ("P", 4, 50), ("E", 4, 20))]
    yield "a share-out on a short strip", BEGUN + calls(
        "share 1, E 20180410 3 1, share 2, A 20180410 2 3, share 3, A 20180411 1 5, share 0, A 20180412 3 2, "
        "lend 17 70 2, S 20180413 8 1"
    )
    yield "a share-out of no lines", calls(
        "share 0, E 20170301 1 1, L 20170301, E 20170302 2 1, weights 0, P 20170302 1 1, E 20170303 3 1, "
        "weights 1, E 20170304 4 1"
    )
    yield "a balance that passes the limit", BEGUN + calls(
        "balance 1 4000000000000000000, E 20180410 3 1, P 20180411 8 10, balance 1 5, P 20180411 8 10, "
        "balance 9 77, A 20180411 3 2"
    )
    for title, given in (
        ("prices at their limits", ["prices 1 500000000 1"]),
        ("a price of 0", ["prices 1 0 1"]),
        ("a third price of 0", ["prices 1 1 0"]),
        ("a price too high", ["prices 500000001 1 1"]),
        ("a weight too high", ["weights 100 100 201"]),
        ("a last weight too high", ["weights" + " 100" * 40 + " 201"]),
        ("a weight at its limit", ["weights 200"]),
        ("a contribution too high", ["contribution 4294967295"]),
        ("wages on no day", calls("sheet indexed, wages 20170101 1, consumer 20170101 1, wages 20170229 1")),
        ("wages that do not rise in time", calls(
            "sheet indexed, wages 20170101 1, consumer 20170101 1, wages 20170101 2"
        )),
        ("wages of 0", calls("sheet indexed, wages 20170101 0, consumer 20170101 1")),
        ("wages too high", calls("sheet indexed, wages 20170101 50001, consumer 20170101 1")),
        ("wages at their limit", calls("sheet indexed, wages 20170101 50000, consumer 20170101 1")),
        ("consumer prices before the first day", calls("sheet indexed, wages 20170101 1, consumer 20071231 1")),
        ("consumer prices of 0", calls("sheet indexed, wages 20170101 1, consumer 20170101 0")),
        ("rows of another sheet", calls("wages 20170101 0, record 0 0 0 0")),
        ("prices of another sheet", calls("prices 0 0 0, sheet dated, record 20170101 1 1 1")),
        ("a record out of turn", calls("sheet dated, record 20170102 1 1 1, record 20170101 1 1 1")),
        ("a record without a price", calls("sheet dated, record 20170101 1 1 0")),
        ("a weight too high on the dated sheet", calls("sheet dated, record 20170101 1 1 1, weights 201")),
        ("a contribution too high on the indexed sheet", calls(
            "sheet indexed, wages 20170101 1, consumer 20170101 1, contribution 101"
        )),
    ):
        yield title, given + BEGUN + calls("E 20180410 3 1, A 20180410 1 5")
    yield "the most of everything", calls(
        "prices 500000000 500000000 500000000, contribution 100, E 20170301 1 20, E 20170301 2 19, L 20170301, "
        "P 20170301 1 10000, S 20170302 2 10000, T 20170303 3 10000, E 20220303 3 20, A 20220303 2 20"
    )
    yield "lines that cannot be read", BEGUN + UNREADABLE + ["A 20180410 1 5"]


class Drawing:
    """One life drawn at random: mostly calls that go through."""

    def __init__(self, source):
        self.source = source
        self.day = source.randint(0, 3_000)
        self.launched = False
        self.rates = {}
        self.objects = 0

    def pick(self, *choices):
        return self.source.choice(choices)

    def chance(self, hundredths):
        return self.source.randrange(100) < hundredths

    def date(self):
        if self.chance(3):
            return self.pick(0, 20170229, 20080000, 20991231, 21000101)
        if self.chance(5):
            return self.number_of(max(0, self.day - 40))
        self.day += self.pick(0, 0, 1, 7, 31, 100, 400)
        return self.number_of(self.day)

    @staticmethod
    def number_of(day):
        """The date of a day, where each month has 28 and the first year is 2012."""
        months, day = divmod(day, 28)
        return (2012 + months // 12) * 10_000 + (months % 12 + 1) * 100 + day + 1

    def sheet(self):
        rows = self.source.randint(1, 4)
        lines = []
        if self.chance(60):
            lines.append("prices " + " ".join(str(self.source.randint(1, 40_000_000)) for _ in range(3)))
        if self.chance(50):
            lines.append(f"contribution {self.source.randint(0, 100)}")
        if self.chance(60):
            weights = (str(self.source.randint(0, 200)) for _ in range(self.source.randint(1, 8)))
            lines.append("weights " + " ".join(weights))
        kind = self.pick("flat", "flat", "indexed", "indexed", "dated")
        lines.append("sheet " + kind)
        for row in range(rows if kind != "flat" else 0):
            date = f"{2008 + row * self.pick(1, 2, 3) + row}0{self.pick(1, 2, 3)}01"
            if kind == "dated":
                lines.append(f"record {date} " + " ".join(str(self.source.randint(1, 40_000_000)) for _ in range(3)))
            else:
                lines.append(f"wages {date} {self.source.randint(900, 1_300)}")
                lines.append(f"consumer {date} {self.source.randint(900, 1_300)}")
        return lines

    def commitment(self):
        operator = self.source.randint(0 if self.chance(5) else 1, 9)
        rate = self.source.randint(1, 8) if not self.chance(4) else self.pick(0, 21, 20)
        self.rates.setdefault(operator, rate)
        return f"E {self.date()} {operator} {rate}"

    def raise_to(self):
        operator = self.pick(*self.rates) if self.rates and not self.chance(5) else self.source.randint(0, 9)
        rate = self.rates.get(operator, 0) + self.pick(0, 1, 1, 2, 3)
        self.rates[operator] = rate
        return f"A {self.date()} {operator} {rate}"

    def installation(self):
        self.objects += 0 if self.chance(5) else 1
        dwellings = self.source.randint(1, 900) if not self.chance(4) else self.pick(0, 1, 10_000, 10_001)
        return f"{self.pick('P', 'S', 'T')} {self.date()} {self.objects} {dwellings}"

    def change(self):
        """Another sheet than the one whose rows were given, or other places lent."""
        return self.pick(
            "sheet flat",
            "sheet indexed",
            "sheet dated",
            f"contribution {self.source.randint(0, 101)}",
            f"share {self.source.randint(0, 12)}",
            f"lend {self.source.randint(2, 9)} {self.source.randint(1, 9)} {self.source.randint(0, 12)}",
            f"lend 17 70 {self.source.randint(0, 20)}",
        )

    def call(self):
        if not self.launched and self.chance(30):
            self.launched = True
            return f"L {self.date()}"
        if self.launched and self.chance(40) or self.chance(3):
            return self.installation()
        return self.raise_to() if self.rates and self.chance(45) else self.commitment()

    def lines(self):
        lines = self.sheet()
        for _ in range(self.source.randint(5, 20)):
            if self.chance(8):
                lines.append(self.change())
            lines.append(self.call())
        return lines


def drawn(seed, count):
    source = random.Random(seed)
    for number in range(1, count + 1):
        yield f"drawn {number}", Drawing(source).lines()


def stretched(line, length):
    """A line with so many blanks before its last word that it has this length."""
    words, last = line.rsplit(" ", 1)
    return words + last.rjust(length - len(words))


def long_lines():
    """Lines of the longest length, of one byte more and of several times as many, and a comment that is too long."""
    yield "lines of the longest length, and longer ones", [
        stretched("E 20170301 1 4", LONGEST),
        stretched("E 20170301 2 2", LONGEST + 1),
        stretched("E 20170301 3 1", 3 * LONGEST),
        "#".ljust(LONGEST, "-"),
        "#".ljust(LONGEST + 1, "-"),
        "E 20170301 4 1",
        "x" * (LONGEST + 1),
    ]


def script(seed=SEED, count=DRAWN):
    """The lines of the script, with so many lives drawn from a seed before the one of the long lines."""
    yield "# Small lives of a zone, made by tools/make_lives.py; tools/life_model.py describes the lines."
    yield "E 20170301 1 4"
    by_hand = (sums(), indexed_sums(), refusals_of_prepared(), refusals_of_launched(), limits())
    for lives in (*by_hand, drawn(seed, count), long_lines()):
        for title, lines in lives:
            yield ""
            yield "life " + title
            yield from lines


if __name__ == "__main__":
    print("\n".join(script(*map(int, sys.argv[1:3]))))
