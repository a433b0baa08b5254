#!/usr/bin/env python3
"""Makes the event files that the speed of a statement is measured on, in a folder:

    python3 tools/bench/files.py FOLDER

Each has 128 full blocks, so there are as many entries to read in every one. They differ in their share-outs: how many
there are, and how many years an operator's weight is added up over, which are those up to the event's year index.
A zone accepts at most 385 events: a launch, 64 objects, and a commitment or raise for each of 20 tranches of 16
operators. So most entries of each file are refused. The counts above each file are worked out by tools/zone_model.py.
"""
import pathlib
import random
import sys

sys.path.insert(0, str(pathlib.Path(__file__).resolve().parent.parent))

from make_events import entry
from make_statement_files import blocks, cables, commits, launches, opens, raises

ENTRIES = 128 * 17
OPERATORS = range(1, 17)
OBJECTS = range(1, 65)


def full(entries, date):
    """Filled up with raises by those who have 20 tranches already, each of them refused."""
    places = range(len(entries) + 1, ENTRIES + 1)
    return entries + [raises(date, 1 + place % 16, 20, f"entry {place}") for place in places]


def rounds(dates):
    """From 1 tranche to 20, by one on each of nineteen dates: nobody can raise more often."""
    return [
        raises(date, operator, rate, f"{operator} to {rate}")
        for rate, date in enumerate(dates, 2)
        for operator in OPERATORS
    ]


def raised_on(dates):
    """All operators are there at the launch and all objects the day after, so each raise has every credit it can."""
    begin = [commits(20100101, operator, 1, f"op {operator}") for operator in OPERATORS]
    begin += [launches(20100102, "launch")] + [opens(20100103, number, 10_000, f"PM {number}") for number in OBJECTS]
    return full(begin + rounds(dates), dates[-1])


# 385 accepted, 304 share-outs, 311,296 credit lines.
def early_raises():
    """The raises have year index 1 to 3, so a weight is a sum over 2 to 4 years."""
    return raised_on([20100201 + number // 7 * 10_000 + number % 7 * 100 for number in range(19)])


# 385 accepted, 304 share-outs, 311,296 credit lines.
def late_raises():
    """The same raises have year index 40, so a weight is a sum over 41 years."""
    return raised_on([20490101 + number for number in range(19)])


# 385 accepted, 320 share-outs, 318,976 credit lines.
def longest():
    """As many share-outs as a file can have, and as many credit lines.

    Nobody commits before the launch, since nothing is shared out there. All objects stand before the first commitment,
    so that each that follows is shared out to all who came before. Raises go on to year index 40.
    """
    begin = [launches(20080101, "launch")] + [opens(20080102, number, 10_000, f"PM {number}") for number in OBJECTS]
    begin += [commits(20080103, operator, 1, f"op {operator}") for operator in OPERATORS]
    return full(begin + rounds([year * 10_000 + 101 for year in range(2011, 2048, 2)]), 20471231)


class Life:
    """Forty years of a zone, drawn with a fixed seed. Numbers are spread over 32 bits and come in no order."""

    def __init__(self, seed):
        self.source = random.Random(seed)
        numbers = self.source.sample(range(1, 2**32), 100)
        self.newcomers, self.plans, self.strangers = numbers[:16], numbers[16:80], numbers[80:]
        self.rates = {}
        self.objects = []

    def commitment(self, date):
        operator, rate = self.newcomers.pop(), self.source.randint(1, 6)
        self.rates[operator] = rate
        return commits(date, operator, rate, f"joins for {5 * rate}%")

    def rise(self, date):
        """Somebody who has not all tranches goes up by one or two."""
        operator = self.source.choice([operator for operator, rate in self.rates.items() if rate < 20])
        self.rates[operator] = min(20, self.rates[operator] + self.source.randint(1, 2))
        return raises(date, operator, self.rates[operator], f"up to {5 * self.rates[operator]}%")

    def object(self, date):
        number, which = self.plans.pop(), self.source.randrange(3)
        self.objects.append(number)
        if which == 0:
            return opens(date, number, self.source.randint(150, 1_000), "PM opened")
        return cables(date, number, self.source.randint(4, 90), which == 2, "site cabled")

    def refused(self, date):
        """What comes in twice, late, misspelt or from elsewhere."""
        source = self.source
        operator, stranger = source.choice(list(self.rates)), source.choice(self.strangers)
        known = source.choice(self.objects or [0])
        return source.choice(
            [
                raises(date, operator, source.randint(1, self.rates[operator]), "no higher"),
                raises(date, operator, 21, "above 100%"),
                raises(date, stranger, 4, "not in this zone"),
                raises(date - 10_000, operator, 20, "a year late"),
                raises(date // 100 * 100 + 32, operator, 20, "no such day"),
                commits(date, operator, 5, "joins twice"),
                opens(date, known, 300, "opened twice"),
                cables(date, known, 12, label="cabled twice"),
                cables(date, stranger, 0, label="no dwellings"),
                opens(date, 0, 300, "no number"),
                launches(date, "launched twice"),
                entry("E", date, stranger, 5, 1, "form of a site"),
                entry("R", date, operator, 20, 0, "unknown letter"),
            ]
        )

    def entries(self):
        """Four or five entries a month. A third of the operators begin, and a third of the objects enter soon."""
        made = [self.commitment(20100104 + number) for number in range(5)] + [launches(20100201, "launch")]
        for month in range(1, 480):
            day = 20100001 + month // 12 * 10_000 + (month % 12 + 1) * 100
            kinds = [self.refused] * ((ENTRIES - len(made)) // (480 - month))
            if self.plans and (month < 24 or month % 4 == 0):
                kinds[0] = self.object
            if self.newcomers and month % 9 == 0:
                kinds[1] = self.commitment
            if month % 4 == 1:
                kinds[2] = self.rise
            self.source.shuffle(kinds)
            made += [kind(day + 3 * number) for number, kind in enumerate(kinds)]
        return made


# 201 accepted, 131 share-outs, 104,891 credit lines.
def ordinary():
    """As a zone lives: it grows, operators join and raise over the years, and what is refused lies in between."""
    return Life(2010).entries()


FILES = (ordinary, early_raises, late_raises, longest)


def main():
    if len(sys.argv) != 2 or sys.argv[1] in ("-h", "--help"):
        sys.exit("tools/bench/files.py: name the folder to make the files in: python3 tools/bench/files.py FOLDER")
    folder = pathlib.Path(sys.argv[1])
    try:
        folder.mkdir(parents=True, exist_ok=True)
        for make in FILES:
            data = blocks(make())
            assert len(data) == 128 * 512, make.__name__
            (folder / make.__name__).write_bytes(data)
    except OSError as error:
        sys.exit(f"tools/bench/files.py: the files cannot be made in {folder}: {error.strerror}.")


if __name__ == "__main__":
    main()
