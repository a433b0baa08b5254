#!/usr/bin/env python3
"""An independent model of the program `quote`, for its expected output.

  quote_model.py cases            prints the orders of crates/link_cases: every table entry at both edges of its row
  quote_model.py < LINES          prints the replies to lines as docs/FORMAT.md describes them

The tables are typed a second time, and sums are done with exact fractions, so that the proved program is held
to something other than itself:

  tools/quote_model.py cases > crates/link_cases/stdin
  tools/quote_model.py < crates/link_cases/stdin > crates/link_cases/stdout
  tools/quote_model.py < crates/quote/stdin > crates/quote/stdout
"""
import datetime
import sys
from fractions import Fraction

INITIAL = """
1671 3090 3921 4420 4753 4986
1780 3291 4176 4708 5062 5310
1997 3693 4687 5283 5681 5959
2287 4229 5368 6051 6506 6825
2577 4766 6048 6818 7331 7690
2867 5302 6729 7585 8156 8555
3157 5838 7409 8352 8981 9421
3447 6374 8090 9119 9806 10286
3737 6911 8771 9887 10631 11151
"""
REFERENCE = """
1671 3216 4523 5628 6578 7409
1780 3425 4817 5994 7006 7891
1997 3844 5406 6727 7863 8856
2287 4402 6191 7703 9005 10142
2577 4960 6976 8680 10146 11428
2867 5518 7761 9657 11288 12714
3157 6076 8546 10634 12430 14000
3447 6634 9331 11611 13572 15286
3737 7192 10116 12588 14714 16572
"""
EXTRA = """
1545 1307 1105 951 831
1645 1392 1177 1012 885
1847 1562 1321 1136 993
2115 1789 1513 1301 1137
2383 2016 1704 1466 1282
2651 2243 1896 1631 1426
2919 2470 2088 1796 1570
3187 2697 2280 1961 1714
3455 2924 2472 2126 1859
"""
EDGES = [(1, 1000), (1001, 2000), (2001, 4000), (4001, 6000), (6001, 8000),
         (8001, 10000), (10001, 12000), (12001, 14000), (14001, 16000)]
LONGEST = 4096  # bytes of a line
YEARS = [100, 110, 118, 125, 127, 128, 127, 125, 122, 118, 112, 106, 98, 90, 81, 70, 59, 46, 32, 25, 25]
SENTENCES = {
    2: "a date is not a calendar day from 20080101 to 20991231",
    15: "the sheet has no coefficient for these dates",
    17: "the length is not from 1 to 16000 metres",
    18: "the fibres are not from 1 to 6",
    25: "a sheet's value or date is outside its limits, or its dates do not rise",
}


class Refused(Exception):
    pass


class Unreadable(Exception):
    pass


def table(text):
    return [[int(n) for n in line.split()] for line in text.split("\n") if line]


def is_date(n):
    try:
        return 2008 <= datetime.date(n // 10000, n // 100 % 100, n % 100).year <= 2099
    except ValueError:
        return False


def row_coefficient(installed, receipt):
    months = max(0, (receipt // 10000 - installed // 10000) * 12 + receipt // 100 % 100 - installed // 100 % 100)
    if months >= 240:
        return 300, 1200
    year, month = divmod(months, 12)
    return (12 - month) * YEARS[year] + month * YEARS[year + 1], 1200


def before(rows, day):
    earlier = [value for date, value in rows if date < day]
    return earlier[-1] if earlier else None


def indexed_coefficient(wages, consumer, installed, receipt):
    w0, w1, c0, c1 = before(wages, installed), before(wages, receipt), before(consumer, installed), before(consumer, receipt)
    if None in (w0, w1, c0, c1):
        return None
    ratios = [(w0 + 3 * w1, 4 * w0), (c1, c0)]
    n, d = min(ratios, key=lambda r: Fraction(*r))  # the first where they are equal
    rn, rd = row_coefficient(installed, receipt)
    return (rn * n, rd * d) if Fraction(rn * n, rd * d) <= 4 else None


def check_series(rows, fits):
    dates = [date for date, _ in rows]
    if len(rows) > 512 or not all(map(is_date, dates)) or dates != sorted(set(dates)) or not all(fits(v) for _, v in rows):
        raise Refused(25)


def rounded(amount, up_from):
    whole = amount.numerator // amount.denominator
    seventh = int((amount - whole) * 10)
    return whole + (1 if seventh >= up_from else 0)


class Desk:
    def __init__(self):
        self.sheet, self.wages, self.consumer, self.records = "flat", [], [], []

    def coefficient(self, installed, receipt):
        if self.sheet == "indexed":
            return indexed_coefficient(self.wages, self.consumer, installed, receipt)
        return row_coefficient(installed, receipt)

    def make_sheet(self):
        index = lambda v: 1 <= v <= 50000
        if self.sheet == "indexed":
            check_series(self.wages, index)
            check_series(self.consumer, index)
        if self.sheet == "dated":
            check_series(self.records, lambda prices: all(1 <= p <= 500000000 for p in prices))

    def price(self, item, order, metres, fibres, service):
        self.make_sheet()
        if not is_date(order) or (service is not None and not is_date(service)):
            raise Refused(2)
        by = None
        if service is not None and service < order:
            by = self.coefficient(service, order)
            if by is None:
                raise Refused(15)
        if not 1 <= metres <= 16000:
            raise Refused(17)
        if not 1 <= fibres <= 6:
            raise Refused(18)
        row = next(i for i, (low, high) in enumerate(EDGES) if low <= metres <= high)
        if item == "link":
            first, later = table(INITIAL)[row][fibres - 1], table(REFERENCE)[row][fibres - 1]
        else:
            first = later = table(EXTRA)[row][min(fibres, 5) - 1]
        if by is None:
            return "AB INITIO", first * 1000000
        micros = rounded(later * 1000000 * Fraction(*by), 5 if self.sheet == "dated" else 6)
        return f"EX POST {by[0]}/{by[1]}", micros

    def take(self, words):
        kind, rest = words[0], words[1:]
        counts = {"link": (3, 4), "fibre": (3, 4), "sheet": (1,), "wages": (2,), "consumer": (2,), "price": (4,)}
        if kind not in counts:
            raise Unreadable("a line begins with link, fibre, sheet, wages, consumer or price")
        if len(rest) not in counts[kind]:
            raise Unreadable("the line has too few or too many words")
        if kind == "sheet":
            if rest[0] not in ("flat", "indexed", "dated"):
                raise Unreadable("the sheet is not flat, indexed or dated")
            self.sheet = rest[0]
        elif kind in ("wages", "consumer"):
            getattr(self, kind).append((number(rest[0]), number(rest[1])))
        elif kind == "price":
            self.records.append((number(rest[0]), tuple(map(amount, rest[1:]))))
        else:
            return self.order(kind, *map(number, rest))

    def order(self, item, order, metres, fibres, service=None):
        head = f"{item.upper()} ORDERED {order} METRES {metres} FIBRES {fibres} SERVICE {'UNKNOWN' if service is None else service}: "
        try:
            basis, micros = self.price(item, order, metres, fibres, service)
        except Refused as refused:
            return head + f"REFUSED {refused.args[0]} {SENTENCES[refused.args[0]]}"
        return head + f"{basis} PRICE {micros // 1000000}.{micros % 1000000:06d}"


def number(word):
    if not (1 <= len(word) <= 9 and word.isascii() and word.isdigit()):
        raise Unreadable("a date or number is not one to nine digits")
    return int(word)


def amount(word):
    whole, point, decimals = word[:-7], word[-7:-6], word[-6:]
    if not (whole and point == "." and (whole + decimals).isascii() and (whole + decimals).isdigit()):
        raise Unreadable("a price is not euros with a point and six decimals")
    if len(whole) > 9 or int(whole + decimals) >= 2**32:
        raise Unreadable("a price is above 4294.967295 euros, or has more than nine digits before its point")
    return int(whole + decimals)


def cases():
    for item in ("link", "fibre"):
        for low, high in EDGES:
            for fibres in range(1, 7):
                yield f"{item} 20200315 {low} {fibres}"
                yield f"{item} 20200315 {high} {fibres}"
                # in the month of the service date the coefficient is one
                yield f"{item} 20200315 {low} {fibres} 20200314"
                yield f"{item} 20200315 {high} {fibres} 20200314"
        # from one month to beyond the row's end
        for order in (20180401, 20180601, 20190930, 20230815, 20300101, 20380228, 20380331, 20431231):
            yield f"{item} {order} 4001 5 20180310"
        # service on the day of the order, or later
        yield f"{item} 20180310 3000 3 20180310"
        yield f"{item} 20180310 3000 3 20180311"


def replies(lines):
    desk = Desk()
    for count, line in enumerate(lines, 1):
        if len(line.encode()) > LONGEST:
            yield f"LINE {count} UNREADABLE: the line is longer than {LONGEST} bytes"
            continue
        words = line.split()
        if not words or words[0].startswith("#"):
            continue
        try:
            answer = desk.take(words)
        except Unreadable as reason:
            answer = f"UNREADABLE: {reason}"
        if answer is not None:
            yield f"LINE {count} {answer}"


if __name__ == "__main__":
    if sys.argv[1:] == ["cases"]:
        print("\n".join(cases()))
    else:
        print("\n".join(replies(sys.stdin.read().split("\n"))))
