"""A zone by its rules, in plain Python: prices, bills, credits and refusals.

It is written from docs/RULES.md alone and shares nothing with the programs, so that what it works out can be compared
with what they print. Money is in micro-euros. It keeps names and fractions where the programs keep tables and whole
numbers.
"""
import datetime
import math
from fractions import Fraction

ROW = [100, 110, 118, 125, 127, 128, 127, 125, 122, 118, 112, 106, 98, 90, 81, 70, 59, 46, 32, 25, 25]

COVERED, CONNECTABLE, THIRD_PARTY = "covered", "connectable", "third-party"
KINDS = (COVERED, CONNECTABLE, THIRD_PARTY)

MOST_AMOUNT = 4 * 10**18

NETWORK_RECORDS = [
    (20080101, (6_910_000, 18_770_000, 16_200_000)),
    (20211001, (6_939_900, 18_851_218, 16_270_097)),
    (20220901, (7_049_769, 19_149_661, 16_527_677)),
    (20230701, (7_218_082, 19_606_860, 16_922_277)),
    (20240701, (7_478_824, 20_315_128, 17_533_568)),
]


class Refused(Exception):
    """A call or a sheet is refused by a number."""

    def __init__(self, number):
        super().__init__(number)
        self.number = number


def refuse_if(condition, number):
    if condition:
        raise Refused(number)


def is_date(number):
    year, month, day = number // 10_000, number // 100 % 100, number % 100
    if not 2008 <= year <= 2099:
        return False
    try:
        datetime.date(year, month, day)
    except ValueError:
        return False
    return True


def months_between(earlier, later):
    def months(date):
        return date // 10_000 * 12 + date // 100 % 100

    return max(0, months(later) - months(earlier))


def year_index(launch, date):
    return 0 if date <= launch else date // 10_000 - launch // 10_000 + 1


def rounded(exact, least_up):
    """By the seventh decimal of the euro: up if it is at least least_up."""
    tenths = math.floor(exact * 10)
    return tenths // 10 + (1 if tenths % 10 >= least_up else 0)


def common_coefficient(months):
    if months >= 240:
        return Fraction(300, 1200)
    whole, rest = divmod(months, 12)
    return Fraction((12 - rest) * ROW[whole] + rest * ROW[whole + 1], 1200)


def in_force(rows, day, itself):
    """The last value dated up to a day, or before it; None if there is none."""
    found = None
    for date, value in rows:
        if date < day or (itself and date == day):
            found = value
    return found


def lawful_rows(rows, lawful_value):
    dates = [date for date, _ in rows]
    return (
        len(rows) <= 512
        and all(is_date(date) for date in dates)
        and all(one < next_one for one, next_one in zip(dates, dates[1:]))
        and all(lawful_value(value) for _, value in rows)
    )


def lawful_prices(prices):
    return all(1 <= price <= 500_000_000 for price in prices)


class Sheet:
    """What the three sheets have in common."""

    least_up = 6

    def __init__(self, contribution, weights):
        refuse_if(not 0 <= contribution <= 100, 25)
        refuse_if(any(not 0 <= weight <= 200 for weight in weights), 25)
        self.contribution = contribution
        self.weights = weights

    def coefficient(self, installed, receipt):
        return common_coefficient(months_between(installed, receipt))

    def round(self, exact):
        return rounded(exact, self.least_up)


class Flat(Sheet):
    def __init__(self, prices, contribution, weights):
        super().__init__(contribution, weights)
        refuse_if(not lawful_prices(prices), 25)
        self.prices = prices

    def price(self, kind, installed):
        return self.prices[KINDS.index(kind)]


class Indexed(Flat):
    def __init__(self, prices, contribution, weights, wages, consumer):
        super().__init__(prices, contribution, weights)
        for rows in (wages, consumer):
            refuse_if(not lawful_rows(rows, lambda value: 1 <= value <= 50_000), 25)
        self.wages = wages
        self.consumer = consumer

    def coefficient(self, installed, receipt):
        wages = [in_force(self.wages, day, False) for day in (installed, receipt)]
        consumer = [in_force(self.consumer, day, False) for day in (installed, receipt)]
        if None in wages + consumer:
            return None
        by_wages = Fraction(wages[0] + 3 * wages[1], 4 * wages[0])
        by_consumer = Fraction(consumer[1], consumer[0])
        product = super().coefficient(installed, receipt) * min(by_wages, by_consumer)
        return product if product <= 4 else None


class Dated(Sheet):
    least_up = 5

    def __init__(self, records, contribution, weights):
        super().__init__(contribution, weights)
        refuse_if(not lawful_rows(records, lawful_prices), 25)
        self.records = records

    def price(self, kind, installed):
        prices = in_force(self.records, installed, True)
        return None if prices is None else prices[KINDS.index(kind)]


class Operator:
    def __init__(self, number):
        self.number = number
        self.years = {}
        self.balance = 0

    def rate(self):
        return sum(self.years.values())


class Object:
    def __init__(self, number, kind, installed, dwellings):
        self.number = number
        self.kind = kind
        self.installed = installed
        self.dwellings = dwellings


class Line:
    """A line of the strip."""

    def __init__(self, nature, operator, number, unit, quantity):
        self.nature = nature
        self.operator = operator
        self.object = number
        self.unit = unit
        self.quantity = quantity
        self.total = unit * quantity


class Zone:
    """A zone with its own tables. Each call answers the lines that it writes, or is refused and changes nothing."""

    def __init__(self, sheet, roll_places=16, register_places=1024):
        self.sheet = sheet
        self.roll_places = roll_places
        self.register_places = register_places
        self.operators = []
        self.objects = []
        self.launched = None
        self.last = None
        self.levy = None
        self.contributed = self.credited = self.unshared = self.credit_lines = 0

    # What is asked before anything is done

    def check_tables(self):
        refuse_if(self.roll_places < len(self.operators), 1)
        refuse_if(self.register_places < len(self.objects), 1)
        amounts = [self.contributed, self.credited, self.unshared, self.credit_lines]
        amounts += [one.balance for one in self.operators]
        refuse_if(any(amount > MOST_AMOUNT for amount in amounts), 1)

    def check_date(self, date):
        refuse_if(not is_date(date), 2)
        refuse_if(self.last is not None and date < self.last, 3)
        refuse_if(self.launched is not None and year_index(self.launched, date) > 40, 4)

    def known(self, number):
        return next((operator for operator in self.operators if operator.number == number), None)

    def check_change(self, operator, rate, is_raise):
        refuse_if(operator == 0, 5)
        refuse_if(not 1 <= rate <= 20, 6)
        present = self.known(operator)
        if is_raise:
            refuse_if(present is None, 8)
            refuse_if(rate <= present.rate(), 9)
        else:
            refuse_if(present is not None, 7)
            refuse_if(len(self.operators) >= min(16, self.roll_places), 10)

    def check_prices(self):
        for thing in self.objects:
            refuse_if(self.sheet.price(thing.kind, thing.installed) is None, 14)

    # What the calls come to

    def added(self, operator, rate):
        """k: the new rate less the one that the roll has now. A levy keeps no k, so its share-out asks again."""
        present = self.known(operator)
        return rate - (present.rate() if present else 0)

    def enter(self, operator, tranches, index):
        present = self.known(operator)
        if present is None:
            present = Operator(operator)
            self.operators.append(present)
        present.years[index] = present.years.get(index, 0) + tranches

    def change(self, date, operator, rate, is_raise, strip):
        self.check_tables()
        self.check_date(date)
        self.check_change(operator, rate, is_raise)
        tranches = self.added(operator, rate)
        if self.launched is None:
            self.enter(operator, tranches, 0)
            self.last = date
            return []
        lines = self.bill(date, operator, tranches)
        refuse_if(len(lines) > strip, 16)
        self.levy = (date, operator, rate)
        self.last = date
        return lines

    def bill(self, date, operator, tranches):
        self.check_prices()
        sheet, lines = self.sheet, []
        factors = {}
        for thing in self.objects:
            if thing.installed < date:
                factors[thing.number] = sheet.coefficient(thing.installed, date)
        refuse_if(None in factors.values(), 15)
        for thing in self.objects:
            plain = sheet.price(thing.kind, thing.installed) * tranches
            if thing.number in factors:
                unit = sheet.round(plain * factors[thing.number])
                lines.append(Line(1, operator, thing.number, unit, thing.dwellings))
                lines.append(Line(2, operator, thing.number, self.contribution(thing, tranches), thing.dwellings))
            else:
                lines.append(Line(1, operator, thing.number, plain, thing.dwellings))
        return lines

    def contribution(self, thing, tranches):
        sheet = self.sheet
        return sheet.round(Fraction(sheet.price(thing.kind, thing.installed) * tranches * sheet.contribution, 100))

    def commitment(self, date, operator, rate, strip=1024):
        return self.change(date, operator, rate, False, strip)

    def raise_to(self, date, operator, rate, strip=1024):
        return self.change(date, operator, rate, True, strip)

    def launch(self, date):
        self.check_tables()
        self.check_date(date)
        self.launched = date
        self.last = date
        return []

    def install(self, kind, date, number, dwellings, strip=1024):
        self.check_tables()
        self.check_date(date)
        refuse_if(number == 0 or any(thing.number == number for thing in self.objects), 11)
        refuse_if(not 1 <= dwellings <= 10_000, 12)
        refuse_if(len(self.objects) >= min(1024, self.register_places), 13)
        price = self.sheet.price(kind, date)
        refuse_if(price is None, 14)
        lines = [Line(1, one.number, number, price * one.rate(), dwellings) for one in self.operators]
        refuse_if(len(lines) > strip, 16)
        self.objects.append(Object(number, kind, date, dwellings))
        self.last = date
        return lines

    def share_out(self, strip=1024):
        date, operator, rate = self.levy
        self.check_tables()
        self.check_prices()
        tranches = self.added(operator, rate)
        index = year_index(self.launched, date)
        weights = {
            one.number: sum(
                number * self.sheet.weights[year] for year, number in one.years.items() if year <= index
            )
            for one in self.operators
        }
        whole = sum(weights.values())
        lines, contributed, unshared = [], 0, 0
        for thing in self.objects:
            if not thing.installed < date:
                continue
            amount = self.contribution(thing, tranches) * thing.dwellings
            contributed += amount
            if whole == 0:
                unshared += amount
                continue
            for one in self.operators:
                if amount > 0 and weights[one.number] > 0:
                    share = self.sheet.round(Fraction(amount * weights[one.number], whole))
                    lines.append(Line(3, one.number, thing.number, share, 1))
        refuse_if(len(lines) > strip, 16)
        for line in lines:
            self.known(line.operator).balance += line.total
            self.credited += line.total
            self.credit_lines += 1
        self.contributed += contributed
        self.unshared += unshared
        self.enter(operator, tranches, index)
        self.levy = None
        return lines


def euros(micros):
    sign = "-" if micros < 0 else ""
    whole, decimals = divmod(abs(micros), 1_000_000)
    return f"{sign}{whole}.{decimals:06}"
