//! States an event file, as plain.rs does, tuned by hand: it does the whole job and prints the
//! same. It is for information, and shows what there is to gain where the order of the rules is
//! given up.
//!
//!     rustc -O --edition 2021 -o tuned tools/bench/tuned.rs && ./tuned < FILE
//!
//! It gives up:
//!
//! - The order of the loops. Lines are written operator by operator, for up to 64 objects at a
//!   time, each in the place that the rules give it. So a weight is added up once for so many.
//! - The plain sums. A weight is added up in 16 bits, which holds only since the tables were
//!   checked. A sum is rounded by a product with 2^64 / denominator and a step that mends it, in
//!   place of a division.
//!
//! It adds:
//!
//! - Slots for the numbers of a register: 256, or 2,048 for more than 128 objects, on the stack.
//!   Numbers that rise do without. The roll has a mask of 64 bits.
//! - Tables that the compiler works out. A date is looked up among the bits of all numbers from
//!   the first day to the last, which are 114 kilobytes; the coefficient among those of 240 months;
//!   the check of a block is a sum over the powers of 256.
//! - A second look at the room: credit lines are counted beforehand only if the strip may be short.
//!
//! No call is inlined, and what the sheet answers is hidden from the compiler. In plain.rs neither
//! is so.
//!
//! With `--cfg own_tables` no call checks its tables, as if the program owned them. This does less
//! than the rules ask, and only tells what the check takes.

use std::hint::black_box;
use std::io::{self, ErrorKind, Read, Write};
use std::process::ExitCode;

const ENTRY: usize = 30;
const CHECKED: usize = 17 * ENTRY;
const BLOCK: usize = CHECKED + 2;
const LONGEST: usize = 128 * BLOCK;

/// Room for the longest statement: a line of at most 48 bytes for each entry, and then those of
/// the operators and the totals.
const STATEMENT: usize = 128 * 17 * 48 + 2_048;

const YEARS: usize = 41;
const OPERATORS: usize = 16;
const OBJECTS: usize = 1_024;

/// What a balance, a total or a count may come to.
const MOST: u64 = 4_000_000_000_000_000_000;

/// The places of a run: its register and its strips are shorter than a zone would take.
const REGISTER: usize = 64;
const STRIP: usize = 1_024;

// The sheet

#[derive(Clone, Copy)]
enum Kind {
    Covered,
    Connectable,
    ThirdParty,
}

/// An unreduced fraction.
struct Fraction {
    numerator: u32,
    denominator: u32,
}

/// All that the zone knows of a price sheet: its answers to five questions.
trait Sheet {
    /// Micro-euros a tranche and dwelling, 1 to 500,000,000.
    fn price(&self, kind: Kind, installed: u32) -> Option<u32>;

    fn coefficient(&self, installed: u32, received: u32) -> Option<Fraction>;

    /// In hundredths of the price, 0 to 100.
    fn contribution(&self) -> u32;

    /// What a tranche of a year weighs, 0 to 200.
    fn weight(&self, year: usize) -> u8;

    fn rounded(&self, numerator: u64, denominator: u32) -> u64;
}

/// The prices of what is installed from a day on.
struct Record {
    from: u32,
    prices: [u32; 3],
}

struct Dated {
    records: &'static [Record],
    contribution: u32,
    weights: [u8; YEARS],
}

#[rustfmt::skip]
const NETWORK: Dated = Dated {
    records: &[
        Record { from: 20080101, prices: [6_910_000, 18_770_000, 16_200_000] },
        Record { from: 20211001, prices: [6_939_900, 18_851_218, 16_270_097] },
        Record { from: 20220901, prices: [7_049_769, 19_149_661, 16_527_677] },
        Record { from: 20230701, prices: [7_218_082, 19_606_860, 16_922_277] },
        Record { from: 20240701, prices: [7_478_824, 20_315_128, 17_533_568] },
    ],
    contribution: 15,
    weights: [100; YEARS],
};

impl Sheet for Dated {
    fn price(&self, kind: Kind, installed: u32) -> Option<u32> {
        let (first, others) = self.records.split_first()?;
        if installed < first.from {
            return None;
        }
        let mut record = first;
        for later in others {
            if installed < later.from {
                break;
            }
            record = later;
        }
        Some(record.prices[kind as usize])
    }

    fn coefficient(&self, installed: u32, received: u32) -> Option<Fraction> {
        let months = months_of(received).saturating_sub(months_of(installed));
        Some(Fraction {
            numerator: COEFFICIENTS[months.min(240) as usize],
            denominator: 1_200,
        })
    }

    fn contribution(&self) -> u32 {
        self.contribution
    }

    fn weight(&self, year: usize) -> u8 {
        self.weights[year]
    }

    /// Up from one half on. The product by 2^64 / denominator, rounded down, gives the quotient or
    /// one less. That factor rests on the denominator alone, so a compiler works it out once where
    /// the denominator stays the same, and a division of 64 bits takes longer than two products.
    #[inline(always)]
    fn rounded(&self, numerator: u64, denominator: u32) -> u64 {
        let denominator = u64::from(denominator);
        let factor = u64::MAX / denominator;
        let numerator = numerator + denominator / 2;
        let quotient = ((u128::from(numerator) * u128::from(factor)) >> 64) as u64;
        quotient + u64::from(numerator - quotient * denominator >= denominator)
    }
}

/// The common row: the coefficient after each number of months, as a numerator over 1,200.
const COEFFICIENTS: [u32; 241] = {
    let row = [
        100, 110, 118, 125, 127, 128, 127, 125, 122, 118, 112, 106, 98, 90, 81, 70, 59, 46, 32, 25,
        25,
    ];
    let mut numerators = [300; 241];
    let mut months = 0;
    while months < 240 {
        let (x, y) = (months / 12, months % 12);
        numerators[months] = (12 - y as u32) * row[x] + y as u32 * row[x + 1];
        months += 1;
    }
    numerators
};

// Days

fn year_of(date: u32) -> u32 {
    date / 10_000
}

/// A date's months, counted from the year 0.
fn months_of(date: u32) -> u32 {
    date / 100 - 88 * year_of(date)
}

const FIRST_DAY: u32 = 20080101;
const LAST_DAY: u32 = 20991231;

/// A bit for each number from the first day to the last, which is set if it is a date.
const DAYS: [u32; (LAST_DAY - FIRST_DAY) as usize / 32 + 1] = {
    let mut days = [0; (LAST_DAY - FIRST_DAY) as usize / 32 + 1];
    let mut month = 0;
    while month < 92 * 12 {
        let (year, month_of_year) = (2008 + month / 12, 1 + month % 12);
        let length = match month_of_year {
            2 if year % 4 == 0 => 29,
            2 => 28,
            4 | 6 | 9 | 11 => 30,
            _ => 31,
        };
        let first = year * 10_000 + month_of_year * 100 + 1 - FIRST_DAY;
        let mut day = 0;
        while day < length {
            days[(first + day) as usize / 32] |= 1 << ((first + day) % 32);
            day += 1;
        }
        month += 1;
    }
    days
};

fn is_date(number: u32) -> bool {
    let at = number.wrapping_sub(FIRST_DAY);
    match DAYS.get(at as usize / 32) {
        Some(days) => days >> (at % 32) & 1 == 1,
        None => false,
    }
}

// Tables and strips

#[derive(Clone, Copy)]
struct Operator {
    number: u32,
    tranches: [u32; YEARS],
    balance: u64,
}

impl Operator {
    fn new(number: u32) -> Operator {
        Operator {
            number,
            tranches: [0; YEARS],
            balance: 0,
        }
    }

    fn rate(&self) -> u32 {
        self.tranches.iter().sum()
    }

    /// What its tranches weigh, by the weights of the years that count. The tranches are 20 at most
    /// and a weight 200, so all this fits in 16 bits: a processor works out several years at once.
    #[inline(never)]
    fn weight(&self, years: &[u16; YEARS]) -> u32 {
        let pairs = self.tranches.iter().zip(years);
        let products = pairs.map(|(&tranches, &year)| (tranches as u16).wrapping_mul(year));
        u32::from(products.fold(0_u16, u16::wrapping_add))
    }

    /// All tranches of all years in one number: where that is below 32, so is each of them.
    fn any(&self) -> u32 {
        self.tranches.iter().fold(0, |any, tranches| any | tranches)
    }
}

#[derive(Clone, Copy)]
struct Object {
    number: u32,
    kind: Kind,
    installed: u32,
    dwellings: u32,
}

impl Object {
    /// Is it within its limits, its number aside?
    fn is_lawful(&self) -> bool {
        is_date(self.installed) && (1..=10_000).contains(&self.dwellings)
    }
}

#[derive(Clone, Copy)]
#[repr(u32)]
enum Nature {
    Charge = 1,
    Contribution = 2,
    Credit = 3,
}

/// A line of a bill or a share-out.
#[derive(Clone, Copy)]
#[allow(dead_code)]
struct Line {
    nature: Nature,
    operator: u32,
    object: u32,
    unit: u64,
    quantity: u32,
    total: u64,
}

impl Line {
    #[inline(always)]
    fn new(nature: Nature, operator: u32, object: u32, unit: u64, quantity: u32) -> Line {
        Line {
            nature,
            operator,
            object,
            unit,
            quantity,
            total: unit * u64::from(quantity),
        }
    }
}

/// Spreads numbers that may be near each other, or alike in many digits, over all 32 bits.
fn spread(number: u32) -> u32 {
    number.wrapping_mul(0x9E37_79B9)
}

/// Is every operator within its limits, and no number there twice?
///
/// No year has 32 tranches or more, which would be too many by itself, so no rate runs over. This
/// is asked in a loop of its own, so that both loops take several years at once.
///
/// Each number sets one bit of 64. Only one that finds its bit set is compared with those before.
fn is_roll(roll: &[Operator]) -> bool {
    if roll.iter().fold(0, |any, operator| any | operator.any()) >= 32 {
        return false;
    }
    let mut seen = 0_u64;
    for (at, operator) in roll.iter().enumerate() {
        let number = operator.number;
        if number == 0 || !(1..=20).contains(&operator.rate()) || operator.balance > MOST {
            return false;
        }
        let bit = 1 << (spread(number) >> 26);
        if seen & bit != 0 && roll[..at].iter().any(|earlier| earlier.number == number) {
            return false;
        }
        seen |= bit;
    }
    true
}

/// Is every object within its limits, no number 0, and none there twice? Numbers that rise differ.
fn is_register(register: &[Object]) -> bool {
    if !register.iter().all(Object::is_lawful) {
        return false;
    }
    match register.first() {
        Some(first) if register.is_sorted_by(|one, next| one.number < next.number) => {
            first.number != 0
        }
        _ if register.len() <= 128 => differ::<256, 24>(register),
        _ => differ::<2_048, 21>(register),
    }
}

/// Do all numbers differ, and is none 0? Each is put in the first free slot from the one that it is
/// spread to, and is compared with those in between. There are at least twice as many slots as
/// objects, so there is always a free one, and mostly it is the first.
fn differ<const SLOTS: usize, const SHIFT: u32>(register: &[Object]) -> bool {
    let mut slots = [0; SLOTS];
    for object in register {
        let mut slot = (spread(object.number) >> SHIFT) as usize;
        while slots[slot] != 0 && slots[slot] != object.number {
            slot = (slot + 1) % SLOTS;
        }
        if slots[slot] == object.number {
            return false;
        }
        slots[slot] = object.number;
    }
    true
}

// The zone

#[derive(Clone, Copy)]
enum Change {
    Commitment,
    Raise,
}

/// A commitment or a raise that is billed and not yet shared out.
struct Levy {
    date: u32,
    operator: u32,
    rate: u32,
    change: Change,
}

/// What an accepted commitment or raise does to the roll: it adds tranches at a place.
struct Addition {
    at: usize,
    operator: u32,
    tranches: u32,
}

struct Zone {
    launched: Option<u32>,
    last: Option<u32>,
    operators: usize,
    objects: usize,
    contributed: u64,
    credited: u64,
    unshared: u64,
    credit_lines: u64,
}

/// The checks, in the order in which the calls ask them.
impl Zone {
    #[inline(never)]
    fn check_tables(&self, roll: &[Operator], register: &[Object]) -> Result<(), u8> {
        if cfg!(own_tables) {
            return Ok(());
        }
        let counts = [
            self.operators as u64,
            self.objects as u64,
            self.credit_lines,
        ];
        let totals = [self.contributed, self.credited, self.unshared];
        let (Some(roll), Some(register)) =
            (roll.get(..self.operators), register.get(..self.objects))
        else {
            return Err(1);
        };
        if counts.iter().chain(&totals).any(|&number| number > MOST) {
            return Err(1);
        }
        if !is_roll(roll) || !is_register(register) {
            return Err(1);
        }
        Ok(())
    }

    fn index(&self, date: u32) -> usize {
        match self.launched {
            Some(launch) if date > launch => (year_of(date) - year_of(launch) + 1) as usize,
            _ => 0,
        }
    }

    fn check_date(&self, date: u32) -> Result<(), u8> {
        if !is_date(date) {
            return Err(2);
        }
        if self.last.is_some_and(|last| date < last) {
            return Err(3);
        }
        if self.index(date) >= YEARS {
            return Err(4);
        }
        Ok(())
    }

    fn check_roll(
        &self,
        roll: &[Operator],
        operator: u32,
        rate: u32,
        change: Change,
    ) -> Result<Addition, u8> {
        if operator == 0 {
            return Err(5);
        }
        if !(1..=20).contains(&rate) {
            return Err(6);
        }
        let counted = &roll[..self.operators];
        let known = counted.iter().position(|entry| entry.number == operator);
        let (at, present) = match (known, change) {
            (Some(_), Change::Commitment) => return Err(7),
            (None, Change::Raise) => return Err(8),
            (Some(at), Change::Raise) => match counted[at].rate() {
                present if rate <= present => return Err(9),
                present => (at, present),
            },
            (None, _) if counted.len() == OPERATORS.min(roll.len()) => return Err(10),
            (None, Change::Commitment) => (self.operators, 0),
        };
        Ok(Addition {
            at,
            operator,
            tranches: rate - present,
        })
    }

    fn check_register(&self, register: &[Object], object: u32, dwellings: u32) -> Result<(), u8> {
        let counted = &register[..self.objects];
        if object == 0 || counted.iter().any(|entry| entry.number == object) {
            return Err(11);
        }
        if !(1..=10_000).contains(&dwellings) {
            return Err(12);
        }
        if counted.len() == OBJECTS.min(register.len()) {
            return Err(13);
        }
        Ok(())
    }

    fn enter(&mut self, roll: &mut [Operator], addition: &Addition, index: usize) {
        if addition.at == self.operators {
            roll[addition.at] = Operator::new(addition.operator);
            self.operators += 1;
        }
        roll[addition.at].tranches[index] += addition.tranches;
    }
}

/// The calls. A commitment and a raise are told apart by their change, an opening and a cabling by
/// their kind. None is inlined, so that each makes its checks whatever its caller knows.
impl Zone {
    /// A commitment or a raise before the launch.
    #[inline(never)]
    fn subscribe(
        &mut self,
        roll: &mut [Operator],
        register: &[Object],
        levy: &Levy,
    ) -> Result<(), u8> {
        self.check_tables(roll, register)?;
        self.check_date(levy.date)?;
        let addition = self.check_roll(roll, levy.operator, levy.rate, levy.change)?;
        self.enter(roll, &addition, 0);
        self.last = Some(levy.date);
        Ok(())
    }

    #[inline(never)]
    fn launch(&mut self, roll: &[Operator], register: &[Object], date: u32) -> Result<(), u8> {
        self.check_tables(roll, register)?;
        self.check_date(date)?;
        self.launched = Some(date);
        self.last = Some(date);
        Ok(())
    }

    /// An opening or a cabling: each operator is charged.
    #[inline(never)]
    fn install(
        &mut self,
        sheet: &impl Sheet,
        roll: &[Operator],
        register: &mut [Object],
        strip: &mut [Line],
        object: Object,
    ) -> Result<(), u8> {
        self.check_tables(roll, register)?;
        self.check_date(object.installed)?;
        self.check_register(register, object.number, object.dwellings)?;
        let price = sheet.price(object.kind, object.installed).ok_or(14)?;
        let strip = strip.get_mut(..self.operators).ok_or(16)?;
        for (line, operator) in strip.iter_mut().zip(roll) {
            let unit = u64::from(price) * u64::from(operator.rate());
            let (number, dwellings) = (object.number, object.dwellings);
            *line = Line::new(Nature::Charge, operator.number, number, unit, dwellings);
        }
        register[self.objects] = object;
        self.objects += 1;
        self.last = Some(object.installed);
        Ok(())
    }

    /// A commitment or a raise after the launch: it is billed for each object, and becomes a levy
    /// if it is accepted.
    #[inline(never)]
    fn bill(
        &mut self,
        sheet: &impl Sheet,
        roll: &[Operator],
        register: &[Object],
        strip: &mut [Line],
        levy: &Levy,
    ) -> Result<(), u8> {
        self.check_tables(roll, register)?;
        self.check_date(levy.date)?;
        let addition = self.check_roll(roll, levy.operator, levy.rate, levy.change)?;
        let register = &register[..self.objects];
        let earlier = |object: &&Object| object.installed < levy.date;
        let coefficient = |object: &Object| sheet.coefficient(object.installed, levy.date);
        check_prices(sheet, register)?;
        if !register
            .iter()
            .filter(earlier)
            .all(|object| coefficient(object).is_some())
        {
            return Err(15);
        }
        let lines = register.len() + register.iter().filter(earlier).count();
        let mut places = strip.get_mut(..lines).ok_or(16)?.iter_mut();
        for object in register {
            let mut write = |nature, unit| {
                if let Some(place) = places.next() {
                    *place =
                        Line::new(nature, levy.operator, object.number, unit, object.dwellings);
                }
            };
            let price = sheet.price(object.kind, object.installed).ok_or(14)?;
            let plain = u64::from(price) * u64::from(addition.tranches);
            if earlier(&object) {
                let Fraction {
                    numerator,
                    denominator,
                } = coefficient(object).ok_or(15)?;
                let charge = sheet.rounded(plain * u64::from(numerator), denominator);
                write(Nature::Charge, charge);
                write(Nature::Contribution, contribution(sheet, plain));
            } else {
                write(Nature::Charge, plain);
            }
        }
        self.last = Some(levy.date);
        Ok(())
    }
}

fn check_prices(sheet: &impl Sheet, register: &[Object]) -> Result<(), u8> {
    let priced = |object: &Object| sheet.price(object.kind, object.installed).is_some();
    if register.iter().all(priced) {
        Ok(())
    } else {
        Err(14)
    }
}

fn contribution(sheet: &impl Sheet, plain: u64) -> u64 {
    sheet.rounded(plain * u64::from(sheet.contribution()), 100)
}

/// What an object of the register contributes in a share-out: nothing if it is of the event's day.
struct Amounts<'a, S> {
    sheet: &'a S,
    date: u32,
    tranches: u32,
}

impl<S: Sheet> Amounts<'_, S> {
    #[inline(always)]
    fn of(&self, object: &Object) -> u64 {
        match self.sheet.price(object.kind, object.installed) {
            Some(price) if object.installed < self.date => {
                let plain = u64::from(price) * u64::from(self.tranches);
                contribution(self.sheet, plain) * u64::from(object.dwellings)
            }
            _ => 0,
        }
    }
}

/// The share-out of a levy.
impl Zone {
    #[inline(never)]
    fn share_out(
        &mut self,
        sheet: &impl Sheet,
        roll: &mut [Operator],
        register: &[Object],
        strip: &mut [Line],
        levy: &Levy,
    ) -> Result<(), u8> {
        self.check_tables(roll, register)?;
        let addition = self.check_roll(roll, levy.operator, levy.rate, levy.change)?;
        let register = &register[..self.objects];
        check_prices(sheet, register)?;
        let index = self.index(levy.date);
        let amounts = Amounts {
            sheet,
            date: levy.date,
            tranches: addition.tranches,
        };
        let mut years = [0; YEARS];
        for (year, weight) in years.iter_mut().enumerate().take(index + 1) {
            *weight = u16::from(sheet.weight(year));
        }
        let counted = &mut roll[..self.operators];
        let (mut whole, mut sharers) = (0, 0);
        for operator in counted.iter() {
            let weight = operator.weight(&years);
            whole += weight;
            sharers += usize::from(weight > 0);
        }
        // Only where not every object could have its lines are those counted that will.
        if strip.len() < sharers * register.len() {
            let sharing = register.iter().filter(|object| amounts.of(object) > 0);
            if strip.len() < sharers * sharing.count() {
                return Err(16);
            }
        }
        let mut shares = Shares {
            contributed: 0,
            credited: 0,
            lines: 0,
        };
        if whole == 0 {
            shares.contributed = register.iter().map(|object| amounts.of(object)).sum();
            self.unshared += shares.contributed;
        } else {
            shares.write(&amounts, register, &years, counted, (whole, sharers), strip);
        }
        self.contributed += shares.contributed;
        self.credited += shares.credited;
        self.credit_lines += shares.lines as u64;
        self.enter(roll, &addition, index);
        Ok(())
    }
}

/// What a share-out comes to.
struct Shares {
    contributed: u64,
    credited: u64,
    lines: usize,
}

/// An object's contribution that is to be shared.
#[derive(Clone, Copy)]
struct Due {
    amount: u64,
    object: u32,
}

/// How many objects are shared out at once: a weight is asked for once for so many, and the lines
/// of so many stay near the processor.
const AT_ONCE: usize = 64;

impl Shares {
    /// The lines of an object stand together, one for each sharer. Here those of one sharer are
    /// written first, for all objects, and then those of the next: a sharer's weight and balance
    /// stay in registers, and so does all that the rounding makes of the denominator. This is kept
    /// apart from its caller so that the innermost loop has the registers to itself.
    #[inline(never)]
    fn write<S: Sheet>(
        &mut self,
        amounts: &Amounts<S>,
        register: &[Object],
        years: &[u16; YEARS],
        roll: &mut [Operator],
        (whole, sharers): (u32, usize),
        mut strip: &mut [Line],
    ) {
        let none = Due {
            amount: 0,
            object: 0,
        };
        let mut dues = [none; AT_ONCE];
        for objects in register.chunks(AT_ONCE) {
            let mut count = 0;
            for object in objects {
                let amount = amounts.of(object);
                if amount > 0 {
                    dues[count] = Due {
                        amount,
                        object: object.number,
                    };
                    count += 1;
                    self.contributed += amount;
                }
            }
            let (lines, rest) = strip.split_at_mut(count * sharers);
            strip = rest;
            self.lines += lines.len();
            let mut place = 0;
            for operator in roll.iter_mut() {
                let weight = u64::from(operator.weight(years));
                if weight == 0 {
                    continue;
                }
                let number = operator.number;
                let mut credited = 0;
                for (due, lines) in dues.iter().zip(lines.chunks_exact_mut(sharers)) {
                    let share = amounts.sheet.rounded(due.amount * weight, whole);
                    lines[place] = Line::new(Nature::Credit, number, due.object, share, 1);
                    credited += share;
                }
                operator.balance += credited;
                self.credited += credited;
                place += 1;
            }
        }
    }
}

// The file

/// What each byte of a block counts in its check: the powers of 256, the last byte's being 1.
const POWERS: [u16; CHECKED] = {
    let mut powers = [1; CHECKED];
    let mut at = CHECKED - 1;
    while at > 0 {
        at -= 1;
        powers[at] = (powers[at + 1] as u32 * 256 % 65_521) as u16;
    }
    powers
};

fn passes(block: &[u8; BLOCK]) -> bool {
    // A sum over half a block fits in 32 bits: it is below 255 * 255 * 65,521.
    let sum = |from: usize| -> u32 {
        let pairs = block[from..from + CHECKED / 2].iter().zip(&POWERS[from..]);
        pairs
            .map(|(&byte, &power)| u32::from(byte) * u32::from(power))
            .sum()
    };
    let whole = u64::from(sum(0)) + u64::from(sum(CHECKED / 2));
    whole % 65_521 == u64::from(u16::from_be_bytes([block[CHECKED], block[CHECKED + 1]]))
}

fn number_at(entry: &[u8; ENTRY], at: usize) -> u32 {
    u32::from_be_bytes([entry[at], entry[at + 1], entry[at + 2], entry[at + 3]])
}

/// What refuses the entry before the zone is asked.
fn fault(entry: &[u8; ENTRY], after_blank: bool) -> Option<u8> {
    let letter = entry[0];
    if !b"EAPSL\0".contains(&letter) {
        return Some(21);
    }
    if letter == 0 || after_blank {
        return Some(22);
    }
    let form_is_wrong = entry[13] > u8::from(letter == b'S');
    let filled_in_vain = letter == b'L' && entry[5..13] != [0; 8];
    let unprinted = entry[14..]
        .iter()
        .fold(false, |found, byte| found | !(b' '..=b'~').contains(byte));
    (form_is_wrong || filled_in_vain || unprinted).then_some(23)
}

/// What a run lends to the calls: its own tables and strips, of which they know nothing.
struct Lent<'a> {
    roll: &'a mut [Operator],
    register: &'a mut [Object],
    bill: &'a mut [Line],
    credits: &'a mut [Line],
}

/// A commitment or a raise. In a launched zone it is billed and at once shared out.
fn change(
    zone: &mut Zone,
    sheet: &impl Sheet,
    lent: &mut Lent,
    change: Change,
    (date, operator, rate): (u32, u32, u32),
) -> Result<(), u8> {
    let levy = Levy {
        date,
        operator,
        rate,
        change,
    };
    if zone.launched.is_none() {
        return zone.subscribe(lent.roll, lent.register, &levy);
    }
    if lent.credits.len() < zone.operators * zone.objects {
        return Err(16);
    }
    zone.bill(sheet, lent.roll, lent.register, lent.bill, &levy)?;
    zone.share_out(sheet, lent.roll, lent.register, lent.credits, &levy)
}

fn install(
    zone: &mut Zone,
    sheet: &impl Sheet,
    lent: &mut Lent,
    kind: Kind,
    (installed, number, dwellings): (u32, u32, u32),
) -> Result<(), u8> {
    if zone.launched.is_none() {
        return Err(24);
    }
    let object = Object {
        number,
        kind,
        installed,
        dwellings,
    };
    zone.install(sheet, lent.roll, lent.register, lent.bill, object)
}

fn launch(zone: &mut Zone, lent: &Lent, date: u32) -> Result<(), u8> {
    if zone.launched.is_some() {
        return Err(24);
    }
    zone.launch(lent.roll, lent.register, date)
}

fn take(
    zone: &mut Zone,
    sheet: &impl Sheet,
    lent: &mut Lent,
    entry: &[u8; ENTRY],
) -> Result<(), u8> {
    let numbers = (
        number_at(entry, 1),
        number_at(entry, 5),
        number_at(entry, 9),
    );
    match (entry[0], entry[13]) {
        (b'E', _) => change(zone, sheet, lent, Change::Commitment, numbers),
        (b'A', _) => change(zone, sheet, lent, Change::Raise, numbers),
        (b'P', _) => install(zone, sheet, lent, Kind::Covered, numbers),
        (b'S', 0) => install(zone, sheet, lent, Kind::Connectable, numbers),
        (b'S', _) => install(zone, sheet, lent, Kind::ThirdParty, numbers),
        _ => launch(zone, lent, numbers.0),
    }
}

/// Runs a file and writes its statement. The sheet, the tables and the strips come out of a black
/// box, so that no call is made for what this run lends it.
fn state(data: &[u8], text: &mut Text) {
    let sheet = black_box(NETWORK);
    let object = Object {
        number: 0,
        kind: Kind::Covered,
        installed: 0,
        dwellings: 0,
    };
    let line = Line::new(Nature::Charge, 0, 0, 0, 0);
    let mut roll = [Operator::new(0); OPERATORS];
    let mut register = [object; REGISTER];
    let mut strips = [[line; STRIP]; 2];
    let [bill, credits] = &mut strips;
    let lent = &mut Lent {
        roll: black_box(&mut roll[..]),
        register: black_box(&mut register[..]),
        bill: black_box(&mut bill[..]),
        credits: black_box(&mut credits[..]),
    };
    let mut zone = Zone {
        launched: None,
        last: None,
        operators: 0,
        objects: 0,
        contributed: 0,
        credited: 0,
        unshared: 0,
        credit_lines: 0,
    };
    let (blocks, rest) = data.as_chunks::<BLOCK>();
    if data.len() > LONGEST || !rest.is_empty() {
        text.refusal(19, 0, 0, b"");
    } else {
        run(&mut zone, &sheet, lent, blocks, text);
    }
    for operator in &lent.roll[..zone.operators] {
        text.operator(operator);
    }
    text.totals(&zone);
}

fn run(
    zone: &mut Zone,
    sheet: &impl Sheet,
    lent: &mut Lent,
    blocks: &[[u8; BLOCK]],
    text: &mut Text,
) {
    for (number, block) in (1..).zip(blocks) {
        if !passes(block) {
            text.refusal(20, number, 0, b"");
            return;
        }
        let mut after_blank = false;
        for (place, entry) in (1..).zip(block.as_chunks::<ENTRY>().0) {
            if *entry == [0; ENTRY] {
                after_blank = true;
            } else if let Some(refusal) = fault(entry, after_blank) {
                text.refusal(refusal, number, place, b"");
            } else if let Err(refusal) = take(zone, sheet, lent, entry) {
                text.refusal(refusal, number, place, entry[14..].trim_ascii_end());
            }
        }
    }
}

// The text

/// The statement as it grows. It has room for the longest one from the start.
struct Text(Vec<u8>);

impl Text {
    fn words(&mut self, words: &[u8]) {
        self.0.extend_from_slice(words);
    }

    /// A number, with at least so many digits.
    fn digits(&mut self, number: u64, least: u32) {
        if number >= 10 || least > 1 {
            self.digits(number / 10, least.saturating_sub(1));
        }
        self.0.push(b'0' + (number % 10) as u8);
    }

    fn number(&mut self, words: &[u8], number: u64) {
        self.words(words);
        self.digits(number, 1);
    }

    fn euros(&mut self, words: &[u8], micros: u64) {
        self.number(words, micros / 1_000_000);
        self.words(b".");
        self.digits(micros % 1_000_000, 6);
    }

    fn refusal(&mut self, refusal: u8, block: u64, place: u64, label: &[u8]) {
        self.number(b"REFUSED ", u64::from(refusal));
        self.number(b" BLOCK ", block);
        self.number(b" ENTRY ", place);
        if !label.is_empty() {
            self.words(b" ");
            self.words(label);
        }
        self.words(b"\n");
    }

    fn operator(&mut self, operator: &Operator) {
        self.number(b"OP ", u64::from(operator.number));
        self.number(b" TRANCHES ", u64::from(operator.rate()));
        self.euros(b" BALANCE ", operator.balance);
        self.words(b"\n");
    }

    fn totals(&mut self, zone: &Zone) {
        self.euros(b"TOTAL ", zone.contributed);
        self.euros(b" CREDITED ", zone.credited);
        self.euros(b" UNSHARED ", zone.unshared);
        let given = zone.credited + zone.unshared;
        let held: &[u8] = if given > zone.contributed {
            b" HELD -"
        } else {
            b" HELD "
        };
        self.euros(held, given.abs_diff(zone.contributed));
        self.words(b"\n");
    }
}

/// Fills the room from the input, until it is full or the input ends.
fn read_into(room: &mut [u8]) -> io::Result<usize> {
    let mut input = io::stdin().lock();
    let mut read = 0;
    while read < room.len() {
        match input.read(&mut room[read..]) {
            Ok(0) => break,
            Ok(more) => read += more,
            Err(error) if error.kind() == ErrorKind::Interrupted => {}
            Err(error) => return Err(error),
        }
    }
    Ok(read)
}

fn print_statement() -> io::Result<()> {
    let mut text = Text(Vec::new());
    text.0.try_reserve_exact(STATEMENT)?;
    let mut data = [0; LONGEST + 1];
    let read = read_into(&mut data)?;
    state(&data[..read], &mut text);
    let mut output = io::stdout().lock();
    output.write_all(&text.0)?;
    output.flush()
}

fn main() -> ExitCode {
    match print_statement() {
        Ok(()) => ExitCode::SUCCESS,
        Err(error) => {
            eprintln!("tuned: {error}");
            ExitCode::FAILURE
        }
    }
}
