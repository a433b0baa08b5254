//! States an event file, as docs/RULES.md and docs/FORMAT.md say: the plain program that the speed
//! of the program `statement` is compared with. It does the same job, in the order in which the
//! rules say it, reads standard input and prints what `statement` prints.
//!
//!     rustc -O --edition 2021 -o plain tools/bench/plain.rs && ./plain < FILE
//!
//! It does the whole job of the zone book: a zone keeps no table, each call is lent its tables and
//! a strip, trusts nothing of them, and writes the lines that it makes. A call allocates nothing.
//! The zone asks a sheet five questions and no more. There is only one sheet, and it stands in this
//! source, so the compiler can work its answers into the calls.
//!
//! With no setting it goes the shortest way to write down, which is not the fastest: each call
//! compares the numbers of a table each with each, which takes more than anything else on an
//! ordinary file, and a share-out adds an operator's weight up again for every object. Two settings
//! do the same job faster, alone or together:
//!
//! - `--cfg row_of_weights`: a share-out adds all weights up once and keeps them in a row.
//! - `--cfg quick_check`: numbers that rise are passed over once. Others set bits of a mask of
//!   1,024 bits, by their remainder, and only a number whose bit is set already is compared with
//!   those before it: where all numbers leave one remainder this is as slow as each with each. Up
//!   to the 28th a day is in any month, so the length of its month is not asked for.
//!
//! A third one does less than the rules ask, and only tells what the check takes:
//!
//! - `--cfg own_tables`: no call checks its tables, as if the program owned them.

use std::array;
use std::hint::black_box;
use std::io::{self, Read, Write};

const ENTRY: usize = 30;
const CHECKED: usize = 17 * ENTRY;
const BLOCK: usize = CHECKED + 2;
const LONGEST: usize = 128 * BLOCK;

/// Room for the longest statement: a line of at most 48 bytes for each entry, and then those of
/// the operators and the totals.
const STATEMENT: usize = 128 * 17 * 48 + 2_048;

const YEARS: usize = 41;
const OPERATORS: usize = 16;
const OBJECTS: usize = 1_024;

/// What a balance, a total or a count may come to.
const MOST: u64 = 4_000_000_000_000_000_000;

/// The places of a run: its register and its strips are shorter than a zone would take.
const REGISTER: usize = 64;
const STRIP: usize = 1_024;

/// What is asked for, or the number of a refusal.
type Answer<T = ()> = Result<T, u8>;

fn refuse_if(condition: bool, number: u8) -> Answer {
    match condition {
        true => Err(number),
        false => Ok(()),
    }
}

// The sheet

#[derive(Clone, Copy, Default)]
enum Kind {
    #[default]
    Covered,
    Connectable,
    ThirdParty,
}

/// An unreduced fraction: a numerator over a denominator.
struct Fraction(u32, u32);

/// All that the zone knows of a price sheet: its answers to five questions.
trait Sheet {
    /// Micro-euros a tranche and dwelling, 1 to 500,000,000.
    fn price(&self, kind: Kind, installed: u32) -> Option<u32>;

    fn coefficient(&self, installed: u32, received: u32) -> Option<Fraction>;

    /// In hundredths of the price, 0 to 100.
    fn contribution(&self) -> u32;

    /// What a tranche of a year weighs, 0 to 200.
    fn weight(&self, year: usize) -> u8;

    fn rounded(&self, numerator: u64, denominator: u32) -> u64;
}

/// The prices of what is installed from a day on.
struct Record {
    from: u32,
    prices: [u32; 3],
}

struct Dated {
    records: &'static [Record],
    contribution: u32,
    weights: [u8; YEARS],
}

#[rustfmt::skip]
const NETWORK: Dated = Dated {
    records: &[
        Record { from: 20080101, prices: [6_910_000, 18_770_000, 16_200_000] },
        Record { from: 20211001, prices: [6_939_900, 18_851_218, 16_270_097] },
        Record { from: 20220901, prices: [7_049_769, 19_149_661, 16_527_677] },
        Record { from: 20230701, prices: [7_218_082, 19_606_860, 16_922_277] },
        Record { from: 20240701, prices: [7_478_824, 20_315_128, 17_533_568] },
    ],
    contribution: 15,
    weights: [100; YEARS],
};

/// The common row: the coefficient after each number of whole years, in hundredths.
const ROW: [u32; 21] = [
    100, 110, 118, 125, 127, 128, 127, 125, 122, 118, 112, 106, 98, 90, 81, 70, 59, 46, 32, 25, 25,
];

impl Sheet for Dated {
    fn price(&self, kind: Kind, installed: u32) -> Option<u32> {
        let mut records = self.records.iter();
        let in_force = records.rfind(|record| record.from <= installed)?;
        Some(in_force.prices[kind as usize])
    }

    fn coefficient(&self, installed: u32, received: u32) -> Option<Fraction> {
        let months = months_of(received).saturating_sub(months_of(installed));
        let (years, rest) = (months as usize / 12, months % 12);
        let numerator = match ROW.get(years..years + 2) {
            Some(row) => (12 - rest) * row[0] + rest * row[1],
            None => 12 * ROW[20],
        };
        Some(Fraction(numerator, 1_200))
    }

    fn contribution(&self) -> u32 {
        self.contribution
    }

    fn weight(&self, year: usize) -> u8 {
        self.weights[year]
    }

    /// The seventh decimal is 5 or more where the rest is half of the denominator or more.
    fn rounded(&self, numerator: u64, denominator: u32) -> u64 {
        let denominator = u64::from(denominator);
        let (quotient, rest) = (numerator / denominator, numerator % denominator);
        quotient + u64::from(2 * rest >= denominator)
    }
}

// Days

fn year_of(date: u32) -> u32 {
    date / 10_000
}

fn months_of(date: u32) -> u32 {
    12 * year_of(date) + date / 100 % 100
}

fn is_date(number: u32) -> bool {
    let (year, month, day) = (year_of(number), number / 100 % 100, number % 100);
    if cfg!(quick_check) && (1..=28).contains(&day) {
        return (2008..=2099).contains(&year) && (1..=12).contains(&month);
    }
    let days = match month {
        2 if year % 4 == 0 => 29,
        2 => 28,
        4 | 6 | 9 | 11 => 30,
        1..=12 => 31,
        _ => 0,
    };
    (2008..=2099).contains(&year) && (1..=days).contains(&day)
}

// Tables and strips

#[derive(Clone, Copy)]
struct Operator {
    number: u32,
    tranches: [u32; YEARS],
    balance: u64,
}

impl Operator {
    fn new(number: u32) -> Operator {
        Operator {
            number,
            tranches: [0; YEARS],
            balance: 0,
        }
    }

    /// In 64 bits, since the tranches of a table that is lent may be any numbers.
    fn rate(&self) -> u64 {
        self.tranches.iter().copied().map(u64::from).sum()
    }

    /// What its tranches weigh, by the weights of the years that count.
    fn weight(&self, years: &[u32]) -> u32 {
        let pairs = self.tranches.iter().zip(years);
        pairs.map(|(tranches, weight)| tranches * weight).sum()
    }

    fn is_lawful(&self) -> bool {
        self.number != 0 && (1..=20).contains(&self.rate()) && self.balance <= MOST
    }
}

#[derive(Clone, Copy, Default)]
struct Object {
    number: u32,
    kind: Kind,
    installed: u32,
    dwellings: u32,
}

impl Object {
    fn is_lawful(&self) -> bool {
        self.number != 0 && is_date(self.installed) && (1..=10_000).contains(&self.dwellings)
    }
}

fn is_roll(roll: &[Operator]) -> bool {
    let numbers = roll.iter().map(|operator| operator.number);
    roll.iter().all(Operator::is_lawful) && differ(numbers)
}

fn is_register(register: &[Object]) -> bool {
    let numbers = register.iter().map(|object| object.number);
    register.iter().all(Object::is_lawful) && differ(numbers)
}

/// Does no number stand there twice? Neither way takes memory that has to be asked for.
fn differ(numbers: impl Iterator<Item = u32> + Clone) -> bool {
    if cfg!(quick_check) {
        rise(numbers.clone()) || differ_by_mask(numbers)
    } else {
        differ_by_pairs(numbers)
    }
}

/// Each number is compared with all later ones.
fn differ_by_pairs(mut numbers: impl Iterator<Item = u32> + Clone) -> bool {
    while let Some(number) = numbers.next() {
        if numbers.clone().any(|later| later == number) {
            return false;
        }
    }
    true
}

fn rise(numbers: impl Iterator<Item = u32>) -> bool {
    numbers.is_sorted_by(|number, next| number < next)
}

/// Each number sets a bit of a mask. Only one whose bit is set already is compared with those
/// before it.
fn differ_by_mask(numbers: impl Iterator<Item = u32> + Clone) -> bool {
    let mut mask = [0_u64; 16];
    for (at, number) in numbers.clone().enumerate() {
        let (word, bit) = (number as usize / 64 % 16, 1 << (number % 64));
        if mask[word] & bit != 0 && numbers.clone().take(at).any(|earlier| earlier == number) {
            return false;
        }
        mask[word] |= bit;
    }
    true
}

#[derive(Clone, Copy, Default)]
#[repr(u32)]
enum Nature {
    #[default]
    Charge = 1,
    Contribution = 2,
    Credit = 3,
}

/// A line of a bill or a share-out.
#[derive(Clone, Copy, Default)]
#[allow(dead_code)]
struct Line {
    nature: Nature,
    operator: u32,
    object: u32,
    unit: u64,
    quantity: u32,
    total: u64,
}

impl Line {
    fn new(nature: Nature, operator: u32, object: u32, unit: u64, quantity: u32) -> Line {
        let total = unit * u64::from(quantity);
        Line {
            nature,
            operator,
            object,
            unit,
            quantity,
            total,
        }
    }
}

// The zone

#[derive(Clone, Copy, PartialEq)]
enum Change {
    Commitment,
    Raise,
}

/// A commitment or a raise: once it is billed, it waits for its share-out.
struct Levy {
    date: u32,
    operator: u32,
    rate: u32,
    change: Change,
}

#[derive(Default)]
struct Zone {
    launched: Option<u32>,
    last: Option<u32>,
    operators: usize,
    objects: usize,
    contributed: u64,
    credited: u64,
    unshared: u64,
    credit_lines: u64,
}

/// The checks, in the order in which the calls ask them.
impl Zone {
    /// The counts of entries need no limit of their own: no slice holds so many.
    fn check_tables(&self, roll: &[Operator], register: &[Object]) -> Answer {
        if cfg!(own_tables) {
            return Ok(());
        }
        let roll = roll.get(..self.operators).ok_or(1)?;
        let register = register.get(..self.objects).ok_or(1)?;
        let totals = [self.contributed, self.credited, self.unshared];
        refuse_if(!is_roll(roll) || !is_register(register), 1)?;
        refuse_if(totals.iter().any(|&total| total > MOST), 1)?;
        refuse_if(self.credit_lines > MOST, 1)
    }

    fn check_date(&self, date: u32) -> Answer {
        refuse_if(!is_date(date), 2)?;
        refuse_if(self.last.is_some_and(|last| date < last), 3)?;
        refuse_if(self.index(date) >= YEARS, 4)
    }

    /// The operator's place on the roll, and the tranches that it adds there.
    fn check_roll(&self, roll: &[Operator], levy: &Levy) -> Answer<(usize, u32)> {
        refuse_if(levy.operator == 0, 5)?;
        refuse_if(!(1..=20).contains(&levy.rate), 6)?;
        let counted = &roll[..self.operators];
        let is_its_entry = |entry: &Operator| entry.number == levy.operator;
        match (levy.change, counted.iter().position(is_its_entry)) {
            (Change::Commitment, Some(_)) => Err(7),
            (Change::Commitment, None) => {
                refuse_if(counted.len() == OPERATORS.min(roll.len()), 10)?;
                Ok((counted.len(), levy.rate))
            }
            (Change::Raise, None) => Err(8),
            (Change::Raise, Some(at)) => {
                let present = counted[at].rate() as u32;
                refuse_if(levy.rate <= present, 9)?;
                Ok((at, levy.rate - present))
            }
        }
    }

    fn check_register(&self, register: &[Object], object: &Object) -> Answer {
        let counted = &register[..self.objects];
        let present = counted.iter().any(|entry| entry.number == object.number);
        refuse_if(object.number == 0 || present, 11)?;
        refuse_if(!(1..=10_000).contains(&object.dwellings), 12)?;
        refuse_if(counted.len() == OBJECTS.min(register.len()), 13)
    }

    fn index(&self, date: u32) -> usize {
        match self.launched {
            Some(launch) if date > launch => (year_of(date) - year_of(launch) + 1) as usize,
            _ => 0,
        }
    }

    /// The place of the operator, which is a newcomer if it is the first after those counted.
    fn entry<'a>(&mut self, roll: &'a mut [Operator], at: usize, number: u32) -> &'a mut Operator {
        if at == self.operators {
            roll[at] = Operator::new(number);
            self.operators += 1;
        }
        &mut roll[at]
    }
}

/// The calls. A commitment and a raise are told apart by their change, an opening and a cabling by
/// their kind.
impl Zone {
    /// A commitment or a raise before the launch.
    fn subscribe(&mut self, roll: &mut [Operator], register: &[Object], levy: &Levy) -> Answer {
        self.check_tables(roll, register)?;
        self.check_date(levy.date)?;
        let (at, tranches) = self.check_roll(roll, levy)?;
        self.entry(roll, at, levy.operator).tranches[0] += tranches;
        self.last = Some(levy.date);
        Ok(())
    }

    fn launch(&mut self, roll: &[Operator], register: &[Object], date: u32) -> Answer {
        self.check_tables(roll, register)?;
        self.check_date(date)?;
        self.launched = Some(date);
        self.last = Some(date);
        Ok(())
    }

    /// An opening or a cabling: each operator is charged.
    fn install(
        &mut self,
        sheet: &impl Sheet,
        roll: &[Operator],
        register: &mut [Object],
        strip: &mut [Line],
        object: Object,
    ) -> Answer {
        self.check_tables(roll, register)?;
        self.check_date(object.installed)?;
        self.check_register(register, &object)?;
        let price = sheet.price(object.kind, object.installed).ok_or(14)?;
        let strip = strip.get_mut(..self.operators).ok_or(16)?;
        for (line, operator) in strip.iter_mut().zip(roll) {
            let unit = u64::from(price) * operator.rate();
            let (number, dwellings) = (object.number, object.dwellings);
            *line = Line::new(Nature::Charge, operator.number, number, unit, dwellings);
        }
        register[self.objects] = object;
        self.objects += 1;
        self.last = Some(object.installed);
        Ok(())
    }

    /// A commitment or a raise after the launch: it is billed for each object.
    fn bill(
        &mut self,
        sheet: &impl Sheet,
        roll: &[Operator],
        register: &[Object],
        strip: &mut [Line],
        levy: &Levy,
    ) -> Answer {
        self.check_tables(roll, register)?;
        self.check_date(levy.date)?;
        let (_, tranches) = self.check_roll(roll, levy)?;
        let objects = &register[..self.objects];
        check_prices(sheet, objects)?;
        // All is asked of every object before anything is written for one.
        let earlier = |object: &&Object| object.installed < levy.date;
        let coefficient = |object: &Object| sheet.coefficient(object.installed, levy.date);
        let mut lines = objects.len();
        for object in objects.iter().filter(earlier) {
            refuse_if(coefficient(object).is_none(), 15)?;
            lines += 1;
        }
        let mut places = strip.get_mut(..lines).ok_or(16)?.iter_mut();
        for object in objects {
            let mut write = |nature, unit| {
                let (number, dwellings) = (object.number, object.dwellings);
                let line = Line::new(nature, levy.operator, number, unit, dwellings);
                places.next().map(|place| *place = line).ok_or(16)
            };
            let plain = plain_price(sheet, object, tranches).ok_or(14)?;
            if earlier(&object) {
                let Fraction(numerator, denominator) = coefficient(object).ok_or(15)?;
                let charge = sheet.rounded(plain * u64::from(numerator), denominator);
                write(Nature::Charge, charge)?;
                write(Nature::Contribution, contribution(sheet, plain))?;
            } else {
                write(Nature::Charge, plain)?;
            }
        }
        self.last = Some(levy.date);
        Ok(())
    }

    /// The share-out of a levy.
    fn share_out(
        &mut self,
        sheet: &impl Sheet,
        roll: &mut [Operator],
        register: &[Object],
        strip: &mut [Line],
        levy: &Levy,
    ) -> Answer {
        self.check_tables(roll, register)?;
        let (at, tranches) = self.check_roll(roll, levy)?;
        let objects = &register[..self.objects];
        check_prices(sheet, objects)?;
        let amount = |object: &Object| match plain_price(sheet, object, tranches) {
            Some(plain) if object.installed < levy.date => {
                contribution(sheet, plain) * u64::from(object.dwellings)
            }
            _ => 0,
        };
        let index = self.index(levy.date);
        let years: [u32; YEARS] = array::from_fn(|year| u32::from(sheet.weight(year)));
        let years = &years[..=index];
        let operators = &mut roll[..self.operators];
        // The compiler leaves out the row where it is not asked for.
        let mut row = [0; OPERATORS];
        if cfg!(row_of_weights) {
            for (weight, operator) in row.iter_mut().zip(&*operators) {
                *weight = operator.weight(years);
            }
        }
        let weight = |at: usize, operator: &Operator| match cfg!(row_of_weights) {
            true => row[at],
            false => operator.weight(years),
        };
        let (mut whole, mut sharers) = (0, 0);
        for (at, operator) in operators.iter().enumerate() {
            let weight = weight(at, operator);
            whole += weight;
            sharers += usize::from(weight > 0);
        }
        // Lines are counted first, since a refused call writes none.
        let sharing = objects.iter().filter(|object| amount(object) > 0).count();
        let mut places = strip.get_mut(..sharing * sharers).ok_or(16)?.iter_mut();
        let (mut contributed, mut credited) = (0, 0);
        for object in objects {
            let amount = amount(object);
            if amount == 0 {
                continue;
            }
            contributed += amount;
            for (at, operator) in operators.iter_mut().enumerate() {
                let weight = weight(at, operator);
                if weight == 0 {
                    continue;
                }
                let share = sheet.rounded(amount * u64::from(weight), whole);
                let line = Line::new(Nature::Credit, operator.number, object.number, share, 1);
                *places.next().ok_or(16)? = line;
                operator.balance += share;
                credited += share;
            }
        }
        // Then no operator weighs anything, so no line was written.
        if whole == 0 {
            self.unshared += contributed;
        }
        self.contributed += contributed;
        self.credited += credited;
        self.credit_lines += (sharing * sharers) as u64;
        self.entry(roll, at, levy.operator).tranches[index] += tranches;
        Ok(())
    }
}

fn check_prices(sheet: &impl Sheet, objects: &[Object]) -> Answer {
    let priced = |object: &Object| sheet.price(object.kind, object.installed).is_some();
    objects.iter().all(priced).then_some(()).ok_or(14)
}

fn plain_price(sheet: &impl Sheet, object: &Object, tranches: u32) -> Option<u64> {
    let price = sheet.price(object.kind, object.installed)?;
    Some(u64::from(price) * u64::from(tranches))
}

fn contribution(sheet: &impl Sheet, plain: u64) -> u64 {
    sheet.rounded(plain * u64::from(sheet.contribution()), 100)
}

// The file

fn passes(block: &[u8; BLOCK]) -> bool {
    let (checked, check) = block.split_at(CHECKED);
    let follow = |rest, &byte: &u8| (rest * 256 + u32::from(byte)) % 65_521;
    checked.iter().fold(0, follow) == u32::from(check[0]) * 256 + u32::from(check[1])
}

/// What refuses the entry before the zone is asked.
fn fault(entry: &[u8; ENTRY], after_blank: bool) -> Option<u8> {
    let letter = entry[0];
    if !b"EAPSL\0".contains(&letter) {
        return Some(21);
    }
    if letter == 0 || after_blank {
        return Some(22);
    }
    let form_is_wrong = entry[13] > u8::from(letter == b'S');
    let filled_in_vain = letter == b'L' && entry[5..13] != [0; 8];
    let printed = entry[14..].iter().all(|byte| (b' '..=b'~').contains(byte));
    (form_is_wrong || filled_in_vain || !printed).then_some(23)
}

/// What a run lends to the calls: its own tables and strips, of which they know nothing.
struct Lent<'a> {
    roll: &'a mut [Operator],
    register: &'a mut [Object],
    bill: &'a mut [Line],
    credits: &'a mut [Line],
}

/// Makes the call that an entry asks for. What is billed is shared out at once.
fn take(zone: &mut Zone, sheet: &impl Sheet, lent: &mut Lent, entry: &[u8; ENTRY]) -> Answer {
    let word = |at: usize| u32::from_be_bytes(array::from_fn(|byte| entry[at + byte]));
    let (date, number, size) = (word(1), word(5), word(9));
    let object = Object {
        number,
        kind: match (entry[0], entry[13]) {
            (b'P', _) => Kind::Covered,
            (_, 0) => Kind::Connectable,
            _ => Kind::ThirdParty,
        },
        installed: date,
        dwellings: size,
    };
    let levy = Levy {
        date,
        operator: number,
        rate: size,
        change: match entry[0] {
            b'E' => Change::Commitment,
            _ => Change::Raise,
        },
    };
    match (entry[0], zone.launched) {
        (b'L', None) => zone.launch(lent.roll, lent.register, date),
        (b'L', Some(_)) | (b'P' | b'S', None) => Err(24),
        (b'P' | b'S', _) => zone.install(sheet, lent.roll, lent.register, lent.bill, object),
        (_, None) => zone.subscribe(lent.roll, lent.register, &levy),
        (_, Some(_)) => {
            refuse_if(lent.credits.len() < zone.operators * zone.objects, 16)?;
            zone.bill(sheet, lent.roll, lent.register, lent.bill, &levy)?;
            zone.share_out(sheet, lent.roll, lent.register, lent.credits, &levy)
        }
    }
}

/// Takes the entries of a file, and writes each refusal.
fn run(zone: &mut Zone, sheet: &impl Sheet, lent: &mut Lent, data: &[u8], text: &mut Text) {
    let (blocks, rest) = data.as_chunks::<BLOCK>();
    if data.len() > LONGEST || !rest.is_empty() {
        return text.refusal(19, 0, 0, b"");
    }
    for (number, block) in (1..).zip(blocks) {
        if !passes(block) {
            return text.refusal(20, number, 0, b"");
        }
        let mut after_blank = false;
        for (place, entry) in (1..).zip(block.as_chunks::<ENTRY>().0) {
            if *entry == [0; ENTRY] {
                after_blank = true;
            } else if let Some(refusal) = fault(entry, after_blank) {
                text.refusal(refusal, number, place, b"");
            } else if let Err(refusal) = take(zone, sheet, lent, entry) {
                text.refusal(refusal, number, place, entry[14..].trim_ascii_end());
            }
        }
    }
}

/// Runs a file and writes its statement. What is lent comes out of a black box: else the compiler
/// might leave out the lines, which nobody reads, or checks of tables that only the calls fill.
fn state(data: &[u8], text: &mut Text) {
    let mut lent = Lent {
        roll: &mut [Operator::new(0); OPERATORS],
        register: &mut [Object::default(); REGISTER],
        bill: &mut [Line::default(); STRIP],
        credits: &mut [Line::default(); STRIP],
    };
    let lent = black_box(&mut lent);
    let mut zone = Zone::default();
    run(&mut zone, &NETWORK, lent, data, text);
    for operator in &lent.roll[..zone.operators] {
        text.operator(operator);
    }
    text.totals(&zone);
}

// The text

/// The statement as it grows. It has room for the longest one from the start.
struct Text(Vec<u8>);

impl Text {
    fn words(&mut self, words: &[u8]) {
        self.0.extend_from_slice(words);
    }

    /// A number, with at least so many digits.
    fn digits(&mut self, number: u64, least: u32) {
        if number >= 10 || least > 1 {
            self.digits(number / 10, least.saturating_sub(1));
        }
        self.0.push(b'0' + (number % 10) as u8);
    }

    fn number(&mut self, words: &[u8], number: u64) {
        self.words(words);
        self.digits(number, 1);
    }

    fn euros(&mut self, words: &[u8], micros: u64) {
        self.number(words, micros / 1_000_000);
        self.words(b".");
        self.digits(micros % 1_000_000, 6);
    }

    fn refusal(&mut self, refusal: u8, block: u64, place: u64, label: &[u8]) {
        self.number(b"REFUSED ", u64::from(refusal));
        self.number(b" BLOCK ", block);
        self.number(b" ENTRY ", place);
        if !label.is_empty() {
            self.words(b" ");
            self.words(label);
        }
        self.words(b"\n");
    }

    fn operator(&mut self, operator: &Operator) {
        self.number(b"OP ", u64::from(operator.number));
        self.number(b" TRANCHES ", operator.rate());
        self.euros(b" BALANCE ", operator.balance);
        self.words(b"\n");
    }

    fn totals(&mut self, zone: &Zone) {
        self.euros(b"TOTAL ", zone.contributed);
        self.euros(b" CREDITED ", zone.credited);
        self.euros(b" UNSHARED ", zone.unshared);
        let given = zone.credited + zone.unshared;
        self.words(b" HELD ");
        if given > zone.contributed {
            self.words(b"-");
        }
        self.euros(b"", given.abs_diff(zone.contributed));
        self.words(b"\n");
    }
}

/// An error ends the program with status 1 and a message.
fn main() -> io::Result<()> {
    let (mut data, mut text) = (Vec::new(), Text(Vec::new()));
    data.try_reserve_exact(LONGEST + 1)?;
    text.0.try_reserve_exact(STATEMENT)?;
    let mut input = io::stdin().take(LONGEST as u64 + 1);
    input.read_to_end(&mut data)?;
    state(&data, &mut text);
    io::stdout().write_all(&text.0)?;
    io::stdout().flush()
}
