//! Sheets read and written: the counts, the three whole lists, the whole buffer.

use crate::lent::Lent;
use crate::random::Random;
use crate::tally::{at_random, every, Row, Tally};
use crate::{DAYS, MONTHS, YEARS};
use oesterwrok::{self as capi, independent as own};

/// The most items that a section may have.
const ITEMS: usize = 1_000;

/// The rows of sheets.
pub fn rows(seed: u64) -> Vec<Row> {
    vec![
        at_random(
            "sheets read: whole, damaged, cut, too long",
            100_000,
            seed,
            read_any,
        ),
        at_random("sheets of random bytes read", 100_000, seed + 1, read_noise),
        at_random("sheets written", 100_000, seed + 2, write_any),
        every(
            "a sheet of each year of 16 bits, read and written",
            0..1 << 16,
            |year, tally| year_alone(year as u16, tally),
        ),
    ]
}

/// Three lists, as a sheet holds them.
struct Lists {
    years: Vec<u16>,
    months: Vec<u32>,
    days: Vec<u32>,
}

impl Lists {
    /// Lists of items in range; a year is a civil one, 0 to 41,040.
    fn good(random: &mut Random) -> Lists {
        let (years, months, days) = (any_count(random), any_count(random), any_count(random));
        Lists {
            years: (0..years).map(|_| random.count(YEARS + 1) as u16).collect(),
            months: (0..months).map(|_| random.count(MONTHS) as u32).collect(),
            days: (0..days).map(|_| random.count(DAYS) as u32).collect(),
        }
    }

    /// Puts an item out of range, if the section that is drawn has one.
    fn spoil(&mut self, random: &mut Random) {
        match random.below(3) {
            0 => put(&mut self.years, random, |random| match random.below(3) {
                0 => YEARS as u16 + 1,
                1 => u16::MAX,
                _ => YEARS as u16 + 1 + random.below(65_535 - YEARS) as u16,
            }),
            1 => put(&mut self.months, random, |random| beyond(MONTHS, random)),
            _ => put(&mut self.days, random, |random| beyond(DAYS, random)),
        }
    }

    /// Makes a section longer than a sheet allows.
    fn lengthen(&mut self, random: &mut Random) {
        let count = ITEMS + 1 + random.size(100) * random.size(2);
        match random.below(3) {
            0 => self.years.resize(count, 7),
            1 => self.months.resize(count, 8),
            _ => self.days.resize(count, 9),
        }
    }

    /// The bytes of these lists as the paper lays them out, whether or not a sheet may hold them.
    fn bytes(&self) -> Vec<u8> {
        let mut bytes = Vec::new();
        push(&mut bytes, self.years.len() as u64, 2);
        self.years
            .iter()
            .for_each(|&year| push(&mut bytes, year.into(), 2));
        push(&mut bytes, self.months.len() as u64, 2);
        self.months
            .iter()
            .for_each(|&month| push(&mut bytes, month.into(), 4));
        push(&mut bytes, self.days.len() as u64, 2);
        self.days
            .iter()
            .for_each(|&day| push(&mut bytes, day.into(), 4));
        bytes
    }
}

/// Adds a number in so many bytes, least first.
fn push(bytes: &mut Vec<u8>, number: u64, width: u32) {
    bytes.extend((0..width).map(|place| (number >> (8 * place)) as u8));
}

/// How many items a section has: often none or few, now and then 1,000.
fn any_count(random: &mut Random) -> usize {
    match random.below(24) {
        0 => ITEMS,
        1 => random.size(ITEMS + 1),
        2..=8 => 0,
        9..=13 => 1 + random.size(3),
        _ => random.size(40),
    }
}

/// Puts a number at one place of a list, if it has any.
fn put<T>(list: &mut [T], random: &mut Random, number: fn(&mut Random) -> T) {
    if !list.is_empty() {
        let place = random.size(list.len());
        list[place] = number(random);
    }
}

/// A number out of a range that starts at 0.
fn beyond(limit: u64, random: &mut Random) -> u32 {
    match random.below(3) {
        0 => limit as u32,
        1 => u32::MAX - random.below(2) as u32,
        _ => (limit + random.below(u64::from(u32::MAX) - limit)) as u32,
    }
}

fn read_any(random: &mut Random, tally: &mut Tally) {
    let mut lists = Lists::good(random);
    match random.below(16) {
        0 => lists.spoil(random),
        1 => lists.lengthen(random),
        2 => {
            lists.spoil(random);
            lists.lengthen(random);
        }
        3 => {
            lists.spoil(random);
            lists.spoil(random);
        }
        _ => {}
    }
    let mut bytes = lists.bytes();
    if random.one_in(3) {
        damage(&mut bytes, &lists, random);
    }
    let counts = [lists.years.len(), lists.months.len(), lists.days.len()];
    read(&bytes, counts, random, tally);
}

/// Changes a sheet's bytes: cuts it, adds bytes, changes one byte, or overwrites a count.
fn damage(bytes: &mut Vec<u8>, lists: &Lists, random: &mut Random) {
    match random.below(6) {
        0 => bytes.truncate(random.size(bytes.len())),
        1 => bytes.truncate(bytes.len() - 1 - random.size(6)),
        2 => (0..=random.below(8)).for_each(|_| bytes.push(random.next() as u8)),
        3 => {
            let place = random.size(bytes.len());
            bytes[place] = random.next() as u8;
        }
        _ => {
            let months_at = 2 + 2 * lists.years.len();
            let place = [0, months_at, months_at + 2 + 4 * lists.months.len()][random.size(3)];
            let count = [1_001, random.below(65_536), random.below(1_001)][random.size(3)] as u16;
            bytes[place..place + 2].copy_from_slice(&count.to_le_bytes());
        }
    }
}

/// A short sheet of noise: small bytes, so that its counts are often small.
fn read_noise(random: &mut Random, tally: &mut Tally) {
    let length = random.size(40);
    let byte = |random: &mut Random| {
        if random.one_in(12) {
            random.next() as u8
        } else {
            random.below(3) as u8
        }
    };
    let bytes: Vec<u8> = (0..length)
        .map(|_| if random.one_in(2) { 0 } else { byte(random) })
        .collect();
    let counts = [random.size(4), random.size(4), random.size(4)];
    read(&bytes, counts, random, tally);
}

/// A year alone on a sheet: refused for 1, or read and written.
fn year_alone(year: u16, tally: &mut Tally) {
    let lists = Lists {
        years: vec![year],
        months: Vec::new(),
        days: Vec::new(),
    };
    let mut random = Random::new(1, year.into());
    read_into([2, 1, 1], &lists.bytes(), &mut random, tally);
    write(&lists, 10, &mut random, tally);
}

fn read(bytes: &[u8], counts: [usize; 3], random: &mut Random, tally: &mut Tally) {
    let short = random.one_in(4);
    let mut places = counts.map(|count| any_places(count, short, random));
    if random.one_in(8) {
        places = [ITEMS; 3];
    }
    read_into(places, bytes, random, tally);
}

fn read_into(places: [usize; 3], bytes: &[u8], random: &mut Random, tally: &mut Tally) {
    let mut capi_lists = (
        Lent::<u16>::new(places[0], random),
        Lent::<u32>::new(places[1], random),
        Lent::<u32>::new(places[2], random),
    );
    let mut own_lists = capi_lists.clone();
    let (years, months, days) = &mut capi_lists;
    let capi_answer = capi::read_sheet(bytes, years.lend(), months.lend(), days.lend());
    let (years, months, days) = &mut own_lists;
    let own_answer = own::read_sheet(bytes, years.lend(), months.lend(), days.lend());
    tally.compare_lent((capi_answer, capi_lists), (own_answer, own_lists), || {
        format!(
            "read_sheet of {} bytes, {places:?} places lent: {:?}",
            bytes.len(),
            &bytes[..bytes.len().min(60)]
        )
    });
}

/// How many places to lend for so many items or bytes: just enough or more; where `short`, also too few.
fn any_places(count: usize, short: bool, random: &mut Random) -> usize {
    match random.below(4) {
        0 if short => count.saturating_sub(1),
        1 if short => random.size(count + 1),
        2 => count + random.size(20),
        _ => count,
    }
}

fn write_any(random: &mut Random, tally: &mut Tally) {
    let mut lists = Lists::good(random);
    if random.one_in(5) {
        lists.spoil(random);
    }
    if random.one_in(6) {
        lists.lengthen(random);
    }
    if random.one_in(8) {
        lists.spoil(random);
    }
    let short = random.one_in(3);
    let length = any_places(lists.bytes().len(), short, random);
    write(&lists, length, random, tally);
}

fn write(lists: &Lists, length: usize, random: &mut Random, tally: &mut Tally) {
    let Lists {
        years,
        months,
        days,
    } = lists;
    let mut capi_buffer = Lent::new(length, random);
    let mut own_buffer = capi_buffer.clone();
    let capi_answer = capi::write_sheet(years, months, days, capi_buffer.lend());
    let own_answer = own::write_sheet(years, months, days, own_buffer.lend());
    tally.compare_lent((capi_answer, capi_buffer), (own_answer, own_buffer), || {
        let counts = [years.len(), months.len(), days.len()];
        format!("write_sheet of {counts:?} items, {length} bytes lent")
    });
}
