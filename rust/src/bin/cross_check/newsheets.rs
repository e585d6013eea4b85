//! Sheets of the new form, with readings: read, and converted to and from the old form; the counts, the four whole lists, the whole
//! buffer. Whole, damaged, cut at every byte, one field wrong, full, too long.

use crate::lent::Lent;
use crate::random::Random;
use crate::tally::{at_random, every, Memory, Row, Tally};
use crate::{DAYS, MONTHS, YEARS};
use oesterwrok::{self as capi, independent as own, Reason};

/// The most items of a section, and the most readings.
const ITEMS: usize = 1_000;
const READINGS: usize = 500;

/// The greatest value of each field, and the longest window in days.
const MOST: [u8; 6] = [60, 12, 2, 30, 60, 60];
const WINDOW: u64 = 27_759;

/// The rows of the new form.
pub fn rows(seed: u64) -> Vec<Row> {
    vec![
        at_random(
            "new sheets read: whole, damaged, too long",
            60_000,
            seed,
            read_any,
        ),
        at_random(
            "new sheets cut at every byte",
            400,
            seed + 1,
            cut_everywhere,
        ),
        every(
            "a reading with each byte at each place",
            0..14 << 8,
            one_byte,
        ),
        at_random(
            "readings with ends and fields at their edges",
            100_000,
            seed + 2,
            edges,
        ),
        at_random(
            "sheets of both forms converted, and back",
            60_000,
            seed + 3,
            convert_any,
        ),
        at_random(
            "sheets of random bytes, in both forms",
            100_000,
            seed + 4,
            noise,
        ),
        at_random(
            "new sheets that the old reader refuses with 11",
            20_000,
            seed + 5,
            old_reader,
        ),
    ]
}

/// A reading's 14 bytes.
type Item = [u8; 14];

/// The bytes of a reading.
fn item(fields: [u8; 6], first: u32, last: u32) -> Item {
    let mut bytes = [0; 14];
    bytes[..6].copy_from_slice(&fields);
    bytes[6..10].copy_from_slice(&first.to_le_bytes());
    bytes[10..].copy_from_slice(&last.to_le_bytes());
    bytes
}

/// A good reading.
fn good(random: &mut Random) -> Item {
    let first = random.count(DAYS);
    let days = if random.one_in(4) {
        WINDOW
    } else {
        1 + random.below(WINDOW)
    };
    let last = (first + days - 1).min(DAYS - 1);
    let fields = MOST.map(|most| {
        if random.one_in(3) {
            0
        } else {
            random.below(u64::from(most) + 1) as u8
        }
    });
    item(fields, first as u32, last as u32)
}

/// A reading with a field or an end of its window at an edge, just inside or just outside.
fn at_edge(random: &mut Random) -> Item {
    let mut fields = MOST.map(|most| random.below(u64::from(most) + 1) as u8);
    if random.one_in(2) {
        let place = random.size(6);
        fields[place] = [MOST[place], MOST[place] + 1, 255][random.size(3)];
    }
    let ends = [
        0,
        1,
        DAYS - 1,
        DAYS,
        DAYS + 1,
        u64::from(u32::MAX),
        random.below(DAYS),
    ];
    let first = ends[random.size(7)];
    let last = match random.below(6) {
        0 => first,
        1 => first.saturating_sub(1),
        2 => first + WINDOW - 1,
        3 => first + WINDOW,
        _ => ends[random.size(7)],
    };
    item(fields, first as u32, last.min(u64::from(u32::MAX)) as u32)
}

/// A sheet, in parts.
struct Sheet {
    years: Vec<u16>,
    months: Vec<u32>,
    days: Vec<u32>,
    readings: Vec<Item>,
}

impl Sheet {
    /// A good one.
    fn good(random: &mut Random) -> Sheet {
        let counts = [(); 4].map(|()| few(random));
        Sheet {
            years: (0..counts[0])
                .map(|_| random.count(YEARS + 1) as u16)
                .collect(),
            months: (0..counts[1])
                .map(|_| random.count(MONTHS) as u32)
                .collect(),
            days: (0..counts[2]).map(|_| random.count(DAYS) as u32).collect(),
            readings: (0..counts[3].min(READINGS)).map(|_| good(random)).collect(),
        }
    }

    /// The bytes of the three sections of the old form.
    fn old_bytes(&self) -> Vec<u8> {
        let mut bytes = Vec::new();
        bytes.extend((self.years.len() as u16).to_le_bytes());
        bytes.extend(self.years.iter().flat_map(|year| year.to_le_bytes()));
        bytes.extend((self.months.len() as u16).to_le_bytes());
        bytes.extend(self.months.iter().flat_map(|month| month.to_le_bytes()));
        bytes.extend((self.days.len() as u16).to_le_bytes());
        bytes.extend(self.days.iter().flat_map(|day| day.to_le_bytes()));
        bytes
    }

    /// The bytes of the new form.
    fn bytes(&self) -> Vec<u8> {
        let mut bytes = self.old_bytes();
        bytes.extend((self.readings.len() as u16).to_le_bytes());
        bytes.extend(self.readings.iter().flatten());
        bytes
    }

    /// How many places each lent list needs.
    fn places(&self) -> [usize; 4] {
        [
            self.years.len(),
            self.months.len(),
            self.days.len(),
            8 * self.readings.len(),
        ]
    }
}

/// How many items: often none or few, now and then the most.
fn few(random: &mut Random) -> usize {
    match random.below(40) {
        0 => ITEMS,
        1 => READINGS,
        2..=14 => 0,
        _ => random.size(12),
    }
}

/// Four lent lists.
#[derive(Clone, PartialEq)]
struct Lists {
    three: (Lent<u16>, Lent<u32>, Lent<u32>),
    readings: Lent<u32>,
}

impl Memory for Lists {
    fn first_difference(&self, own: &Self) -> Option<String> {
        let readings = || self.readings.first_difference(&own.readings);
        self.three.first_difference(&own.three).or_else(readings)
    }
}

/// Reads by both, into lists of so many places.
fn read(bytes: &[u8], places: [usize; 4], random: &mut Random, tally: &mut Tally) {
    let mut capi_lists = Lists {
        three: (
            Lent::new(places[0], random),
            Lent::new(places[1], random),
            Lent::new(places[2], random),
        ),
        readings: Lent::new(places[3], random),
    };
    let mut own_lists = capi_lists.clone();
    let Lists {
        three: (y, m, d),
        readings: n,
    } = &mut capi_lists;
    let capi_answer = capi::read_new(bytes, y.lend(), m.lend(), d.lend(), n.lend());
    let Lists {
        three: (y, m, d),
        readings: n,
    } = &mut own_lists;
    let own_answer = own::read_new(bytes, y.lend(), m.lend(), d.lend(), n.lend());
    tally.compare_lent((capi_answer, capi_lists), (own_answer, own_lists), || {
        let shown = &bytes[..bytes.len().min(80)];
        format!(
            "read_new of {} bytes, {places:?} places lent: {shown:?}",
            bytes.len()
        )
    });
}

/// A conversion, of either side.
type Convert = fn(&[u8], &mut [u8]) -> Result<usize, Reason>;

/// Converts by both, into a buffer of so many bytes; what capi wrote, if it did.
fn convert(
    (what, by_capi, by_own): (&str, Convert, Convert),
    bytes: &[u8],
    room: usize,
    random: &mut Random,
    tally: &mut Tally,
) -> Option<Vec<u8>> {
    let mut capi_buffer = Lent::new(room, random);
    let mut own_buffer = capi_buffer.clone();
    let capi_answer = by_capi(bytes, capi_buffer.lend());
    let own_answer = by_own(bytes, own_buffer.lend());
    let written = capi_answer
        .ok()
        .map(|length| capi_buffer.lend()[..length].to_vec());
    tally.compare_lent((capi_answer, capi_buffer), (own_answer, own_buffer), || {
        let shown = &bytes[..bytes.len().min(80)];
        format!(
            "{what} of {} bytes, {room} bytes lent: {shown:?}",
            bytes.len()
        )
    });
    written
}

const TO_NEW: (&str, Convert, Convert) = ("to_new", capi::to_new, own::to_new);
const TO_OLD: (&str, Convert, Convert) = ("to_old", capi::to_old, own::to_old);

/// So many places, or now and then one too few, some more, or the most.
fn any_places(places: [usize; 4], random: &mut Random) -> [usize; 4] {
    match random.below(8) {
        0 => {
            let mut short = places;
            let which = random.size(4);
            short[which] = short[which].saturating_sub(1 + random.size(8));
            short
        }
        1 => [ITEMS, ITEMS, ITEMS, 8 * READINGS],
        2 => places.map(|count| count + random.size(9)),
        _ => places,
    }
}

fn read_any(random: &mut Random, tally: &mut Tally) {
    let mut sheet = Sheet::good(random);
    if random.one_in(4) && !sheet.readings.is_empty() {
        let place = random.size(sheet.readings.len());
        sheet.readings[place] = at_edge(random);
    }
    if random.one_in(16) {
        let one = good(random);
        sheet.readings.resize(READINGS + 1 + random.size(3), one);
    }
    if random.one_in(16) && !sheet.days.is_empty() {
        let place = random.size(sheet.days.len());
        sheet.days[place] = DAYS as u32;
    }
    let mut bytes = sheet.bytes();
    match random.below(8) {
        0 => bytes.truncate(random.size(bytes.len())),
        1 => (0..=random.below(8)).for_each(|_| bytes.push(random.next() as u8)),
        2 => {
            let place = random.size(bytes.len());
            bytes[place] = random.next() as u8;
        }
        _ => {}
    }
    let places = any_places(sheet.places(), random);
    read(&bytes, places, random, tally);
}

fn cut_everywhere(random: &mut Random, tally: &mut Tally) {
    let mut sheet = Sheet::good(random);
    sheet.years.truncate(3);
    sheet.months.truncate(3);
    sheet.days.truncate(3);
    sheet.readings.truncate(4);
    let bytes = sheet.bytes();
    for end in 0..=bytes.len() {
        read(&bytes[..end], sheet.places(), random, tally);
        convert(TO_OLD, &bytes[..end], bytes.len(), random, tally);
    }
}

/// Each of the 256 bytes at each of the 14 places of a good reading.
fn one_byte(number: u64, tally: &mut Tally) {
    let mut random = Random::new(2, number);
    let mut reading = item([22, 1, 1, 9, 60, 52], 258, 515);
    reading[(number >> 8) as usize] = number as u8;
    let sheet = Sheet {
        years: vec![11],
        months: Vec::new(),
        days: Vec::new(),
        readings: vec![item([0; 6], 0, 0), reading],
    };
    read(&sheet.bytes(), sheet.places(), &mut random, tally);
}

fn edges(random: &mut Random, tally: &mut Tally) {
    let sheet = Sheet {
        years: Vec::new(),
        months: Vec::new(),
        days: Vec::new(),
        readings: (0..1 + random.size(3)).map(|_| at_edge(random)).collect(),
    };
    read(&sheet.bytes(), sheet.places(), random, tally);
}

fn convert_any(random: &mut Random, tally: &mut Tally) {
    let mut sheet = Sheet::good(random);
    if random.one_in(2) {
        sheet.readings.clear();
    }
    if random.one_in(8) && !sheet.months.is_empty() {
        sheet.months[0] = MONTHS as u32;
    }
    let (mut old, mut new) = (sheet.old_bytes(), sheet.bytes());
    if random.one_in(8) {
        old.push(0);
        new.push(0);
    }
    let room = |length: usize, random: &mut Random| match random.below(4) {
        0 => length.saturating_sub(1),
        1 => length + random.size(20),
        _ => length,
    };
    let places = room(old.len() + 2, random);
    if let Some(there) = convert(TO_NEW, &old, places, random, tally) {
        let back = convert(TO_OLD, &there, there.len(), random, tally);
        tally.compare(Ok(back), Ok::<_, Reason>(Some(old)), || {
            "old to new and back".to_string()
        });
    }
    let places = room(new.len() - 2, random);
    if let Some(back) = convert(TO_OLD, &new, places, random, tally) {
        let there = convert(TO_NEW, &back, back.len() + 2, random, tally);
        tally.compare(Ok(there), Ok::<_, Reason>(Some(new)), || {
            "new to old and back".to_string()
        });
    }
}

/// Small bytes, so that the counts are often small.
fn noise(random: &mut Random, tally: &mut Tally) {
    let length = random.size(60);
    let byte = |random: &mut Random| match random.below(24) {
        0 => random.next() as u8,
        1..=5 => random.below(3) as u8,
        _ => 0,
    };
    let bytes: Vec<u8> = (0..length).map(|_| byte(random)).collect();
    let places = [
        random.size(4),
        random.size(4),
        random.size(4),
        8 * random.size(4),
    ];
    read(&bytes, places, random, tally);
    convert(TO_NEW, &bytes, bytes.len() + 2, random, tally);
    convert(TO_OLD, &bytes, bytes.len(), random, tally);
}

fn old_reader(random: &mut Random, tally: &mut Tally) {
    let bytes = Sheet::good(random).bytes();
    let (mut years, mut months, mut days) = ([0; ITEMS], [0; ITEMS], [0; ITEMS]);
    let answer = capi::read_sheet(&bytes, &mut years, &mut months, &mut days);
    tally.compare(answer, Err(Reason::BytesAfter), || {
        format!(
            "read_sheet of a sheet of the new form of {} bytes",
            bytes.len()
        )
    });
}
