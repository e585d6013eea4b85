//! Drawers of days: how many records were filled or why none was, and the whole lent list; and of the Rattle call, whose records do not
//! leave it, what they add up to.

use crate::lent::Lent;
use crate::random::Random;
use crate::tally::{at_random, every, part, Piece, Row, Tally, PIECES};
use crate::DAYS;
use oesterwrok::drawn::{drawn, sum_of};
use oesterwrok::{self as capi, independent as own, DateRecord, DrawerRefused, Reason};
use std::sync::Arc;

/// The most days of a drawer.
const MOST: usize = 4_096;

/// Days out of range; among them those that are good ones if they are cut to 24 or 31 bits, or taken with a sign.
const OUTSIDE: [u32; 7] = [
    DAYS as u32,
    DAYS as u32 + 1,
    1 << 24,
    i32::MAX as u32,
    1 << 31,
    (1 << 31) + 29,
    u32::MAX,
];

/// Lengths of drawers; among those above the most some that are good ones if they are cut to 12 or 16 bits.
const LENGTHS: [usize; 22] = [
    0, 1, 2, 3, 4, 5, 6, 7, 8, 9, 29, 60, 940, 4_095, 4_096, 4_097, 4_098, 8_192, 65_535, 65_536,
    69_632, 100_000,
];

/// The most records that are lent to an overlong drawer.
const RECORDS: usize = 10_000;

/// The rows of drawers.
pub fn rows(seed: u64) -> Vec<Row> {
    let last = DAYS as u32 - 1;
    let mut shuffled: Vec<u32> = (0..=last).collect();
    Random::new(seed, 0).shuffle(&mut shuffled);
    vec![
        in_drawers(
            "every day in drawers of 4,096, in order, and singly",
            |place| place,
        ),
        in_drawers(
            "every day in drawers of 4,096, backward, and singly",
            move |place| last - place,
        ),
        in_drawers(
            "every day in drawers of 4,096, shuffled, and singly",
            move |place| shuffled[place as usize],
        ),
        every(
            "a bad day at each place of a full drawer",
            0..MOST as u64,
            bad_at,
        ),
        every(
            "drawers by length, bad days and records lent",
            0..LENGTHS.len() as u64,
            |item, tally| of_length(LENGTHS[item as usize], tally),
        ),
        at_random(
            "drawers of any days into any records",
            100_000,
            seed + 1,
            any_drawer,
        ),
        at_random(
            "drawers of days near each other",
            100_000,
            seed + 2,
            near_drawer,
        ),
    ]
}

/// A row over every day in some order, in full drawers and a last one; each record is then held to what capi gives for its day alone.
fn in_drawers(what: &'static str, day: impl Fn(u32) -> u32 + Send + Sync + 'static) -> Row {
    let day = Arc::new(day);
    let drawers = 0..DAYS.div_ceil(MOST as u64);
    let piece = |number: u64| -> Piece {
        let (day, mine) = (day.clone(), part(&drawers, number));
        Box::new(move |tally| {
            let mut random = Random::new(3, number);
            for drawer in mine.clone() {
                let first = drawer * MOST as u64;
                let end = DAYS.min(first + MOST as u64);
                let days: Vec<u32> = (first..end).map(|place| day(place as u32)).collect();
                let places = days.len() + random.size(3);
                let mut list = compare(&days, places, &mut random, tally);
                each_singly(&days, list.lend(), tally);
            }
        })
    };
    Row {
        what,
        pieces: (0..PIECES).map(piece).collect(),
    }
}

/// Fills a drawer by both sides, into so many records; gives capi's list.
fn compare(
    days: &[u32],
    places: usize,
    random: &mut Random,
    tally: &mut Tally,
) -> Lent<DateRecord> {
    let mut capi_list = Lent::new(places, random);
    let mut own_list = capi_list.clone();
    let capi_answer = capi::dates(days, capi_list.lend());
    let own_answer = own::dates(days, own_list.lend());
    tally.compare_lent((capi_answer, &capi_list), (own_answer, &own_list), || {
        let front = &days[..days.len().min(8)];
        format!(
            "dates of {} days, {places} records lent; the first days {front:?}",
            days.len()
        )
    });
    compare_drawn(days, tally);
    capi_list
}

/// Fills the same drawer by the Rattle call, which has 4,096 records of its own, and by the independent one.
fn compare_drawn(days: &[u32], tally: &mut Tally) {
    tally.compare(drawn(days), own_drawn(days), || {
        let front = &days[..days.len().min(8)];
        format!("fill_dates of {} days; the first {front:?}", days.len())
    });
}

/// The independent one's drawer, added up.
fn own_drawn(days: &[u32]) -> Result<(u32, u64), DrawerRefused> {
    let mut records = vec![DateRecord::default(); MOST];
    let count = own::dates(days, &mut records)?;
    let filled = &records[..count as usize];
    Ok((count, sum_of(filled.iter().map(DateRecord::date))))
}

/// Holds each record to capi's own single call.
fn each_singly(days: &[u32], records: &[DateRecord], tally: &mut Tally) {
    for (place, (&day, &record)) in days.iter().zip(records).enumerate() {
        let record: Result<DateRecord, Reason> = Ok(record);
        tally.compare(record, Ok(capi::record_of_day(day.into())), || {
            format!("record {place} of a drawer, of day {day}; below it what the single call gives")
        });
    }
}

/// A full drawer with a day out of range at a place, and every other time with more of them behind it.
fn bad_at(place: u64, tally: &mut Tally) {
    let mut random = Random::new(4, place);
    let mut days = good_days(MOST, &mut random);
    days[place as usize] = outside(&mut random);
    for _ in 0..3 * (place % 2) {
        let later = place as usize + random.size(MOST - place as usize);
        days[later] = outside(&mut random);
    }
    compare(&days, MOST, &mut random, tally);
}

/// Drawers of a length, without a bad day and with each kind of bad day at each kind of place.
fn of_length(length: usize, tally: &mut Tally) {
    let mut random = Random::new(5, length as u64);
    let good = good_days(length, &mut random);
    into_rooms(&good, &mut random, tally);
    for bad in OUTSIDE {
        for places in bad_places(length) {
            let mut days = good.clone();
            places.iter().for_each(|&place| days[place] = bad);
            into_rooms(&days, &mut random, tally);
        }
    }
}

/// Places for bad days in a drawer of a length: the first, the last, the second, the middle, two of them, and all.
fn bad_places(length: usize) -> Vec<Vec<usize>> {
    let Some(last) = length.checked_sub(1) else {
        return vec![];
    };
    let (second, middle) = (last.min(1), length / 2);
    vec![
        vec![0],
        vec![last],
        vec![second],
        vec![middle],
        vec![0, last],
        vec![middle, last],
        (0..length).collect(),
    ]
}

/// A drawer into no record, half as many as it has days, one too few, just as many, and more.
fn into_rooms(days: &[u32], random: &mut Random, tally: &mut Tally) {
    for places in rooms(days.len()) {
        compare(days, places, random, tally);
    }
}

/// How many records to lend for a drawer of a length.
fn rooms(length: usize) -> Vec<usize> {
    let mut rooms = [
        0,
        length / 2,
        length.saturating_sub(1),
        length,
        length + 1,
        length + 7,
    ]
    .map(|room| room.min(RECORDS))
    .to_vec();
    rooms.dedup();
    rooms
}

/// A drawer of any days, most of them good, into any number of records.
fn any_drawer(random: &mut Random, tally: &mut Tally) {
    let length = match random.below(400) {
        0 => MOST + 2 - random.size(5),
        1..=40 => random.size(3),
        _ => random.size(40),
    };
    let mut days = good_days(length, random);
    if length > 0 && random.one_in(2) {
        for _ in 0..1 + random.below(3) {
            days[random.size(length)] = any_day(random);
        }
    }
    let places = any_places(length, random);
    compare(&days, places, random, tally);
}

/// A drawer whose days are the same, next to each other, in the same month or in the months beside it, on or back; now and then one is
/// far off, or the same day of another bu.
fn near_drawer(random: &mut Random, tally: &mut Tally) {
    let mut day = random.count(DAYS) as i64;
    let length = random.size(64);
    let days: Vec<u32> = (0..length)
        .map(|_| {
            day += near_step(random);
            day = day.rem_euclid(DAYS as i64);
            day as u32
        })
        .collect();
    compare(&days, length, random, tally);
}

/// A step from a day to the next of a drawer.
fn near_step(random: &mut Random) -> i64 {
    let step = match random.below(8) {
        0 => 0,
        1 | 2 => 1,
        3 => 29 + random.below(2) as i64,
        4 | 5 => random.below(30) as i64,
        6 => random.below(100) as i64,
        _ => [27_759, 1_665_540, random.below(DAYS) as i64][random.size(3)],
    };
    if random.one_in(2) {
        -step
    } else {
        step
    }
}

/// How many records to lend for so many days: just as many, more, or too few.
fn any_places(length: usize, random: &mut Random) -> usize {
    match random.below(6) {
        0 | 1 => length,
        2 => length.saturating_sub(1),
        3 => random.size(length + 1),
        4 => length + 1,
        _ => length + random.size(20),
    }
}

/// Days in range.
fn good_days(length: usize, random: &mut Random) -> Vec<u32> {
    (0..length).map(|_| random.count(DAYS) as u32).collect()
}

/// Any day of 32 bits; most are out of range.
fn any_day(random: &mut Random) -> u32 {
    if random.one_in(2) {
        outside(random)
    } else {
        random.any(DAYS) as u32
    }
}

/// A day out of range.
fn outside(random: &mut Random) -> u32 {
    OUTSIDE[random.size(OUTSIDE.len())]
}
