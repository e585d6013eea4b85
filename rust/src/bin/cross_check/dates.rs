//! Days to dates, dates to days, and moves.

use crate::random::Random;
use crate::tally::{at_random, every, Row, Tally};
use crate::{DAYS, FAR_YEARS, YEARS};
use oesterwrok::{self as capi, independent as own, Asked};

/// The civil years at the range's ends, where a date may be refused for 16 or 1, and those beside them.
const END_YEARS: [u64; 8] = [
    0,
    1,
    2,
    YEARS - 2,
    YEARS - 1,
    YEARS,
    YEARS + 1,
    u32::MAX as u64,
];

/// The rows of dates and moves.
pub fn rows(seed: u64) -> Vec<Row> {
    vec![
        every("every day to its date", 0..DAYS, day_to_date),
        every(
            "every date to its day, by both; capi's is that day",
            0..DAYS,
            date_to_day,
        ),
        every(
            "dates of civil years 0 to 41,041, right and wrong",
            0..YEARS + 2,
            |year, tally| asked_in(year, |asked| ask(asked, tally)),
        ),
        every(
            "dates of years far beyond the range",
            0..FAR_YEARS.len() as u64,
            |item, tally| asked_in(FAR_YEARS[item as usize], |asked| ask(asked, tally)),
        ),
        at_random(
            "days in and beyond the range to dates",
            1_000_000,
            seed,
            any_day,
        ),
        at_random(
            "dates with any numbers to days",
            1_000_000,
            seed + 1,
            any_date,
        ),
        at_random("moves of dates", 1_000_000, seed + 2, any_move),
        every(
            "moves of dates of the first and the last civil years",
            0..END_YEARS.len() as u64,
            |item, tally| asked_in(END_YEARS[item as usize], |asked| moves(asked, tally)),
        ),
    ]
}

fn day_to_date(day: u64, tally: &mut Tally) {
    tally.compare(capi::date_of_day(day), own::date_of_day(day), || {
        format!("date_of_day {day}")
    });
}

/// Asks both for the day of the independent one's date, and holds capi's answer to the day itself too.
fn date_to_day(day: u64, tally: &mut Tally) {
    let Ok(date) = own::date_of_day(day) else {
        unreachable!("day {day} is in range")
    };
    let asked = date.asked();
    let answer = capi::day_of_date(asked);
    tally.compare(answer, own::day_of_date(asked), || {
        format!("day_of_date {asked:?}")
    });
    tally.compare(answer, Ok(day as u32), || {
        format!("day_of_date {asked:?}, which is day {day}")
    });
}

/// Asks in a civil year by every month number with one to spare at both ends, ordinary and leap, on the days that can be refused.
fn asked_in(year: u64, mut ask: impl FnMut(Asked)) {
    for number in 0..=13 {
        for leap in [false, true] {
            for day_of_month in [0, 1, 15, 29, 30, 31] {
                ask(Asked {
                    year,
                    number,
                    leap,
                    day_of_month,
                });
            }
        }
    }
}

fn ask(asked: Asked, tally: &mut Tally) {
    tally.compare(capi::day_of_date(asked), own::day_of_date(asked), || {
        format!("day_of_date {asked:?}")
    });
}

fn any_day(random: &mut Random, tally: &mut Tally) {
    day_to_date(random.any(DAYS), tally);
}

fn any_date(random: &mut Random, tally: &mut Tally) {
    ask(wrong_date(random), tally);
}

/// A date of any numbers, most of them wrong.
fn wrong_date(random: &mut Random) -> Asked {
    let mut any_or_good = |limit: u64| {
        if random.one_in(2) {
            random.any(limit)
        } else {
            random.below(limit)
        }
    };
    Asked {
        year: any_or_good(YEARS + 2),
        number: any_or_good(14),
        leap: any_or_good(2) % 2 == 1,
        day_of_month: any_or_good(32),
    }
}

/// The date of a day, one time in six with one of its four things changed.
fn near_date(day: u64, random: &mut Random) -> Asked {
    let Ok(date) = own::date_of_day(day) else {
        unreachable!("day {day} is in range")
    };
    let mut asked = date.asked();
    match random.below(24) {
        0 => asked.year = random.any(YEARS + 2),
        1 => asked.number = random.any(14),
        2 => asked.leap = !asked.leap,
        3 => asked.day_of_month = random.any(32),
        _ => {}
    }
    asked
}

/// Moves that end in range, or outside it, or both by turns: a date's own reasons come before 8.
fn moves(asked: Asked, tally: &mut Tally) {
    let range = DAYS as i64;
    for days in [
        0,
        1,
        -1,
        29,
        -29,
        27_759,
        -27_759,
        749_493,
        -749_493,
        range,
        -range,
        i64::MAX,
        i64::MIN,
    ] {
        compare_move(asked, days, tally);
    }
}

fn any_move(random: &mut Random, tally: &mut Tally) {
    let day = random.count(DAYS);
    let asked = if random.one_in(8) {
        wrong_date(random)
    } else {
        near_date(day, random)
    };
    let days = any_number_of_days(day as i64, random);
    compare_move(asked, days, tally);
}

fn compare_move(asked: Asked, days: i64, tally: &mut Tally) {
    tally.compare(
        capi::move_date(asked, days),
        own::move_date(asked, days),
        || format!("move_date {asked:?} by {days}"),
    );
}

/// A number of days to move by: small, to another day in range, to the range's edges and just beyond, large, and extreme.
fn any_number_of_days(day: i64, random: &mut Random) -> i64 {
    match random.below(8) {
        0 => random.below(121) as i64 - 60,
        1..=3 => random.count(DAYS) as i64 - day,
        4 => random.below(5) as i64 - 2 - day,
        5 => DAYS as i64 + 2 - random.below(5) as i64 - day,
        6 => (random.next() as i64) >> random.below(64),
        _ => extreme(random),
    }
}

/// A number at an end of the signed 64-bit numbers, or beside a power of two.
fn extreme(random: &mut Random) -> i64 {
    let little = random.below(4) as i64;
    match random.below(4) {
        0 => i64::MIN + little,
        1 => i64::MAX - little,
        2 => (1 << random.below(63)) - little,
        _ => little - (1 << random.below(63)),
    }
}
