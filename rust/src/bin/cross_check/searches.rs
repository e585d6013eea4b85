//! Searches: the days found, the total, and the whole lent list.

use crate::lent::Lent;
use crate::random::Random;
use crate::tally::{at_random, every, Row, Tally};
use crate::{DAYS, YEARS};
use oesterwrok::{self as capi, independent as own, Reading, LEAP, ORDINARY};

/// The longest window that the paper allows.
pub const WINDOW: u64 = 27_759;

/// The longest of the short windows.
pub const SHORT: u64 = 300;

/// The rows of searches. The independent one has two ways, a day at a time and a month at a time; each is compared.
pub fn rows(seed: u64) -> Vec<Row> {
    vec![
        at_random(
            "searches of short windows, day by day",
            100_000,
            seed,
            |random, tally| {
                let (first, last) = short_window(random);
                compare(own::search, first, last, random, tally);
            },
        ),
        at_random(
            "searches of short windows, month by month",
            100_000,
            seed + 1,
            |random, tally| {
                let (first, last) = short_window(random);
                compare(own::search_by_months, first, last, random, tally);
            },
        ),
        at_random(
            "searches of full windows, day by day",
            400,
            seed + 2,
            |random, tally| {
                let (first, last) = full_window(random);
                compare(own::search, first, last, random, tally);
            },
        ),
        at_random(
            "searches of full windows, month by month",
            1_000,
            seed + 3,
            |random, tally| {
                let (first, last) = full_window(random);
                compare(own::search_by_months, first, last, random, tally);
            },
        ),
        every(
            "the days of every civil year, found by its name",
            0..YEARS + 1,
            named_year,
        ),
    ]
}

/// A search of the independent one.
type Search = fn(&Reading, u64, u64, &mut [u32]) -> Result<u32, capi::SearchRefused>;

fn compare(search: Search, first: u64, last: u64, random: &mut Random, tally: &mut Tally) {
    let reading = any_reading(first, last, random);
    let places = any_places(total(&reading, first, last), random);
    compare_into(places, search, &reading, (first, last), random, tally);
}

fn compare_into(
    places: usize,
    search: Search,
    reading: &Reading,
    (first, last): (u64, u64),
    random: &mut Random,
    tally: &mut Tally,
) {
    let mut capi_list = Lent::new(places, random);
    let mut own_list = capi_list.clone();
    let capi_answer = capi::search(reading, first, last, capi_list.lend());
    let own_answer = search(reading, first, last, own_list.lend());
    tally.compare_lent((capi_answer, capi_list), (own_answer, own_list), || {
        format!("search {first} to {last}, {places} places lent, {reading:?}")
    });
}

/// The name of a civil year alone, in a window from some months before the year to some months after it.
fn named_year(year: u64, tally: &mut Tally) {
    const DAYS_BEYOND: u64 = 100;
    let Ok(facts) = own::year_facts(year) else {
        unreachable!("year {year} is in range")
    };
    let starts = |month: u32| own::month_facts(month.into()).map_or(DAYS, |m| m.first_day.into());
    let first = starts(facts.first_month).saturating_sub(DAYS_BEYOND);
    let after = starts(facts.first_month + facts.months);
    let reading = Reading {
        year_name: Some(facts.name.into()),
        ..Reading::default()
    };
    let window = (first, (after + DAYS_BEYOND).min(DAYS) - 1);
    let mut random = Random::new(2, year);
    compare_into(400, own::search, &reading, window, &mut random, tally);
}

/// How many days fit, 0 where the search is refused.
fn total(reading: &Reading, first: u64, last: u64) -> usize {
    match own::search_by_months(reading, first, last, &mut []) {
        Ok(total) => total as usize,
        Err(refused) => refused.total.unwrap_or(0) as usize,
    }
}

/// How many places to lend for so many days: just enough, more, or too few.
fn any_places(total: usize, random: &mut Random) -> usize {
    match random.below(6) {
        0 | 1 => total,
        2 => total.saturating_sub(1),
        3 => random.size(total + 1),
        4 => total + 1,
        _ => total + random.size(40),
    }
}

/// A window of up to so many days; now and then one that is wrong.
pub fn short_window(random: &mut Random) -> (u64, u64) {
    let first = random.count(DAYS);
    let last = (first + random.below(SHORT)).min(DAYS - 1);
    match random.below(16) {
        0 => (random.any(DAYS), last),
        1 => (first, random.any(DAYS)),
        2 => (last, first),
        3 => (first, DAYS - 1 + random.below(3)),
        _ => (first, last),
    }
}

/// A window of 27,759 days, among them the first and the last in range; one time in eight a day longer or shorter.
pub fn full_window(random: &mut Random) -> (u64, u64) {
    let first = random.count(DAYS - WINDOW);
    let last = first + WINDOW - 1;
    match random.below(16) {
        0 => (first, last + 1),
        1 => (first, last - 1),
        _ => (first, last),
    }
}

/// A reading of a true date, near or in the window, with fields unread at random; now and then a field is wrong.
fn any_reading(first: u64, last: u64, random: &mut Random) -> Reading {
    let mut reading = true_reading(day_to_read(first, last, random));
    let known_in_eight = random.below(9);
    let fields = [
        (&mut reading.year_name, 60),
        (&mut reading.month_number, 12),
        (&mut reading.leap_mark, 2),
        (&mut reading.day_of_month, 30),
        (&mut reading.day_name, 60),
        (&mut reading.first_name, 60),
    ];
    for (field, greatest) in fields {
        if random.below(8) >= known_in_eight {
            *field = None;
        } else if random.one_in(24) {
            *field = Some(1 + random.below(greatest));
        } else if random.one_in(48) {
            *field = Some(random.any(greatest + 1));
        }
    }
    reading
}

/// A day of the window, where it has one; one time in six, or where it has none, any day.
pub fn day_to_read(first: u64, last: u64, random: &mut Random) -> u64 {
    if random.one_in(6) || last < first || last >= DAYS {
        random.below(DAYS)
    } else {
        first + random.below(last - first + 1)
    }
}

/// All six fields of a day's true date.
pub fn true_reading(day: u64) -> Reading {
    let Ok(date) = own::date_of_day(day) else {
        unreachable!("day {day} is in range")
    };
    let first_day = day - u64::from(date.day_of_month - 1);
    let first_name = own::date_of_day(first_day).map(|first| first.day_name.into());
    Reading {
        year_name: Some(date.year_name.into()),
        month_number: Some(date.month.number().into()),
        leap_mark: Some(if date.month.is_leap() { LEAP } else { ORDINARY }),
        day_of_month: Some(date.day_of_month.into()),
        day_name: Some(date.day_name.into()),
        first_name: first_name.ok(),
    }
}
