//! Conjunctions of the planets by their counts and from a day on, and the planets' pairs.

use crate::random::Random;
use crate::tally::{at_random, every, part, Piece, Row, Tally, PIECES};
use crate::DAYS;
use oesterwrok::{self as capi, independent as own, NextConjunction, Reason};
use std::ops::Range;

/// Above every count whose conjunction is in range: Mercury's last is 258,710.
const COUNTS: u64 = 260_000;

/// The planets 1 to 5, and one to spare at both ends.
const PLANETS: u64 = 7;

/// How many of the places where a product passes 64 bits are asked about, of each planet.
const WRAPS: u64 = 50_000;

/// How many days before the range's end, and as many beyond it.
const ABOUT: u64 = 20_000;

/// The rows of planets.
pub fn rows(seed: u64) -> Vec<Row> {
    vec![
        every(
            "every count of planets 0 to 6, to its conjunction",
            0..PLANETS * COUNTS,
            |item, tally| conjunction(item / COUNTS, item % COUNTS, tally),
        ),
        every(
            "counts whose product passes 64 bits, and 32",
            0..5 * WRAPS,
            |item, tally| wraps(item / WRAPS + 1, item % WRAPS + 1, tally),
        ),
        every_day("every day of five planets, to the next conjunction"),
        every(
            "days about the range's end, to the next conjunction",
            0..PLANETS * 2 * ABOUT,
            |item, tally| next(item / (2 * ABOUT), DAYS - ABOUT + item % (2 * ABOUT), tally),
        ),
        at_random(
            "planets, counts and days of any number",
            1_000_000,
            seed,
            any_planet,
        ),
    ]
}

fn conjunction(planet: u64, k: u64, tally: &mut Tally) {
    tally.compare(
        capi::conjunction(planet, k),
        own::conjunction(planet, k),
        || format!("conjunction {planet} {k}"),
    );
}

fn next(planet: u64, day: u64, tally: &mut Tally) {
    tally.compare(
        capi::next_conjunction(planet, day),
        own::next_conjunction(planet, day),
        || format!("next_conjunction {planet} {day}"),
    );
}

fn pair(planet: u64, tally: &mut Tally) {
    tally.compare(
        capi::reduced_pair(planet),
        own::reduced_pair(planet),
        || format!("reduced_pair {planet}"),
    );
}

/// Counts on both sides of where k times the years, times 1,461, passes 64 bits for the n-th time, and of where k passes 32 bits
/// for the n-th time; and the last n of 64 bits.
fn wraps(planet: u64, n: u64, tally: &mut Tally) {
    let Ok(numbers) = own::reduced_pair(planet) else {
        unreachable!("{planet} is a planet")
    };
    let place = ((u128::from(n) << 64) / u128::from(numbers.years * 1_461)) as u64;
    for k in [place - 1, place, place + 1, place + 2] {
        conjunction(planet, k, tally);
    }
    for k in [(n << 32) - 1, n << 32, (n << 32) + 1, (n << 32) + n] {
        conjunction(planet, k, tally);
    }
    conjunction(planet, u64::MAX - (n - 1), tally);
}

/// A row over every day of the range, for each planet. The independent side steps on from conjunction to conjunction.
fn every_day(what: &'static str) -> Row {
    let piece = |planet: u64, number: u64| -> Piece {
        let days = part(&(0..DAYS), number);
        Box::new(move |tally| step_on(planet, days.clone(), tally))
    };
    Row {
        what,
        pieces: (1..=5)
            .flat_map(|planet| (0..PIECES).map(move |number| piece(planet, number)))
            .collect(),
    }
}

fn step_on(planet: u64, days: Range<u64>, tally: &mut Tally) {
    let mut k = 0;
    let mut here = own::conjunction(planet, k);
    for day in days {
        while here.is_ok_and(|conjunction| u64::from(conjunction.day) < day) {
            k += 1;
            here = own::conjunction(planet, k);
        }
        let found = here
            .map(|conjunction| NextConjunction {
                k: k as u32,
                conjunction,
            })
            .map_err(|_| Reason::NoConjunctionLeft);
        tally.compare(capi::next_conjunction(planet, day), found, || {
            format!("next_conjunction {planet} {day}, stepped to")
        });
    }
}

fn any_planet(random: &mut Random, tally: &mut Tally) {
    let planet = if random.one_in(3) {
        random.any(6)
    } else {
        random.below(5) + 1
    };
    match random.below(8) {
        0..=3 => conjunction(planet, random.any(COUNTS), tally),
        4..=6 => next(planet, random.any(DAYS), tally),
        _ => pair(planet, tally),
    }
}
