//! Facts of years, months, quarters and terms.

use crate::random::Random;
use crate::tally::{at_random, every, Row, Tally};
use crate::{FAR_YEARS, MONTHS, YEARS};
use oesterwrok::{self as capi, independent as own};

/// The rows of facts.
pub fn rows(seed: u64) -> Vec<Row> {
    vec![
        every(
            "the place of every solstice year 0 to 41,041",
            0..YEARS + 2,
            solstice,
        ),
        every(
            "the facts of every civil year 0 to 41,041",
            0..YEARS + 2,
            year,
        ),
        every("every month", 0..MONTHS, month),
        every(
            "every quarter of every month",
            0..4 * MONTHS,
            |item, tally| quarter(item / 4, item % 4, tally),
        ),
        every(
            "every term of every solstice year 0 to 41,041",
            0..24 * (YEARS + 2),
            |item, tally| term(item / 24, item % 24, tally),
        ),
        every(
            "place, facts and terms of years far beyond the range",
            0..FAR_YEARS.len() as u64,
            |item, tally| far_year(FAR_YEARS[item as usize], tally),
        ),
        at_random(
            "years, months, quarters and terms of any number",
            500_000,
            seed,
            any_fact,
        ),
    ]
}

fn solstice(year: u64, tally: &mut Tally) {
    tally.compare(capi::solstice_year(year), own::solstice_year(year), || {
        format!("solstice_year {year}")
    });
}

fn year(year: u64, tally: &mut Tally) {
    tally.compare(capi::year_facts(year), own::year_facts(year), || {
        format!("year_facts {year}")
    });
}

fn month(month: u64, tally: &mut Tally) {
    tally.compare(capi::month_facts(month), own::month_facts(month), || {
        format!("month_facts {month}")
    });
}

fn quarter(month: u64, quarter: u64, tally: &mut Tally) {
    let input = || format!("quarter {month} {quarter}");
    tally.compare(
        capi::quarter(month, quarter),
        own::quarter(month, quarter),
        input,
    );
}

fn term(year: u64, term: u64, tally: &mut Tally) {
    tally.compare(capi::term(year, term), own::term(year, term), || {
        format!("term {year} {term}")
    });
}

/// Every term with one to spare.
fn far_year(far: u64, tally: &mut Tally) {
    solstice(far, tally);
    year(far, tally);
    for k in 0..=24 {
        term(far, k, tally);
    }
}

fn any_fact(random: &mut Random, tally: &mut Tally) {
    match random.below(5) {
        0 => solstice(random.any(YEARS + 1), tally),
        1 => year(random.any(YEARS + 1), tally),
        2 => month(random.any(MONTHS), tally),
        3 => quarter(random.any(MONTHS), random.any(4), tally),
        _ => term(random.any(YEARS + 1), random.any(24), tally),
    }
}
