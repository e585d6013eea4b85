//! The yearbook's figures: the four numbers and both lent arrays, against a walk; and what two ranges that meet add up to.

use crate::lent::Lent;
use crate::random::Random;
use crate::tally::{at_random, every, Row, Tally};
use crate::{FAR_YEARS, YEARS};
use oesterwrok::{self as capi, independent as own, Figures, Reason};

/// The last year that has figures: the last of the range is not whole.
const LAST: u64 = YEARS - 1;

/// The rows of the figures.
pub fn rows(seed: u64) -> Vec<Row> {
    vec![
        every(
            "figures of every civil year",
            0..YEARS + 2,
            |year, tally| compare((year, year), &mut Random::new(9, year), tally),
        ),
        at_random(
            "figures of ranges of up to 120 years",
            6_000,
            seed,
            |random, tally| {
                let first = 1 + random.below(LAST);
                let last = (first + random.below(120)).min(LAST);
                compare((first, last), random, tally)
            },
        ),
        at_random(
            "figures of ranges of any length",
            96,
            seed + 1,
            |random, tally| {
                let (first, last) = any_range(random);
                compare((first, last), random, tally)
            },
        ),
        at_random(
            "figures of ranges outside, or turned round",
            60_000,
            seed + 2,
            |random, tally| {
                let range = bad_range(random);
                compare(range, random, tally)
            },
        ),
        at_random(
            "figures of two ranges that meet, added up",
            200_000,
            seed + 3,
            meeting,
        ),
        every(
            "figures of seventy-six years from every year",
            1..LAST - 74,
            seventy_six,
        ),
    ]
}

/// The four numbers and both arrays.
type Whole = (Figures, [u32; 12], [u32; 60]);

/// Compares the two sides over a range.
fn compare((first, last): (u64, u64), random: &mut Random, tally: &mut Tally) {
    let (mut capi_leaps, mut capi_names) = (Lent::new(12, random), Lent::new(60, random));
    let (mut own_leaps, mut own_names) = (capi_leaps.clone(), capi_names.clone());
    let capi_answer = capi::figures(first, last, array(&mut capi_leaps), array(&mut capi_names));
    let own_answer = own::figures(first, last, array(&mut own_leaps), array(&mut own_names));
    tally.compare_lent(
        (capi_answer, (capi_leaps, capi_names, ())),
        (own_answer, (own_leaps, own_names, ())),
        || format!("figures {first} to {last}"),
    );
}

/// A lent list as an array of its size.
fn array<const N: usize>(lent: &mut Lent<u32>) -> &mut [u32; N] {
    lent.lend().try_into().expect("so many places were lent")
}

/// All that capi gives for a range.
fn whole(first: u64, last: u64) -> Result<Whole, Reason> {
    let (mut leaps, mut names) = ([u32::MAX; 12], [u32::MAX; 60]);
    let told = capi::figures(first, last, &mut leaps, &mut names)?;
    Ok((told, leaps, names))
}

/// A good range, its ends drawn from all years.
fn any_range(random: &mut Random) -> (u64, u64) {
    let (one, other) = (1 + random.below(LAST), 1 + random.below(LAST));
    (one.min(other), one.max(other))
}

/// A range one of whose ends, or both, may lie outside, or that is turned round.
fn bad_range(random: &mut Random) -> (u64, u64) {
    let any = |random: &mut Random| match random.below(4) {
        0 => [0, LAST + 1][random.size(2)],
        1 => FAR_YEARS[random.size(FAR_YEARS.len())],
        _ => 1 + random.below(LAST),
    };
    let (first, last) = (any(random), any(random));
    let short = last < first || last - first < 100 || last > LAST || first == 0;
    if short {
        (first, last)
    } else {
        (last, first)
    }
}

/// The figures of two ranges that meet, added, and those of both together.
fn meeting(random: &mut Random, tally: &mut Tally) {
    let (first, last) = any_range(random);
    if first == last {
        return;
    }
    let middle = first + random.below(last - first);
    let added = whole(first, middle).and_then(|a| Ok(sum(a, whole(middle + 1, last)?)));
    tally.compare(added, whole(first, last), || {
        format!("figures {first} to {last}, met behind {middle}")
    });
}

/// Figures added one by one.
fn sum(a: Whole, b: Whole) -> Whole {
    let told = Figures {
        big: a.0.big + b.0.big,
        small: a.0.small + b.0.small,
        pairs: a.0.pairs + b.0.pairs,
        eclipses: a.0.eclipses + b.0.eclipses,
    };
    let leaps = std::array::from_fn(|i| a.1[i] + b.1[i]);
    (told, leaps, std::array::from_fn(|i| a.2[i] + b.2[i]))
}

/// What seventy-six years have wherever they begin.
fn seventy_six(first: u64, tally: &mut Tally) {
    let kept = |(told, leaps, _): Whole| (told.big, told.small, told.pairs, leaps);
    let expected = (499, 441, 58, [3, 1, 3, 2, 3, 2, 2, 3, 2, 3, 1, 3]);
    tally.compare(whole(first, first + 75).map(kept), Ok(expected), || {
        format!("seventy-six years from {first}")
    });
}
