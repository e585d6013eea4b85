//! The clerk: walked by steps through every month from the origin and from every bu's head, each state beside the independent one,
//! which takes no steps, and what it shows beside the facts of that month; walks at once; and steps of states that no start leads to.

use crate::random::Random;
use crate::tally::{at_random, every, Row, Tally};
use crate::walked::one_piece;
use crate::{FAR_YEARS, MONTHS};
use oesterwrok::{self as capi, independent as own, Clerk, Reason};

/// The bu of the range, counted from the origin, and the months of one.
const BU: u64 = 540;
const BU_MONTHS: u64 = 940;

/// The rows of the clerk.
pub fn rows(seed: u64) -> Vec<Row> {
    vec![
        one_piece(
            "the clerk, every month from the origin, by steps",
            |tally| {
                by_steps(1, MONTHS, tally);
            },
        ),
        every(
            "the clerk, 940 steps from every bu's head",
            1..BU + 1,
            |bu, tally| by_steps(bu, BU_MONTHS, tally),
        ),
        every(
            "the clerk, starts and walks at their edges",
            0..BU + 2,
            edges,
        ),
        every(
            "the clerk, bu and steps far beyond the range",
            0..FAR_YEARS.len() as u64,
            |item, tally| far(FAR_YEARS[item as usize], tally),
        ),
        at_random("the clerk, walks of any number", 1_000, seed, any_walk),
        at_random(
            "the clerk, steps of states put together",
            1_000_000,
            seed + 1,
            |random, tally| put_together(any_state(random), tally),
        ),
    ]
}

/// So many steps, one by one, from the head of a bu: each state, and what it shows, which must be the facts of its month on both sides.
/// The last step may be one past the last month.
fn by_steps(bu: u64, steps: u64, tally: &mut Tally) {
    let mut at = capi::clerk_start(bu);
    tally.compare(at, own::clerk_start(bu), || format!("clerk_start {bu}"));
    for k in 1..=steps {
        let Ok(clerk) = at else { break };
        shows(clerk, BU_MONTHS * (bu - 1) + k - 1, tally);
        at = capi::clerk_step(clerk);
        let input = || format!("clerk_step of {clerk:?}, step {k} from the head of bu {bu}");
        tally.compare(at, own::clerk_walk(bu, k), input);
        tally.compare(at, own::clerk_step(clerk), input);
    }
}

/// What the clerk shows at month n: the facts of that month, by capi and by the independent one.
fn shows(clerk: Clerk, n: u64, tally: &mut Tally) {
    let shown: Result<_, Reason> = Ok(capi::clerk_show(clerk));
    let input = || format!("clerk_show of {clerk:?}, at month {n}");
    tally.compare(shown, own::month_facts(n), input);
    tally.compare(shown, capi::month_facts(n), input);
}

fn walk(bu: u64, steps: u64, tally: &mut Tally) {
    tally.compare(
        capi::clerk_walk(bu, steps),
        own::clerk_walk(bu, steps),
        || format!("clerk_walk {bu} {steps}"),
    );
}

/// A bu's start; and its walks to its first months, on both sides of the next head, to the last month and past it.
fn edges(bu: u64, tally: &mut Tally) {
    tally.compare(capi::clerk_start(bu), own::clerk_start(bu), || {
        format!("clerk_start {bu}")
    });
    let last = MONTHS + BU_MONTHS - 1 - BU_MONTHS * bu.clamp(1, BU);
    for steps in [0, 1, 939, 940, 941, last - 1, last, last + 1, last + 2] {
        walk(bu, steps, tally);
    }
}

/// A number beyond every range, as a bu and as steps.
fn far(number: u64, tally: &mut Tally) {
    tally.compare(capi::clerk_start(number), own::clerk_start(number), || {
        format!("clerk_start {number}")
    });
    for other in [0, 1, 540, 541] {
        walk(number, other, tally);
        walk(other, number, tally);
    }
    walk(number, number, tally);
}

/// Half of them from a bu that there is, and most of those to a month that there is.
fn any_walk(random: &mut Random, tally: &mut Tally) {
    if random.one_in(2) {
        walk(random.any(BU + 1), random.any(MONTHS), tally);
    } else {
        let bu = random.count(BU) + 1;
        walk(bu, random.count(MONTHS + 3 - BU_MONTHS * (bu - 1)), tally);
    }
}

/// A step of any state, and what it shows.
fn put_together(clerk: Clerk, tally: &mut Tally) {
    tally.compare(capi::clerk_step(clerk), own::clerk_step(clerk), || {
        format!("clerk_step of {clerk:?}")
    });
    let shown = |facts| -> Result<_, Reason> { Ok(facts) };
    tally.compare(
        shown(capi::clerk_show(clerk)),
        shown(own::clerk_show(clerk)),
        || format!("clerk_show of {clerk:?}"),
    );
}

/// Any state: one that a start leads to with some of its numbers changed, or all of them.
fn any_state(random: &mut Random) -> Clerk {
    let n = random.count(MONTHS);
    let mut clerk = own::clerk_walk(1, n).expect("the month is in range");
    let changed = [random.next(), random.next() & random.next(), u64::MAX][random.size(3)];
    let asked = |field: u32| changed >> field & 1 == 1;
    if asked(0) {
        clerk.month_count = random.any(MONTHS) as u32;
    }
    if asked(1) {
        clerk.first_day = random.any(14_989_860) as u32;
    }
    if asked(2) {
        clerk.mid_term_day = term_near(clerk.first_day, random);
    }
    if asked(3) {
        clerk.small_remainder = random.any(940) as u16;
    }
    if asked(4) {
        clerk.number = random.any(13) as u8;
    }
    if asked(5) {
        clerk.leap = random.one_in(2);
    }
    if asked(6) {
        clerk.month_length = random.any(31) as u8;
    }
    if asked(7) {
        clerk.first_name = random.any(61) as u8;
    }
    if asked(8) {
        clerk.eclipse = random.one_in(2);
    }
    if asked(9) {
        clerk.eclipse_remainder = random.any(135) as u8;
    }
    if asked(10) {
        clerk.mid_term_parts = random.any(32) as u8;
    }
    clerk
}

/// The day of a mid-term ahead: about the end of the next month, or any.
fn term_near(first_day: u32, random: &mut Random) -> u32 {
    if random.one_in(2) {
        first_day.wrapping_add(56 + random.below(8) as u32)
    } else {
        random.any(14_989_861) as u32
    }
}
