//! Printed lines: their length and the whole lent buffer.

use crate::lent::Lent;
use crate::random::Random;
use crate::tally::{at_random, every, Row, Tally};
use crate::{DAYS, MONTHS, YEARS};
use oesterwrok::{self as capi, independent as own, Reason};

/// A buffer that is long enough for every printed line, and for a year's whole block.
const LONG: usize = 700;

/// The rows of printed lines. Each item is printed into four buffers: long, just long enough, a byte too short, any.
pub fn rows(seed: u64) -> Vec<Row> {
    vec![
        every(
            "every civil year's block printed, in four buffers",
            0..YEARS + 2,
            |item, tally| YEAR.compare(item, tally),
        ),
        every(
            "every month's line printed, in four buffers",
            0..MONTHS,
            |item, tally| LINE.compare(item, tally),
        ),
        every(
            "every month's MONTH line, in four buffers",
            0..MONTHS,
            |item, tally| MONTH.compare(item, tally),
        ),
        every(
            "the first and last 100,000 days' DAY lines",
            0..200_000,
            |item, tally| {
                let day = if item < 100_000 {
                    item
                } else {
                    DAYS - 200_000 + item
                };
                DAY.compare(day, tally)
            },
        ),
        at_random(
            "lines of any days, months and years",
            400_000,
            seed,
            any_line,
        ),
    ]
}

/// A printing call of either side.
type Print = fn(u64, &mut [u8]) -> Result<usize, Reason>;

/// A printing call: its name and both sides.
struct Printing(&'static str, Print, Print);

const YEAR: Printing = Printing("print_year", capi::print_year, own::print_year);
const LINE: Printing = Printing(
    "print_month_line",
    capi::print_month_line,
    own::print_month_line,
);
const MONTH: Printing = Printing("print_month", capi::print_month, own::print_month);
const DAY: Printing = Printing("print_day", capi::print_day, own::print_day);

impl Printing {
    /// Prints an item into four buffers, of which the first is long enough.
    fn compare(&self, item: u64, tally: &mut Tally) {
        let mut random = Random::new(0, item);
        let whole = self.compare_in(LONG, item, &mut random, tally);
        let any = random.size(whole + 20);
        for length in [whole, whole.saturating_sub(1), any] {
            self.compare_in(length, item, &mut random, tally);
        }
    }

    /// Prints an item into a buffer of a length; gives the independent one's number of bytes, or 0.
    fn compare_in(
        &self,
        length: usize,
        item: u64,
        random: &mut Random,
        tally: &mut Tally,
    ) -> usize {
        let Printing(name, capi, own) = self;
        let mut capi_buffer = Lent::new(length, random);
        let mut own_buffer = capi_buffer.clone();
        let capi_answer = capi(item, capi_buffer.lend());
        let own_answer = own(item, own_buffer.lend());
        tally.compare_lent((capi_answer, capi_buffer), (own_answer, own_buffer), || {
            format!("{name} {item}, {length} bytes lent")
        });
        own_answer.unwrap_or(0)
    }
}

fn any_line(random: &mut Random, tally: &mut Tally) {
    match random.below(8) {
        0 => YEAR.compare(random.any(YEARS + 1), tally),
        1 => LINE.compare(random.any(MONTHS), tally),
        2 => MONTH.compare(random.any(MONTHS), tally),
        3 => DAY.compare(random.any(DAYS), tally),
        _ => DAY.compare(random.below(DAYS), tally),
    }
}
