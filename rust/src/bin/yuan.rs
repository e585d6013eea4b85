//! A yuan before lunch (W14): all 1,665,540 days of a yuan turned into dates in drawers of 4,096, by a straightforward program and by
//! the many-at-once calls, the two in turn in one run.
//!
//! The straightforward program is the module `plain`: one day at a time, from the paper's sentences, no table and no trick. After each
//! drawer every field of every record is read into a sum, and the sums of both sides must agree. Of `oes_dates` the filling alone is
//! timed, on both sides; the records of `fill_dates` cannot leave its side, so that there the reading is timed too, on both sides.
//!
//! usage: yuan [--rounds N] [--nothing]    exit status 1 where the sums differ; with `--nothing` the calls are exchanged for ones that
//! do nothing, which must end so.

use oesterwrok::{dates, drawn, DateRecord};
use plain::Parts;
use std::hint::black_box;
use std::process::ExitCode;
use std::time::{Duration, Instant};

/// The days of a yuan of 4,560 years, and the first day of solstice year 9,366 (85 CE in 004), with which this one begins.
const YUAN_DAYS: usize = 1_665_540;
const FIRST: u32 = 3_420_558;

/// The most days of a drawer.
const DRAWER: usize = 4_096;

/// How often each side is run, where `--rounds` says nothing else; the best time counts.
const ROUNDS: usize = 25;

// The bars: the most that the many-at-once call may take, in times of the straightforward program. Into a table of the whole yuan there is none:
// how fast the machine's memory takes 80 MB is no matter of the call, and the write itself, beside it, tells that.
const IN_ORDER: f64 = 0.25;
const SHUFFLED: f64 = 0.85;

/// The straightforward program: the date of a day in range.
mod plain {
    /// What a date holds.
    pub struct Parts {
        pub year: u64,
        pub number: u64,
        pub leap: bool,
        pub day_of_month: u64,
        pub month_length: u64,
        pub day_name: u64,
        pub year_name: u64,
        pub ji: u64,
        pub bu: u64,
        pub year_in_bu: u64,
        pub eclipse: bool,
    }

    /// Month n starts on day 27,759 × n divided by 940, whole part.
    fn month_start(n: u64) -> u64 {
        27_759 * n / 940
    }

    /// The month that a day is in.
    fn month_of_day(day: u64) -> u64 {
        let n = 940 * day / 27_759;
        if month_start(n + 1) <= day {
            n + 1
        } else {
            n
        }
    }

    /// The mid-term that falls on one of a month's days, counted from the origin, if there is one: mid-term m is term 2m, and falls on
    /// day 487 × 2m divided by 32.
    fn mid_term_in(n: u64) -> Option<u64> {
        let m = (16 * month_start(n)).div_ceil(487);
        (487 * 2 * m / 32 < month_start(n + 1)).then_some(m)
    }

    /// The number of the month that holds a mid-term: 11, 12, 1 to 10, and again.
    fn number_of(m: u64) -> u64 {
        (m + 10) % 12 + 1
    }

    /// A month's number, and whether it is leap: then it bears the number of the month before it.
    fn number_and_mark(n: u64) -> (u64, bool) {
        match mid_term_in(n) {
            Some(m) => (number_of(m), false),
            None => (mid_term_in(n - 1).map_or(0, number_of), true),
        }
    }

    /// The date of a day.
    pub fn date(day: u32) -> Parts {
        let day = u64::from(day);
        let n = month_of_day(day);
        let start = month_start(n);
        let (number, leap) = number_and_mark(n);
        let elapsed = (19 * n + 18) / 235;
        let year = if number >= 11 { elapsed } else { elapsed + 1 };
        Parts {
            year,
            number,
            leap,
            day_of_month: day - start + 1,
            month_length: month_start(n + 1) - start,
            day_name: day % 60 + 1,
            year_name: (year + 15) % 60 + 1,
            ji: elapsed % 4_560 / 1_520 + 1,
            bu: elapsed % 1_520 / 76 + 1,
            year_in_bu: elapsed % 76 + 1,
            eclipse: 23 * (n + 1) % 135 < 23,
        }
    }
}

/// The record of a date, as `oes_dates` fills it.
fn record(date: Parts) -> DateRecord {
    DateRecord {
        reason: 0,
        year: date.year as u32,
        number: date.number as u32,
        leap: date.leap,
        day_of_month: date.day_of_month as u32,
        month_length: date.month_length as u32,
        day_name: date.day_name as u32,
        year_name: date.year_name as u32,
        ji: date.ji as u32,
        bu: date.bu as u32,
        year_in_bu: date.year_in_bu as u32,
        eclipse: date.eclipse,
    }
}

/// The record of a date, as `fill_dates` fills it.
#[derive(Clone, Copy)]
struct Held {
    month: Month,
    year: u16,
    day_of_month: u8,
    month_length: u8,
    day_name: u8,
    year_name: u8,
    ji: u8,
    bu: u8,
    year_in_bu: u8,
    eclipse: bool,
}

/// A month with its number.
#[derive(Clone, Copy)]
enum Month {
    Ordinary(u8),
    Leap(u8),
}

impl Held {
    /// A record before it is filled.
    const BLANK: Held = Held {
        month: Month::Ordinary(0),
        year: 0,
        day_of_month: 0,
        month_length: 0,
        day_name: 0,
        year_name: 0,
        ji: 0,
        bu: 0,
        year_in_bu: 0,
        eclipse: false,
    };

    fn new(date: Parts) -> Held {
        let number = date.number as u8;
        Held {
            month: if date.leap {
                Month::Leap(number)
            } else {
                Month::Ordinary(number)
            },
            year: date.year as u16,
            day_of_month: date.day_of_month as u8,
            month_length: date.month_length as u8,
            day_name: date.day_name as u8,
            year_name: date.year_name as u8,
            ji: date.ji as u8,
            bu: date.bu as u8,
            year_in_bu: date.year_in_bu as u8,
            eclipse: date.eclipse,
        }
    }

    /// Its values in two words, as crates/drawn has them.
    fn words(&self) -> (u64, u64) {
        let (leap, number) = match self.month {
            Month::Ordinary(number) => (0, number),
            Month::Leap(number) => (1, number),
        };
        let [low_year, high_year] = self.year.to_le_bytes();
        let low = [
            leap,
            number,
            low_year,
            high_year,
            self.day_of_month,
            self.month_length,
            self.day_name,
            self.year_name,
        ];
        let high = [self.ji, self.bu, self.year_in_bu, u8::from(self.eclipse)];
        (u64::from_le_bytes(low), u64::from(u32::from_le_bytes(high)))
    }
}

/// A way to fill the records of a drawer; it says how many it filled.
type Fill = fn(&[u32], &mut [DateRecord]) -> usize;

/// Filled by the straightforward program.
#[inline(never)]
fn plainly(days: &[u32], out: &mut [DateRecord]) -> usize {
    for (place, &day) in out.iter_mut().zip(days) {
        *place = record(plain::date(day));
    }
    days.len()
}

/// Filled by the call.
#[inline(never)]
fn at_once(days: &[u32], out: &mut [DateRecord]) -> usize {
    dates(days, out).map_or(0, |count| count as usize)
}

/// Not filled at all.
#[inline(never)]
fn not_filled(days: &[u32], out: &mut [DateRecord]) -> usize {
    black_box(out);
    days.len()
}

/// Every field written, none worked out: the write itself.
#[inline(never)]
fn written(days: &[u32], out: &mut [DateRecord]) -> usize {
    for (place, &day) in out.iter_mut().zip(days) {
        *place = DateRecord {
            reason: 0,
            year: day,
            number: day >> 1,
            leap: day & 1 == 1,
            day_of_month: day >> 2,
            month_length: day >> 3,
            day_name: day >> 4,
            year_name: day >> 5,
            ji: day >> 6,
            bu: day >> 7,
            year_in_bu: day >> 8,
            eclipse: day & 2 == 2,
        };
    }
    days.len()
}

/// A record in one number, each value turned on before the next comes in.
fn read(record: &DateRecord) -> u64 {
    let values = [
        record.reason,
        record.year,
        record.number,
        u32::from(record.leap),
        record.day_of_month,
        record.month_length,
        record.day_name,
        record.year_name,
        record.ji,
        record.bu,
        record.year_in_bu,
        u32::from(record.eclipse),
    ];
    values
        .iter()
        .fold(0, |sum: u64, &value| sum.rotate_left(7) ^ u64::from(value))
}

/// The sum of all records, in their order.
fn sum_of(records: &[DateRecord]) -> u64 {
    records
        .iter()
        .fold(0, |sum: u64, record| added(sum, read(record)))
}

/// One number more in a sum.
fn added(sum: u64, number: u64) -> u64 {
    sum.wrapping_mul(61).wrapping_add(number)
}

/// What a run of a side took, and the sum of all that it filled.
#[derive(Clone, Copy)]
struct Run {
    time: Duration,
    sum: u64,
}

impl Run {
    const NONE: Run = Run {
        time: Duration::MAX,
        sum: 0,
    };

    /// The better of two runs; the sum is that of the last.
    fn or(self, later: Run) -> Run {
        Run {
            time: self.time.min(later.time),
            sum: later.sum,
        }
    }

    /// Nanoseconds a day.
    fn a_day(&self) -> f64 {
        self.time.as_nanos() as f64 / YUAN_DAYS as f64
    }
}

/// A yuan in drawers, filled one way: into the same records over and over, or each into its part of a table of the whole yuan.
fn fill_yuan(fill: Fill, days: &[u32], out: &mut [DateRecord]) -> Run {
    let mut run = Run {
        time: Duration::ZERO,
        sum: 0,
    };
    for (turn, drawer) in days.chunks(DRAWER).enumerate() {
        let first = turn * DRAWER % out.len();
        let records = &mut out[first..first + DRAWER];
        let start = Instant::now();
        let count = fill(black_box(drawer), records);
        run.time += start.elapsed();
        run.sum = added(run.sum, sum_of(&records[..count]));
    }
    run
}

/// A way to fill a drawer's records on its own side and to add them up; it says what they add up to.
type Draw = fn(&[u32]) -> u64;

/// Filled and added up by the straightforward program.
#[inline(never)]
fn draw_plainly(days: &[u32]) -> u64 {
    let mut records = [Held::BLANK; DRAWER];
    for (place, &day) in records.iter_mut().zip(days) {
        *place = Held::new(plain::date(day));
    }
    records[..days.len()]
        .iter()
        .fold(0, |sum, held| drawn::added(sum, held.words()))
}

/// Filled by `fill_dates`, and added up by crates/drawn.
#[inline(never)]
fn draw_at_once(days: &[u32]) -> u64 {
    drawn::drawn(days).map_or(0, |(_, sum)| sum)
}

/// Neither filled nor added up.
#[inline(never)]
fn not_drawn(_: &[u32]) -> u64 {
    0
}

/// A yuan in drawers, filled and added up one way.
fn draw_yuan(draw: Draw, days: &[u32]) -> Run {
    let start = Instant::now();
    let sum = days
        .chunks(DRAWER)
        .fold(0, |sum, drawer| added(sum, draw(black_box(drawer))));
    Run {
        time: start.elapsed(),
        sum,
    }
}

/// Puts days into an order by chance, always the same: each is exchanged for one before it, drawn by a small source of numbers.
fn shuffle(days: &mut [u32]) {
    let mut number: u64 = 85;
    for last in (1..days.len()).rev() {
        number = number
            .wrapping_mul(6_364_136_223_846_793_005)
            .wrapping_add(1_442_695_040_888_963_407);
        days.swap(last, (number >> 33) as usize % (last + 1));
    }
}

/// What is asked on the command line.
struct Asked {
    rounds: usize,
    nothing: bool,
}

impl Asked {
    fn from_line() -> Option<Asked> {
        let mut asked = Asked {
            rounds: ROUNDS,
            nothing: false,
        };
        let mut words = std::env::args().skip(1);
        while let Some(word) = words.next() {
            match word.as_str() {
                "--rounds" => {
                    asked.rounds = words.next()?.parse().ok().filter(|&rounds| rounds > 0)?
                }
                "--nothing" => asked.nothing = true,
                _ => return None,
            }
        }
        Some(asked)
    }

    /// Two ways in turn, so often as is asked: the best of each.
    fn in_turn(&self, mut one: impl FnMut() -> Run, mut other: impl FnMut() -> Run) -> (Run, Run) {
        (0..self.rounds).fold((Run::NONE, Run::NONE), |(best, best_other), _| {
            (best.or(one()), best_other.or(other()))
        })
    }

    /// Both ways of all three rows of one order of the days; whether the sums agree.
    fn rows(&self, order: &str, bar: f64, days: &[u32]) -> bool {
        let call: Fill = if self.nothing { not_filled } else { at_once };
        let draw: Draw = if self.nothing {
            not_drawn
        } else {
            draw_at_once
        };
        let mut out = vec![DateRecord::default(); DRAWER];
        let mut own_out = out.clone();
        let mut table = vec![DateRecord::default(); YUAN_DAYS.next_multiple_of(DRAWER)];
        let mut own_table = table.clone();
        let limit = self.in_turn(
            || fill_yuan(written, days, &mut out),
            || fill_yuan(written, days, &mut table),
        );
        let rows = [
            (
                "oes_dates",
                Some(bar),
                Some(limit.0),
                self.in_turn(
                    || fill_yuan(plainly, days, &mut own_out),
                    || fill_yuan(call, days, &mut out),
                ),
            ),
            (
                "oes_dates, into a table of the yuan",
                None,
                Some(limit.1),
                self.in_turn(
                    || fill_yuan(plainly, days, &mut own_table),
                    || fill_yuan(call, days, &mut table),
                ),
            ),
            (
                "fill_dates, and the reading",
                Some(bar),
                None,
                self.in_turn(|| draw_yuan(draw_plainly, days), || draw_yuan(draw, days)),
            ),
        ];
        for (what, bar, limit, (own, called)) in &rows {
            told(&format!("{what}, {order}"), own, called, *bar, *limit);
        }
        rows.iter()
            .all(|(_, _, _, (own, called))| own.sum == called.sum)
    }
}

/// A row: both times, the ratio and whether it meets the bar, and the write itself.
fn told(what: &str, own: &Run, called: &Run, bar: Option<f64>, limit: Option<Run>) {
    let ratio = called.a_day() / own.a_day();
    let met = bar.map_or(String::new(), |bar| {
        let met = if ratio <= bar { "met" } else { "NOT MET" };
        format!(", at most {bar}: {met}")
    });
    let limit = limit.map_or(String::new(), |limit| {
        format!("; the write itself {:.2} ns", limit.a_day())
    });
    println!(
        "{what:<48}{:>7.2} ns{:>7.2} ns{ratio:>7.2}{met}{limit}",
        own.a_day(),
        called.a_day()
    );
}

fn main() -> ExitCode {
    let Some(asked) = Asked::from_line() else {
        eprintln!("usage: yuan [--rounds N] [--nothing]");
        return ExitCode::from(2);
    };
    println!("{YUAN_DAYS} days of a yuan in drawers of {DRAWER}; times of a day, the best of {} runs in turn", asked.rounds);
    println!("{:<48}{:>10}{:>10}{:>7}", "", "plain", "call", "ratio");
    let mut days: Vec<u32> = (FIRST..).take(YUAN_DAYS).collect();
    let in_order = asked.rows("in order", IN_ORDER, &days);
    shuffle(&mut days);
    let shuffled = asked.rows("shuffled", SHUFFLED, &days);
    if in_order && shuffled {
        println!("The sums of all records agree.");
        ExitCode::SUCCESS
    } else {
        println!("FAILED: the two sides filled other records");
        ExitCode::FAILURE
    }
}
