//! The benchmark: the time of capi, called through the wrapper, beside that of the independent implementation; that of a drawer also
//! beside capi's own single call, that of a step of the clerk beside capi's own month by its count. Both sides get the same questions and the same lent memory, which is not cleared between calls;
//! the sums of all answers must agree.

use oesterwrok::{
    self as capi, independent as own, Asked, Clerk, Date, DateRecord, DrawerRefused, EmendRefused,
    Emended, MonthFacts, Reading, Reason, LEAP, ORDINARY,
};
use std::hint::black_box;
use std::process::ExitCode;
use std::time::{Duration, Instant};

/// Each side is run in turn at least so often, and on until so much time has passed; the best time counts.
const RUNS: usize = 7;
const TIME: Duration = Duration::from_millis(1_500);

/// The days of a yuan of 4,560 years.
const YUAN_DAYS: u64 = 1_665_540;

/// Its months.
const YUAN_MONTHS: u64 = 56_400;

/// The most days of a drawer.
const DRAWER: usize = 4_096;

/// The first day of solstice year 9,366 (85 CE in 004), where the windows start, and the days of a full window.
const FIRST: u64 = 3_420_558;
const WINDOW: u64 = 27_759;

/// How many searches or emendings, and how many sheets, are timed as one run: short, so that some runs are disturbed by nothing.
const SEARCHES: u64 = 20;
const SHEETS: u64 = 100;
const TEXTS: u64 = 20;

/// The most bytes of a concordance.
const TEXT: usize = 65_536;

/// The readings of a full sheet of the new form.
const READINGS: usize = 500;

/// The items of a full section of a sheet.
const ITEMS: usize = 1_000;

// The bars: the most that a call may take, in times of the independent one (docs/BENCH.md).
const DAY_TO_DATE: f64 = 0.75;
const DATE_TO_DAY: f64 = 1.0;
const SEARCH_BY_DAYS: f64 = 0.03;
const SEARCH_BY_MONTHS: f64 = 1.0;
const EMEND_BY_DAYS: f64 = 0.1;
const EMEND_BY_MONTHS: f64 = 1.2;
const CONCORDANCE: f64 = 1.5;
const NEW_SHEET: f64 = 1.0;

/// And what the yearbook's figures of the slowest range may take, in times of the fastest.
const FIGURES_APART: f64 = 3.0;

fn main() -> ExitCode {
    println!("Times of one call, the best of {RUNS} runs or more; a ratio above 1 means that capi is slower.");
    println!(
        "{:<62}{:>12}{:>14}{:>8}",
        "what", "capi", "independent", "ratio"
    );
    let mut bench = Bench {
        agreed: true,
        bars: Vec::new(),
    };
    bench.dates();
    bench.drawers();
    bench.clerk();
    bench.searches();
    bench.emendings();
    bench.figures();
    bench.sheets();
    bench.concordances();
    bench.new_sheets();
    for (what, ratio, most) in &bench.bars {
        let met = if ratio <= most { "met" } else { "NOT MET" };
        println!("The bar of {what}: {ratio:.3}, at most {most}: {met}");
    }
    if !bench.agreed {
        println!("FAILED: the two sides gave different sums");
        return ExitCode::FAILURE;
    }
    println!("The sums of all answers agree.");
    ExitCode::SUCCESS
}

/// The run so far: whether all sums agreed, and the rows that have a bar, with their ratio and the most that it may be.
struct Bench {
    agreed: bool,
    bars: Vec<(String, f64, f64)>,
}

impl Bench {
    /// Times both sides in turn, each run of so many calls, and prints the best; gives the ratio.
    fn compare(
        &mut self,
        what: &str,
        calls: u64,
        mut capi: impl FnMut() -> u64,
        mut own: impl FnMut() -> u64,
    ) -> f64 {
        let (mut capi_best, mut own_best) = (Duration::MAX, Duration::MAX);
        let start = Instant::now();
        let mut runs = 0;
        while runs < RUNS || start.elapsed() < TIME {
            let (capi_time, capi_sum) = timed(&mut capi);
            let (own_time, own_sum) = timed(&mut own);
            capi_best = capi_best.min(capi_time);
            own_best = own_best.min(own_time);
            self.agreed &= capi_sum == own_sum;
            runs += 1;
        }
        let ratio = capi_best.as_secs_f64() / own_best.as_secs_f64();
        let (capi_call, own_call) = (per_call(capi_best, calls), per_call(own_best, calls));
        println!("{what:<62}{capi_call:>12}{own_call:>14}{ratio:>8.2}");
        ratio
    }

    /// Holds a row's ratio to its bar.
    fn hold(&mut self, what: &str, ratio: f64, most: f64) {
        self.bars.push((what.to_string(), ratio, most));
    }

    /// Day to date and date to day over a yuan.
    fn dates(&mut self) {
        let ratio = self.compare(
            "day to date, every day of a yuan",
            YUAN_DAYS,
            || {
                sum_of(0..YUAN_DAYS, |day| {
                    capi::date_of_day(day).map_or(0, sum_of_date)
                })
            },
            || {
                sum_of(0..YUAN_DAYS, |day| {
                    own::date_of_day(day).map_or(0, sum_of_date)
                })
            },
        );
        self.hold("day to date", ratio, DAY_TO_DATE);
        let dates: Vec<Packed> = (0..YUAN_DAYS)
            .filter_map(|day| own::date_of_day(day).ok())
            .map(Packed::of)
            .collect();
        let ratio = self.compare(
            "date to day, every date of a yuan",
            YUAN_DAYS,
            || {
                sum_of(dates.iter(), |date| {
                    capi::day_of_date(date.asked()).map_or(0, u64::from)
                })
            },
            || {
                sum_of(dates.iter(), |date| {
                    own::day_of_date(date.asked()).map_or(0, u64::from)
                })
            },
        );
        self.hold("date to day", ratio, DATE_TO_DAY);
    }

    /// A yuan in drawers, its days in order and shuffled.
    fn drawers(&mut self) {
        let mut days: Vec<u32> = (0..YUAN_DAYS as u32).collect();
        self.drawers_of("in order", &days);
        shuffle(&mut days);
        self.drawers_of("shuffled", &days);
    }

    /// Days in drawers, beside capi's single call in a loop into the same records, and beside the independent one's drawers.
    fn drawers_of(&mut self, order: &str, days: &[u32]) {
        let mut out = vec![DateRecord::default(); DRAWER];
        let mut own_out = out.clone();
        let mut beside = |other: &str, fill: Fill| {
            self.compare(
                &format!("a yuan in drawers of 4,096, {order}; {other}"),
                YUAN_DAYS,
                || filled(capi::dates, days, &mut out),
                || filled(fill, days, &mut own_out),
            );
        };
        beside("single call", one_by_one);
        beside("independent", own::dates);
    }

    /// The clerk through the months of a yuan, after the first: a step, and a step with what it shows, beside capi's facts of the next
    /// count; a step beside the independent one's; and, with no state handed over between steps, a walk of them all at once, of which the
    /// last month alone is seen.
    fn clerk(&mut self) {
        let by_counts = || {
            sum_of(1..=YUAN_MONTHS, |n| {
                capi::month_facts(n).map_or(0, sum_of_month)
            })
        };
        self.compare(
            "a step, every month of a yuan; month_facts of the next count",
            YUAN_MONTHS,
            || stepped(capi::clerk_step, own::clerk_show),
            by_counts,
        );
        self.compare(
            "a step and show, every month of a yuan; month_facts",
            YUAN_MONTHS,
            || stepped(capi::clerk_step, capi::clerk_show),
            by_counts,
        );
        self.compare(
            "a step, every month of a yuan; independent",
            YUAN_MONTHS,
            || stepped(capi::clerk_step, own::clerk_show),
            || stepped(own::clerk_step, own::clerk_show),
        );
        self.compare(
            "a walk of a yuan's months, by the step; month_facts of each",
            YUAN_MONTHS,
            || {
                let last = capi::clerk_walk(1, black_box(YUAN_MONTHS));
                last.map_or(0, |clerk| sum_of_month(own::clerk_show(clerk)))
            },
            || {
                (1..=YUAN_MONTHS).fold(0, |_, n| {
                    black_box(capi::month_facts(black_box(n)).map_or(0, sum_of_month))
                })
            },
        );
    }

    /// Searches of a full window, the lent list having a place for each of its days; and one into a list of one place, so that
    /// the days are counted first.
    fn searches(&mut self) {
        let known = all_known(FIRST + WINDOW / 2);
        let few = Reading {
            month_number: known.month_number,
            day_name: known.day_name,
            ..Reading::default()
        };
        let places = WINDOW as usize;
        self.search("all six unread", &Reading::default(), places);
        self.search("month number and day name known", &few, places);
        let (by_days, by_months) = self.search("all six known", &known, places);
        self.hold("a search, loop over days", by_days, SEARCH_BY_DAYS);
        self.hold("a search, loop over months", by_months, SEARCH_BY_MONTHS);
        self.search("all six known, one place", &known, 1);
    }

    /// A search of a full window into a list of so many places, beside both ways of the independent one; gives both ratios.
    fn search(&mut self, which: &str, reading: &Reading, places: usize) -> (f64, f64) {
        let mut beside = |loop_over: &str, own_search: Search| {
            let mut out = vec![0; places];
            let mut own_out = out.clone();
            self.compare(
                &format!("search, {which}; loop over {loop_over}"),
                SEARCHES,
                || repeat(SEARCHES, || found(capi::search, reading, &mut out)),
                || repeat(SEARCHES, || found(own_search, reading, &mut own_out)),
            )
        };
        let by_days = beside("days", own::search);
        (by_days, beside("months", own::search_by_months))
    }

    /// Emendings of a full window, the lent list having four places for each of its days: of the reading of its middle day with
    /// another day name, which no day fits, since from the month's first name to it are other days than the day of month says;
    /// and of the reading as it is.
    fn emendings(&mut self) {
        let known = all_known(FIRST + WINDOW / 2);
        let misread = Reading {
            day_name: known.day_name.map(|name| name % 60 + 1),
            ..known
        };
        let (by_days, by_months) = self.emend("all six known, day name misread", &misread);
        self.hold("an emending, loop over days", by_days, EMEND_BY_DAYS);
        self.hold("an emending, loop over months", by_months, EMEND_BY_MONTHS);
        self.emend_beside(
            "all six known, a day fits",
            &known,
            "months",
            own::emend_by_months,
        );
    }

    /// An emending of a full window, beside both ways of the independent one; gives both ratios.
    fn emend(&mut self, which: &str, reading: &Reading) -> (f64, f64) {
        let by_days = self.emend_beside(which, reading, "days", own::emend);
        let by_months = self.emend_beside(which, reading, "months", own::emend_by_months);
        (by_days, by_months)
    }

    /// An emending of a full window, beside one way of the independent one; gives the ratio.
    fn emend_beside(
        &mut self,
        which: &str,
        reading: &Reading,
        loop_over: &str,
        own_emend: Emend,
    ) -> f64 {
        let mut out = vec![0; 4 * WINDOW as usize];
        let mut own_out = out.clone();
        self.compare(
            &format!("emending, {which}; loop over {loop_over}"),
            SEARCHES,
            || repeat(SEARCHES, || emended(capi::emend, reading, &mut out)),
            || repeat(SEARCHES, || emended(own_emend, reading, &mut own_out)),
        )
    }

    /// The yearbook's figures of one year, of 76 years and of all: beside the walk, and the three of capi beside one another.
    fn figures(&mut self) {
        let ranges = [
            ("one year", 9_368, 9_368, 200),
            ("76 years", 9_368, 9_443, 20),
            ("all years", 1, 41_039, 1),
        ];
        let times = ranges.map(|(which, first, last, walks)| {
            let (mut told, mut walked) = ([0; 72], [0; 72]);
            self.compare_apart(
                &format!("figures, {which}; the walk"),
                (1_000, &mut || {
                    counted(capi::figures, first, last, &mut told)
                }),
                (walks, &mut || {
                    counted(own::figures, first, last, &mut walked)
                }),
            )
        });
        let slowest = times.iter().copied().fold(0.0, f64::max);
        let fastest = times.iter().copied().fold(f64::MAX, f64::min);
        self.hold(
            "figures, slowest range to fastest",
            slowest / fastest,
            FIGURES_APART,
        );
    }

    /// As `compare`, where one side is so much faster that each run has as many calls as suit it; gives the time of one call of capi.
    fn compare_apart(&mut self, what: &str, capi: Side, own: Side) -> f64 {
        let (mut capi_best, mut own_best) = (Duration::MAX, Duration::MAX);
        let start = Instant::now();
        let mut runs = 0;
        while runs < RUNS || start.elapsed() < TIME {
            let (capi_time, capi_last) = timed(&mut || last_of(capi.0, &mut *capi.1));
            let (own_time, own_last) = timed(&mut || last_of(own.0, &mut *own.1));
            capi_best = capi_best.min(capi_time);
            own_best = own_best.min(own_time);
            self.agreed &= capi_last == own_last;
            runs += 1;
        }
        let (capi_call, own_call) = (per_call(capi_best, capi.0), per_call(own_best, own.0));
        let one = |time: Duration, calls: u64| time.as_secs_f64() / calls as f64;
        let ratio = one(capi_best, capi.0) / one(own_best, own.0);
        println!("{what:<62}{capi_call:>12}{own_call:>14}{ratio:>8.5}");
        one(capi_best, capi.0)
    }

    /// Reading and writing of a full sheet.
    fn sheets(&mut self) {
        let years: Vec<u16> = (0..ITEMS).map(|i| (i * 41 + 1) as u16).collect();
        let months: Vec<u32> = (0..ITEMS).map(|i| (i * 507) as u32).collect();
        let days: Vec<u32> = (0..ITEMS).map(|i| (i * 14_989) as u32).collect();
        let mut sheet = vec![0; 10_006];
        let mut own_sheet = sheet.clone();
        let lists = (&years[..], &months[..], &days[..]);
        self.compare(
            "writing a sheet of 3 x 1,000 items",
            SHEETS,
            || repeat(SHEETS, || written(capi::write_sheet, lists, &mut sheet)),
            || repeat(SHEETS, || written(own::write_sheet, lists, &mut own_sheet)),
        );
        let mut lent = (vec![0; ITEMS], vec![0; ITEMS], vec![0; ITEMS]);
        let mut own_lent = lent.clone();
        self.compare(
            "reading a sheet of 3 x 1,000 items",
            SHEETS,
            || repeat(SHEETS, || read(capi::read_sheet, &sheet, &mut lent)),
            || repeat(SHEETS, || read(own::read_sheet, &sheet, &mut own_lent)),
        );
    }

    /// The verdicts on texts of the most bytes: all lines right; one of three damaged; no line in it.
    fn concordances(&mut self) {
        let right = concordance(|_| None);
        let ratio = self.judge("all lines right", &right);
        self.hold("a concordance", ratio, CONCORDANCE);
        self.judge(
            "one byte of every third line damaged",
            &concordance(|i| (i % 3 == 0).then_some(i)),
        );
        self.judge("newlines alone", &vec![b'\n'; TEXT]);
    }

    /// A text judged by both sides; gives the ratio.
    fn judge(&mut self, which: &str, text: &[u8]) -> f64 {
        let mut out = vec![0; TEXT];
        let mut own_out = out.clone();
        self.compare(
            &format!("a text of 65,536 bytes, {which}"),
            TEXTS,
            || repeat(TEXTS, || judged(capi::judge_text, text, &mut out)),
            || repeat(TEXTS, || judged(own::judge_text, text, &mut own_out)),
        )
    }

    /// Reading of a full sheet of the new form: 3 x 1,000 items and 500 readings.
    fn new_sheets(&mut self) {
        let years: Vec<u16> = (0..ITEMS).map(|i| (i * 41 + 1) as u16).collect();
        let months: Vec<u32> = (0..ITEMS).map(|i| (i * 507) as u32).collect();
        let days: Vec<u32> = (0..ITEMS).map(|i| (i * 14_989) as u32).collect();
        let mut sheet = vec![0; 10_006];
        capi::write_sheet(&years, &months, &days, &mut sheet).expect("the lists are good");
        sheet.extend((READINGS as u16).to_le_bytes());
        for i in 0..READINGS as u32 {
            let fields = [i % 61, i % 13, i % 3, i % 31, i * 7 % 61, i * 11 % 61];
            sheet.extend(fields.map(|field| field as u8));
            sheet.extend((i * 29_000).to_le_bytes());
            sheet.extend((i * 29_000 + i * 55).to_le_bytes());
        }
        let mut lent = (
            vec![0; ITEMS],
            vec![0; ITEMS],
            vec![0; ITEMS],
            vec![0; 8 * READINGS],
        );
        let mut own_lent = lent.clone();
        let ratio = self.compare(
            "reading a new sheet of 3 x 1,000 items, 500 readings",
            SHEETS,
            || repeat(SHEETS, || read_new(capi::read_new, &sheet, &mut lent)),
            || repeat(SHEETS, || read_new(own::read_new, &sheet, &mut own_lent)),
        );
        self.hold("reading a new sheet", ratio, NEW_SHEET);
    }
}

/// A text of the most bytes, of months' lines from month 115,000 on; the last is cut. A line's place may be given a byte to damage.
fn concordance(damage: impl Fn(usize) -> Option<usize>) -> Vec<u8> {
    let mut text = Vec::new();
    for i in 0.. {
        let mut line = [0; 48];
        let length = own::print_month_line(115_000 + i as u64, &mut line).unwrap_or(0);
        if let Some(place) = damage(i) {
            line[place % (length - 1)] ^= 1;
        }
        text.extend_from_slice(&line[..length]);
        if text.len() > TEXT {
            break;
        }
    }
    text.truncate(TEXT);
    text
}

/// The judging of a text, of either side.
type Judge = fn(&[u8], &mut [u8]) -> Result<usize, Reason>;

/// Judges a text; one number out of how many lines there are, and every verdict.
fn judged(judge: Judge, text: &[u8], out: &mut [u8]) -> u64 {
    let lines = judge(black_box(text), out).unwrap_or(0);
    out[..lines].iter().fold(lines as u64, |sum, &v| {
        sum.wrapping_mul(9).wrapping_add(v.into())
    })
}

/// The time of a run, and its sum.
fn timed(run: &mut impl FnMut() -> u64) -> (Duration, u64) {
    let start = Instant::now();
    let sum = black_box(run());
    (start.elapsed(), sum)
}

/// The time of one call, in words.
fn per_call(time: Duration, calls: u64) -> String {
    let nanoseconds = time.as_secs_f64() * 1e9 / calls as f64;
    if nanoseconds < 1_000.0 {
        format!("{nanoseconds:.1} ns")
    } else {
        format!("{:.2} us", nanoseconds / 1_000.0)
    }
}

/// The sum of what a call gives for each item, each hidden from the compiler.
fn sum_of<T>(items: impl Iterator<Item = T>, mut call: impl FnMut(T) -> u64) -> u64 {
    items.fold(0, |sum, item| sum.wrapping_add(call(black_box(item))))
}

/// The sum of so many calls.
fn repeat(times: u64, mut call: impl FnMut() -> u64) -> u64 {
    (0..times).fold(0, |sum, _| sum.wrapping_add(call()))
}

/// One number out of every field of a date, turned by three bits before each comes in, so that two that are exchanged show. (For a
/// plain sum the compiler reads 16 bytes at a time, and the machine waits until capi's narrower writes are done.)
fn sum_of_date(date: Date) -> u64 {
    let fields = [
        date.month.number(),
        u32::from(date.month.is_leap()),
        date.day_of_month,
        date.month_length,
        date.day_name,
        date.year_name,
        date.ji,
        date.bu,
        date.year_in_bu,
        u32::from(date.eclipse),
    ];
    let turned = |sum: u32, field: &u32| sum.rotate_left(3) ^ field;
    u64::from(fields.iter().fold(date.year, turned))
}

/// One number out of every field of a month's facts.
fn sum_of_month(facts: MonthFacts) -> u64 {
    let fields = [
        facts.month.number(),
        u32::from(facts.month.is_leap()),
        facts.small_remainder,
        facts.month_length,
        facts.first_name,
        u32::from(facts.eclipse),
    ];
    let turned = |sum: u32, field: &u32| sum.rotate_left(3) ^ field;
    u64::from(fields.iter().fold(facts.first_day, turned))
}

/// Steps through the months of a yuan, each from the state before it, and the sum of what each shows.
fn stepped(
    step: impl Fn(Clerk) -> Result<Clerk, capi::Reason>,
    show: impl Fn(Clerk) -> MonthFacts,
) -> u64 {
    let mut at = black_box(own::clerk_start(1));
    repeat(YUAN_MONTHS, || {
        at = at.and_then(&step);
        at.map_or(0, |clerk| sum_of_month(show(clerk)))
    })
}

/// A filling of a drawer, of either side.
type Fill = fn(&[u32], &mut [DateRecord]) -> Result<u32, DrawerRefused>;

/// Fills drawer after drawer, as many as the days need, into the same records; one number out of every field of every record.
fn filled(fill: Fill, days: &[u32], out: &mut [DateRecord]) -> u64 {
    sum_of(days.chunks(DRAWER), |drawer| {
        let count = fill(drawer, out).map_or(0, |count| count as usize);
        out[..count]
            .iter()
            .fold(0, |sum, record| sum.wrapping_add(sum_of_record(record)))
    })
}

/// One number out of every field of a record.
fn sum_of_record(record: &DateRecord) -> u64 {
    u64::from(record.reason) << 32 | sum_of_date(record.date())
}

/// Fills records by capi's single call, one by one. Not inlined, as the calls beside it are not.
#[inline(never)]
fn one_by_one(days: &[u32], out: &mut [DateRecord]) -> Result<u32, DrawerRefused> {
    for (record, &day) in out.iter_mut().zip(days) {
        *record = capi::record_of_day(day.into());
    }
    Ok(days.len() as u32)
}

/// Puts days into an order by chance, always the same: each is exchanged for one before it, drawn by a small source of numbers.
fn shuffle(days: &mut [u32]) {
    let mut number: u64 = 85;
    for last in (1..days.len()).rev() {
        number = number
            .wrapping_mul(6_364_136_223_846_793_005)
            .wrapping_add(1_442_695_040_888_963_407);
        days.swap(last, (number >> 33) as usize % (last + 1));
    }
}

/// A search, of either side.
type Search = fn(&Reading, u64, u64, &mut [u32]) -> Result<u32, capi::SearchRefused>;

/// Searches a full window; one number out of the total and the first and last day that were listed.
fn found(search: Search, reading: &Reading, out: &mut [u32]) -> u64 {
    match search(black_box(reading), FIRST, FIRST + WINDOW - 1, out) {
        Ok(0) | Err(_) => 0,
        Ok(total) => u64::from(total) + u64::from(out[0]) + u64::from(out[total as usize - 1]),
    }
}

/// An emending, of either side.
type Emend = fn(&Reading, u64, u64, &mut [u32]) -> Result<Emended, EmendRefused>;

/// Emends in a full window; one number out of how many days fit, or of the emendations, every number of which is turned into it.
fn emended(emend: Emend, reading: &Reading, out: &mut [u32]) -> u64 {
    match emend(black_box(reading), FIRST, FIRST + WINDOW - 1, out) {
        Err(_) => 0,
        Ok(Emended::Fits(total)) => u64::from(total) << 32,
        Ok(Emended::Emendations(total)) => {
            let turned = |sum: u64, number: &u32| sum.rotate_left(3) ^ u64::from(*number);
            out[..4 * total as usize].iter().fold(total.into(), turned)
        }
    }
}

/// One side of two that are far apart: how many calls a run has, and a call.
type Side<'a> = (u64, &'a mut dyn FnMut() -> u64);

/// What the last of so many calls gives.
fn last_of(times: u64, call: &mut dyn FnMut() -> u64) -> u64 {
    (0..times).fold(0, |_, _| black_box(call()))
}

/// The yearbook's figures, of either side.
type Count = fn(u64, u64, &mut [u32; 12], &mut [u32; 60]) -> Result<capi::Figures, capi::Reason>;

/// Counts the figures of a range; one number out of every one of them.
fn counted(count: Count, first: u64, last: u64, lent: &mut [u32; 72]) -> u64 {
    let (leaps, names) = lent.split_at_mut(12);
    let leaps = leaps.try_into().expect("twelve places");
    let names = names.try_into().expect("sixty places");
    let Ok(told) = count(black_box(first), black_box(last), leaps, names) else {
        return 0;
    };
    let four = [told.big, told.small, told.pairs, told.eclipses];
    let turned = |sum: u64, number: &u32| sum.rotate_left(3) ^ u64::from(*number);
    four.iter().chain(lent.iter()).fold(0, turned)
}

/// A writing of sheets, of either side.
type WriteSheet = fn(&[u16], &[u32], &[u32], &mut [u8]) -> Result<usize, capi::Reason>;

/// Writes a sheet; one number out of its length and its last item's first byte.
fn written(write_sheet: WriteSheet, lists: (&[u16], &[u32], &[u32]), out: &mut [u8]) -> u64 {
    let (years, months, days) = black_box(lists);
    write_sheet(years, months, days, out)
        .map_or(0, |length| length as u64 + u64::from(out[length - 4]))
}

/// A reading of sheets, of either side.
type ReadSheet =
    fn(&[u8], &mut [u16], &mut [u32], &mut [u32]) -> Result<capi::SheetCounts, capi::Reason>;

/// Reads a sheet; one number out of its counts and the last items.
fn read(read_sheet: ReadSheet, sheet: &[u8], lists: &mut (Vec<u16>, Vec<u32>, Vec<u32>)) -> u64 {
    let (years, months, days) = lists;
    let Ok(counts) = read_sheet(black_box(sheet), years, months, days) else {
        return 0;
    };
    let lasts =
        u64::from(years[ITEMS - 1]) + u64::from(months[ITEMS - 1]) + u64::from(days[ITEMS - 1]);
    lasts + (counts.years + counts.months + counts.days) as u64
}

/// A reading of sheets of the new form, of either side, and the lists that are lent to it.
type ReadNew = fn(
    &[u8],
    &mut [u16],
    &mut [u32],
    &mut [u32],
    &mut [u32],
) -> Result<capi::NewCounts, capi::Reason>;
type NewLists = (Vec<u16>, Vec<u32>, Vec<u32>, Vec<u32>);

/// Reads a sheet of the new form; one number out of its counts, the last items and every number of the readings.
fn read_new(read_new: ReadNew, sheet: &[u8], lists: &mut NewLists) -> u64 {
    let (years, months, days, readings) = lists;
    let Ok(counts) = read_new(black_box(sheet), years, months, days, readings) else {
        return 0;
    };
    let lasts =
        u64::from(years[ITEMS - 1]) + u64::from(months[ITEMS - 1]) + u64::from(days[ITEMS - 1]);
    let numbers: u64 = readings.iter().map(|&number| u64::from(number)).sum();
    lasts
        + numbers
        + (counts.three.years + counts.three.months + counts.three.days + counts.readings) as u64
}

/// A date in few bytes, so that memory's own speed is not what is measured.
struct Packed {
    year: u16,
    number: u8,
    leap: bool,
    day_of_month: u8,
}

impl Packed {
    fn of(date: Date) -> Packed {
        Packed {
            year: date.year as u16,
            number: date.month.number() as u8,
            leap: date.month.is_leap(),
            day_of_month: date.day_of_month as u8,
        }
    }

    fn asked(&self) -> Asked {
        Asked {
            year: self.year.into(),
            number: self.number.into(),
            leap: self.leap,
            day_of_month: self.day_of_month.into(),
        }
    }
}

/// The reading with all six fields of a day's true date.
fn all_known(day: u64) -> Reading {
    let name = |day: u64| day % 60 + 1;
    own::date_of_day(day).map_or(Reading::default(), |date| Reading {
        year_name: Some(date.year_name.into()),
        month_number: Some(date.month.number().into()),
        leap_mark: Some(if date.month.is_leap() { LEAP } else { ORDINARY }),
        day_of_month: Some(date.day_of_month.into()),
        day_name: Some(name(day)),
        first_name: Some(name(day + 1 - u64::from(date.day_of_month))),
    })
}
