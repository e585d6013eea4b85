//! An independent implementation of the same calls, written from the paper alone and not from the proved code: the cross-check's
//! other side and the benchmark's. It is plain Rust with floor divisions; it calls nothing of capi.
//!
//! A date's year is the civil year; place (a date's too), leap remainder and terms are of the solstice year, from which the civil
//! year comes.

use crate::types::*;
use std::ops::Range;

mod yearbook;

pub use yearbook::figures;

/// Solstice years in range, one origin-and-eclipse cycle: 1 to 41,040. Civil years are 0 to 41,040.
const YEARS: u64 = 41_040;

/// Months in range.
const MONTHS: u64 = 507_600;

/// Days in range.
const DAYS: u64 = 14_989_860;

/// The longest window of a search, in days.
const WINDOW: u64 = 27_759;

/// The most items that a section of a sheet may have.
const ITEMS: usize = 1_000;

/// The most days of a drawer.
const DRAWER: usize = 4_096;

// The rule, over counts that are in range.

/// The name of a day, 1 to 60; day 0 has name 1.
fn day_name(day: u64) -> u32 {
    (day % 60 + 1) as u32
}

/// The name of a civil year, 1 to 60; year 1 has name 17, so year 0 has 16.
fn year_name(year: u64) -> u32 {
    ((year + 15) % 60 + 1) as u32
}

/// The day on which month n starts.
fn month_start(n: u64) -> u64 {
    27_759 * n / 940
}

/// How many days month n has.
fn month_length(n: u64) -> u64 {
    month_start(n + 1) - month_start(n)
}

/// The month that a day lies in: the last n with 27,759 × n / 940 below day + 1.
fn month_of_day(day: u64) -> u64 {
    (940 * (day + 1) - 1) / 27_759
}

/// The day of a term, counted from the origin.
fn term_day(term: u64) -> u64 {
    487 * term / 32
}

/// The rest of a term beyond its whole days, in parts of 32.
fn term_parts(term: u64) -> u64 {
    487 * term % 32
}

/// The month count that a solstice year begins with.
fn solstice_first(year: u64) -> u64 {
    235 * (year - 1) / 19
}

/// The leap remainder of a solstice year.
fn leap_remainder(year: u64) -> u64 {
    235 * (year - 1) % 19
}

/// How many months a solstice year has.
fn solstice_months(year: u64) -> u64 {
    if leap_remainder(year) >= 12 {
        13
    } else {
        12
    }
}

/// The place of a solstice year: ji, bu and year in the bu, each from 1.
fn place_of_year(year: u64) -> (u32, u32, u32) {
    let elapsed = year - 1;
    (
        (elapsed % 4_560 / 1_520 + 1) as u32,
        (elapsed % 1_520 / 76 + 1) as u32,
        (elapsed % 76 + 1) as u32,
    )
}

/// The solstice year that a month lies in: the last with 235 × (year − 1) / 19 below n + 1.
fn solstice_year_of(n: u64) -> u64 {
    (19 * (n + 1) - 1) / 235 + 1
}

/// The civil year of a month, by its solstice year and its number: one less where that is 11 or 12, leap or not.
fn civil_year(solstice_year: u64, number: u32) -> u64 {
    solstice_year - u64::from(number >= 11)
}

/// The mid-term that falls on a day of month n, if any, counted from the origin in mid-terms. Mid-term m is term 2m, and the
/// first on or after a day is the least m with 487 × 2m / 32 at or above it.
fn mid_term_of_month(n: u64) -> Option<u64> {
    let m = (16 * month_start(n)).div_ceil(487);
    (term_day(2 * m) < month_start(n + 1)).then_some(m)
}

/// The number of the month that holds mid-term m: 11, 12, 1 to 10.
fn number_of_mid_term(m: u64) -> u32 {
    ((m + 10) % 12 + 1) as u32
}

/// The place of a month number in its solstice year, month 11 having place 0: the inverse of the above.
fn place_of_number(number: u64) -> u64 {
    (number + 1) % 12
}

/// Month n's number; a leap month bears that of the month before it.
fn month_number(n: u64) -> u32 {
    match mid_term_of_month(n) {
        Some(m) => number_of_mid_term(m),
        None => month_number(n - 1),
    }
}

/// Whether month n is leap: no mid-term falls on any of its days.
fn is_leap(n: u64) -> bool {
    mid_term_of_month(n).is_none()
}

/// Month n as a date holds it.
fn month_held(n: u64) -> Month {
    Month::new(month_number(n), is_leap(n))
}

/// Whether month n is an eclipse month.
fn is_eclipse(n: u64) -> bool {
    23 * (n + 1) % 135 < 23
}

// The ranges.

/// Refuses for a reason where a condition does not hold.
fn ensure(holds: bool, reason: Reason) -> Result<(), Reason> {
    if holds {
        Ok(())
    } else {
        Err(reason)
    }
}

/// Reason 1 of a solstice year: a place's or a term's.
fn check_solstice_year(year: u64) -> Result<(), Reason> {
    ensure((1..=YEARS).contains(&year), Reason::Year)
}

/// Reason 1 of a civil year, which is every other year: it starts at 0.
fn check_civil_year(year: u64) -> Result<(), Reason> {
    ensure(year <= YEARS, Reason::Year)
}

/// Reason 7.
fn check_month(n: u64) -> Result<(), Reason> {
    ensure(n < MONTHS, Reason::MonthCount)
}

/// Reason 6.
fn check_day(day: u64) -> Result<(), Reason> {
    ensure(day < DAYS, Reason::DayCount)
}

// Dates and moves.

/// The date of a day that is in range. Inlined, so that a search works out no more of it than it looks at.
#[inline]
fn date_at(day: u64) -> Date {
    let n = month_of_day(day);
    let month = month_held(n);
    let solstice_year = solstice_year_of(n);
    let year = civil_year(solstice_year, month.number());
    let (ji, bu, year_in_bu) = place_of_year(solstice_year);
    Date {
        year: year as u32,
        month,
        day_of_month: (day - month_start(n) + 1) as u32,
        month_length: month_length(n) as u32,
        day_name: day_name(day),
        year_name: year_name(year),
        ji,
        bu,
        year_in_bu,
        eclipse: is_eclipse(n),
    }
}

/// As [`crate::date_of_day`].
pub fn date_of_day(day: u64) -> Result<Date, Reason> {
    check_day(day)?;
    Ok(date_at(day))
}

/// The ordinary month of a number in a civil year: the one that holds the number's mid-term. Its months 11 and 12 are those of
/// the solstice year after it.
fn ordinary_month(year: u64, number: u64) -> u64 {
    let solstice_year = year + u64::from(number >= 11);
    let m = 12 * (solstice_year - 1) + place_of_number(number);
    month_of_day(term_day(2 * m))
}

/// Reason 16: a month number from 1 to 10 in year 0, or 11 or 12 in year 41,040, leap or not.
fn check_number_in_year(year: u64, number: u64) -> Result<(), Reason> {
    let missing = match year {
        0 => (1..=10).contains(&number),
        YEARS => (11..=12).contains(&number),
        _ => false,
    };
    ensure(!missing, Reason::NoSuchNumber)
}

/// The month of a civil year by a number that it has: the ordinary one, or the leap month after it. Reason 4.
fn month_of_number(year: u64, number: u64, leap: bool) -> Result<u64, Reason> {
    let ordinary = ordinary_month(year, number);
    if !leap {
        return Ok(ordinary);
    }
    ensure(is_leap(ordinary + 1), Reason::NoSuchLeap)?;
    Ok(ordinary + 1)
}

/// As [`crate::day_of_date`].
pub fn day_of_date(asked: Asked) -> Result<u32, Reason> {
    check_civil_year(asked.year)?;
    ensure((1..=12).contains(&asked.number), Reason::MonthNumber)?;
    ensure((1..=30).contains(&asked.day_of_month), Reason::DayOfMonth)?;
    check_number_in_year(asked.year, asked.number)?;
    let n = month_of_number(asked.year, asked.number, asked.leap)?;
    ensure(asked.day_of_month <= month_length(n), Reason::NoDayThirty)?;
    Ok((month_start(n) + asked.day_of_month - 1) as u32)
}

/// As [`crate::move_date`].
pub fn move_date(asked: Asked, days: i64) -> Result<Date, Reason> {
    let day = day_of_date(asked)?;
    let ends = i128::from(day) + i128::from(days);
    match u64::try_from(ends) {
        Ok(end) if end < DAYS => Ok(date_at(end)),
        _ => Err(Reason::MoveEnds),
    }
}

// Drawers of days.

/// The place of the first day that is out of range, where there is one.
fn first_outside(days: &[u32]) -> Option<u32> {
    let place = days.iter().position(|&day| check_day(day.into()).is_err());
    place.map(|place| place as u32)
}

/// As [`crate::dates`]: each day is looked at before the first record is filled.
pub fn dates(days: &[u32], out: &mut [DateRecord]) -> Result<u32, DrawerRefused> {
    let refused = |reason, place| Err(DrawerRefused { reason, place });
    if days.len() > DRAWER {
        return refused(Reason::CountAbove, None);
    }
    let Some(front) = out.get_mut(..days.len()) else {
        return refused(Reason::LentTooShort, None);
    };
    if let Some(place) = first_outside(days) {
        return refused(Reason::DayCount, Some(place));
    }
    for (record, &day) in front.iter_mut().zip(days) {
        *record = date_at(day.into()).into();
    }
    Ok(days.len() as u32)
}

// Years, months, quarters and terms.

/// As [`crate::solstice_year`].
pub fn solstice_year(year: u64) -> Result<SolsticeYear, Reason> {
    check_solstice_year(year)?;
    let (ji, bu, year_in_bu) = place_of_year(year);
    let head_year = year + 1 - u64::from(year_in_bu);
    Ok(SolsticeYear {
        ji,
        bu,
        year_in_bu,
        head_name: day_name(month_start(solstice_first(head_year))),
        first_month: solstice_first(year) as u32,
        leap_remainder: leap_remainder(year) as u32,
        months: solstice_months(year) as u32,
    })
}

/// The month count that a civil year opens with: its own month 1; year 0 opens with month 11, the range's first. The last year
/// has the months up to the range's end, so the year after it is taken to open there.
fn civil_first(year: u64) -> u64 {
    match year {
        0 => 0,
        1..=YEARS => ordinary_month(year, 1),
        _ => MONTHS,
    }
}

/// The months of a civil year: up to where the next opens.
fn civil_months(year: u64) -> Range<u64> {
    civil_first(year)..civil_first(year + 1)
}

/// As [`crate::year_facts`].
pub fn year_facts(year: u64) -> Result<YearFacts, Reason> {
    check_civil_year(year)?;
    let months = civil_months(year);
    let leap = months.clone().find(|&n| is_leap(n));
    Ok(YearFacts {
        name: year_name(year),
        first_month: months.start as u32,
        months: (months.end - months.start) as u32,
        leap: leap.map(|n| LeapMonth {
            number: month_number(n),
            month: n as u32,
        }),
    })
}

/// As [`crate::month_facts`].
pub fn month_facts(month: u64) -> Result<MonthFacts, Reason> {
    check_month(month)?;
    Ok(MonthFacts {
        month: month_held(month),
        first_day: month_start(month) as u32,
        small_remainder: (27_759 * month % 940) as u32,
        month_length: month_length(month) as u32,
        first_name: day_name(month_start(month)),
        eclipse: is_eclipse(month),
    })
}

// The clerk.

/// The bu of the range, counted from the origin.
const BU: u64 = 540;

/// The months of a bu.
const BU_MONTHS: u64 = 940;

/// The clerk at month n, which is in range, by the floor divisions above and by no step: the mid-term ahead is the first on or after
/// the day on which the next month starts.
fn clerk_at(n: u64) -> Clerk {
    let ahead = 2 * (16 * month_start(n + 1)).div_ceil(487);
    Clerk {
        month_count: n as u32,
        first_day: month_start(n) as u32,
        mid_term_day: term_day(ahead) as u32,
        small_remainder: (27_759 * n % 940) as u16,
        number: month_number(n) as u8,
        leap: is_leap(n),
        month_length: month_length(n) as u8,
        first_name: day_name(month_start(n)) as u8,
        eclipse: is_eclipse(n),
        eclipse_remainder: (23 * (n + 1) % 135) as u8,
        mid_term_parts: term_parts(ahead) as u8,
    }
}

/// As [`crate::clerk_start`].
pub fn clerk_start(bu: u64) -> Result<Clerk, Reason> {
    clerk_walk(bu, 0)
}

/// As [`crate::clerk_walk`], without a step.
pub fn clerk_walk(bu: u64, steps: u64) -> Result<Clerk, Reason> {
    ensure((1..=BU).contains(&bu), Reason::Bu)?;
    let n = steps.saturating_add(BU_MONTHS * (bu - 1));
    check_month(n)?;
    Ok(clerk_at(n))
}

/// A sum of parts with at most one whole taken off, and how many were.
fn once_over(whole: u64, sum: u64) -> (u64, u64) {
    let taken = u64::from(sum >= whole);
    (taken, sum - taken * whole)
}

/// How many days a month has that starts with this remainder: 29, and one more where 499 parts more make a day.
fn days_from(small_remainder: u64) -> u64 {
    29 + once_over(940, small_remainder + 499).0
}

/// The term so many days and parts from the origin, two terms on.
fn next_mid_term((mut day, mut parts): (u64, u64)) -> (u64, u64) {
    for _ in 0..2 {
        let (over, rest) = once_over(32, parts + 7);
        (day, parts) = (day + 15 + over, rest);
    }
    (day, parts)
}

/// As [`crate::clerk_step`], by additions of 64 bits, which no state's numbers fill.
pub fn clerk_step(clerk: Clerk) -> Result<Clerk, Reason> {
    let (count, day) = (u64::from(clerk.month_count), u64::from(clerk.first_day));
    ensure(
        count + 1 < MONTHS && day < month_start(MONTHS - 1),
        Reason::MonthCount,
    )?;
    let rest = u64::from(clerk.small_remainder);
    let days = days_from(rest);
    let (_, next_rest) = once_over(940, rest + 499);
    let first_day = day + days;
    let length = days_from(next_rest);
    let ahead = (
        u64::from(clerk.mid_term_day),
        u64::from(clerk.mid_term_parts),
    );
    let leap = ahead.0 >= first_day + length;
    let (mid_term_day, mid_term_parts) = if leap { ahead } else { next_mid_term(ahead) };
    let number = u64::from(clerk.number) + u64::from(!leap);
    let name = u64::from(clerk.first_name) + days;
    let (_, eclipse) = once_over(135, u64::from(clerk.eclipse_remainder) + 23);
    Ok(Clerk {
        month_count: (count + 1) as u32,
        first_day: first_day as u32,
        mid_term_day: mid_term_day as u32,
        small_remainder: next_rest as u16,
        number: if !leap && number > 12 {
            number - 12
        } else {
            number
        } as u8,
        leap,
        month_length: length as u8,
        first_name: if name > 60 { name - 60 } else { name } as u8,
        eclipse: eclipse < 23,
        eclipse_remainder: eclipse as u8,
        mid_term_parts: mid_term_parts as u8,
    })
}

/// As [`crate::clerk_show`].
pub fn clerk_show(clerk: Clerk) -> MonthFacts {
    MonthFacts {
        month: Month::new(clerk.number.into(), clerk.leap),
        first_day: clerk.first_day,
        small_remainder: clerk.small_remainder.into(),
        month_length: clerk.month_length.into(),
        first_name: clerk.first_name.into(),
        eclipse: clerk.eclipse,
    }
}

/// As [`crate::quarter`].
pub fn quarter(month: u64, quarter: u64) -> Result<Quarter, Reason> {
    check_month(month)?;
    ensure(quarter <= 3, Reason::TermOrQuarter)?;
    let parts = 27_759 * (4 * month + quarter);
    Ok(Quarter {
        day: (parts / 3_760) as u32,
        parts: (parts % 3_760) as u32,
    })
}

/// As [`crate::term`].
pub fn term(year: u64, term: u64) -> Result<Term, Reason> {
    check_solstice_year(year)?;
    ensure(term <= 23, Reason::TermOrQuarter)?;
    let from_origin = 24 * (year - 1) + term;
    Ok(Term {
        day: term_day(from_origin) as u32,
        parts: term_parts(from_origin) as u32,
    })
}

// The five planets.

/// What 004 gives of a planet: "conjunctions per years".
struct Planet {
    conjunctions: u128,
    years: u128,
    /// Whether an odd count is a morning conjunction and an even one an evening one.
    by_turns: bool,
    /// One conjunction's days, parts, and of how many parts.
    first: (u64, u64, u64),
}

/// Jupiter, Mars, Saturn, Venus and Mercury, in the request's words.
const PLANETS: [Planet; 5] = [
    planet(4_327, 4_725, false, (398, 14_641, 17_308)),
    planet(879, 1_876, false, (779, 1_872, 3_516)),
    planet(9_096, 9_415, false, (378, 2_163, 36_384)),
    planet(5_830, 4_661, true, (292, 281, 23_320)),
    planet(11_908, 1_889, true, (57, 44_805, 47_632)),
];

const fn planet(conjunctions: u128, years: u128, by_turns: bool, first: (u64, u64, u64)) -> Planet {
    Planet {
        conjunctions,
        years,
        by_turns,
        first,
    }
}

/// The planet of a number, 1 to 5. Reason 19.
fn check_planet(number: u64) -> Result<&'static Planet, Reason> {
    let place = number
        .checked_sub(1)
        .and_then(|place| place.try_into().ok());
    place
        .and_then(|place: usize| PLANETS.get(place))
        .ok_or(Reason::Planet)
}

impl Planet {
    /// The day and the rest of the k-th conjunction: k times the years, times 1,461, divided by four times the conjunctions. No
    /// product of 128 bits passes its end.
    fn falls(&self, k: u64) -> (u128, u128) {
        let parts = u128::from(k) * self.years * 1_461;
        let divisor = 4 * self.conjunctions;
        (parts / divisor, parts % divisor)
    }

    fn phase(&self, k: u64) -> Phase {
        match (self.by_turns, k % 2) {
            (false, _) => Phase::Neither,
            (true, 0) => Phase::Evening,
            (true, _) => Phase::Morning,
        }
    }

    /// The k-th conjunction, where its day is in range.
    fn conjunction(&self, k: u64) -> Option<Conjunction> {
        let (day, parts) = self.falls(k);
        (day < u128::from(DAYS)).then(|| Conjunction {
            day: day as u32,
            parts: parts as u32,
            divisor: 4 * self.conjunctions as u32,
            phase: self.phase(k),
        })
    }

    /// The least count whose conjunction does not fall before a day, by halving: no two fall on one day, so that the count that
    /// is the day's own number is never too small.
    fn count_from(&self, day: u64) -> u64 {
        let (mut low, mut high) = (0, day);
        while low < high {
            let middle = low + (high - low) / 2;
            if self.falls(middle).0 < u128::from(day) {
                low = middle + 1;
            } else {
                high = middle;
            }
        }
        low
    }
}

/// As [`crate::conjunction`].
pub fn conjunction(planet: u64, k: u64) -> Result<Conjunction, Reason> {
    check_planet(planet)?.conjunction(k).ok_or(Reason::DayCount)
}

/// As [`crate::next_conjunction`].
pub fn next_conjunction(planet: u64, day: u64) -> Result<NextConjunction, Reason> {
    let planet = check_planet(planet)?;
    check_day(day)?;
    let k = planet.count_from(day);
    let conjunction = planet.conjunction(k).ok_or(Reason::NoConjunctionLeft)?;
    Ok(NextConjunction {
        k: k as u32,
        conjunction,
    })
}

/// As [`crate::reduced_pair`]: four times one conjunction's parts and 1,461 times the divisor, the less taken from the greater
/// until they are alike.
pub fn reduced_pair(planet: u64) -> Result<Pair, Reason> {
    let (days, parts, divisor) = check_planet(planet)?.first;
    let (long_days, long_circle) = (4 * (days * divisor + parts), 1_461 * divisor);
    let (mut a, mut b) = (long_days, long_circle);
    while a != b {
        if a > b {
            a -= b;
        } else {
            b -= a;
        }
    }
    Ok(Pair {
        years: long_days / a,
        conjunctions: long_circle / a,
    })
}

// Searches.

/// Whether an unread field, or one that has this value.
fn fits(field: Option<u64>, value: u32) -> bool {
    field.is_none_or(|known| known == u64::from(value))
}

/// Whether a leap mark is unread or says what the month is.
fn mark_fits(mark: Option<u64>, month: Month) -> bool {
    mark.is_none_or(|known| (known == LEAP) == month.is_leap())
}

/// Whether a day fits a reading whose known fields are in their ranges. The number is looked at before the civil year's name, which
/// hangs on it.
fn day_fits(reading: &Reading, day: u64) -> bool {
    let date = date_at(day);
    let first_day = day - u64::from(date.day_of_month - 1);
    fits(reading.month_number, date.month.number())
        && mark_fits(reading.leap_mark, date.month)
        && fits(reading.year_name, date.year_name)
        && fits(reading.day_of_month, date.day_of_month)
        && fits(reading.day_name, date.day_name)
        && fits(reading.first_name, day_name(first_day))
}

/// Reason 14, field by field.
fn check_reading(reading: &Reading) -> Result<(), Reason> {
    let fields = [
        (reading.year_name, 60),
        (reading.month_number, 12),
        (reading.leap_mark, 2),
        (reading.day_of_month, 30),
        (reading.day_name, 60),
        (reading.first_name, 60),
    ];
    for (field, greatest) in fields {
        ensure(
            field.is_none_or(|known| (1..=greatest).contains(&known)),
            Reason::Field,
        )?;
    }
    Ok(())
}

/// A search's reasons before 12, in their order.
fn check_search(reading: &Reading, first: u64, last: u64) -> Result<(), Reason> {
    check_day(first)?;
    check_day(last)?;
    ensure(first <= last && last - first < WINDOW, Reason::Window)?;
    check_reading(reading)
}

/// Hands the days that were found to a lent list, or refuses with 12 and their number.
fn hand_days(found: &[u32], out: &mut [u32]) -> Result<u32, SearchRefused> {
    let total = found.len() as u32;
    match out.get_mut(..found.len()) {
        Some(front) => {
            front.copy_from_slice(found);
            Ok(total)
        }
        None => Err(SearchRefused {
            reason: Reason::LentTooShort,
            total: Some(total),
        }),
    }
}

/// As [`crate::search`]: the paper's words, a day at a time.
pub fn search(
    reading: &Reading,
    first: u64,
    last: u64,
    out: &mut [u32],
) -> Result<u32, SearchRefused> {
    check_search(reading, first, last).map_err(|reason| SearchRefused {
        reason,
        total: None,
    })?;
    let found: Vec<u32> = (first..=last)
        .filter(|&day| day_fits(reading, day))
        .map(|day| day as u32)
        .collect();
    hand_days(&found, out)
}

/// As [`search`], but what belongs to a month is worked out once a month: what one writes where the time counts.
pub fn search_by_months(
    reading: &Reading,
    first: u64,
    last: u64,
    out: &mut [u32],
) -> Result<u32, SearchRefused> {
    check_search(reading, first, last).map_err(|reason| SearchRefused {
        reason,
        total: None,
    })?;
    let mut found = Vec::new();
    for n in month_of_day(first)..=month_of_day(last) {
        if month_fits(reading, n) {
            let start = month_start(n);
            let days = first.max(start)..=last.min(month_start(n + 1) - 1);
            let fitting = days.filter(|&day| {
                fits(reading.day_of_month, (day - start + 1) as u32)
                    && fits(reading.day_name, day_name(day))
            });
            found.extend(fitting.map(|day| day as u32));
        }
    }
    hand_days(&found, out)
}

/// Whether month n fits those fields of a reading that are its own.
fn month_fits(reading: &Reading, n: u64) -> bool {
    let month = month_held(n);
    let year = civil_year(solstice_year_of(n), month.number());
    fits(reading.month_number, month.number())
        && mark_fits(reading.leap_mark, month)
        && fits(reading.year_name, year_name(year))
        && fits(reading.first_name, day_name(month_start(n)))
}

// Emendings.

/// A known field that a day disagrees with: its number, 1 to 6, what was read and what it should be.
type Fault = [u32; 3];

/// The fault of a field, if it is known and read otherwise than the day has it. What was read is in its range, so that it is not cut.
fn fault(field: u32, read: Option<u64>, own: u32) -> Option<Fault> {
    let read = read? as u32;
    (read != own).then_some([field, read, own])
}

/// A month's leap mark, as a reading has it.
fn mark_of(month: Month) -> u32 {
    (if month.is_leap() { LEAP } else { ORDINARY }) as u32
}

/// What is gathered of a window: how many days fit, and the emendations, four numbers each.
#[derive(Default)]
struct Gathered {
    fitting: u32,
    emendations: Vec<u32>,
}

impl Gathered {
    /// Takes a day by its faults.
    fn take(&mut self, day: u64, mut faults: impl Iterator<Item = Fault>) {
        match (faults.next(), faults.next()) {
            (None, _) => self.fitting += 1,
            (Some([field, read, own]), None) => {
                self.emendations.extend([day as u32, field, read, own])
            }
            _ => {}
        }
    }

    /// Tells how many days fit, or else hands the emendations to a lent list, or refuses with 12 and their number.
    fn hand(&self, out: &mut [u32]) -> Result<Emended, EmendRefused> {
        if self.fitting > 0 {
            return Ok(Emended::Fits(self.fitting));
        }
        let total = self.emendations.len() as u32 / 4;
        let front = out.get_mut(..self.emendations.len()).ok_or(EmendRefused {
            reason: Reason::LentTooShort,
            total: Some(total),
        })?;
        front.copy_from_slice(&self.emendations);
        Ok(Emended::Emendations(total))
    }
}

/// An emending's reasons before 12: a search's.
fn check_emend(reading: &Reading, first: u64, last: u64) -> Result<(), EmendRefused> {
    check_search(reading, first, last).map_err(|reason| EmendRefused {
        reason,
        total: None,
    })
}

/// As [`crate::emend`]: the request's words, a day at a time.
pub fn emend(
    reading: &Reading,
    first: u64,
    last: u64,
    out: &mut [u32],
) -> Result<Emended, EmendRefused> {
    check_emend(reading, first, last)?;
    let mut gathered = Gathered::default();
    for day in first..=last {
        let date = date_at(day);
        let first_day = day - u64::from(date.day_of_month - 1);
        let faults = [
            fault(1, reading.year_name, date.year_name),
            fault(2, reading.month_number, date.month.number()),
            fault(3, reading.leap_mark, mark_of(date.month)),
            fault(4, reading.day_of_month, date.day_of_month),
            fault(5, reading.day_name, date.day_name),
            fault(6, reading.first_name, day_name(first_day)),
        ];
        gathered.take(day, faults.into_iter().flatten());
    }
    gathered.hand(out)
}

/// As [`emend`], but what belongs to a month is worked out once a month, and one with two faults of its own is passed over: what one
/// writes where the time counts.
pub fn emend_by_months(
    reading: &Reading,
    first: u64,
    last: u64,
    out: &mut [u32],
) -> Result<Emended, EmendRefused> {
    check_emend(reading, first, last)?;
    let mut gathered = Gathered::default();
    for n in month_of_day(first)..=month_of_day(last) {
        let Ok(of_month) = fault_of_month(reading, n) else {
            continue;
        };
        let start = month_start(n);
        for day in first.max(start)..=last.min(month_start(n + 1) - 1) {
            let of_day = [
                fault(4, reading.day_of_month, (day - start + 1) as u32),
                fault(5, reading.day_name, day_name(day)),
            ];
            let faults = of_month.into_iter().chain(of_day.into_iter().flatten());
            gathered.take(day, faults);
        }
    }
    gathered.hand(out)
}

/// The fault of month n among those fields of a reading that are its own, if any; `Err` where there are more than one. The number is
/// looked at before the civil year's name, which hangs on it.
fn fault_of_month(reading: &Reading, n: u64) -> Result<Option<Fault>, ()> {
    let month = month_held(n);
    let mut faults = [
        fault(6, reading.first_name, day_name(month_start(n))),
        fault(2, reading.month_number, month.number()),
        fault(3, reading.leap_mark, mark_of(month)),
    ]
    .into_iter()
    .flatten();
    let (one, more) = (faults.next(), faults.next());
    if more.is_some() {
        return Err(());
    }
    let year = civil_year(solstice_year_of(n), month.number());
    match (one, fault(1, reading.year_name, year_name(year))) {
        (Some(_), Some(_)) => Err(()),
        (one, of_year) => Ok(one.or(of_year)),
    }
}

// Sheets.

/// Takes a number of so many bytes, least byte first, from the front of what is left of a sheet. Reason 9.
fn take_number(rest: &mut &[u8], bytes: usize) -> Result<u32, Reason> {
    let (number, after) = rest.split_at_checked(bytes).ok_or(Reason::SheetEnds)?;
    *rest = after;
    Ok(number
        .iter()
        .rev()
        .fold(0, |high, &byte| high << 8 | u32::from(byte)))
}

/// Takes a section's count, which has its most. Reasons 9, 10.
fn take_count(rest: &mut &[u8], most: usize) -> Result<usize, Reason> {
    let count = take_number(rest, 2)? as usize;
    ensure(count <= most, Reason::CountAbove)?;
    Ok(count)
}

/// Takes a section: its count and its items of so many bytes each, each checked.
fn take_section(
    rest: &mut &[u8],
    bytes: usize,
    check: fn(u64) -> Result<(), Reason>,
) -> Result<Vec<u32>, Reason> {
    let count = take_count(rest, ITEMS)?;
    let mut items = Vec::with_capacity(count);
    for _ in 0..count {
        let item = take_number(rest, bytes)?;
        check(item.into())?;
        items.push(item);
    }
    Ok(items)
}

/// As [`crate::read_sheet`].
pub fn read_sheet(
    bytes: &[u8],
    years: &mut [u16],
    months: &mut [u32],
    days: &mut [u32],
) -> Result<SheetCounts, Reason> {
    let mut rest = bytes;
    let year_items = take_section(&mut rest, 2, check_civil_year)?;
    let month_items = take_section(&mut rest, 4, check_month)?;
    let day_items = take_section(&mut rest, 4, check_day)?;
    ensure(rest.is_empty(), Reason::BytesAfter)?;
    let room = year_items.len() <= years.len()
        && month_items.len() <= months.len()
        && day_items.len() <= days.len();
    ensure(room, Reason::LentTooShort)?;
    for (place, &year) in years.iter_mut().zip(&year_items) {
        *place = year as u16;
    }
    months[..month_items.len()].copy_from_slice(&month_items);
    days[..day_items.len()].copy_from_slice(&day_items);
    Ok(SheetCounts {
        years: year_items.len(),
        months: month_items.len(),
        days: day_items.len(),
    })
}

/// The most readings of a sheet of the new form.
const READINGS: usize = 500;

/// Takes a reading's 14 bytes; its eight numbers: the six fields, one byte each, then first and last day. Reasons 9, 6, 13, 14.
fn take_reading(rest: &mut &[u8]) -> Result<[u32; 8], Reason> {
    let (mut item, after) = rest.split_at_checked(14).ok_or(Reason::SheetEnds)?;
    *rest = after;
    let mut numbers = [0; 8];
    for (place, number) in numbers.iter_mut().enumerate() {
        *number = take_number(&mut item, if place < 6 { 1 } else { 4 })?;
    }
    let known = |place: usize| Some(u64::from(numbers[place])).filter(|&number| number != 0);
    let reading = Reading {
        year_name: known(0),
        month_number: known(1),
        leap_mark: known(2),
        day_of_month: known(3),
        day_name: known(4),
        first_name: known(5),
    };
    check_search(&reading, numbers[6].into(), numbers[7].into())?;
    Ok(numbers)
}

/// The lists of a sheet of the new form.
struct NewLists {
    years: Vec<u32>,
    months: Vec<u32>,
    days: Vec<u32>,
    readings: Vec<[u32; 8]>,
}

/// Takes a whole sheet of the new form.
fn take_new(bytes: &[u8]) -> Result<NewLists, Reason> {
    let mut rest = bytes;
    let years = take_section(&mut rest, 2, check_civil_year)?;
    let months = take_section(&mut rest, 4, check_month)?;
    let days = take_section(&mut rest, 4, check_day)?;
    let count = take_count(&mut rest, READINGS)?;
    let mut readings = Vec::with_capacity(count);
    for _ in 0..count {
        readings.push(take_reading(&mut rest)?);
    }
    ensure(rest.is_empty(), Reason::BytesAfter)?;
    Ok(NewLists {
        years,
        months,
        days,
        readings,
    })
}

/// As [`crate::read_new`].
pub fn read_new(
    bytes: &[u8],
    years: &mut [u16],
    months: &mut [u32],
    days: &mut [u32],
    readings: &mut [u32],
) -> Result<NewCounts, Reason> {
    let lists = take_new(bytes)?;
    let room = lists.years.len() <= years.len()
        && lists.months.len() <= months.len()
        && lists.days.len() <= days.len()
        && 8 * lists.readings.len() <= readings.len();
    ensure(room, Reason::LentTooShort)?;
    for (place, &year) in years.iter_mut().zip(&lists.years) {
        *place = year as u16;
    }
    months[..lists.months.len()].copy_from_slice(&lists.months);
    days[..lists.days.len()].copy_from_slice(&lists.days);
    for (places, numbers) in readings.chunks_exact_mut(8).zip(&lists.readings) {
        places.copy_from_slice(numbers);
    }
    Ok(NewCounts {
        three: SheetCounts {
            years: lists.years.len(),
            months: lists.months.len(),
            days: lists.days.len(),
        },
        readings: lists.readings.len(),
    })
}

/// As [`crate::to_new`].
pub fn to_new(bytes: &[u8], out: &mut [u8]) -> Result<usize, Reason> {
    let (mut years, mut months, mut days) = ([0; ITEMS], [0; ITEMS], [0; ITEMS]);
    read_sheet(bytes, &mut years, &mut months, &mut days)?;
    hand_bytes(&[bytes, &[0, 0]].concat(), out)
}

/// As [`crate::to_old`].
pub fn to_old(bytes: &[u8], out: &mut [u8]) -> Result<usize, Reason> {
    ensure(
        take_new(bytes)?.readings.is_empty(),
        Reason::ReadingsPresent,
    )?;
    hand_bytes(&bytes[..bytes.len() - 2], out)
}

/// Reason 10 of a section, then its items' own reason.
fn check_section(
    items: impl ExactSizeIterator<Item = u64>,
    check: fn(u64) -> Result<(), Reason>,
) -> Result<(), Reason> {
    ensure(items.len() <= ITEMS, Reason::CountAbove)?;
    for item in items {
        check(item)?;
    }
    Ok(())
}

/// As [`crate::write_sheet`].
pub fn write_sheet(
    years: &[u16],
    months: &[u32],
    days: &[u32],
    out: &mut [u8],
) -> Result<usize, Reason> {
    check_section(years.iter().map(|&year| year.into()), check_civil_year)?;
    check_section(months.iter().map(|&month| month.into()), check_month)?;
    check_section(days.iter().map(|&day| day.into()), check_day)?;
    let mut sheet = Vec::with_capacity(6 + 2 * years.len() + 4 * (months.len() + days.len()));
    sheet.extend((years.len() as u16).to_le_bytes());
    sheet.extend(years.iter().flat_map(|year| year.to_le_bytes()));
    sheet.extend((months.len() as u16).to_le_bytes());
    sheet.extend(months.iter().flat_map(|month| month.to_le_bytes()));
    sheet.extend((days.len() as u16).to_le_bytes());
    sheet.extend(days.iter().flat_map(|day| day.to_le_bytes()));
    hand_bytes(&sheet, out)
}

// Printed lines. 01 gives their form; that a year's block ends after its last month's line, and that a month's line alone is a
// call, is docs/CALLS.md's.

/// Hands bytes to a lent buffer, or refuses with 12.
fn hand_bytes(bytes: &[u8], out: &mut [u8]) -> Result<usize, Reason> {
    let front = out.get_mut(..bytes.len()).ok_or(Reason::LentTooShort)?;
    front.copy_from_slice(bytes);
    Ok(bytes.len())
}

/// A letter where its mark is there, else `-`.
fn mark(letter: char, there: bool) -> char {
    if there {
        letter
    } else {
        '-'
    }
}

/// The line of a month that is in range.
fn month_line(n: u64) -> String {
    format!(
        "{n} {} {} {} {} {}\n",
        month_number(n),
        mark('L', is_leap(n)),
        day_name(month_start(n)),
        month_length(n),
        mark('E', is_eclipse(n))
    )
}

/// As [`crate::print_year`].
pub fn print_year(year: u64, out: &mut [u8]) -> Result<usize, Reason> {
    check_civil_year(year)?;
    let months = civil_months(year);
    let mut text = format!(
        "YEAR {year} NAME {} MONTHS {}\n",
        year_name(year),
        months.end - months.start
    );
    for n in months {
        text.push_str(&month_line(n));
    }
    hand_bytes(text.as_bytes(), out)
}

/// As [`crate::print_month_line`].
pub fn print_month_line(month: u64, out: &mut [u8]) -> Result<usize, Reason> {
    check_month(month)?;
    hand_bytes(month_line(month).as_bytes(), out)
}

/// As [`crate::print_month`].
pub fn print_month(month: u64, out: &mut [u8]) -> Result<usize, Reason> {
    check_month(month)?;
    hand_bytes(format!("MONTH {}", month_line(month)).as_bytes(), out)
}

/// As [`crate::print_day`].
pub fn print_day(day: u64, out: &mut [u8]) -> Result<usize, Reason> {
    check_day(day)?;
    let date = date_at(day);
    let line = format!(
        "DAY {day} {} {} {} {} {}\n",
        date.year,
        date.month.number(),
        mark('L', date.month.is_leap()),
        date.day_of_month,
        date.day_name
    );
    hand_bytes(line.as_bytes(), out)
}

/// The most bytes of a concordance.
const TEXT: usize = 65_536;

/// A field of one to nine digits with no leading zero, except 0 alone.
fn plain_number(field: &[u8]) -> Option<u64> {
    let leads = field.len() == 1 || field.first() != Some(&b'0');
    let good = (1..=9).contains(&field.len()) && leads && field.iter().all(u8::is_ascii_digit);
    good.then(|| {
        field
            .iter()
            .fold(0, |value, digit| 10 * value + u64::from(digit - b'0'))
    })
}

/// A field that is a mark's letter or `-`.
fn plain_mark(field: &[u8], letter: u8) -> Option<bool> {
    match field {
        [b'-'] => Some(false),
        [byte] if *byte == letter => Some(true),
        _ => None,
    }
}

/// The six fields of a line of a concordance: month count, number, leap mark, first day's name, length, eclipse mark.
type Line = (u64, u64, bool, u64, u64, bool);

/// A line's six fields, parted by single spaces, where it can be read.
fn read_line(line: &[u8]) -> Option<Line> {
    let mut fields = line.split(|&byte| byte == b' ');
    let read = (
        plain_number(fields.next()?)?,
        plain_number(fields.next()?)?,
        plain_mark(fields.next()?, b'L')?,
        plain_number(fields.next()?)?,
        plain_number(fields.next()?)?,
        plain_mark(fields.next()?, b'E')?,
    );
    fields.next().is_none().then_some(read)
}

/// The verdict on a line.
fn verdict(line: &[u8]) -> Verdict {
    let Some((n, number, leap, name, days, eclipse)) = read_line(line) else {
        return Verdict::Unreadable;
    };
    if n >= MONTHS {
        return Verdict::Wrong(1);
    }
    let agree = [
        number == u64::from(month_number(n)),
        leap == is_leap(n),
        name == u64::from(day_name(month_start(n))),
        days == month_length(n),
        eclipse == is_eclipse(n),
    ];
    match agree.iter().position(|&same| !same) {
        None => Verdict::Right,
        Some(place) => Verdict::Wrong(place as u8 + 2),
    }
}

/// As [`crate::judge_text`]. A newline at the end opens no further line.
pub fn judge_text(text: &[u8], out: &mut [u8]) -> Result<usize, Reason> {
    ensure(text.len() <= TEXT, Reason::TextTooLong)?;
    if text.is_empty() {
        return Ok(0);
    }
    let whole = text.strip_suffix(b"\n").unwrap_or(text);
    let verdicts: Vec<u8> = whole
        .split(|&byte| byte == b'\n')
        .map(|line| verdict(line).number())
        .collect();
    hand_bytes(&verdicts, out)
}
