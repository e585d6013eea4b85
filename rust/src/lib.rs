//! Dates under the Quarter-Remainder calendar of the Later Han: a safe wrapper over `capi`, the proved static library.
//!
//! Every call ends for every input. A refused call gives the paper's [`Reason`] and changes nothing in the memory lent to it.
//! Counts start at the upper origin; names are numbers 1 to 60.
//!
//! A year is a civil year, 0 to 41,040. It opens with its month 1 and ends with its month 12 or the leap month after it; year 0
//! has months 11 and 12 alone, and year 41,040 ends with its leap month 10. Only [`solstice_year`] and [`term`] take the solstice
//! year, 1 to 41,040, which begins with its month 11. The civil year of a month is its solstice year, one less where its number
//! is 11 or 12, leap or not. A date's ji, bu and year in the bu are of the solstice year in which its day lies, its eclipse mark
//! is its month's.
//!
//! Many days are dated at once by [`dates`], into a lent list of records. Month after month is gone through by a [`Clerk`].
//!
//! ```
//! use oesterwrok::{day_of_date, date_of_day, Asked, Month, Reason};
//! let date = date_of_day(29).unwrap();
//! assert_eq!((date.year, date.month, date.day_of_month), (0, Month::Ordinary(12), 1));
//! let leap_nine = Asked { year: 11, number: 9, leap: true, day_of_month: 30 };
//! assert_eq!(day_of_date(leap_nine), Err(Reason::NoDayThirty));
//! let leap_five = Asked { year: 0, number: 5, leap: true, day_of_month: 1 };
//! assert_eq!(day_of_date(leap_five), Err(Reason::NoSuchNumber));
//! ```
#![deny(unsafe_code)]
#![warn(missing_docs)]

pub mod drawn;
mod ffi;
pub mod independent;
pub mod paged;
mod types;

use ffi::Told;
pub use types::*;

/// The date of a day, by the civil year. Reason 6.
#[inline]
pub fn date_of_day(day: u64) -> Result<Date, Reason> {
    record_of_day(day).told().map(|record| record.date())
}

/// The same as a record: the date, or reason 6 in it and nothing else.
#[inline]
pub fn record_of_day(day: u64) -> DateRecord {
    ffi::oes_date_of_day(day)
}

/// A whole drawer at once, at most 4,096 days: record i at the front of `out` is what [`record_of_day`] gives for day i. It gives
/// how many were filled; the rest of `out` is untouched. Reasons 10, 12, 6; with 6 comes the place of the first day out of range. A refused
/// call leaves `out` as it was.
///
/// ```
/// use oesterwrok::{dates, DateRecord, DrawerRefused, Reason};
///
/// let mut drawer = [DateRecord::default(); 3];
/// assert_eq!(dates(&[27_759, 27_758], &mut drawer), Ok(2));
/// assert_eq!((drawer[0].bu, drawer[0].year_in_bu, drawer[0].day_of_month), (2, 1, 1));
/// assert_eq!((drawer[1].bu, drawer[1].year_in_bu, drawer[1].day_of_month), (1, 76, 30));
/// assert_eq!(drawer[2], DateRecord::default());
///
/// let refused = DrawerRefused { reason: Reason::DayCount, place: Some(1) };
/// assert_eq!(dates(&[29, 14_989_860, 14_989_860], &mut drawer), Err(refused));
/// ```
#[inline]
pub fn dates(days: &[u32], out: &mut [DateRecord]) -> Result<u32, DrawerRefused> {
    filled(ffi::dates(days, out))
}

/// The day of a date, asked by the civil year. Reasons 1, 2, 3, 16, 4, 5.
#[inline]
pub fn day_of_date(asked: Asked) -> Result<u32, Reason> {
    let Asked {
        year,
        number,
        leap,
        day_of_month,
    } = asked;
    let answer = ffi::oes_day_of_date(year, number, leap, day_of_month);
    Ok(answer.told()?.day)
}

/// The date so many days later, or earlier where `days` is negative; both by the civil year. Reasons 1, 2, 3, 16, 4, 5, 8.
#[inline]
pub fn move_date(asked: Asked, days: i64) -> Result<Date, Reason> {
    let Asked {
        year,
        number,
        leap,
        day_of_month,
    } = asked;
    let answer = ffi::oes_move_date(year, number, leap, day_of_month, days);
    answer.told().map(|record| record.date())
}

/// A solstice year's place in ji and bu, its first month, its leap remainder and how many months it has. Reason 1, outside 1 to
/// 41,040.
#[inline]
pub fn solstice_year(year: u64) -> Result<SolsticeYear, Reason> {
    let c = ffi::oes_solstice_year(year).told()?;
    Ok(SolsticeYear {
        ji: c.ji,
        bu: c.bu,
        year_in_bu: c.year_in_bu,
        head_name: c.head_name,
        first_month: c.first_month,
        leap_remainder: c.leap_remainder,
        months: c.months,
    })
}

/// A civil year's name, its months and its leap month. Reason 1, outside 0 to 41,040.
#[inline]
pub fn year_facts(year: u64) -> Result<YearFacts, Reason> {
    let c = ffi::oes_year_facts(year).told()?;
    let leap = LeapMonth {
        number: c.leap_number,
        month: c.leap_month,
    };
    assert!(
        c.has_leap
            || leap
                == LeapMonth {
                    number: 0,
                    month: 0
                },
        "capi gave a year with no leap month {leap:?}"
    );
    Ok(YearFacts {
        name: c.name,
        first_month: c.first_month,
        months: c.months,
        leap: c.has_leap.then_some(leap),
    })
}

/// The facts of a month by its count. Reason 7.
#[inline]
pub fn month_facts(month: u64) -> Result<MonthFacts, Reason> {
    Ok(facts_of_month(ffi::oes_month_facts(month).told()?))
}

/// The clerk at the head of a bu, counted from the origin; bu 1 starts at the origin. Reason 21, outside 1 to 540.
///
/// ```
/// use oesterwrok::{clerk_show, clerk_start, clerk_step, clerk_walk, month_facts, Reason};
///
/// let mut clerk = clerk_start(1).unwrap();
/// for n in 1..=134 {
///     clerk = clerk_step(clerk).unwrap();
///     assert_eq!(Ok(clerk_show(clerk)), month_facts(n));
/// }
/// assert_eq!((clerk.month_count, clerk.number, clerk.leap), (134, 9, true));
/// assert_eq!(clerk_walk(1, 134), Ok(clerk));
/// assert_eq!(clerk_walk(540, 940), Err(Reason::MonthCount));
/// assert_eq!(clerk_start(541), Err(Reason::Bu));
/// ```
#[inline]
pub fn clerk_start(bu: u64) -> Result<Clerk, Reason> {
    Ok(ffi::oes_clerk_start(bu).told()?.clerk)
}

/// The clerk at the next month. Reason 7, past the last month; of a state that no start leads to where its count is above 507,598 or
/// its first day above 14,989,829.
#[inline]
pub fn clerk_step(clerk: Clerk) -> Result<Clerk, Reason> {
    Ok(ffi::oes_clerk_step(clerk).told()?.clerk)
}

/// The clerk so many steps from the head of a bu. Reasons 21, 7.
#[inline]
pub fn clerk_walk(bu: u64, steps: u64) -> Result<Clerk, Reason> {
    Ok(ffi::oes_clerk_walk(bu, steps).told()?.clerk)
}

/// What the clerk shows of its month; of a state that a start leads to, what [`month_facts`] gives for its count.
#[inline]
pub fn clerk_show(clerk: Clerk) -> MonthFacts {
    let c = ffi::oes_clerk_show(clerk);
    assert_eq!(c.reason, 0, "capi refused to show a clerk");
    facts_of_month(c)
}

/// A quarter of a month: 0 new, 1 first, 2 full, 3 last. Reasons 7, 15.
#[inline]
pub fn quarter(month: u64, quarter: u64) -> Result<Quarter, Reason> {
    let c = ffi::oes_quarter(month, quarter).told()?;
    Ok(Quarter {
        day: c.day,
        parts: c.parts,
    })
}

/// A term of a solstice year, 1 to 41,040: 0 (the solstice) to 23. Reasons 1, 15.
#[inline]
pub fn term(year: u64, term: u64) -> Result<Term, Reason> {
    let c = ffi::oes_term(year, term).told()?;
    Ok(Term {
        day: c.day,
        parts: c.parts,
    })
}

/// The k-th conjunction of a planet since the origin, where k starts at 0. Planets: 1 Jupiter, 2 Mars, 3 Saturn, 4 Venus,
/// 5 Mercury. Reasons 19, 6.
#[inline]
pub fn conjunction(planet: u64, k: u64) -> Result<Conjunction, Reason> {
    let c = ffi::oes_conjunction(planet, k).told()?;
    Ok(Conjunction {
        day: c.day,
        parts: c.parts,
        divisor: c.divisor,
        phase: phase(c.phase),
    })
}

/// The first conjunction of a planet on or after a day, with its count. Reasons 19, 6, 20.
#[inline]
pub fn next_conjunction(planet: u64, day: u64) -> Result<NextConjunction, Reason> {
    let c = ffi::oes_next_conjunction(planet, day).told()?;
    Ok(NextConjunction {
        k: c.k,
        conjunction: Conjunction {
            day: c.day,
            parts: c.parts,
            divisor: c.divisor,
            phase: phase(c.phase),
        },
    })
}

/// A planet's pair, years and the conjunctions in them, to which its two long counts are reduced. Reason 19.
#[inline]
pub fn reduced_pair(planet: u64) -> Result<Pair, Reason> {
    let c = ffi::oes_reduced_pair(planet).told()?;
    Ok(Pair {
        years: c.years,
        conjunctions: c.conjunctions,
    })
}

/// Every day from `first` to `last` that fits the reading, in rising order at the front of `out`, and how many there are; the
/// rest of `out` is untouched. A year's name is that of the civil year. Reasons 6, 13, 14, 12; with 12 comes the true total.
#[inline]
pub fn search(
    reading: &Reading,
    first: u64,
    last: u64,
    out: &mut [u32],
) -> Result<u32, SearchRefused> {
    let found = ffi::search(c_reading(reading), first, last, out);
    if found.reason == Reason::LentTooShort.number() {
        return Err(SearchRefused {
            reason: Reason::LentTooShort,
            total: Some(found.total),
        });
    }
    let told = found.told().map_err(|reason| SearchRefused {
        reason,
        total: None,
    });
    Ok(told?.total)
}

/// Where a day from `first` to `last` fits the reading, how many do, and `out` is untouched, however short. Else every day that
/// disagrees with exactly one known field, in rising order at the front of `out`, four numbers each: the day, the field (1 to 6, in
/// the order of [`Reading`]), what was read and what it should be; and how many there are. The rest of `out` is untouched. Reasons 6,
/// 13, 14, 12; with 12, where `out` has fewer than four places for each, comes the true number of emendations.
///
/// ```
/// use oesterwrok::{emend, Emended, Reading};
///
/// let mut slip = Reading {
///     year_name: Some(27),
///     month_number: Some(5),
///     day_of_month: Some(29),
///     day_name: Some(59),
///     first_name: Some(30),
///     ..Reading::default()
/// };
/// let mut list = [0; 9];
/// assert_eq!(emend(&slip, 3_691, 4_074, &mut list), Ok(Emended::Emendations(2)));
/// assert_eq!(list, [3_837, 5, 59, 58, 3_838, 4, 29, 30, 0]);
///
/// slip.day_of_month = Some(30);
/// assert_eq!(emend(&slip, 3_691, 4_074, &mut []), Ok(Emended::Fits(1)));
/// ```
#[inline]
pub fn emend(
    reading: &Reading,
    first: u64,
    last: u64,
    out: &mut [u32],
) -> Result<Emended, EmendRefused> {
    emended(ffi::emend(c_reading(reading), first, last, out))
}

/// The figures of the civil years from `first` to `last`, both among them: big and small months, big pairs (by the month that starts
/// them), eclipse months; `leaps` gets the leap months of each number, of number 1 first, `names` the days of each name, of name 1
/// first. Reason 1 outside 1 to 41,039, then 13 for a range turned round; a refused call leaves both arrays as they were. The time
/// does not grow with the range.
///
/// ```
/// use oesterwrok::{figures, Figures, Reason};
///
/// let (mut leaps, mut names) = ([0; 12], [0; 60]);
/// let year_8 = Figures { big: 7, small: 6, pairs: 1, eclipses: 3 };
/// assert_eq!(figures(8, 8, &mut leaps, &mut names), Ok(year_8));
/// assert_eq!(leaps, [0, 0, 0, 0, 0, 0, 0, 0, 0, 0, 0, 1]);
/// assert_eq!(names.iter().sum::<u32>(), 7 * 30 + 6 * 29);
///
/// assert_eq!(figures(0, 8, &mut leaps, &mut names), Err(Reason::Year));
/// assert_eq!(figures(9, 8, &mut leaps, &mut names), Err(Reason::Window));
/// ```
#[inline]
pub fn figures(
    first: u64,
    last: u64,
    leaps: &mut [u32; 12],
    names: &mut [u32; 60],
) -> Result<Figures, Reason> {
    let c = ffi::figures(first, last, leaps, names).told()?;
    Ok(Figures {
        big: c.big,
        small: c.small,
        pairs: c.pairs,
        eclipses: c.eclipses,
    })
}

/// Reads a sheet of civil years, months and days into three lent lists; places beyond what it fills are untouched. Reasons 9, 10,
/// 1, 7, 6, 11, 12.
#[inline]
pub fn read_sheet(
    bytes: &[u8],
    years: &mut [u16],
    months: &mut [u32],
    days: &mut [u32],
) -> Result<SheetCounts, Reason> {
    let c = ffi::read_sheet(bytes, years, months, days).told()?;
    Ok(SheetCounts {
        years: c.years,
        months: c.months,
        days: c.days,
    })
}

/// Writes the sheet of three whole lists, civil years, months and days, to the front of `out` and gives its number of bytes.
/// Reasons 10, 1, 7, 6, 12.
#[inline]
pub fn write_sheet(
    years: &[u16],
    months: &[u32],
    days: &[u32],
    out: &mut [u8],
) -> Result<usize, Reason> {
    Ok(ffi::write_sheet(years, months, days, out).told()?.length)
}

/// Reads a sheet of the new form, which has readings after its days, into four lent lists, the fourth eight numbers a reading: the
/// six fields (0 unread; leap mark [`ORDINARY`] or [`LEAP`]), first and last day. Reasons 9, 10, 1, 7, 6, 13, 14, 11, 12.
#[inline]
pub fn read_new(
    bytes: &[u8],
    years: &mut [u16],
    months: &mut [u32],
    days: &mut [u32],
    readings: &mut [u32],
) -> Result<NewCounts, Reason> {
    let c = ffi::read_new(bytes, years, months, days, readings).told()?;
    Ok(NewCounts {
        three: SheetCounts {
            years: c.years,
            months: c.months,
            days: c.days,
        },
        readings: c.readings,
    })
}

/// Puts a sheet of the old form to the front of `out` in the new one, and gives its number of bytes. Reasons 9, 10, 1, 7, 6, 11, 12.
#[inline]
pub fn to_new(bytes: &[u8], out: &mut [u8]) -> Result<usize, Reason> {
    Ok(ffi::to_new(bytes, out).told()?.length)
}

/// Puts a sheet of the new form without readings to the front of `out` in the old one. Reasons as of [`read_new`], then 17, 12.
#[inline]
pub fn to_old(bytes: &[u8], out: &mut [u8]) -> Result<usize, Reason> {
    Ok(ffi::to_old(bytes, out).told()?.length)
}

/// Prints a civil year's header and its months' lines to the front of `out` and gives the number of bytes. Reasons 1, 12.
#[inline]
pub fn print_year(year: u64, out: &mut [u8]) -> Result<usize, Reason> {
    Ok(ffi::print_year(year, out).told()?.length)
}

/// Prints a month's line, as it stands under its year's header. Reasons 7, 12.
#[inline]
pub fn print_month_line(month: u64, out: &mut [u8]) -> Result<usize, Reason> {
    Ok(ffi::print_month_line(month, out).told()?.length)
}

/// Prints `MONTH` and a month's line. Reasons 7, 12.
#[inline]
pub fn print_month(month: u64, out: &mut [u8]) -> Result<usize, Reason> {
    Ok(ffi::print_month(month, out).told()?.length)
}

/// Prints a day's `DAY` line as the listing has it, with its civil year, up to the day name. Reasons 6, 12.
#[inline]
pub fn print_day(day: u64, out: &mut [u8]) -> Result<usize, Reason> {
    Ok(ffi::print_day(day, out).told()?.length)
}

/// The facts of a month that was answered.
#[inline]
fn facts_of_month(c: ffi::CMonth) -> MonthFacts {
    MonthFacts {
        month: Month::new(c.number, c.leap),
        first_day: c.first_day,
        small_remainder: c.small_remainder,
        month_length: c.month_length,
        first_name: c.first_name,
        eclipse: c.eclipse,
    }
}

/// Judges a concordance, a text in the line form of the listing, line by line: to the front of `out` the number of each line's verdict
/// ([`Verdict::from_number`]), 0 right, 1 to 6 the first wrong field, 7 unreadable; gives how many lines there are. Reasons 18, 12.
///
/// ```
/// use oesterwrok::{judge_text, Verdict};
///
/// let mut verdicts = [0; 4];
/// let text = b"128 4 - 60 30 -\n129 5 - 30 29 E\n130 6 -";
/// assert_eq!(judge_text(text, &mut verdicts), Ok(3));
/// assert_eq!(Verdict::from_number(verdicts[0]), Some(Verdict::Right));
/// assert_eq!(Verdict::from_number(verdicts[1]), Some(Verdict::Wrong(5)));
/// assert_eq!(Verdict::from_number(verdicts[2]), Some(Verdict::Unreadable));
/// ```
#[inline]
pub fn judge_text(text: &[u8], out: &mut [u8]) -> Result<usize, Reason> {
    Ok(ffi::judge_text(text, out).told()?.length)
}

/// How many records were filled, or why none was. Only reason 6 has a place.
#[inline]
fn filled(c: ffi::CFilled) -> Result<u32, DrawerRefused> {
    let outside = c.reason == Reason::DayCount.number();
    let rest = ffi::CFilled {
        place: if outside { 0 } else { c.place },
        ..c
    };
    let told = rest.told().map_err(|reason| DrawerRefused {
        reason,
        place: outside.then_some(c.place),
    })?;
    assert_eq!(told.place, 0, "capi gave a filled drawer with a place");
    Ok(told.count)
}

/// What an emending found, or why it came back. Only reason 12 has a total, and only a total above 0 fits.
#[inline]
fn emended(c: ffi::CEmended) -> Result<Emended, EmendRefused> {
    let short = c.reason == Reason::LentTooShort.number();
    let rest = ffi::CEmended {
        total: if short { 0 } else { c.total },
        ..c
    };
    let told = rest.told().map_err(|reason| EmendRefused {
        reason,
        total: short.then_some(c.total),
    })?;
    if !told.fits {
        return Ok(Emended::Emendations(told.total));
    }
    assert_ne!(told.total, 0, "capi gave a reading that fits on no day");
    Ok(Emended::Fits(told.total))
}

/// The phase of a number that capi gave.
#[inline]
fn phase(number: u32) -> Phase {
    match number {
        0 => Phase::Neither,
        1 => Phase::Morning,
        2 => Phase::Evening,
        _ => panic!("capi gave {number}, which is no phase"),
    }
}

/// A reading as capi takes it; an unread field passes 0.
#[inline]
fn c_reading(reading: &Reading) -> ffi::CReading {
    ffi::CReading {
        year_name: reading.year_name.unwrap_or(0),
        month_number: reading.month_number.unwrap_or(0),
        leap_mark: reading.leap_mark.unwrap_or(0),
        day_of_month: reading.day_of_month.unwrap_or(0),
        day_name: reading.day_name.unwrap_or(0),
        first_name: reading.first_name.unwrap_or(0),
        year_name_known: reading.year_name.is_some(),
        month_number_known: reading.month_number.is_some(),
        leap_mark_known: reading.leap_mark.is_some(),
        day_of_month_known: reading.day_of_month.is_some(),
        day_name_known: reading.day_name.is_some(),
        first_name_known: reading.first_name.is_some(),
    }
}

#[cfg(test)]
mod tests {
    use super::*;

    /// Known flags alone say which fields were read: what an unread field holds is not looked at.
    #[test]
    fn unread_fields_may_hold_anything() {
        let asked = Reading {
            month_number: Some(12),
            day_of_month: Some(1),
            ..Reading::default()
        };
        for anything in [0, 1, 7, 61, 1 << 32, u64::MAX] {
            let reading = ffi::CReading {
                year_name: anything,
                leap_mark: anything,
                day_name: anything,
                first_name: anything,
                ..c_reading(&asked)
            };
            let mut out = [0; 2];
            let found = ffi::search(reading, 0, 100, &mut out);
            assert_eq!((found.reason, found.total, out), (0, 1, [29, 0]));
            let mut four = [0; 5];
            let fits = ffi::emend(reading, 0, 100, &mut four);
            assert_eq!((fits.reason, fits.fits, fits.total), (0, true, 1));
            assert_eq!(four, [0; 5]);
            let emended = ffi::emend(reading, 0, 0, &mut four);
            assert_eq!((emended.reason, emended.fits, emended.total), (0, false, 1));
            assert_eq!(four, [0, 2, 12, 11, 0]);
        }
    }

    /// A refusal of capi that held something else would be seen.
    #[test]
    #[should_panic(expected = "a refusal of capi holds something else")]
    fn a_refusal_is_bare() {
        let _ = ffi::CDay { reason: 6, day: 1 }.told();
    }

    /// The answer of capi for an emending, by its three fields.
    fn emending(reason: u32, fits: bool, total: u32) -> Result<Emended, EmendRefused> {
        emended(ffi::CEmended {
            reason,
            fits,
            total,
        })
    }

    /// An emending's total comes with reason 12, and with an answer.
    #[test]
    fn totals_of_emendings() {
        let refused = |reason, total| Err(EmendRefused { reason, total });
        assert_eq!(emending(0, true, 1), Ok(Emended::Fits(1)));
        assert_eq!(emending(0, false, 1), Ok(Emended::Emendations(1)));
        assert_eq!(emending(0, false, 0), Ok(Emended::Emendations(0)));
        assert_eq!(
            emending(12, false, 9),
            refused(Reason::LentTooShort, Some(9))
        );
        assert_eq!(emending(6, false, 0), refused(Reason::DayCount, None));
        assert_eq!(emending(13, false, 0), refused(Reason::Window, None));
        assert_eq!(emending(14, false, 0), refused(Reason::Field, None));
    }

    /// A total with another reason would be seen.
    #[test]
    #[should_panic(expected = "a refusal of capi holds something else")]
    fn an_emending_outside_has_no_total() {
        let _ = emending(6, false, 1);
    }

    /// So would a refusal that fits.
    #[test]
    #[should_panic(expected = "a refusal of capi holds something else")]
    fn a_short_emending_does_not_fit() {
        let _ = emending(12, true, 1);
    }

    /// So would one that fits on no day.
    #[test]
    #[should_panic(expected = "capi gave a reading that fits on no day")]
    fn what_fits_fits_on_a_day() {
        let _ = emending(0, true, 0);
    }

    /// The answer of capi for a drawer, by its three fields.
    fn drawer(reason: u32, count: u32, place: u32) -> Result<u32, DrawerRefused> {
        filled(ffi::CFilled {
            reason,
            count,
            place,
        })
    }

    /// A drawer's place comes with reason 6 alone, be it 0.
    #[test]
    fn places_of_drawers() {
        let refused = |reason, place| Err(DrawerRefused { reason, place });
        assert_eq!(drawer(0, 0, 0), Ok(0));
        assert_eq!(drawer(0, 4_096, 0), Ok(4_096));
        assert_eq!(drawer(6, 0, 0), refused(Reason::DayCount, Some(0)));
        assert_eq!(drawer(6, 0, 4_095), refused(Reason::DayCount, Some(4_095)));
        assert_eq!(drawer(10, 0, 0), refused(Reason::CountAbove, None));
        assert_eq!(drawer(12, 0, 0), refused(Reason::LentTooShort, None));
    }

    /// A count with a place would be seen.
    #[test]
    #[should_panic(expected = "a refusal of capi holds something else")]
    fn a_drawer_outside_is_not_filled() {
        let _ = drawer(6, 1, 1);
    }

    /// A place with another reason would be seen.
    #[test]
    #[should_panic(expected = "a refusal of capi holds something else")]
    fn a_short_drawer_has_no_place() {
        let _ = drawer(12, 0, 1);
    }

    /// So would one with a filled drawer.
    #[test]
    #[should_panic(expected = "capi gave a filled drawer with a place")]
    fn a_filled_drawer_has_no_place() {
        let _ = drawer(0, 2, 1);
    }
}
