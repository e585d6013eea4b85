//! What is asked and answered: plain values, shared by the wrapper and by the independent implementation.

use std::fmt;

/// Why a query comes back: the paper's fifteen reasons, that of the civil year, that of the old form of the sheet, that of a
/// concordance, the two of the planets and that of the clerk, under their numbers.
#[derive(Clone, Copy, Debug, PartialEq, Eq, Hash)]
#[repr(u32)]
pub enum Reason {
    /// 1: year outside its range. That of a solstice year, asked for its place or a term, is 1 to 41,040; that of a civil year,
    /// everywhere else, 0 to 41,040, but in a range of years that is counted over, 1 to 41,039: these are whole.
    Year = 1,
    /// 2: month number outside 1 to 12.
    MonthNumber = 2,
    /// 3: day of month outside 1 to 30.
    DayOfMonth = 3,
    /// 4: leap month asked and that year has none of that number.
    NoSuchLeap = 4,
    /// 5: day 30 of a 29-day month.
    NoDayThirty = 5,
    /// 6: day count outside the range.
    DayCount = 6,
    /// 7: month count outside the range.
    MonthCount = 7,
    /// 8: a move ends outside the range.
    MoveEnds = 8,
    /// 9: sheet ends before a count or an item is whole.
    SheetEnds = 9,
    /// 10: a count above its most, which is 1,000 in a sheet, 500 for its readings, and 4,096 in a drawer.
    CountAbove = 10,
    /// 11: bytes after the last section.
    BytesAfter = 11,
    /// 12: a lent list or buffer too short for the whole answer.
    LentTooShort = 12,
    /// 13: last before first, or a window of more than 27,759 days.
    Window = 13,
    /// 14: a known field of a reading outside its range.
    Field = 14,
    /// 15: term, mid-term or quarter above its last; a term's is 23, a quarter's 3.
    TermOrQuarter = 15,
    /// 16: no such month number in that year: 1 to 10 in civil year 0, or 11 or 12 in civil year 41,040, leap or not. It comes
    /// after 3 and before 4.
    NoSuchNumber = 16,
    /// 17: going back to the old form of the sheet with readings present.
    ReadingsPresent = 17,
    /// 18: text too long, above 65,536 bytes.
    TextTooLong = 18,
    /// 19: planet outside 1 to 5.
    Planet = 19,
    /// 20: no conjunction falls from the given day to the end of the range.
    NoConjunctionLeft = 20,
    /// 21: bu, counted from the origin, outside 1 to 540.
    Bu = 21,
}

/// The reasons in the order of their numbers.
pub const REASONS: [Reason; 21] = [
    Reason::Year,
    Reason::MonthNumber,
    Reason::DayOfMonth,
    Reason::NoSuchLeap,
    Reason::NoDayThirty,
    Reason::DayCount,
    Reason::MonthCount,
    Reason::MoveEnds,
    Reason::SheetEnds,
    Reason::CountAbove,
    Reason::BytesAfter,
    Reason::LentTooShort,
    Reason::Window,
    Reason::Field,
    Reason::TermOrQuarter,
    Reason::NoSuchNumber,
    Reason::ReadingsPresent,
    Reason::TextTooLong,
    Reason::Planet,
    Reason::NoConjunctionLeft,
    Reason::Bu,
];

impl Reason {
    /// The paper's number, 1 to 21.
    pub fn number(self) -> u32 {
        self as u32
    }

    /// The reason of a number, where there is one.
    pub fn from_number(number: u32) -> Option<Reason> {
        REASONS.into_iter().find(|reason| reason.number() == number)
    }
}

impl fmt::Display for Reason {
    fn fmt(&self, f: &mut fmt::Formatter<'_>) -> fmt::Result {
        write!(f, "reason {}", self.number())
    }
}

impl std::error::Error for Reason {}

/// A date as it is asked for, by the paper's four things. Any numbers may be asked.
#[derive(Clone, Copy, Debug, PartialEq, Eq)]
pub struct Asked {
    /// The civil year, 0 to 41,040.
    pub year: u64,
    /// The month's number, 1 to 12.
    pub number: u64,
    /// Whether the leap month of that number is asked for.
    pub leap: bool,
    /// The day of the month, from 1.
    pub day_of_month: u64,
}

/// A month as a date holds it: ordinary or leap, with its number.
#[derive(Clone, Copy, Debug, PartialEq, Eq)]
pub enum Month {
    /// An ordinary month of this number.
    Ordinary(u32),
    /// The leap month of this number.
    Leap(u32),
}

impl Month {
    /// A month of a number, leap or not.
    pub fn new(number: u32, leap: bool) -> Month {
        if leap {
            Month::Leap(number)
        } else {
            Month::Ordinary(number)
        }
    }

    /// The month's number, 1 to 12.
    pub fn number(self) -> u32 {
        match self {
            Month::Ordinary(number) | Month::Leap(number) => number,
        }
    }

    /// Whether it is a leap month.
    pub fn is_leap(self) -> bool {
        matches!(self, Month::Leap(_))
    }
}

/// A date of the calendar.
#[derive(Clone, Copy, Debug, PartialEq, Eq)]
pub struct Date {
    /// The civil year, 0 to 41,040: the solstice year, one less where the month's number is 11 or 12, leap or not.
    pub year: u32,
    /// The month, ordinary or leap.
    pub month: Month,
    /// The day of the month, 1 to 30.
    pub day_of_month: u32,
    /// How many days its month has, 29 or 30.
    pub month_length: u32,
    /// The day's name, 1 to 60.
    pub day_name: u32,
    /// The civil year's name, 1 to 60.
    pub year_name: u32,
    /// The ji of the solstice year in which the day lies, 1 to 3.
    pub ji: u32,
    /// The bu of that solstice year, 1 to 20.
    pub bu: u32,
    /// The year in the bu of that solstice year, 1 to 76.
    pub year_in_bu: u32,
    /// Whether the day's month is an eclipse month.
    pub eclipse: bool,
}

impl Date {
    /// The four things by which this date is asked for.
    pub fn asked(&self) -> Asked {
        Asked {
            year: self.year.into(),
            number: self.month.number().into(),
            leap: self.month.is_leap(),
            day_of_month: self.day_of_month.into(),
        }
    }
}

/// A date record: what a drawer is filled with. It is the `oes_date` of the C header, field by field, so that a list of records is
/// lent as it stands.
#[repr(C)]
#[derive(Clone, Copy, Debug, Default, PartialEq, Eq)]
pub struct DateRecord {
    /// 0 where the record holds a date; else the paper's number, and every other field is 0.
    pub reason: u32,
    /// As in [`Date`], like the fields below.
    pub year: u32,
    /// The month's number, 1 to 12.
    pub number: u32,
    /// Whether it is the leap month of that number.
    pub leap: bool,
    /// The day of the month, 1 to 30.
    pub day_of_month: u32,
    /// How many days its month has.
    pub month_length: u32,
    /// The day's name.
    pub day_name: u32,
    /// The civil year's name.
    pub year_name: u32,
    /// The ji.
    pub ji: u32,
    /// The bu.
    pub bu: u32,
    /// The year in the bu.
    pub year_in_bu: u32,
    /// The eclipse mark.
    pub eclipse: bool,
}

impl DateRecord {
    /// The date in a record of reason 0.
    #[inline]
    pub fn date(&self) -> Date {
        Date {
            year: self.year,
            month: Month::new(self.number, self.leap),
            day_of_month: self.day_of_month,
            month_length: self.month_length,
            day_name: self.day_name,
            year_name: self.year_name,
            ji: self.ji,
            bu: self.bu,
            year_in_bu: self.year_in_bu,
            eclipse: self.eclipse,
        }
    }
}

impl From<Date> for DateRecord {
    /// The record of a date, reason 0.
    #[inline]
    fn from(date: Date) -> DateRecord {
        DateRecord {
            reason: 0,
            year: date.year,
            number: date.month.number(),
            leap: date.month.is_leap(),
            day_of_month: date.day_of_month,
            month_length: date.month_length,
            day_name: date.day_name,
            year_name: date.year_name,
            ji: date.ji,
            bu: date.bu,
            year_in_bu: date.year_in_bu,
            eclipse: date.eclipse,
        }
    }
}

/// Why a drawer came back.
#[derive(Clone, Copy, Debug, PartialEq, Eq)]
pub struct DrawerRefused {
    /// The reason.
    pub reason: Reason,
    /// The place of the first day out of range, counted from 0, told with reason 6 alone.
    pub place: Option<u32>,
}

impl fmt::Display for DrawerRefused {
    fn fmt(&self, f: &mut fmt::Formatter<'_>) -> fmt::Result {
        match self.place {
            Some(place) => write!(f, "{} at place {place}", self.reason),
            None => self.reason.fmt(f),
        }
    }
}

impl std::error::Error for DrawerRefused {}

/// A solstice year, which begins with the month of its winter solstice: its place, its bu's head name and its months.
#[derive(Clone, Copy, Debug, PartialEq, Eq)]
pub struct SolsticeYear {
    /// The ji of its yuan, 1 to 3.
    pub ji: u32,
    /// The bu of its ji, 1 to 20.
    pub bu: u32,
    /// The year in its bu, 1 to 76.
    pub year_in_bu: u32,
    /// The name of its bu's first day.
    pub head_name: u32,
    /// The month count that it begins with.
    pub first_month: u32,
    /// Its leap remainder, in nineteenths of a month.
    pub leap_remainder: u32,
    /// How many months it has, 12 or 13.
    pub months: u32,
}

/// A civil year's own facts.
#[derive(Clone, Copy, Debug, PartialEq, Eq)]
pub struct YearFacts {
    /// The civil year's name, 1 to 60.
    pub name: u32,
    /// The month count that it opens with: its month 1, or month 11 in year 0.
    pub first_month: u32,
    /// How many months it has: 12 or 13, but 2 in year 0 and 11 in year 41,040.
    pub months: u32,
    /// Its leap month, where it has one.
    pub leap: Option<LeapMonth>,
}

/// The leap month of a civil year.
#[derive(Clone, Copy, Debug, PartialEq, Eq)]
pub struct LeapMonth {
    /// The number that it bears.
    pub number: u32,
    /// Its month count.
    pub month: u32,
}

/// The facts of a month.
#[derive(Clone, Copy, Debug, PartialEq, Eq)]
pub struct MonthFacts {
    /// Ordinary or leap, with its number.
    pub month: Month,
    /// The day on which it starts.
    pub first_day: u32,
    /// Its small remainder, in parts of 940.
    pub small_remainder: u32,
    /// How many days it has, 29 or 30.
    pub month_length: u32,
    /// The name of its first day.
    pub first_name: u32,
    /// Whether it is an eclipse month.
    pub eclipse: bool,
}

/// The clerk at a month: what it keeps of the month, and to go on by the eclipse remainder and the next mid-term after the month. It
/// is the `oes_clerk` of the C header, field by field. Any numbers may be put together.
#[repr(C)]
#[derive(Clone, Copy, Debug, Default, PartialEq, Eq)]
pub struct Clerk {
    /// The month's count, 0 to 507,599.
    pub month_count: u32,
    /// The day on which it starts.
    pub first_day: u32,
    /// The day of the next mid-term after it.
    pub mid_term_day: u32,
    /// Its small remainder, in parts of 940.
    pub small_remainder: u16,
    /// Its number, 1 to 12.
    pub number: u8,
    /// Whether it is the leap month of that number.
    pub leap: bool,
    /// How many days it has, 29 or 30.
    pub month_length: u8,
    /// The name of its first day, 1 to 60.
    pub first_name: u8,
    /// Whether it is an eclipse month.
    pub eclipse: bool,
    /// Its eclipse remainder, in parts of 135.
    pub eclipse_remainder: u8,
    /// The rest of that mid-term beyond its whole days, in parts of 32.
    pub mid_term_parts: u8,
}

/// A quarter of a month.
#[derive(Clone, Copy, Debug, PartialEq, Eq)]
pub struct Quarter {
    /// The day on which it falls.
    pub day: u32,
    /// The rest, in parts of 3,760.
    pub parts: u32,
}

/// A term of a solstice year.
#[derive(Clone, Copy, Debug, PartialEq, Eq)]
pub struct Term {
    /// The day on which it falls.
    pub day: u32,
    /// The rest, in parts of 32.
    pub parts: u32,
}

/// Whether a conjunction is a morning or an evening one.
#[derive(Clone, Copy, Debug, PartialEq, Eq)]
pub enum Phase {
    /// Neither: Jupiter, Mars and Saturn.
    Neither,
    /// A morning conjunction of Venus or Mercury, of an odd count.
    Morning,
    /// An evening one, of an even count.
    Evening,
}

/// A conjunction of a planet.
#[derive(Clone, Copy, Debug, PartialEq, Eq)]
pub struct Conjunction {
    /// The day on which it falls.
    pub day: u32,
    /// The rest, in parts of the divisor.
    pub parts: u32,
    /// Of how many parts: four times the planet's conjunctions.
    pub divisor: u32,
    /// Morning, evening or neither.
    pub phase: Phase,
}

/// The first conjunction on or after a day.
#[derive(Clone, Copy, Debug, PartialEq, Eq)]
pub struct NextConjunction {
    /// Its count since the origin, where the first one is 0.
    pub k: u32,
    /// The conjunction.
    pub conjunction: Conjunction,
}

/// A planet's pair.
#[derive(Clone, Copy, Debug, PartialEq, Eq)]
pub struct Pair {
    /// So many years.
    pub years: u64,
    /// The conjunctions in them.
    pub conjunctions: u64,
}

/// The leap mark of a reading that says "ordinary".
pub const ORDINARY: u64 = 1;

/// The leap mark of a reading that says "leap".
pub const LEAP: u64 = 2;

/// A reading of a slip: each field is a number, or unread (`None`).
#[derive(Clone, Copy, Debug, Default, PartialEq, Eq)]
pub struct Reading {
    /// The civil year's name, 1 to 60.
    pub year_name: Option<u64>,
    /// The month's number, 1 to 12.
    pub month_number: Option<u64>,
    /// [`ORDINARY`] or [`LEAP`].
    pub leap_mark: Option<u64>,
    /// The day of the month, 1 to 30.
    pub day_of_month: Option<u64>,
    /// The day's name, 1 to 60.
    pub day_name: Option<u64>,
    /// The name of the month's first day, 1 to 60.
    pub first_name: Option<u64>,
}

/// Why a search came back.
#[derive(Clone, Copy, Debug, PartialEq, Eq)]
pub struct SearchRefused {
    /// The reason.
    pub reason: Reason,
    /// How many days fit, told with reason 12 alone.
    pub total: Option<u32>,
}

impl fmt::Display for SearchRefused {
    fn fmt(&self, f: &mut fmt::Formatter<'_>) -> fmt::Result {
        match self.total {
            Some(total) => write!(f, "{}: {total} days fit", self.reason),
            None => self.reason.fmt(f),
        }
    }
}

impl std::error::Error for SearchRefused {}

/// What an emending found.
#[derive(Clone, Copy, Debug, PartialEq, Eq)]
pub enum Emended {
    /// So many days fit the reading as it is; nothing was filled.
    Fits(u32),
    /// No day fits; so many emendations were filled, four numbers each: the day, the field (1 to 6, in the order of [`Reading`]),
    /// what was read and what it should be.
    Emendations(u32),
}

/// Why an emending came back.
#[derive(Clone, Copy, Debug, PartialEq, Eq)]
pub struct EmendRefused {
    /// The reason.
    pub reason: Reason,
    /// How many emendations there are, told with reason 12 alone.
    pub total: Option<u32>,
}

impl fmt::Display for EmendRefused {
    fn fmt(&self, f: &mut fmt::Formatter<'_>) -> fmt::Result {
        match self.total {
            Some(total) => write!(f, "{}: {total} emendations", self.reason),
            None => self.reason.fmt(f),
        }
    }
}

impl std::error::Error for EmendRefused {}

/// The figures of a range of civil years.
#[derive(Clone, Copy, Debug, Default, PartialEq, Eq)]
pub struct Figures {
    /// Months of 30 days.
    pub big: u32,
    /// Months of 29 days.
    pub small: u32,
    /// Big months that are followed by another, be it in the range or the month after it.
    pub pairs: u32,
    /// Eclipse months.
    pub eclipses: u32,
}

/// How many items each of a sheet's lists has.
#[derive(Clone, Copy, Debug, PartialEq, Eq)]
pub struct SheetCounts {
    /// Civil years.
    pub years: usize,
    /// Months.
    pub months: usize,
    /// Days.
    pub days: usize,
}

/// The verdict on a line of a concordance.
#[derive(Clone, Copy, Debug, PartialEq, Eq, Hash)]
pub enum Verdict {
    /// The line is what is printed for its month count.
    Right,
    /// The first wrong field: 1 month count, 2 number, 3 leap mark, 4 first day's name, 5 length, 6 eclipse mark.
    Wrong(u8),
    /// The line is not six fields parted by single spaces.
    Unreadable,
}

impl Verdict {
    /// Its number: 0, 1 to 6, or 7.
    pub fn number(self) -> u8 {
        match self {
            Verdict::Right => 0,
            Verdict::Wrong(field) => field,
            Verdict::Unreadable => 7,
        }
    }

    /// The verdict of a number, where there is one.
    pub fn from_number(number: u8) -> Option<Verdict> {
        match number {
            0 => Some(Verdict::Right),
            1..=6 => Some(Verdict::Wrong(number)),
            7 => Some(Verdict::Unreadable),
            _ => None,
        }
    }
}

/// How many items each of the lists of a sheet of the new form has.
#[derive(Clone, Copy, Debug, PartialEq, Eq)]
pub struct NewCounts {
    /// Civil years, months and days.
    pub three: SheetCounts,
    /// Readings, eight numbers each.
    pub readings: usize,
}
