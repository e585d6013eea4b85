//! The C interface of capi, as `crates/capi/oesterwrok.h` gives it: with `drawn.rs` the only unsafe code of the package.
//!
//! What the header asks of a caller is met here for every Rust caller: a slice is never null and always aligned, an empty one
//! too; a lent slice overlaps no other, since it is borrowed alone; and a `bool` is 0 or 1.
#![allow(unsafe_code)]

use crate::types::{Clerk, DateRecord, Reason};
use std::fmt::Debug;

/// How a refusal is told from an answer, in a struct of the header whose first field is `reason`.
macro_rules! told {
    ($name:ident) => {
        impl Told for $name {
            fn reason(&self) -> u32 {
                self.reason
            }

            fn bare(reason: u32) -> Self {
                $name {
                    reason,
                    ..Self::default()
                }
            }
        }
    };
}

/// Declares a struct of the header whose first field is `reason`, and how a refusal is told from an answer.
macro_rules! answer {
    ($(#[$doc:meta])* $name:ident { $($field:ident: $kind:ty),* $(,)? }) => {
        $(#[$doc])*
        #[repr(C)]
        #[derive(Clone, Copy, Debug, Default, PartialEq)]
        pub struct $name {
            pub reason: u32,
            $(pub $field: $kind,)*
        }

        told!($name);
    };
}

/// An answer of capi: reason 0 and its values, or a reason and nothing else.
pub trait Told: Copy + Debug + PartialEq {
    /// The paper's number, or 0.
    fn reason(&self) -> u32;

    /// A refusal for this reason, every other field 0.
    fn bare(reason: u32) -> Self;

    /// The answer, or why there is none.
    #[inline]
    fn told(self) -> Result<Self, Reason> {
        if self.reason() == 0 {
            Ok(self)
        } else {
            Err(refusal(self))
        }
    }
}

/// The reason of a refusal. The header says that every other field is 0; an archive that breaks this is not the proved one.
#[cold]
fn refusal<T: Told>(answer: T) -> Reason {
    assert_eq!(
        answer,
        T::bare(answer.reason()),
        "a refusal of capi holds something else"
    );
    known_reason(answer.reason())
}

/// The reason of a number that capi gave.
pub fn known_reason(number: u32) -> Reason {
    Reason::from_number(number).unwrap_or_else(|| panic!("capi gave {number}, which is no reason"))
}

// `oes_date` is `DateRecord`: lists of it are lent by the callers.
told!(DateRecord);

answer! {
    /// `oes_day`
    CDay { day: u32 }
}

answer! {
    /// `oes_filled`
    CFilled { count: u32, place: u32 }
}

answer! {
    /// `oes_solstice`
    CSolstice {
        ji: u32,
        bu: u32,
        year_in_bu: u32,
        head_name: u32,
        first_month: u32,
        leap_remainder: u32,
        months: u32,
    }
}

answer! {
    /// `oes_year`
    CYear {
        name: u32,
        first_month: u32,
        months: u32,
        has_leap: bool,
        leap_number: u32,
        leap_month: u32,
    }
}

answer! {
    /// `oes_month`
    CMonth {
        number: u32,
        leap: bool,
        first_day: u32,
        small_remainder: u32,
        month_length: u32,
        first_name: u32,
        eclipse: bool,
    }
}

answer! {
    /// `oes_clerk_told`
    CClerk { clerk: Clerk }
}

answer! {
    /// `oes_quarter_told`
    CQuarter { day: u32, parts: u32 }
}

answer! {
    /// `oes_term_told`
    CTerm { day: u32, parts: u32 }
}

answer! {
    /// `oes_conjunction_told`
    CConjunction { day: u32, parts: u32, divisor: u32, phase: u32 }
}

answer! {
    /// `oes_next_told`
    CNext { k: u32, day: u32, parts: u32, divisor: u32, phase: u32 }
}

answer! {
    /// `oes_pair_told`
    CPair { years: u64, conjunctions: u64 }
}

answer! {
    /// `oes_found`
    CFound { total: u32 }
}

answer! {
    /// `oes_emended`
    CEmended { fits: bool, total: u32 }
}

answer! {
    /// `oes_figures_told`
    CFigures { big: u32, small: u32, pairs: u32, eclipses: u32 }
}

answer! {
    /// `oes_sheet_counts`
    CSheetCounts { years: usize, months: usize, days: usize }
}

answer! {
    /// `oes_new_counts`
    CNewCounts { years: usize, months: usize, days: usize, readings: usize }
}

answer! {
    /// `oes_length`
    CLength { length: usize }
}

/// `oes_reading`
#[repr(C)]
#[derive(Clone, Copy)]
pub struct CReading {
    pub year_name: u64,
    pub month_number: u64,
    pub leap_mark: u64,
    pub day_of_month: u64,
    pub day_name: u64,
    pub first_name: u64,
    pub year_name_known: bool,
    pub month_number_known: bool,
    pub leap_mark_known: bool,
    pub day_of_month_known: bool,
    pub day_name_known: bool,
    pub first_name_known: bool,
}

// A call that takes no pointer asks nothing of its caller, so it is declared safe. A year is the civil year, but in
// `oes_solstice_year` and `oes_term`, which take the solstice year.
unsafe extern "C" {
    pub safe fn oes_date_of_day(day: u64) -> DateRecord;
    pub safe fn oes_day_of_date(year: u64, number: u64, leap: bool, day_of_month: u64) -> CDay;
    pub safe fn oes_move_date(
        year: u64,
        number: u64,
        leap: bool,
        day_of_month: u64,
        days: i64,
    ) -> DateRecord;
    fn oes_dates(
        days: *const u32,
        days_count: usize,
        out: *mut DateRecord,
        out_places: usize,
    ) -> CFilled;
    pub safe fn oes_solstice_year(year: u64) -> CSolstice;
    pub safe fn oes_year_facts(year: u64) -> CYear;
    pub safe fn oes_month_facts(month: u64) -> CMonth;
    pub safe fn oes_clerk_start(bu: u64) -> CClerk;
    pub safe fn oes_clerk_step(clerk: Clerk) -> CClerk;
    pub safe fn oes_clerk_walk(bu: u64, steps: u64) -> CClerk;
    pub safe fn oes_clerk_show(clerk: Clerk) -> CMonth;
    pub safe fn oes_quarter(month: u64, quarter: u64) -> CQuarter;
    pub safe fn oes_term(year: u64, term: u64) -> CTerm;
    pub safe fn oes_conjunction(planet: u64, k: u64) -> CConjunction;
    pub safe fn oes_next_conjunction(planet: u64, day: u64) -> CNext;
    pub safe fn oes_reduced_pair(planet: u64) -> CPair;
    fn oes_search(
        reading: CReading,
        first: u64,
        last: u64,
        out: *mut u32,
        out_places: usize,
    ) -> CFound;
    fn oes_emend(
        reading: CReading,
        first: u64,
        last: u64,
        out: *mut u32,
        out_places: usize,
    ) -> CEmended;
    fn oes_figures(first: u64, last: u64, leaps: *mut [u32; 12], names: *mut [u32; 60])
        -> CFigures;
    fn oes_read_sheet(
        bytes: *const u8,
        bytes_length: usize,
        years: *mut u16,
        years_places: usize,
        months: *mut u32,
        months_places: usize,
        days: *mut u32,
        days_places: usize,
    ) -> CSheetCounts;
    fn oes_write_sheet(
        years: *const u16,
        years_count: usize,
        months: *const u32,
        months_count: usize,
        days: *const u32,
        days_count: usize,
        out: *mut u8,
        out_bytes: usize,
    ) -> CLength;
    fn oes_read_new(
        bytes: *const u8,
        bytes_length: usize,
        years: *mut u16,
        years_places: usize,
        months: *mut u32,
        months_places: usize,
        days: *mut u32,
        days_places: usize,
        readings: *mut u32,
        readings_places: usize,
    ) -> CNewCounts;
    fn oes_to_new(bytes: *const u8, bytes_length: usize, out: *mut u8, out_bytes: usize)
        -> CLength;
    fn oes_to_old(bytes: *const u8, bytes_length: usize, out: *mut u8, out_bytes: usize)
        -> CLength;
    fn oes_print_year(year: u64, out: *mut u8, out_bytes: usize) -> CLength;
    fn oes_print_month_line(month: u64, out: *mut u8, out_bytes: usize) -> CLength;
    fn oes_print_month(month: u64, out: *mut u8, out_bytes: usize) -> CLength;
    fn oes_print_day(day: u64, out: *mut u8, out_bytes: usize) -> CLength;
    fn oes_judge_text(
        text: *const u8,
        text_length: usize,
        out: *mut u8,
        out_bytes: usize,
    ) -> CLength;
}

/// `oes_dates` over slices.
#[inline]
pub fn dates(days: &[u32], out: &mut [DateRecord]) -> CFilled {
    // SAFETY: each pointer and length are those of one slice; the lent one is borrowed alone. `DateRecord` is laid out as the
    // header's `oes_date`.
    unsafe { oes_dates(days.as_ptr(), days.len(), out.as_mut_ptr(), out.len()) }
}

/// `oes_search` over a slice.
#[inline]
pub fn search(reading: CReading, first: u64, last: u64, out: &mut [u32]) -> CFound {
    // SAFETY: pointer and length are those of one slice, borrowed alone.
    unsafe { oes_search(reading, first, last, out.as_mut_ptr(), out.len()) }
}

/// `oes_emend` over a slice.
#[inline]
pub fn emend(reading: CReading, first: u64, last: u64, out: &mut [u32]) -> CEmended {
    // SAFETY: pointer and length are those of one slice, borrowed alone.
    unsafe { oes_emend(reading, first, last, out.as_mut_ptr(), out.len()) }
}

/// `oes_figures` over arrays.
#[inline]
pub fn figures(first: u64, last: u64, leaps: &mut [u32; 12], names: &mut [u32; 60]) -> CFigures {
    // SAFETY: each pointer is that of an array of its size, borrowed alone.
    unsafe { oes_figures(first, last, leaps, names) }
}

/// `oes_read_sheet` over slices.
#[inline]
pub fn read_sheet(
    bytes: &[u8],
    years: &mut [u16],
    months: &mut [u32],
    days: &mut [u32],
) -> CSheetCounts {
    // SAFETY: each pointer and length are those of one slice; the three lent ones are borrowed alone.
    unsafe {
        oes_read_sheet(
            bytes.as_ptr(),
            bytes.len(),
            years.as_mut_ptr(),
            years.len(),
            months.as_mut_ptr(),
            months.len(),
            days.as_mut_ptr(),
            days.len(),
        )
    }
}

/// `oes_write_sheet` over slices.
#[inline]
pub fn write_sheet(years: &[u16], months: &[u32], days: &[u32], out: &mut [u8]) -> CLength {
    // SAFETY: each pointer and length are those of one slice; the lent one is borrowed alone.
    unsafe {
        oes_write_sheet(
            years.as_ptr(),
            years.len(),
            months.as_ptr(),
            months.len(),
            days.as_ptr(),
            days.len(),
            out.as_mut_ptr(),
            out.len(),
        )
    }
}

/// `oes_read_new` over slices.
#[inline]
pub fn read_new(
    bytes: &[u8],
    years: &mut [u16],
    months: &mut [u32],
    days: &mut [u32],
    readings: &mut [u32],
) -> CNewCounts {
    // SAFETY: each pointer and length are those of one slice; the four lent ones are borrowed alone.
    unsafe {
        oes_read_new(
            bytes.as_ptr(),
            bytes.len(),
            years.as_mut_ptr(),
            years.len(),
            months.as_mut_ptr(),
            months.len(),
            days.as_mut_ptr(),
            days.len(),
            readings.as_mut_ptr(),
            readings.len(),
        )
    }
}

/// `oes_to_new` over slices.
#[inline]
pub fn to_new(bytes: &[u8], out: &mut [u8]) -> CLength {
    // SAFETY: each pointer and length are those of one slice; the lent one is borrowed alone.
    unsafe { oes_to_new(bytes.as_ptr(), bytes.len(), out.as_mut_ptr(), out.len()) }
}

/// `oes_to_old` over slices.
#[inline]
pub fn to_old(bytes: &[u8], out: &mut [u8]) -> CLength {
    // SAFETY: each pointer and length are those of one slice; the lent one is borrowed alone.
    unsafe { oes_to_old(bytes.as_ptr(), bytes.len(), out.as_mut_ptr(), out.len()) }
}

/// Wraps a printing call over a slice.
macro_rules! printing {
    ($name:ident, $call:ident) => {
        #[doc = concat!("`", stringify!($call), "` over a slice.")]
        #[inline]
        pub fn $name(item: u64, out: &mut [u8]) -> CLength {
            // SAFETY: pointer and length are those of one slice, borrowed alone.
            unsafe { $call(item, out.as_mut_ptr(), out.len()) }
        }
    };
}

printing!(print_year, oes_print_year);
printing!(print_month_line, oes_print_month_line);
printing!(print_month, oes_print_month);
printing!(print_day, oes_print_day);

/// `oes_judge_text` over slices.
#[inline]
pub fn judge_text(text: &[u8], out: &mut [u8]) -> CLength {
    // SAFETY: each pointer and length are those of one slice; the lent one is borrowed alone.
    unsafe { oes_judge_text(text.as_ptr(), text.len(), out.as_mut_ptr(), out.len()) }
}
