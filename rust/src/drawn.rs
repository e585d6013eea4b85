//! The Rattle call of a drawer, `fill_dates`, as crates/drawn offers it to tests and times. Its records hold an enum and cannot leave
//! Rattle: what comes back is a number that every field of every record goes into. No header has it.
#![allow(unsafe_code)]

use crate::ffi::CFilled;
use crate::types::{Date, DrawerRefused};

/// `Drawn` of crates/drawn.
#[repr(C)]
struct CDrawn {
    reason: u32,
    count: u32,
    place: u32,
    sum: u64,
}

unsafe extern "C" {
    fn oes_drawn(days: *const u32, days_count: usize) -> CDrawn;
}

/// How many records `fill_dates` filled, of 4,096, and what they add up to ([`sum_of`]); or why none was. Reasons 10, 6.
#[inline]
pub fn drawn(days: &[u32]) -> Result<(u32, u64), DrawerRefused> {
    // SAFETY: pointer and length are those of one slice, which is only read.
    let answer = unsafe { oes_drawn(days.as_ptr(), days.len()) };
    let CDrawn {
        reason,
        count,
        place,
        sum,
    } = answer;
    let filled = crate::filled(CFilled {
        reason,
        count,
        place,
    });
    assert!(filled.is_ok() || sum == 0, "a refused drawer has a sum");
    filled.map(|count| (count, sum))
}

/// What records of these dates add up to: before the next record comes in the sum is turned by seven bits.
pub fn sum_of(dates: impl Iterator<Item = Date>) -> u64 {
    dates.fold(0, |sum, date| added(sum, words(&date)))
}

/// The two words of one record more in a sum.
#[inline]
pub fn added(sum: u64, (low, high): (u64, u64)) -> u64 {
    sum.rotate_left(7).wrapping_add(low ^ 4_294_967_291 * high)
}

/// The values of a date in two words, the first in the lowest bits: 16 bits for the year, 8 for any other.
fn words(date: &Date) -> (u64, u64) {
    let low = [
        u32::from(date.month.is_leap()),
        date.month.number(),
        date.year & 255,
        date.year >> 8,
        date.day_of_month,
        date.month_length,
        date.day_name,
        date.year_name,
    ];
    let high = [date.ji, date.bu, date.year_in_bu, u32::from(date.eclipse)];
    (bytes(&low), bytes(&high))
}

/// Bytes in one number, the first the lowest.
fn bytes(values: &[u32]) -> u64 {
    values
        .iter()
        .rev()
        .fold(0, |number, &value| number << 8 | u64::from(value))
}
