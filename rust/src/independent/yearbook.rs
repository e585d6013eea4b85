//! The yearbook's figures, by a walk along every month and every day of the range.

use super::{
    civil_first, day_name, ensure, is_eclipse, is_leap, month_length, month_number, month_start,
    YEARS,
};
use crate::types::{Figures, Reason};

/// As [`crate::figures`]: the request's words, a month and a day at a time.
pub fn figures(
    first: u64,
    last: u64,
    leaps: &mut [u32; 12],
    names: &mut [u32; 60],
) -> Result<Figures, Reason> {
    for year in [first, last] {
        ensure((1..YEARS).contains(&year), Reason::Year)?;
    }
    ensure(first <= last, Reason::Window)?;
    let (mut told, mut by_number, mut by_name) = (Figures::default(), [0; 12], [0; 60]);
    for n in civil_first(first)..civil_first(last + 1) {
        let big = month_length(n) == 30;
        told.big += u32::from(big);
        told.small += u32::from(month_length(n) == 29);
        told.pairs += u32::from(big && month_length(n + 1) == 30);
        told.eclipses += u32::from(is_eclipse(n));
        if is_leap(n) {
            by_number[month_number(n) as usize - 1] += 1;
        }
        for day in month_start(n)..month_start(n + 1) {
            by_name[day_name(day) as usize - 1] += 1;
        }
    }
    (*leaps, *names) = (by_number, by_name);
    Ok(told)
}
