//! Lent memory with canary values: a list between two guards, so that a place changed in or beside the list is seen.

use crate::random::Random;
use crate::tally::Memory;
use oesterwrok::DateRecord;
use std::fmt::Debug;

/// How many places stand guard on each side of a lent list.
const GUARD: usize = 8;

/// A list to lend.
#[derive(Clone, PartialEq)]
pub struct Lent<T>(Vec<T>);

impl<T: Canary> Lent<T> {
    /// A list of so many places, each with a canary value, as are its guards.
    pub fn new(places: usize, random: &mut Random) -> Lent<T> {
        let start = random.next();
        let canary = |place: usize| T::canary(start.wrapping_add(place as u64 * 0x9E37_79B1));
        Lent((0..places + 2 * GUARD).map(canary).collect())
    }

    /// The list without its guards.
    pub fn lend(&mut self) -> &mut [T] {
        let end = self.0.len() - GUARD;
        &mut self.0[GUARD..end]
    }
}

impl<T: Canary> Memory for Lent<T> {
    fn first_difference(&self, own: &Self) -> Option<String> {
        let (lent, place) = (
            self.0.len() - 2 * GUARD,
            self.0.iter().zip(&own.0).position(|(a, b)| a != b)?,
        );
        let values = format!(
            "capi left {:?}, the independent one {:?}",
            self.0[place], own.0[place]
        );
        // Counted from the list's own first place; the guards are before 0 and from `lent` on.
        let place = place as i64 - GUARD as i64;
        Some(format!(
            "memory differs first at place {place} of {lent} lent: {values}"
        ))
    }
}

/// A kind of number that lent lists hold, or a record of them.
pub trait Canary: Copy + Debug + PartialEq {
    /// A canary value out of a number.
    fn canary(number: u64) -> Self;
}

impl Canary for u8 {
    fn canary(number: u64) -> u8 {
        // Bytes above 127 stand in no printed line.
        (number >> 5) as u8 | 0x80
    }
}

impl Canary for u16 {
    fn canary(number: u64) -> u16 {
        (number >> 3) as u16
    }
}

impl Canary for u32 {
    fn canary(number: u64) -> u32 {
        number as u32
    }
}

impl Canary for DateRecord {
    fn canary(number: u64) -> DateRecord {
        // Every number has its highest bit set, as none of a record that was filled has.
        let field = |turns: u32| number.rotate_left(5 * turns) as u32 | 1 << 31;
        DateRecord {
            reason: field(0),
            year: field(1),
            number: field(2),
            leap: number & 1 == 0,
            day_of_month: field(3),
            month_length: field(4),
            day_name: field(5),
            year_name: field(6),
            ji: field(7),
            bu: field(8),
            year_in_bu: field(9),
            eclipse: number & 2 == 0,
        }
    }
}
