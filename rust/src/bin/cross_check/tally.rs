//! Rows of the cross-check and their tallies.

use crate::random::Random;
use oesterwrok::{DrawerRefused, EmendRefused, Reason, SearchRefused};
use std::fmt::Debug;
use std::ops::Range;

/// How many differences of a row are kept to be printed.
const SHOWN: usize = 3;

/// Into how many pieces a row is cut, for the threads to share.
pub const PIECES: u64 = 16;

/// What was compared so far.
#[derive(Default)]
pub struct Tally {
    /// How many answers were compared.
    pub compared: u64,
    /// How many of them were equal.
    pub equal: u64,
    /// How often each reason was met by the independent one; 0 counts the answers.
    pub met: [u64; 22],
    /// The first differences.
    pub first: Vec<String>,
}

impl Tally {
    /// Compares two answers.
    pub fn compare<A: Answer>(&mut self, capi: A, own: A, input: impl FnOnce() -> String) {
        self.compare_lent((capi, ()), (own, ()), input);
    }

    /// Compares two answers and what lent memory holds after them.
    pub fn compare_lent<A: Answer, M: Memory>(
        &mut self,
        capi: (A, M),
        own: (A, M),
        input: impl FnOnce() -> String,
    ) {
        self.compared += 1;
        self.met[own.0.reason() as usize] += 1;
        if capi == own {
            self.equal += 1;
        } else if self.first.len() < SHOWN {
            self.first.push(difference(&input(), &capi, &own));
        }
    }

    /// Notes that a piece of work stopped in a panic, whose message is on standard error.
    pub fn stopped(&mut self) {
        self.compared += 1;
        self.first
            .push("a call stopped in a panic; see above".to_string());
    }

    /// Adds what another tally holds.
    pub fn add(&mut self, other: Tally) {
        self.compared += other.compared;
        self.equal += other.equal;
        for (here, there) in self.met.iter_mut().zip(other.met) {
            *here += there;
        }
        self.first.extend(other.first);
        self.first.truncate(SHOWN);
    }

    /// How often a reason was met.
    pub fn times_met(&self, reason: Reason) -> u64 {
        self.met[reason.number() as usize]
    }

    /// How many answers differed.
    pub fn different(&self) -> u64 {
        self.compared - self.equal
    }
}

/// A difference in words.
fn difference<A: Answer, M: Memory>(input: &str, capi: &(A, M), own: &(A, M)) -> String {
    let answers = format!(
        "{input}\n      capi:        {:?}\n      independent: {:?}",
        capi.0, own.0
    );
    match capi.1.first_difference(&own.1) {
        Some(memory) => format!("{answers}\n      {memory}"),
        None => answers,
    }
}

/// What is lent to a call; nothing is lent where it is `()`.
pub trait Memory: PartialEq {
    /// Where it first differs from the independent one's, in words.
    fn first_difference(&self, own: &Self) -> Option<String>;
}

impl Memory for () {
    fn first_difference(&self, _: &()) -> Option<String> {
        None
    }
}

impl<M: Memory> Memory for &M {
    fn first_difference(&self, own: &Self) -> Option<String> {
        (*self).first_difference(own)
    }
}

impl<A: Memory, B: Memory, C: Memory> Memory for (A, B, C) {
    fn first_difference(&self, own: &Self) -> Option<String> {
        let first = self.0.first_difference(&own.0);
        let second = || self.1.first_difference(&own.1);
        let third = || self.2.first_difference(&own.2);
        first.or_else(second).or_else(third)
    }
}

/// What both sides give: an answer or a reason.
pub trait Answer: PartialEq + Debug {
    /// The reason's number, 0 where there is an answer.
    fn reason(&self) -> u32;
}

impl<T: PartialEq + Debug> Answer for Result<T, Reason> {
    fn reason(&self) -> u32 {
        self.as_ref().err().map_or(0, |reason| reason.number())
    }
}

impl Answer for Result<u32, SearchRefused> {
    fn reason(&self) -> u32 {
        self.as_ref()
            .err()
            .map_or(0, |refused| refused.reason.number())
    }
}

impl<T: PartialEq + Debug> Answer for Result<T, EmendRefused> {
    fn reason(&self) -> u32 {
        self.as_ref()
            .err()
            .map_or(0, |refused| refused.reason.number())
    }
}

impl<T: PartialEq + Debug> Answer for Result<T, DrawerRefused> {
    fn reason(&self) -> u32 {
        self.as_ref()
            .err()
            .map_or(0, |refused| refused.reason.number())
    }
}

/// A piece of a row's work.
pub type Piece = Box<dyn Fn(&mut Tally) + Send + Sync>;

/// A row of the table: what is compared, in pieces.
pub struct Row {
    pub what: &'static str,
    pub pieces: Vec<Piece>,
}

/// A row over every item of a range.
pub fn every(what: &'static str, items: Range<u64>, compare: fn(u64, &mut Tally)) -> Row {
    let piece = |number: u64| -> Piece {
        let items = part(&items, number);
        Box::new(move |tally| items.clone().for_each(|item| compare(item, tally)))
    };
    Row {
        what,
        pieces: (0..PIECES).map(piece).collect(),
    }
}

/// A row of so many comparisons at random; the seed is the row's own.
pub fn at_random(
    what: &'static str,
    times: u64,
    seed: u64,
    compare: fn(&mut Random, &mut Tally),
) -> Row {
    let piece = |number: u64| -> Piece {
        let times = part(&(0..times), number);
        Box::new(move |tally| {
            let mut random = Random::new(seed, number + 1);
            times.clone().for_each(|_| compare(&mut random, tally));
        })
    };
    Row {
        what,
        pieces: (0..PIECES).map(piece).collect(),
    }
}

/// One of the equal parts of a range.
pub fn part(whole: &Range<u64>, number: u64) -> Range<u64> {
    let length = whole.end - whole.start;
    whole.start + length * number / PIECES..whole.start + length * (number + 1) / PIECES
}
