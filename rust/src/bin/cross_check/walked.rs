//! A third way, which shares no formula with the other two: the months walked from the origin as a clerk does it, month by month
//! and mid-term by mid-term, and with them the years. The solstice year goes on by one at each ordinary month of number 11, and its
//! place with it, the civil year at each ordinary month of number 1. The eclipses go on by 23 parts of 135 a month.

use crate::tally::{part, Piece, Row, Tally, PIECES};
use crate::{DAYS, MONTHS, YEARS};
use oesterwrok::{self as capi, Asked, Date, LeapMonth, Month, Reason, YearFacts};
use std::ops::Range;

/// On how many days civil year and solstice year differ: the figure of the issue that asks for civil years.
const DIFFERENT_DAYS: u64 = 2_487_240;

/// The date of day 0.
const DAY_0: Asked = Asked {
    year: 0,
    number: 11,
    leap: false,
    day_of_month: 1,
};

/// The rows of the walk.
pub fn rows() -> Vec<Row> {
    vec![
        every_month("every day to its date and back, walked", days_of_month),
        every_month("every date by a move from day 0, walked", moves_to_month),
        one_piece("every civil year's facts, walked", civil_years),
        one_piece("every number of every civil year, walked", numbers_of_years),
        one_piece(
            "every solstice year's place and months, walked",
            solstice_years,
        ),
        one_piece("the days whose two years differ, counted", different_days),
    ]
}

/// A month as the walk comes to it.
#[derive(Clone, Copy)]
struct Walked {
    count: u64,
    first_day: u64,
    length: u64,
    number: u32,
    leap: bool,
    first_name: u32,
    civil_year: u64,
    year_name: u32,
    solstice_year: u64,
    place: Place,
    eclipse: bool,
}

/// The place of a solstice year.
#[derive(Clone, Copy, Debug, PartialEq)]
struct Place {
    ji: u32,
    bu: u32,
    year_in_bu: u32,
}

impl Place {
    /// The next year's: after year 76 comes year 1 of the next bu, after bu 20 bu 1 of the next ji, after ji 3 ji 1.
    fn go_on(&mut self) {
        self.year_in_bu += 1;
        if self.year_in_bu > 76 {
            self.year_in_bu = 1;
            self.bu += 1;
        }
        if self.bu > 20 {
            self.bu = 1;
            self.ji += 1;
        }
        if self.ji > 3 {
            self.ji = 1;
        }
    }
}

/// The months in their order, the rest of the month in parts of 940, the next mid-term's day and parts of 32, and the parts of 135
/// of an eclipse.
struct Walk {
    next: Walked,
    rest: u64,
    mid_term: (u64, u64),
    eclipse_parts: u32,
}

impl Walk {
    /// At the origin new moon and solstice meet at midnight; the month before it would be a month 10, of the last year of a yuan.
    /// Civil year 0, name 16, has begun by then. The count of eclipses starts there.
    fn new() -> Walk {
        Walk {
            next: Walked {
                count: 0,
                first_day: 0,
                length: 0,
                number: 10,
                leap: false,
                first_name: 1,
                civil_year: 0,
                year_name: 16,
                solstice_year: 0,
                place: Place {
                    ji: 3,
                    bu: 20,
                    year_in_bu: 76,
                },
                eclipse: false,
            },
            rest: 0,
            mid_term: (0, 0),
            eclipse_parts: 0,
        }
    }
}

impl Iterator for Walk {
    type Item = Walked;

    fn next(&mut self) -> Option<Walked> {
        let month = &mut self.next;
        if month.count == MONTHS {
            return None;
        }
        // A month is 29 days and 499 parts of 940.
        self.rest += 499;
        month.length = 29;
        if self.rest >= 940 {
            self.rest -= 940;
            month.length = 30;
        }
        // From mid-term to mid-term are 30 days and 14 parts of 32.
        let (day, parts) = self.mid_term;
        month.leap = day >= month.first_day + month.length;
        if !month.leap {
            self.mid_term = (day + 30 + (parts + 14) / 32, (parts + 14) % 32);
            month.number = if month.number == 12 {
                1
            } else {
                month.number + 1
            };
            if month.number == 11 {
                month.solstice_year += 1;
                month.place.go_on();
            }
            if month.number == 1 {
                month.civil_year += 1;
                month.year_name = name_after(month.year_name, 1);
            }
        }
        // A month adds 23 parts of 135; a count without rest belongs to the month already counted.
        self.eclipse_parts += 23;
        month.eclipse = self.eclipse_parts >= 135;
        if month.eclipse {
            self.eclipse_parts -= 135;
        }
        let walked = *month;
        month.count += 1;
        month.first_day += month.length;
        month.first_name = name_after(month.first_name, month.length);
        Some(walked)
    }
}

/// The name that comes so many places after another, 60 being followed by 1.
fn name_after(name: u32, places: u64) -> u32 {
    (0..places).fold(name, |name, _| if name == 60 { 1 } else { name + 1 })
}

/// A row over every month of the walk, in pieces.
fn every_month(what: &'static str, compare: fn(Walked, &mut Tally)) -> Row {
    let piece = |number: u64| -> Piece {
        let Range { start, end } = part(&(0..MONTHS), number);
        Box::new(move |tally| {
            Walk::new()
                .skip(start as usize)
                .take((end - start) as usize)
                .for_each(|month| compare(month, tally))
        })
    };
    Row {
        what,
        pieces: (0..PIECES).map(piece).collect(),
    }
}

/// A row of one walk from end to end.
pub fn one_piece(what: &'static str, compare: fn(&mut Tally)) -> Row {
    Row {
        what,
        pieces: vec![Box::new(compare)],
    }
}

/// The days of a month and their dates.
fn dates_of(month: Walked) -> impl Iterator<Item = (u64, Date)> {
    let mut day_name = month.first_name;
    (0..month.length).map(move |passed| {
        let date = Date {
            year: month.civil_year as u32,
            month: Month::new(month.number, month.leap),
            day_of_month: passed as u32 + 1,
            month_length: month.length as u32,
            day_name,
            year_name: month.year_name,
            ji: month.place.ji,
            bu: month.place.bu,
            year_in_bu: month.place.year_in_bu,
            eclipse: month.eclipse,
        };
        day_name = name_after(day_name, 1);
        (month.first_day + passed, date)
    })
}

fn days_of_month(month: Walked, tally: &mut Tally) {
    for (day, date) in dates_of(month) {
        tally.compare(capi::date_of_day(day), Ok(date), || {
            format!("date_of_day {day}, walked to")
        });
        tally.compare(capi::day_of_date(date.asked()), Ok(day as u32), || {
            format!("day_of_date {:?}, walked to", date.asked())
        });
    }
}

fn moves_to_month(month: Walked, tally: &mut Tally) {
    for (day, date) in dates_of(month) {
        let answer = capi::move_date(DAY_0, day as i64);
        tally.compare(answer, Ok(date), || {
            format!("move_date of day 0 by {day}, walked to")
        });
    }
}

/// The walked months of each year, by what year is asked for, in the order of the years; the first year is given.
fn by_years(first: u64, year_of: fn(&Walked) -> u64) -> Vec<(u64, Vec<Walked>)> {
    let mut years: Vec<(u64, Vec<Walked>)> = (first..=YEARS).map(|year| (year, vec![])).collect();
    Walk::new().for_each(|month| years[(year_of(&month) - first) as usize].1.push(month));
    years
}

fn civil_years(tally: &mut Tally) {
    for (year, months) in by_years(0, |month| month.civil_year) {
        let leap = months.iter().find(|month| month.leap);
        let facts = YearFacts {
            name: months[0].year_name,
            first_month: months[0].count as u32,
            months: months.len() as u32,
            leap: leap.map(|month| LeapMonth {
                number: month.number,
                month: month.count as u32,
            }),
        };
        tally.compare(capi::year_facts(year), Ok(facts), || {
            format!("year_facts {year}, walked to")
        });
    }
}

/// Day 1 of each number, ordinary and leap: 16 where no month of the year bears the number, 4 where no leap one does.
fn numbers_of_years(tally: &mut Tally) {
    for (year, months) in by_years(0, |month| month.civil_year) {
        for number in 1..=12 {
            let named: Vec<&Walked> = months
                .iter()
                .filter(|month| month.number == number)
                .collect();
            for leap in [false, true] {
                let asked = Asked {
                    year,
                    number: u64::from(number),
                    leap,
                    day_of_month: 1,
                };
                let walked = match named.iter().find(|month| month.leap == leap) {
                    Some(month) => Ok(month.first_day as u32),
                    None if named.is_empty() => Err(Reason::NoSuchNumber),
                    None => Err(Reason::NoSuchLeap),
                };
                tally.compare(capi::day_of_date(asked), walked, || {
                    format!("day_of_date {asked:?}, walked")
                });
            }
        }
    }
}

fn solstice_years(tally: &mut Tally) {
    for (year, months) in by_years(1, |month| month.solstice_year) {
        let answer = capi::solstice_year(year).map(|facts| {
            let place = Place {
                ji: facts.ji,
                bu: facts.bu,
                year_in_bu: facts.year_in_bu,
            };
            (place, facts.first_month, facts.months)
        });
        let first = months[0];
        let walked = (first.place, first.count as u32, months.len() as u32);
        tally.compare(answer, Ok(walked), || {
            format!("place, first month and months of solstice_year {year}, walked to")
        });
    }
}

/// Counts, of every day, whether the year of its date is another than the solstice year that was walked to.
fn different_days(tally: &mut Tally) {
    let mut different = 0;
    let mut days = 0;
    for month in Walk::new() {
        for day in month.first_day..month.first_day + month.length {
            let year = capi::date_of_day(day).map(|date| u64::from(date.year));
            different += u64::from(year != Ok(month.solstice_year));
            days += 1;
        }
    }
    let counted: Result<(u64, u64), Reason> = Ok((days, different));
    tally.compare(counted, Ok((DAYS, DIFFERENT_DAYS)), || {
        "days, and those whose civil year is not the solstice year".to_string()
    });
}
