//! Emendings: how many days fit, or the emendations and their number, and the whole lent list; and each answer of capi held to capi's
//! own search.

use crate::lent::Lent;
use crate::random::Random;
use crate::searches::{day_to_read, full_window, short_window, true_reading, SHORT, WINDOW};
use crate::tally::{at_random, every, Row, Tally};
use crate::DAYS;
use oesterwrok::{self as capi, independent as own, EmendRefused, Emended, Reading, Reason};

/// How many days, spread over the range, are misread in every way.
const MISREAD_DAYS: u64 = 1_500;

/// The rows of emendings. The independent one has two ways, a day at a time and a month at a time; each is compared.
pub fn rows(seed: u64) -> Vec<Row> {
    vec![
        at_random(
            "emendings of short windows, day by day",
            100_000,
            seed,
            |random, tally| compare(own::emend, short_window(random), random, tally),
        ),
        at_random(
            "emendings of short windows, month by month",
            100_000,
            seed + 1,
            |random, tally| compare(own::emend_by_months, short_window(random), random, tally),
        ),
        at_random(
            "emendings of full windows, day by day",
            400,
            seed + 2,
            |random, tally| compare(own::emend, full_window(random), random, tally),
        ),
        at_random(
            "emendings of full windows, month by month",
            1_000,
            seed + 3,
            |random, tally| compare(own::emend_by_months, full_window(random), random, tally),
        ),
        at_random(
            "emendings of windows at the range's ends",
            20_000,
            seed + 4,
            |random, tally| {
                let way = [own::emend, own::emend_by_months][random.size(2)];
                compare(way, window_at_an_end(random), random, tally);
            },
        ),
        every(
            "every field of a day misread in every way, in pairs",
            0..MISREAD_DAYS,
            misread_day,
        ),
    ]
}

/// An emending of the independent one.
type Emend = fn(&Reading, u64, u64, &mut [u32]) -> Result<Emended, EmendRefused>;

/// Compares the two sides, and holds capi's answer to its search.
fn compare(emend: Emend, (first, last): (u64, u64), random: &mut Random, tally: &mut Tally) {
    let reading = any_reading(first, last, random);
    let places = any_places(to_list(&reading, first, last, random), random);
    let input = || format!("emend {first} to {last}, {places} places lent, {reading:?}");
    let mut capi_list = Lent::new(places, random);
    let mut own_list = capi_list.clone();
    let capi_answer = capi::emend(&reading, first, last, capi_list.lend());
    let own_answer = emend(&reading, first, last, own_list.lend());
    tally.compare_lent((capi_answer, &capi_list), (own_answer, &own_list), input);
    tally.compare(fitting(capi_answer), found(&reading, first, last), || {
        format!(
            "{}: how many fit, and how many capi's search finds",
            input()
        )
    });
    if let Ok(Emended::Emendations(total)) = capi_answer {
        let listed = &capi_list.lend()[..4 * total as usize];
        tally.compare(put_right(&reading, listed), Ok(total), || {
            format!("{}: how many capi's search finds when put right", input())
        });
    }
}

/// How many days fit, as an emending says it; its reasons before 12 are a search's.
fn fitting(answer: Result<Emended, EmendRefused>) -> Result<u32, Reason> {
    match answer {
        Ok(Emended::Fits(total)) => Ok(total),
        Ok(Emended::Emendations(_)) => Ok(0),
        Err(refused) if refused.reason == Reason::LentTooShort => Ok(0),
        Err(refused) => Err(refused.reason),
    }
}

/// How many days capi's search finds.
fn found(reading: &Reading, first: u64, last: u64) -> Result<u32, Reason> {
    match capi::search(reading, first, last, &mut []) {
        Ok(total) => Ok(total),
        Err(refused) => refused.total.ok_or(refused.reason),
    }
}

/// How many emendations, each put right in its reading, are what capi's search finds on their day: the field is known and was read
/// so, and the day fits with the field as it should be.
fn put_right(reading: &Reading, listed: &[u32]) -> Result<u32, Reason> {
    let mut right = 0;
    for four in listed.chunks(4) {
        let (day, place) = (u64::from(four[0]), four[1].wrapping_sub(1) as usize);
        let mut emended = *reading;
        let Some((field, _)) = fields(&mut emended).into_iter().nth(place) else {
            continue;
        };
        let was_read = *field == Some(four[2].into());
        *field = Some(four[3].into());
        let fits = capi::search(&emended, day, day, &mut [0]) == Ok(1);
        right += u32::from(was_read && four[2] != four[3] && fits);
    }
    Ok(right)
}

/// One of the days spread over the range: each field misread as every value, which is an emendation but where the value is the
/// day's own; and each two fields misread, which is none.
fn misread_day(item: u64, tally: &mut Tally) {
    let day = item * (DAYS - 1) / (MISREAD_DAYS - 1);
    let mut random = Random::new(8, item);
    let true_fields = fields(&mut true_reading(day)).map(|(field, greatest)| (*field, greatest));
    for (place, (value, greatest)) in true_fields.into_iter().enumerate() {
        let own = value.map_or(0, |own| own as u32);
        for read in 1..=greatest {
            let mut reading = true_reading(day);
            *fields(&mut reading)[place].0 = Some(read);
            let four = [day as u32, place as u32 + 1, read as u32, own];
            let emended = u64::from(own) != read;
            hold_day(day, &reading, emended.then_some(four), &mut random, tally);
        }
    }
    for (one, other) in (0..6).flat_map(|one| (0..one).map(move |other| (one, other))) {
        let mut reading = true_reading(day);
        misread(&mut reading, one, &mut random);
        misread(&mut reading, other, &mut random);
        let places = random.size(6);
        let list = Lent::new(places, &mut random);
        let nothing = Ok(Emended::Emendations(0));
        hold_to((nothing, list.clone()), list, day, &reading, tally);
    }
}

/// Holds the emending of a day alone to the one emendation that is told, or to fit; into four places or some more.
fn hold_day(
    day: u64,
    reading: &Reading,
    emendation: Option<[u32; 4]>,
    random: &mut Random,
    tally: &mut Tally,
) {
    let list = Lent::new(4 + random.size(4), random);
    let mut expected = list.clone();
    let answer = match emendation {
        Some(four) => {
            expected.lend()[..4].copy_from_slice(&four);
            Emended::Emendations(1)
        }
        None => Emended::Fits(1),
    };
    hold_to((Ok(answer), expected), list, day, reading, tally);
}

/// Holds capi's emending of a day alone, into a list, to an answer and what the list then holds.
fn hold_to(
    expected: (Result<Emended, EmendRefused>, Lent<u32>),
    mut list: Lent<u32>,
    day: u64,
    reading: &Reading,
    tally: &mut Tally,
) {
    let answer = capi::emend(reading, day, day, list.lend());
    tally.compare_lent((answer, list), expected, || {
        format!("emend {day} alone, {reading:?}")
    });
}

/// How many emendations there are; some, by chance, where a day fits or the emending is refused, so that there is room to list what
/// should not be listed.
fn to_list(reading: &Reading, first: u64, last: u64, random: &mut Random) -> usize {
    match own::emend_by_months(reading, first, last, &mut []) {
        Ok(Emended::Emendations(total)) => total as usize,
        Err(EmendRefused {
            total: Some(total), ..
        }) => total as usize,
        _ => random.size(SHORT as usize),
    }
}

/// How many places to lend for so many emendations: just enough, too few, of them as many as there are emendations, or more, of them
/// some that hold no whole one.
fn any_places(total: usize, random: &mut Random) -> usize {
    let enough = 4 * total;
    match random.below(8) {
        0 | 1 => enough,
        2 => enough.saturating_sub(1 + random.size(4)),
        3 => random.size(enough + 1),
        4 => total,
        5 => enough + 1 + random.size(3),
        6 => 0,
        _ => enough + random.size(40),
    }
}

/// A window, short or full, that starts with one of the first days or ends with one of the last; now and then beyond them.
fn window_at_an_end(random: &mut Random) -> (u64, u64) {
    let days = if random.one_in(50) {
        WINDOW
    } else {
        1 + random.below(SHORT)
    };
    if random.one_in(2) {
        let first = random.below(3);
        (first, first + days - 1)
    } else {
        let last = DAYS + 1 - random.below(5);
        (last + 1 - days, last)
    }
}

/// The fields of a reading in their order, each with the greatest value that it may have.
fn fields(reading: &mut Reading) -> [(&mut Option<u64>, u64); 6] {
    [
        (&mut reading.year_name, 60),
        (&mut reading.month_number, 12),
        (&mut reading.leap_mark, 2),
        (&mut reading.day_of_month, 30),
        (&mut reading.day_name, 60),
        (&mut reading.first_name, 60),
    ]
}

/// Reads a field that is known as another value of its range.
fn misread(reading: &mut Reading, place: usize, random: &mut Random) {
    let mut all = fields(reading);
    let (field, greatest) = &mut all[place];
    // At least one on, and fewer than would lead round to the value itself.
    **field = field.map(|value| (value + random.below(*greatest - 1)) % *greatest + 1);
}

/// A reading of a true date, near or in the window, with none, one, two or more of its fields misread, and then fields unread at
/// random; now and then a value is out of its range.
fn any_reading(first: u64, last: u64, random: &mut Random) -> Reading {
    let mut reading = true_reading(day_to_read(first, last, random));
    let mut order = [0, 1, 2, 3, 4, 5];
    random.shuffle(&mut order);
    let misread_fields = [0, 1, 1, 1, 2, 2, 3 + random.size(4)][random.size(7)];
    for &place in &order[..misread_fields] {
        misread(&mut reading, place, random);
    }
    let known_in_eight = 8 - random.below(6);
    for (field, greatest) in fields(&mut reading) {
        if random.below(8) >= known_in_eight {
            *field = None;
        } else if random.one_in(160) {
            *field = Some(random.any(greatest + 1));
        }
    }
    reading
}
