//! Concordances: how many lines, and the whole lent list of verdicts.

use crate::lent::Lent;
use crate::random::Random;
use crate::tally::{at_random, every, Row, Tally};
use crate::MONTHS;
use oesterwrok::{self as capi, independent as own, paged, Reason};

/// The most bytes of a text.
const TEXT: usize = 65_536;

/// How many months' lines make a text of almost full length: 20 bytes a line at most.
const LINES: u64 = 3_200;

/// The rows of concordances.
pub fn rows(seed: u64) -> Vec<Row> {
    vec![
        every(
            "every month's line, right, in texts of 3,200 lines",
            0..MONTHS.div_ceil(LINES),
            |item, tally| {
                let months = item * LINES..MONTHS.min((item + 1) * LINES);
                let text: Vec<u8> = months.clone().flat_map(line).collect();
                let mut verdicts = vec![9; LINES as usize];
                let right = capi::judge_text(&text, &mut verdicts)
                    .map(|lines| verdicts[..lines].iter().all(|&v| v == 0));
                tally.compare(right, Ok(true), || format!("months {months:?} right"));
                compare(&text, (months.end - months.start) as usize, 0, tally);
                compare(&text[..text.len() - 1], text.len(), 1, tally);
            },
        ),
        every(
            "a line, each byte of each field made any byte",
            0..1_000,
            |item, tally| each_byte(item * 507, tally),
        ),
        every(
            "a line cut and lengthened at each byte",
            0..20_000,
            |item, tally| cut(item * 25, tally),
        ),
        every(
            "a line with each field of another month",
            0..MONTHS / 4,
            |item, tally| exchanged(item * 4, tally),
        ),
        every(
            "a line with a field of 1 to 12 digits",
            0..2_000,
            |item, tally| digits(item * 253, tally),
        ),
        every(
            "texts of newlines and of one line, to 65,540 bytes",
            65_530..65_541,
            |item, tally| {
                for byte in [b'\n', b'1', b' '] {
                    let text = vec![byte; item as usize];
                    for room in [0, 1, item as usize - 1, item as usize, TEXT] {
                        compare(&text, room, item, tally);
                    }
                }
            },
        ),
        at_random(
            "texts of lines of every kind, any room",
            60_000,
            seed,
            any_text,
        ),
        at_random(
            "long texts of lines of every kind",
            300,
            seed + 1,
            long_text,
        ),
    ]
}

/// A month's line as it is printed, with its newline, by the independent one.
fn line(month: u64) -> Vec<u8> {
    let mut out = [0; 48];
    let length = own::print_month_line(month, &mut out).unwrap_or(0);
    out[..length].to_vec()
}

/// Judges a text into a list of so many places, which hold random bytes, by the call and through a reader.
fn compare(text: &[u8], room: usize, seed: u64, tally: &mut Tally) {
    compare_by(capi::judge_text, text, room, seed, tally);
    compare_by(paged::judge_text, text, room, seed, tally);
}

fn compare_by(
    judge: fn(&[u8], &mut [u8]) -> Result<usize, Reason>,
    text: &[u8],
    room: usize,
    seed: u64,
    tally: &mut Tally,
) {
    let mut random = Random::new(1, seed);
    let mut capi_list = Lent::new(room, &mut random);
    let mut own_list = capi_list.clone();
    let capi_answer = judge(text, capi_list.lend());
    let own_answer = own::judge_text(text, own_list.lend());
    tally.compare_lent((capi_answer, capi_list), (own_answer, own_list), || {
        format!(
            "judge_text {:?}.., {} bytes, {room} places lent",
            String::from_utf8_lossy(&text[..text.len().min(60)]),
            text.len()
        )
    });
}

/// A month's line with each of its bytes made any byte.
fn each_byte(month: u64, tally: &mut Tally) {
    let whole = line(month);
    for place in 0..whole.len() {
        let mut text = whole.clone();
        for byte in 0..=255 {
            text[place] = byte;
            compare(&text, 3, month, tally);
        }
    }
}

/// A month's line, its front and its rest at each place; a byte put in, doubled and taken out at each place.
fn cut(month: u64, tally: &mut Tally) {
    let whole = line(month);
    for place in 0..=whole.len() {
        compare(&whole[..place], 2, month, tally);
        compare(&whole[place..], 2, month, tally);
        for byte in [b' ', b'0', b'9', b'-', b'L', b'E', b'\r', b'\t', b'\n'] {
            let mut text = whole.clone();
            text.insert(place, byte);
            compare(&text, 3, month, tally);
        }
        if place < whole.len() {
            let mut text = whole.clone();
            text.insert(place, whole[place]);
            compare(&text, 3, month, tally);
            text.drain(place..place + 2);
            compare(&text, 3, month, tally);
        }
    }
}

/// A month's line with one field, and with every field from one on, of a later month's.
fn exchanged(month: u64, tally: &mut Tally) {
    let (here, there) = (line(month), line((month + 1 + month % 7) % MONTHS));
    let fields = |text: &[u8]| -> Vec<Vec<u8>> {
        let line = &text[..text.len() - 1];
        line.split(|&byte| byte == b' ')
            .map(<[u8]>::to_vec)
            .collect()
    };
    let (own, other) = (fields(&here), fields(&there));
    for field in 0..6 {
        let mut one = own.clone();
        one[field].clone_from(&other[field]);
        compare(&one.join(&b' '), 2, month, tally);
        let rest = [&own[..field], &other[field..]].concat();
        compare(&rest.join(&b' '), 2, month, tally);
    }
}

/// A month's line with each number made one of so many digits: all the same digit, or its own after noughts or before them.
fn digits(month: u64, tally: &mut Tally) {
    let whole = line(month);
    let fields: Vec<&[u8]> = whole[..whole.len() - 1]
        .split(|&byte| byte == b' ')
        .collect();
    for field in [0, 1, 3, 4] {
        for count in 1..=12 {
            let noughts = vec![b'0'; count];
            let same = vec![b'0' + (month % 10) as u8; count];
            let nines = vec![b'9'; count];
            let before = [&noughts, fields[field]].concat();
            let behind = [fields[field], &noughts].concat();
            for digits in [noughts.clone(), same, nines, before, behind] {
                let mut other = fields.clone();
                other[field] = &digits;
                compare(&other.join(&b' '), 2, month, tally);
            }
        }
    }
}

/// A line of any kind, without its newline: a month's own, damaged in a byte or two, of any six fields, of any bytes, empty.
fn any_line(random: &mut Random) -> Vec<u8> {
    let mut text = line(random.below(MONTHS));
    text.pop();
    match random.below(8) {
        0..=2 => {}
        3 | 4 => {
            for _ in 0..=random.below(2) {
                let place = random.size(text.len());
                text[place] = *b"0123456789 -LE\r\tM\0\xff"
                    .get(random.size(19))
                    .unwrap_or(&b'0');
            }
        }
        5 => {
            let mark = |there, letter| if there { letter } else { '-' };
            let numbers: Vec<u64> = [MONTHS + 10, 13, 61, 31]
                .into_iter()
                .map(|most| random.below(most))
                .collect();
            text = format!(
                "{} {} {} {} {} {}",
                numbers[0],
                numbers[1],
                mark(random.below(2) == 0, 'L'),
                numbers[2],
                numbers[3],
                mark(random.below(2) == 0, 'E')
            )
            .into_bytes();
        }
        6 => {
            let length = random.size(30);
            text = (0..length).map(|_| random.below(256) as u8).collect();
        }
        _ => text.clear(),
    }
    text
}

/// A few lines of every kind, with a last newline or without, and a list of about so many places.
fn any_text(random: &mut Random, tally: &mut Tally) {
    let count = random.size(12);
    let mut text = (0..count)
        .map(|_| any_line(random))
        .collect::<Vec<_>>()
        .join(&b'\n');
    if random.below(2) == 0 {
        text.push(b'\n');
    }
    let room = random.size(15);
    let seed = random.below(1 << 40);
    compare(&text, room, seed, tally);
    compare(&text, 15, seed, tally);
}

/// Many lines of every kind, of about the most bytes.
fn long_text(random: &mut Random, tally: &mut Tally) {
    let most = TEXT - 10 + random.size(20);
    let mut text = Vec::new();
    while text.len() < most {
        text.extend(any_line(random));
        text.push(b'\n');
    }
    text.truncate(most);
    let seed = random.below(1 << 40);
    compare(&text, TEXT, seed, tally);
    compare(&text, random.size(8_000), seed, tally);
}
