//! The cross-check: asks capi and the independent implementation the same, and compares whole answers and whole lent memory.
//! It prints a table and ends with a non-zero status at any difference.

mod clerks;
mod concordances;
mod dates;
mod drawers;
mod emendings;
mod facts;
mod figures;
mod lent;
mod lines;
mod newsheets;
mod planets;
mod random;
mod searches;
mod sheets;
mod tally;
mod walked;

use oesterwrok::REASONS;
use std::panic::{catch_unwind, AssertUnwindSafe};
use std::process::ExitCode;
use std::sync::atomic::{AtomicUsize, Ordering};
use std::sync::Mutex;
use std::thread;
use std::time::Instant;
use tally::{Row, Tally};

/// The last year, civil or solstice: civil years start at 0, solstice years at 1.
const YEARS: u64 = 41_040;

/// Months and days in range.
const MONTHS: u64 = 507_600;
const DAYS: u64 = 14_989_860;

/// Years beyond the range, civil or solstice; among them those that are 0, 1 or the last year if they are cut to 16 or 32 bits.
const FAR_YEARS: [u64; 14] = [
    YEARS + 1,
    YEARS + 2,
    u16::MAX as u64,
    1 << 16,
    (1 << 16) + 1,
    (1 << 16) + YEARS,
    i32::MAX as u64,
    u32::MAX as u64 - 1,
    u32::MAX as u64,
    1 << 32,
    (1 << 32) + 1,
    (1 << 32) + YEARS,
    i64::MAX as u64,
    u64::MAX,
];

/// What all random numbers are drawn from; each row adds its own number.
const SEED: u64 = 0x0085_0E57_E240_0000;

fn main() -> ExitCode {
    println!("Cross-check of capi with the independent implementation; seed {SEED:#x}");
    let start = Instant::now();
    let rows = all_rows();
    let tallies = run(&rows);
    let total = print_table(&rows, &tallies);
    println!("{:.1} s", start.elapsed().as_secs_f64());
    verdict(&rows, &tallies, &total)
}

/// The rows of the table.
fn all_rows() -> Vec<Row> {
    let mut rows = dates::rows(SEED + 10);
    rows.extend(facts::rows(SEED + 20));
    rows.extend(searches::rows(SEED + 30));
    rows.extend(sheets::rows(SEED + 40));
    rows.extend(lines::rows(SEED + 50));
    rows.extend(planets::rows(SEED + 60));
    rows.extend(drawers::rows(SEED + 70));
    rows.extend(emendings::rows(SEED + 80));
    rows.extend(clerks::rows(SEED + 90));
    rows.extend(figures::rows(SEED + 100));
    rows.extend(concordances::rows(SEED + 120));
    rows.extend(newsheets::rows(SEED + 140));
    rows.extend(walked::rows());
    rows
}

/// Runs every piece of every row, on as many threads as the machine has cores; gives the rows' tallies.
fn run(rows: &[Row]) -> Vec<Tally> {
    let pieces: Vec<(usize, usize)> = rows
        .iter()
        .enumerate()
        .flat_map(|(row, r)| (0..r.pieces.len()).map(move |piece| (row, piece)))
        .collect();
    let next = AtomicUsize::new(0);
    let done = Mutex::new(Vec::new());
    let work = || {
        while let Some(&(row, piece)) = pieces.get(next.fetch_add(1, Ordering::Relaxed)) {
            let tally = run_piece(&rows[row], piece);
            done.lock()
                .expect("no thread stops while it holds the list")
                .push((row, piece, tally));
        }
    };
    let threads = thread::available_parallelism().map_or(1, usize::from);
    thread::scope(|scope| (0..threads).for_each(|_| drop(scope.spawn(work))));
    gather(
        rows.len(),
        done.into_inner().expect("every thread has ended"),
    )
}

/// Runs one piece; a panic in it counts as a difference.
fn run_piece(row: &Row, piece: usize) -> Tally {
    let mut tally = Tally::default();
    let outcome = catch_unwind(AssertUnwindSafe(|| row.pieces[piece](&mut tally)));
    if outcome.is_err() {
        tally.stopped();
    }
    tally
}

/// Adds up the pieces of each row, in their order, so that every run prints the same.
fn gather(rows: usize, mut done: Vec<(usize, usize, Tally)>) -> Vec<Tally> {
    done.sort_by_key(|&(row, piece, _)| (row, piece));
    let mut tallies: Vec<Tally> = (0..rows).map(|_| Tally::default()).collect();
    for (row, _, tally) in done {
        tallies[row].add(tally);
    }
    tallies
}

/// Prints the table, how often each reason was met, and the total; gives the total.
fn print_table(rows: &[Row], tallies: &[Tally]) -> Tally {
    let mut total = Tally::default();
    println!(
        "{:<52}{:>12}{:>12}{:>12}{:>12}",
        "what", "compared", "equal", "answered", "refused"
    );
    for (row, tally) in rows.iter().zip(tallies) {
        print_row(row.what, tally);
        total.compared += tally.compared;
        total.equal += tally.equal;
        total
            .met
            .iter_mut()
            .zip(tally.met)
            .for_each(|(here, there)| *here += there);
    }
    print_row("total", &total);
    let met = REASONS.map(|reason| format!("{}: {}", reason.number(), total.times_met(reason)));
    println!("reasons met  {}", met.join("  "));
    total
}

fn print_row(what: &str, tally: &Tally) {
    let Tally {
        compared,
        equal,
        met,
        ..
    } = tally;
    println!(
        "{what:<52}{compared:>12}{equal:>12}{:>12}{:>12}",
        met[0],
        met[1..].iter().sum::<u64>()
    );
}

/// Prints the first differences of each row and the last line; a reason that was never met, and a row that
/// compared nothing, is a fault of the cross-check.
fn verdict(rows: &[Row], tallies: &[Tally], total: &Tally) -> ExitCode {
    for (row, tally) in rows
        .iter()
        .zip(tallies)
        .filter(|(_, tally)| tally.different() > 0)
    {
        println!("\n{}: {} differ; the first:", row.what, tally.different());
        tally
            .first
            .iter()
            .for_each(|difference| println!("    {difference}"));
    }
    if total.different() > 0 {
        println!(
            "\nFAILED: {} of {} differ",
            total.different(),
            total.compared
        );
        return ExitCode::FAILURE;
    }
    if let Some((row, _)) = rows
        .iter()
        .zip(tallies)
        .find(|(_, tally)| tally.compared == 0)
    {
        println!("\nFAILED: {}: nothing was compared", row.what);
        return ExitCode::FAILURE;
    }
    if let Some(never) = REASONS.iter().find(|&&reason| total.times_met(reason) == 0) {
        println!("\nFAILED: {never} was never met");
        return ExitCode::FAILURE;
    }
    println!(
        "TOTAL: {} compared, all equal; all {} reasons met",
        total.compared,
        REASONS.len()
    );
    ExitCode::SUCCESS
}
