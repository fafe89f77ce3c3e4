//! tapes PROGRAM [TAPES] [SEED]: runs PROGRAM, a tape program of document 01, on generated tapes (standard input) and compares what it
//! prints, byte by byte, with the listing of the model with queues (tests/calls); the second model, which is the benchmark's peer, has to
//! print the same. Ends with failure on a difference, and when what has to be seen (src/seen.rs) was not.

mod seen;
mod tape_program;

use calls::listing::{Listing, TAPE_LIMIT};
use common::program;
use second_model::generate::Tapes;
use seen::{Seen, Sums};
use std::ffi::{OsStr, OsString};
use std::process::ExitCode;
use std::sync::atomic::{AtomicUsize, Ordering};
use std::sync::Mutex;
use std::thread;

const DEFAULT_TAPES: u64 = 3_000;
const DEFAULT_SEED: u64 = 1978;
/// Every so many tapes, and with tapes at the limit, the input arrives in pieces.
const PIECES_EVERY: usize = 40;
/// After so many differences no further tape is tried.
const DIFFERENCES_LIMIT: usize = 5;

/// A worker for each processor takes the next tape until there is none.
fn compare_all(program: &OsStr, tapes: &Tapes, count: usize) -> Sums {
    let next = AtomicUsize::new(0);
    let sums = Mutex::new(Sums::new());
    let workers = thread::available_parallelism().map_or(1, |number| number.get()).min(4);
    thread::scope(|scope| {
        for _ in 0..workers {
            scope.spawn(|| loop {
                let index = next.fetch_add(1, Ordering::Relaxed);
                if index >= count || sums.lock().unwrap().differences >= DIFFERENCES_LIMIT {
                    break;
                }
                compare_one(program, index, &tapes.tape(index), &sums);
            });
        }
    });
    sums.into_inner().unwrap()
}

fn compare_one(program: &OsStr, index: usize, tape: &[u8], sums: &Mutex<Sums>) {
    let listing = Listing::of(tape);
    let expected = listing.text.as_bytes();
    let seen = Seen::of(tape);
    let at_the_limit = (TAPE_LIMIT..=TAPE_LIMIT + 1).contains(&tape.len());
    let in_pieces = at_the_limit || index % PIECES_EVERY == 1;
    let by_program = tape_program::run(program, tape, in_pieces, expected.len());
    let mut by_second_model = Vec::new();
    second_model::listing::run(tape, &mut by_second_model);
    let mut sums = sums.lock().unwrap();
    sums.add(&listing, &seen);
    let differences: Vec<String> = [("the program", by_program), ("the second model", Ok(by_second_model))]
        .into_iter()
        .filter_map(|(name, printed)| match printed {
            Ok(printed) if printed == expected => None,
            Ok(printed) => Some(first_difference(name, expected, &printed)),
            Err(error) => Some(error),
        })
        .collect();
    if differences.is_empty() {
        return;
    }
    sums.differences += 1;
    println!("tape {index}, {} bytes: {}", tape.len(), differences.join("; "));
    match save_tape(index, tape) {
        Ok(file) => println!("  the tape in hexadecimal: {file}"),
        Err(error) => println!("  the tape could not be saved: {error}"),
    }
}

fn first_difference(name: &str, expected: &[u8], printed: &[u8]) -> String {
    let lines = |text: &[u8]| -> Vec<Vec<u8>> { text.split_inclusive(|&byte| byte == b'\n').map(<[u8]>::to_vec).collect() };
    let (expected, printed) = (lines(expected), lines(printed));
    let mut at = 0;
    while expected.get(at).is_some() && expected.get(at) == printed.get(at) {
        at += 1;
    }
    let show = |line: Option<&Vec<u8>>| match line {
        Some(line) => format!("\"{}\"", line.escape_ascii()),
        None => "nothing".to_string(),
    };
    format!("line {} by {name} differs\n  expected: {}\n  given:    {}", at + 1, show(expected.get(at)), show(printed.get(at)))
}

fn save_tape(index: usize, tape: &[u8]) -> std::io::Result<String> {
    let file = std::env::temp_dir().join(format!("tape_{index}.hex"));
    let mut text = String::with_capacity(tape.len() * 3);
    for (at, byte) in tape.iter().enumerate() {
        let space = if at % 16 == 15 { '\n' } else { ' ' };
        text.push_str(&format!("{byte:02x}{space}"));
    }
    text.push('\n');
    std::fs::write(&file, text)?;
    Ok(file.display().to_string())
}

fn number_argument(arguments: &[OsString], at: usize, default: u64) -> Option<u64> {
    match arguments.get(at) {
        None => Some(default),
        Some(word) => word.to_str()?.parse().ok(),
    }
}

fn main() -> ExitCode {
    let arguments: Vec<OsString> = std::env::args_os().skip(1).collect();
    let (count, seed) = (number_argument(&arguments, 1, DEFAULT_TAPES), number_argument(&arguments, 2, DEFAULT_SEED));
    let (Some(program), Some(count), Some(seed)) = (arguments.first(), count, seed) else {
        eprintln!("tapes PROGRAM [TAPES] [SEED]");
        return ExitCode::from(2);
    };
    let tapes = Tapes::new(seed);
    let sums = compare_all(program, &tapes, count as usize);
    let difference = (sums.differences > 0).then(|| format!("{} tapes differ", sums.differences));
    program::end(&sums.shown(seed, count.saturating_sub(tapes.aimed() as u64)), difference)
}
