//! bench ROUNDS TAPE...: the proved code against the second model, in one process, in turn, on the same tapes. Both make the test for a
//! sound ring in every call. For each tape it prints the commands per second of both and the ratio, proved to model: the median of the
//! rounds, and the lowest and highest tenth as the spread. A listing that differs stops the run. Then single calls (single.rs) and
//! the dispatcher (dispatch.rs).

mod dispatch;
mod single;

use second_model::listing;
use std::path::Path;
use std::process::ExitCode;
use std::time::Instant;

extern "C" {
    /// Writes the listing of a tape into a buffer and answers its length (include/vessel_ring.h).
    fn vessel_ring_list(tape: *const u8, length: usize, out: *mut u8, room: usize) -> usize;
}

/// Room for the longest listing: 60,000 lines, and a line more than the last.
const ROOM: usize = 60_002 * 160;

fn proved(tape: &[u8], out: &mut Vec<u8>) {
    // The function writes at most `room` bytes from the buffer's beginning, and all that it answers is written. (The safe wrapper takes a
    // slice, so the whole buffer would have to be zeroed first.)
    unsafe {
        let length = vessel_ring_list(tape.as_ptr(), tape.len(), out.as_mut_ptr(), out.capacity());
        out.set_len(length);
    }
}

fn model(tape: &[u8], out: &mut Vec<u8>) {
    listing::run(tape, out);
}

/// Seconds of one run into a cleared buffer.
fn seconds(run: fn(&[u8], &mut Vec<u8>), tape: &[u8], out: &mut Vec<u8>) -> f64 {
    out.clear();
    let begin = Instant::now();
    run(tape, out);
    begin.elapsed().as_secs_f64()
}

/// The value at a share of a sorted list.
fn at(sorted: &[f64], share: f64) -> f64 {
    sorted[((sorted.len() - 1) as f64 * share) as usize]
}

fn compare(file: &str, rounds: usize) -> Result<(), String> {
    let tape = std::fs::read(file).map_err(|error| error.to_string())?;
    let mut out = Vec::with_capacity(ROOM);
    let mut first = Vec::with_capacity(ROOM);
    let totals = listing::run(&tape, &mut first);
    proved(&tape, &mut out);
    if out != first {
        return Err("the proved code prints another listing".into());
    }
    let commands = f64::from(totals.accepted + totals.refused);
    let mut times = [Vec::new(), Vec::new()];
    let mut ratios = Vec::new();
    for _ in 0..rounds {
        let ours = seconds(proved, &tape, &mut out);
        let theirs = seconds(model, &tape, &mut out);
        times[0].push(ours);
        times[1].push(theirs);
        ratios.push(theirs / ours);
    }
    for list in times.iter_mut().chain([&mut ratios]) {
        list.sort_by(f64::total_cmp);
    }
    let name = Path::new(file).file_name().unwrap_or_default().to_string_lossy();
    println!(
        "{name}: {commands} commands, proved {:.0}/s, model {:.0}/s, ratio {:.2} ({:.2} to {:.2})",
        commands / at(&times[0], 0.5),
        commands / at(&times[1], 0.5),
        at(&ratios, 0.5),
        at(&ratios, 0.1),
        at(&ratios, 0.9),
    );
    Ok(())
}

fn main() -> ExitCode {
    let mut arguments = std::env::args().skip(1);
    let rounds = arguments.next().and_then(|word| word.parse::<usize>().ok()).unwrap_or(0);
    let files: Vec<String> = arguments.collect();
    if rounds == 0 || files.is_empty() {
        eprintln!("bench ROUNDS TAPE...");
        return ExitCode::from(2);
    }
    for file in &files {
        if let Err(error) = compare(file, rounds) {
            eprintln!("{file}: {error}");
            return ExitCode::FAILURE;
        }
    }
    for (nodes, channels) in [(1, 1), (1, 63), (4, 16), (16, 1), (16, 64)] {
        single::measure(nodes, channels, rounds);
    }
    dispatch::measure_all(rounds);
    ExitCode::SUCCESS
}
