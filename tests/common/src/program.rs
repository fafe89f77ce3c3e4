//! How a test program begins and ends.

use crate::sights::Sights;
use std::process::ExitCode;

/// What a comparison showed.
pub struct Shown {
    /// Its figures, in lines.
    pub figures: String,
    pub sights: Sights,
}

/// NAME COUNT SEED: makes the comparison that the arguments ask for. The first difference ends it.
pub fn run(name: &str, compare: impl FnOnce(u64, u64) -> Result<Shown, String>) -> ExitCode {
    let numbers: Vec<Option<u64>> = std::env::args().skip(1).map(|word| word.parse().ok()).collect();
    let [Some(count), Some(seed)] = numbers[..] else {
        eprintln!("{name} COUNT SEED");
        return ExitCode::from(2);
    };
    match compare(count, seed) {
        Ok(shown) => end(&shown, None),
        Err(difference) => {
            println!("{difference}");
            ExitCode::FAILURE
        }
    }
}

/// Prints what was seen; then what differs and what was seen too seldom, or that there is neither.
pub fn end(shown: &Shown, difference: Option<String>) -> ExitCode {
    println!("{}", shown.figures.trim_end());
    print!("{}", shown.sights);
    let seldom = shown.sights.missing().into_iter().map(|sight| format!("seen too seldom: {sight}"));
    let faults: Vec<String> = difference.into_iter().chain(seldom).collect();
    if faults.is_empty() {
        println!("no difference");
        return ExitCode::SUCCESS;
    }
    faults.iter().for_each(|fault| println!("{fault}"));
    ExitCode::FAILURE
}
