//! bench_tapes FOLDER: writes long legal tapes for a benchmark, one for each
//! size of ring, named after its nodes and channels.

use second_model::{generate, listing};
use std::path::PathBuf;
use std::process::ExitCode;

/// Nodes and channels. One node has 63 channels at most: it has at most 64
/// slots, and "7 b not greater than c".
const SIZES: [(usize, usize); 5] = [(1, 1), (4, 16), (16, 64), (16, 1), (1, 63)];

fn main() -> ExitCode {
    let Some(folder) = std::env::args_os().nth(1).map(PathBuf::from) else {
        eprintln!("bench_tapes FOLDER");
        return ExitCode::from(2);
    };
    for (nodes, channels) in SIZES {
        let tape = generate::long_run(1978, nodes, channels);
        let totals = listing::run(&tape, &mut Vec::new());
        let file = folder.join(format!("nodes{nodes:02}_channels{channels:02}.tape"));
        if let Err(error) = std::fs::create_dir_all(&folder).and_then(|()| std::fs::write(&file, &tape)) {
            eprintln!("{}: {error}", file.display());
            return ExitCode::FAILURE;
        }
        println!(
            "{}: {} bytes, {} accepted, {} refused, {} delivered",
            file.display(),
            tape.len(),
            totals.accepted,
            totals.refused,
            totals.delivered
        );
    }
    ExitCode::SUCCESS
}
