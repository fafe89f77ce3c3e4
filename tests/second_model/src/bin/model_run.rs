//! Reads a tape on standard input and prints the model's listing.

use second_model::listing;
use std::io::{self, Read, Write};

fn main() -> io::Result<()> {
    let mut tape = Vec::new();
    io::stdin().lock().read_to_end(&mut tape)?;
    let mut out = Vec::new();
    listing::run(&tape, &mut out);
    io::stdout().lock().write_all(&out)
}
