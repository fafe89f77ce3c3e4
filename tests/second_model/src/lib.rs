//! The second model of the vessel ring: document 01 ("The vessel ring: nodes,
//! channels, slots and records") with the requests N1 ("A task that gives up"), N2
//! ("Temperature history for each batch"), N3 ("A dispatcher for the ring"), N4
//! ("Blanks at the ends of a name"), N5 ("Hundredths of a degree"), N6 ("The hop
//! table goes") and N7 ("Two fitters at two ends") of document 02, written down once
//! more in plain Rust, from those texts alone. Comments quote the sentence that the
//! code follows, of 01 unless they say 02.

pub mod coverage;
pub mod dispatch;
pub mod generate;
pub mod history;
pub mod hundredths;
pub mod listing;
pub mod ring;
pub mod tape;
