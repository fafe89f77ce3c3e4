//! The model that all tapes are compared with, on the tapes that document 01 works out itself.

use calls::listing::Listing;
use second_model::generate::{listing_tape, turn_tape};

/// In hundredths by N5 of document 02: "the listing in 01 prints 6120".
#[test]
fn the_listing_of_01() {
    let text = "1 10 0\n2 10 0\n3 11 0\n4 12 0\n5 20 0\n6 20 10\n7 22 0\n8 23 0\n9 21 0\n10 22 0\n\
                11 23 0 delivered 0 7 3 6120 2 A1\n12 23 19\nend 10 2\n";
    assert_eq!(Listing::of(&listing_tape()).text, text);
}

/// "Receive 0, 1, 2; enter 0; move 0 goes into node 1 and sets its mark; enter 0; move 0 is 21; enter 1 is accepted; move 0 is 20; move 1,
/// then move 0, are accepted."
#[test]
fn the_turn_case() {
    let text = Listing::of(&turn_tape()).text;
    let answers: Vec<&str> = text.lines().skip(7).map(|line| line.rsplit(' ').next().unwrap()).collect();
    assert_eq!(answers, ["0", "0", "0", "0", "0", "0", "21", "0", "20", "0", "0", "2"]);
}

#[test]
fn ends_of_a_tape() {
    assert_eq!(Listing::of(&[]).text, "end 0 0\n");
    assert_eq!(Listing::of(&[0x10]).text, "1 10 23\nend 0 1\n");
    assert_eq!(Listing::of(&[0x13, 0x12]).text, "1 13 22\nend 0 1\n");
    assert!(Listing::of(&[0x12; 60_000]).text.ends_with("60000 12 6\nend 0 60000\n"));
    assert_eq!(Listing::of(&[0x12; 60_001]).text, "too long\n");
}
