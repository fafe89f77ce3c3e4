//! Request N2 of document 02, "Temperature history for each batch", in hundredths:
//! its worked cases, and every way in which a lent table can be wrong.

use second_model::generate::record_named;
use second_model::history::*;
use second_model::ring::{BatchNumber, Record, Refusal};

fn record(batch: u32, temperature: i16) -> Record {
    Record { number: BatchNumber(batch), temperature, ..record_named(b"A1") }
}

fn row(batch: u32, readings: &[i16]) -> Row {
    let mut row = Row { batch: BatchNumber(batch), count: readings.len() as u32, ..Row::EMPTY };
    row.readings[..readings.len()].copy_from_slice(readings);
    row
}

/// Notes a record and answers the refusal or 0. A refused note changes nothing,
/// and what is lent afterwards is the history that it is laid out from.
fn note_record(history: &mut History, record: &Record) -> u8 {
    let before = history.clone();
    let answer = history.note(record).map_or_else(|refusal| refusal as u8, |()| 0);
    assert!(answer == 0 || *history == before);
    assert_eq!(History::of(&history.table()).as_ref(), Ok(&*history));
    answer
}

fn note(history: &mut History, batch: u32, temperature: i16) -> u8 {
    note_record(history, &record(batch, temperature))
}

fn note_all(history: &mut History, batch: u32, temperatures: impl IntoIterator<Item = i16>) {
    temperatures.into_iter().for_each(|temperature| assert_eq!(note(history, batch, temperature), 0));
}

/// (lowest, highest, sum)
fn figures(history: &History, batch: u32) -> Option<(i16, i16, i32)> {
    let figures = history.figures(BatchNumber(batch));
    figures.map(|Figures { lowest, highest, sum }| (lowest, highest, sum))
}

/// Batches 1 to 128, one reading each.
fn full() -> History {
    let mut history = History::empty();
    (1..=128).for_each(|batch| note_all(&mut history, batch, [0]));
    history
}

#[test]
fn a_first_reading() {
    let mut history = History::empty();
    assert_eq!(figures(&history, 7), None);
    note_all(&mut history, 7, [6120]);
    assert_eq!(history.table()[0], row(7, &[6120]));
    assert_eq!(history.table()[1..], [Row::EMPTY; 127]);
    assert_eq!(figures(&history, 7), Some((6120, 6120, 6120)));
}

#[test]
fn the_oldest_makes_way() {
    let mut history = History::empty();
    note_all(&mut history, 7, 1..=24);
    assert_eq!(history.table()[0], row(7, &Vec::from_iter(1..=24)));
    note_all(&mut history, 7, [25]);
    assert_eq!(history.table()[0], row(7, &Vec::from_iter(2..=25)));
    assert_eq!(figures(&history, 7), Some((2, 25, 324)));
}

#[test]
fn the_batches_row_by_row() {
    let mut history = full();
    history.close(BatchNumber(2));
    let batches: Vec<Option<u32>> = (0..130).map(|row| history.batch(row).map(|batch| batch.0)).collect();
    assert_eq!(batches[..3], [Some(1), None, Some(3)]);
    assert_eq!(batches[126..], [Some(127), Some(128), None, None]);
}

#[test]
fn the_lowest_is_not_kept_when_it_left() {
    let mut history = History::empty();
    note_all(&mut history, 7, [-4000]);
    note_all(&mut history, 7, [0; 23]);
    assert_eq!(figures(&history, 7), Some((-4000, 0, -4000)));
    note_all(&mut history, 7, [5]);
    assert_eq!(figures(&history, 7), Some((0, 5, 5)));
}

#[test]
fn the_highest_is_not_kept_when_it_left() {
    let mut history = History::empty();
    note_all(&mut history, 7, [12000]);
    note_all(&mut history, 7, [-3; 23]);
    assert_eq!(figures(&history, 7), Some((-3, 12000, 11931)));
    note_all(&mut history, 7, [-3]);
    assert_eq!(figures(&history, 7), Some((-3, -3, -72)));
}

#[test]
fn thousands_of_readings() {
    let mut history = History::empty();
    note_all(&mut history, 7, [12000; 5000]);
    assert_eq!(figures(&history, 7), Some((12000, 12000, 288_000)));
}

#[test]
fn a_closed_row_is_the_next_batchs() {
    let mut history = History::empty();
    note_all(&mut history, 7, [1]);
    note_all(&mut history, 8, [2]);
    history.close(BatchNumber(7));
    assert_eq!(history.table()[..3], [Row::EMPTY, row(8, &[2]), Row::EMPTY]);
    assert_eq!(figures(&history, 7), None);
    note_all(&mut history, 9, [3]);
    assert_eq!(history.table()[..3], [row(9, &[3]), row(8, &[2]), Row::EMPTY]);
    assert_eq!(figures(&history, 8), Some((2, 2, 2)));
}

/// Its row stands behind an empty one and stays where it is.
#[test]
fn a_batch_keeps_its_row() {
    let mut history = History::empty();
    note_all(&mut history, 7, [1]);
    note_all(&mut history, 8, [2]);
    history.close(BatchNumber(7));
    note_all(&mut history, 8, [3]);
    assert_eq!(history.table()[..2], [Row::EMPTY, row(8, &[2, 3])]);
}

#[test]
fn all_rows_in_use() {
    let mut history = full();
    assert_eq!(note(&mut history, 129, 0), 29);
    assert_eq!(note(&mut history, 128, 4), 0);
    history.close(BatchNumber(5));
    assert_eq!(note(&mut history, 129, 9), 0);
    assert_eq!(history.table()[4], row(129, &[9]));
    assert_eq!(history.table()[127], row(128, &[0, 4]));
    assert_eq!(note(&mut history, 5, 9), 29);
}

#[test]
fn a_bad_record_comes_before_29() {
    let mut history = full();
    let long = Record { length: 33, ..record(129, 0) };
    let blank = Record { name: [0; 32], ..record(129, 0) };
    assert_eq!(note(&mut history, 0, 0), 11);
    assert_eq!(note(&mut history, 0, 12001), 11);
    assert_eq!(note(&mut history, 129, 12001), 12);
    assert_eq!(note(&mut history, 129, -4001), 12);
    assert_eq!(note_record(&mut history, &long), 13);
    assert_eq!(note_record(&mut history, &blank), 14);
    assert_eq!(note(&mut history, 129, 0), 29);
}

/// A reading of 0 is a reading.
#[test]
fn readings_of_zero_count() {
    let mut history = History::empty();
    note_all(&mut history, 7, [0, 0]);
    assert_eq!(history.table()[0], row(7, &[0, 0]));
    assert_eq!(figures(&history, 7), Some((0, 0, 0)));
}

#[test]
fn closing_what_has_no_row() {
    let mut history = full();
    let before = history.clone();
    history.close(BatchNumber(129));
    history.close(BatchNumber(0));
    assert_eq!(history, before);
    history = History::empty();
    history.close(BatchNumber(7));
    history.close(BatchNumber(0));
    assert_eq!(history, History::empty());
    assert_eq!(figures(&history, 0), None);
}

/// Rows that are not "as said here", whichever row it is.
#[test]
fn a_bad_row() {
    let lost = |row: Row| Row { batch: BatchNumber(0), ..row };
    let counted = |count, row: Row| Row { count, ..row };
    let bad = [
        row(7, &[]),
        counted(0, row(7, &[5])),
        counted(25, row(7, &[1; 24])),
        counted(200, row(7, &[1; 24])),
        counted(1 << 31, row(7, &[1; 24])),
        counted(256 + 24, row(7, &[1; 24])),
        counted(1, row(7, &[1, 1])),
        counted(23, row(7, &[1; 24])),
        row(7, &[12001]),
        row(7, &[-4001]),
        row(7, &[i16::MIN]),
        row(7, &Vec::from_iter(11978..=12001)),
        row(u32::MAX, &[0, -4001]),
        lost(row(7, &[5])),
        lost(counted(0, row(7, &[5]))),
        lost(counted(0, row(7, &[0, 0, 5]))),
        lost(counted(1, row(7, &[]))),
        lost(counted(1 << 31, row(7, &[]))),
    ];
    for bad in bad {
        for at in [0, 3, 127] {
            let mut table = [Row::EMPTY; ROWS];
            table[at] = bad;
            assert_eq!(History::of(&table), Err(Refusal::Unsound), "{bad:?} at {at}");
        }
    }
}

/// At the edges of what is said, on this side.
#[test]
fn a_good_row() {
    let good = [Row::EMPTY, row(1, &[0]), row(u32::MAX, &[0; 24]), row(7, &[-4000; 24]), row(7, &[12000; 23]), row(7, &[1, 0, 0, 2, 0])];
    for good in good {
        for at in [0, 3, 127] {
            let mut table = [Row::EMPTY; ROWS];
            table[at] = good;
            let history = History::of(&table);
            assert_eq!(history.map(|history| history.table()), Ok(table), "{good:?} at {at}");
        }
    }
}

#[test]
fn two_rows_of_one_batch() {
    let table = full().table();
    for (first, second) in [(3, 90), (0, 127), (0, 1), (126, 127)] {
        let mut twice = table;
        twice[second].batch = twice[first].batch;
        assert_eq!(History::of(&twice), Err(Refusal::Unsound), "{first} and {second}");
    }
    // Empty rows are of no batch, so there may be two of them.
    assert!(History::of(&[Row::EMPTY; ROWS]).is_ok());
}

#[test]
fn not_128_rows() {
    let mut table = full().table().to_vec();
    for length in [0, 1, 127] {
        assert_eq!(History::of(&table[..length]), Err(Refusal::Unsound), "{length}");
    }
    table.push(Row::EMPTY);
    assert!(History::of(&table[..128]).is_ok());
    assert_eq!(History::of(&table), Err(Refusal::Unsound));
}
