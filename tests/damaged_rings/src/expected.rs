//! The verdict expected on the bytes of a ring, and what it is turned into.

use crate::form::{lay_out, read_back};
use common::layout::{record_at, Bytes, OFFERED, OFFERS, SPARE};
use vessel_ring::{CHANNELS, RECORD_BYTES};

/// The model's verdict on the ring that the bytes hold, where they hold one.
pub fn sound(bytes: &Bytes) -> bool {
    fits_the_model(bytes) && read_back(bytes).sound()
}

/// The ring turned from tenths into hundredths by the model; nothing where it is not
/// sound in tenths.
pub fn turned(bytes: &Bytes) -> Option<Bytes> {
    let mut ring = read_back(bytes);
    if !fits_the_model(bytes) || ring.to_hundredths().is_err() {
        return None;
    }
    let mut turned = *bytes;
    lay_out(&ring, &mut turned);
    Some(turned)
}

/// What the bytes may say and a ring of the model cannot. Such a ring is unsound
/// by 01, "A sound ring": "cells that hold nothing are zero", and so is the
/// spare byte; a flag is 0 or 1; where it is 0 no record is offered, so its
/// bytes are zero; where it is 1 the record is good, so its batch number is not.
fn fits_the_model(bytes: &Bytes) -> bool {
    bytes[SPARE] == 0
        && (0..CHANNELS).all(|at| {
            let holds = record_at(bytes, OFFERS, at) != &[0; RECORD_BYTES];
            bytes[OFFERED + at] == holds as u8
        })
}
