//! damaged_rings COUNT SEED: the proved test for a sound ring, and the proved call that turns a ring from tenths into hundredths, against the
//! second model's, on COUNT rings. Prints what was compared. Ends with failure on a difference, when a kind of change was never made, when
//! one that leaves every ring sound did not, and when sound, unsound or turned rings are too few.

use common::layout::Bytes;
use common::program;
use damaged_rings::compare::compare;
use std::process::ExitCode;
use vessel_ring::Ring;

extern "C" {
    /// 1 where the ring is sound, else 0 (include/vessel_ring.h). The number itself, of which the binding says only whether it is 1.
    fn vessel_ring_is_sound(ring: &Ring) -> u8;
}

fn proved(bytes: &Bytes) -> u8 {
    // Every pattern of bytes is a ring. The function reads it and writes nothing.
    unsafe { vessel_ring_is_sound(&Ring::from_bytes(bytes)) }
}

fn turned(bytes: &mut Bytes) -> u8 {
    let mut ring = Ring::from_bytes(bytes);
    let answer = ring.to_hundredths();
    *bytes = ring.to_bytes();
    answer
}

fn main() -> ExitCode {
    program::run("damaged_rings", |count, seed| compare(count, seed, proved, turned).map(|sums| sums.shown(seed)))
}
