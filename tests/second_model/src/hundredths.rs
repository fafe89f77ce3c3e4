//! Request N5 of document 02, "Hundredths of a degree": the call that turns a ring
//! held in tenths. The one for a history table is `History::of_tenths`.

use crate::ring::{Channel, Record, Refusal, Ring, Unit};

impl Ring {
    /// "One call turns a ring ... held in tenths into hundredths: each temperature
    /// ... ten times as many, all else the same, 25 where it isn't sound in tenths".
    /// It is sound in tenths where all its temperatures make hundredths and it is
    /// sound with these. It is no ring call.
    pub fn to_hundredths(&mut self) -> Result<(), Refusal> {
        let mut turned = self.clone();
        for Channel { offer, carried, .. } in &mut turned.channels {
            turn(offer)?;
            turn(carried)?;
        }
        turned.require_sound()?;
        *self = turned;
        Ok(())
    }
}

/// A place without a record has the temperature 0, and keeps it.
fn turn(record: &mut Record) -> Result<(), Refusal> {
    let turned = Unit::Tenths.hundredths(record.temperature);
    record.temperature = turned.map_err(|_| Refusal::Unsound)?;
    Ok(())
}
