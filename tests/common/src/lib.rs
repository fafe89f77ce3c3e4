//! What the test programs share: random numbers, what has to be seen, how a program ends, and where the parts of a ring lie in memory.

pub mod layout;
pub mod program;
pub mod random;
pub mod sights;
