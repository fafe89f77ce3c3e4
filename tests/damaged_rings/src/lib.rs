//! The proved test for a sound ring against the second model's. Rings that the
//! model reaches are laid out in bytes as the proved code holds them, and most
//! of them damaged; each is judged by both. The proved test itself is linked
//! into the program alone; here it is any function from bytes to a verdict.

pub mod compare;
pub mod damage;
pub mod expected;
pub mod form;
pub mod rings;

#[cfg(test)]
mod tests;
