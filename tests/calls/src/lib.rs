//! A model of document 01 with real queues, its tape and listing, how its network lies in memory, and what is drawn: for the program beside
//! it, for `tests/tapes` and for `tests/dispatch`.

pub mod draw;
pub mod form;
pub mod library;
pub mod listing;
pub mod model;
pub mod second;
pub mod tape;
