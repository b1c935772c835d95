//! The proved code and the second program, side by side: the same calls on the
//! same bytes and numbers.
//!
//! `kernel`, `checkpoint`, `dispatcher`, `proved` and `chamber` call the static libraries of the proved code, `other`
//! is the second program's client and lease manager in their terms. `pair` is a server of
//! both, called in lockstep; `states` makes servers and their buffers, `inputs`
//! random, damaged and well-formed bytes, `forms` those of earlier programs, `long` long logs;
//! `tally` counts what a test met.

pub mod chamber;
pub mod checkpoint;
pub mod dispatcher;
pub mod forms;
pub mod inputs;
pub mod kernel;
pub mod long;
pub mod other;
pub mod pair;
pub mod proved;
pub mod states;
pub mod tally;
