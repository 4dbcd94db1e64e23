//! A text form for run files, for the person at the test bench.
//!
//! ```text
//! # comments from a hash to the end of the line, blank lines
//! L 2
//! program
//!   SET r1 7
//! events
//!   PSTEP 0
//! ```

mod names;
pub mod pack;
pub mod unpack;

pub use pack::{pack, TextError};
pub use unpack::{event_line, unpack};
