//! The pair of document 01, written a second time from 01, READINGS and PROBE alone (and demand 3,
//! for the lone card's history), so that its answers can be laid beside those of another program.
//!
//! The machine: `instruction`, `interrupt`, `guest`; `event`, `message`, `pair`; the events in
//! `step`, `card_p`, `link`, `card_b`; `sound`. One card in the place of two: `lone`, `one_card`.
//! The stored forms: `image`, `runfile`. A run told again: `retell`, `reason`. The programs:
//! `bench`, `probe`, `text`, `draw`, `generate`, `check`.

pub mod bench;
pub mod bytes;
pub mod card_b;
pub mod card_p;
pub mod check;
pub mod draw;
pub mod event;
pub mod generate;
pub mod guest;
pub mod image;
pub mod instruction;
pub mod interrupt;
pub mod link;
pub mod lone;
pub mod message;
pub mod numbers;
pub mod one_card;
pub mod pair;
pub mod probe;
pub mod reason;
pub mod refusal;
pub mod retell;
pub mod runfile;
pub mod sound;
pub mod step;
pub mod text;
