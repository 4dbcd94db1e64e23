//! "Numbers that come back".

#[derive(Clone, Copy, Debug, PartialEq, Eq)]
pub enum Refusal {
    Malformed = 1,
    Dead = 2,
    OutOfTurn = 3,
    MustWait = 4,
    UnknownOperation = 5,
    InboxFull = 6,
    EpochsUsedUp = 7,
    BadProgram = 8,
    TooShort = 9,
    BadFile = 10,
    Unsound = 11,
}

/// The number that 01 prints for an outcome: 0, or the refusal's own.
pub fn answer<T>(outcome: &Result<T, Refusal>) -> u8 {
    match outcome {
        Ok(_) => 0,
        Err(refusal) => *refusal as u8,
    }
}

/// For a check that may fail in other ways too.
impl From<Refusal> for String {
    fn from(refusal: Refusal) -> String {
        format!("refused with {}", refusal as u8)
    }
}
