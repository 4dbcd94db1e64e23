//! Why an event is refused, in words, for the person at the bench.

use crate::event::EventKind;
use crate::refusal::Refusal;

/// The name of a refusal in 01's "Numbers that come back".
pub fn name(refusal: Refusal) -> &'static str {
    match refusal {
        Refusal::Malformed => "malformed",
        Refusal::Dead => "dead",
        Refusal::OutOfTurn => "out of turn",
        Refusal::MustWait => "must wait",
        Refusal::UnknownOperation => "unknown operation",
        Refusal::InboxFull => "inbox full",
        Refusal::EpochsUsedUp => "epochs used up",
        Refusal::BadProgram => "bad program or L",
        Refusal::TooShort => "buffer too short",
        Refusal::BadFile => "bad run file or image",
        Refusal::Unsound => "unsound",
    }
}

/// The situation that the third column of 01's table names for a kind of event and its refusal.
pub fn why(kind: EventKind, refusal: Refusal) -> &'static str {
    use EventKind::*;
    match (kind, refusal) {
        (_, Refusal::Dead) => "P has failed",
        (PStep, Refusal::OutOfTurn) => "P's epoch is complete",
        (PTime, Refusal::OutOfTurn) => "P's epoch is not complete, or P is waiting already",
        (PEnd, Refusal::OutOfTurn) => "P is not waiting",
        (Detect, Refusal::OutOfTurn) => "P has not failed, or that is detected already",
        (BStep, Refusal::OutOfTurn) => "B is in epoch 0, or its epoch is complete",
        (BEnd, Refusal::OutOfTurn) => "B's epoch is not complete",
        (PEnd, Refusal::MustWait) => "a message is not acknowledged",
        (Link, Refusal::MustWait) => "no message is in flight",
        (Ack, Refusal::MustWait) => "no acknowledgement is in flight",
        (Detect, Refusal::MustWait) => "a message is in flight",
        (BEnd, Refusal::MustWait) => "P has not finished the next epoch, and no stop is detected",
        (PInt, Refusal::UnknownOperation) => "not in P's table, or already buffered",
        (BInt, Refusal::UnknownOperation) => "not in B's table, or already buffered",
        (Link, Refusal::InboxFull) => "B's inbox holds 128 messages",
        (_, Refusal::EpochsUsedUp) => "epoch 65,535 is the last",
        (_, other) => name(other),
    }
}
