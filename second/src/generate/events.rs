//! Single events: well formed ones that the pair may take or refuse, and malformed ones.

use crate::event::{Event, EventKind, EVENT_BYTES, EVENT_KINDS};
use crate::generate::random::Random;
use crate::guest::Guest;
use crate::interrupt::{DeviceInterrupt, Outcome};
use crate::numbers::Operation;
use crate::pair::Pair;

/// A well formed event of a kind.
pub fn event_of_kind(random: &mut Random, kind: EventKind, pair: &Pair, word: u32) -> Event {
    match kind {
        EventKind::PStep => Event::PStep { word },
        EventKind::PInt => Event::PInt(interrupt(random, &pair.p, &pair.buffer_p)),
        EventKind::PTime => Event::PTime { word },
        EventKind::PEnd => Event::PEnd,
        EventKind::Link => Event::Link,
        EventKind::Ack => Event::Ack,
        EventKind::Fail => Event::Fail,
        EventKind::Detect => Event::Detect,
        EventKind::BStep => Event::BStep { word },
        EventKind::BEnd => Event::BEnd { word },
        EventKind::BInt => Event::BInt(interrupt(random, &pair.b, pair.buffer_b())),
    }
}

/// Any well formed event.
pub fn any_event(random: &mut Random, pair: &Pair) -> Event {
    let kind = random.pick(EVENT_KINDS);
    let word = word_near(random, pair);
    event_of_kind(random, kind, pair, word)
}

/// A word at or beside a deadline of the pair, or any.
pub fn word_near(random: &mut Random, pair: &Pair) -> u32 {
    let guest = random.pick(&[&pair.p, &pair.b]);
    match guest.timer {
        Some(deadline) if random.chance(50) => {
            random.pick(&[deadline, deadline.wrapping_add(1), deadline.wrapping_sub(1)])
        }
        _ => random.word(),
    }
}

/// An interrupt for an operation that waits for one, most of the time.
fn interrupt(random: &mut Random, guest: &Guest, buffer: &[DeviceInterrupt]) -> DeviceInterrupt {
    let is_buffered = |operation: &Operation| buffer.iter().any(|b| b.operation == *operation);
    let unknown = Operation(random.pick(&[1, 2, 16, 17, 300, 65_534, 65_535]));
    let waiting: Vec<Operation> =
        guest.table.iter().copied().filter(|operation| !is_buffered(operation)).collect();
    let operation = if !waiting.is_empty() && random.chance(85) {
        random.pick(&waiting)
    } else if !guest.table.is_empty() && random.chance(50) {
        random.pick(&guest.table)
    } else {
        unknown
    };
    DeviceInterrupt { operation, outcome: outcome(random) }
}

pub fn outcome(random: &mut Random) -> Outcome {
    if random.chance(30) {
        Outcome::Uncertain
    } else {
        Outcome::Completed(random.word())
    }
}

/// One for each field that an event must not have: `[kind, status, operation, operation, word ..]`.
pub const MALFORMED: [[u8; EVENT_BYTES]; 38] = [
    [0, 0, 0, 0, 0, 0, 0, 0],
    [12, 0, 0, 0, 0, 0, 0, 0],
    [255, 0, 0, 0, 0, 0, 0, 0],
    [1, 1, 0, 0, 0, 0, 0, 0],
    [1, 0, 1, 0, 0, 0, 0, 0],
    [1, 0, 0, 1, 0, 0, 0, 0],
    [2, 0, 1, 0, 0, 0, 0, 0],
    [2, 3, 1, 0, 0, 0, 0, 0],
    [2, 1, 0, 0, 9, 0, 0, 0],
    [2, 2, 0, 0, 0, 0, 0, 0],
    [2, 2, 1, 0, 1, 0, 0, 0],
    [2, 2, 1, 0, 0, 0, 0, 1],
    [3, 1, 0, 0, 0, 0, 0, 0],
    [3, 0, 1, 0, 0, 0, 0, 0],
    [4, 1, 0, 0, 0, 0, 0, 0],
    [4, 0, 1, 0, 0, 0, 0, 0],
    [4, 0, 0, 0, 1, 0, 0, 0],
    [5, 1, 0, 0, 0, 0, 0, 0],
    [5, 0, 1, 0, 0, 0, 0, 0],
    [5, 0, 0, 0, 1, 0, 0, 0],
    [6, 1, 0, 0, 0, 0, 0, 0],
    [6, 0, 1, 0, 0, 0, 0, 0],
    [6, 0, 0, 0, 1, 0, 0, 0],
    [7, 1, 0, 0, 0, 0, 0, 0],
    [7, 0, 1, 0, 0, 0, 0, 0],
    [7, 0, 0, 0, 1, 0, 0, 0],
    [8, 1, 0, 0, 0, 0, 0, 0],
    [8, 0, 1, 0, 0, 0, 0, 0],
    [8, 0, 0, 0, 1, 0, 0, 0],
    [9, 1, 0, 0, 0, 0, 0, 0],
    [9, 0, 1, 0, 0, 0, 0, 0],
    [10, 1, 0, 0, 0, 0, 0, 0],
    [10, 0, 1, 0, 0, 0, 0, 0],
    [11, 0, 1, 0, 0, 0, 0, 0],
    [11, 3, 1, 0, 0, 0, 0, 0],
    [11, 1, 0, 0, 9, 0, 0, 0],
    [11, 2, 0, 0, 0, 0, 0, 0],
    [11, 2, 1, 0, 1, 0, 0, 0],
];

/// Eight bytes that are no event: one field of an event broken, or any bytes.
pub fn malformed(random: &mut Random, pair: &Pair) -> [u8; EVENT_BYTES] {
    loop {
        let mut bytes = any_event(random, pair).bytes();
        match random.below(5) {
            0 => bytes[0] = random.u8(),
            1 => bytes[random.between(1, 7)] = random.pick(&[1, 3, 128, 255]),
            2 => bytes.copy_from_slice(&random.bytes(EVENT_BYTES)),
            _ => bytes = random.pick(&MALFORMED),
        }
        if Event::read(&bytes).is_none() {
            return bytes;
        }
    }
}
