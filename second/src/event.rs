//! "Events: 8 bytes: kind, status, operation (2), word (4)."

use crate::bytes::Source;
use crate::interrupt::DeviceInterrupt;
use crate::numbers::Operation;

pub const EVENT_BYTES: usize = 8;

/// The kinds of events, by the numbers of 01's table.
#[derive(Clone, Copy, Debug, PartialEq, Eq, PartialOrd, Ord)]
pub enum EventKind {
    PStep = 1,
    PInt = 2,
    PTime = 3,
    PEnd = 4,
    Link = 5,
    Ack = 6,
    Fail = 7,
    Detect = 8,
    BStep = 9,
    BEnd = 10,
    BInt = 11,
}

/// All of them, in the table's order.
pub const EVENT_KINDS: &[EventKind] = &[
    EventKind::PStep,
    EventKind::PInt,
    EventKind::PTime,
    EventKind::PEnd,
    EventKind::Link,
    EventKind::Ack,
    EventKind::Fail,
    EventKind::Detect,
    EventKind::BStep,
    EventKind::BEnd,
    EventKind::BInt,
];

#[derive(Clone, Copy, Debug, PartialEq, Eq)]
pub enum Event {
    PStep { word: u32 },
    PInt(DeviceInterrupt),
    PTime { word: u32 },
    PEnd,
    Link,
    Ack,
    Fail,
    Detect,
    BStep { word: u32 },
    BEnd { word: u32 },
    BInt(DeviceInterrupt),
}

impl Event {
    /// "Kinds 1, 3, 9, 10 use the word. Kinds 2 and 11 use status 1 or 2, operation 1 to 65,535,
    /// data in the word, data 0 for status 2. All else is 0." Anything else is `None`.
    pub fn read(bytes: &[u8]) -> Option<Event> {
        if bytes.len() != EVENT_BYTES {
            return None;
        }
        let mut source = Source::new(bytes);
        let kind = source.u8();
        let status = source.u8();
        let operation = Operation(source.u16());
        let word = source.u32();
        let only_word = status == 0 && operation == Operation::NONE;
        let nothing = only_word && word == 0;
        match kind {
            1 if only_word => Some(Event::PStep { word }),
            2 => read_interrupt(status, operation, word).map(Event::PInt),
            3 if only_word => Some(Event::PTime { word }),
            4 if nothing => Some(Event::PEnd),
            5 if nothing => Some(Event::Link),
            6 if nothing => Some(Event::Ack),
            7 if nothing => Some(Event::Fail),
            8 if nothing => Some(Event::Detect),
            9 if only_word => Some(Event::BStep { word }),
            10 if only_word => Some(Event::BEnd { word }),
            11 => read_interrupt(status, operation, word).map(Event::BInt),
            _ => None,
        }
    }

    pub fn kind(self) -> EventKind {
        match self {
            Event::PStep { .. } => EventKind::PStep,
            Event::PInt(_) => EventKind::PInt,
            Event::PTime { .. } => EventKind::PTime,
            Event::PEnd => EventKind::PEnd,
            Event::Link => EventKind::Link,
            Event::Ack => EventKind::Ack,
            Event::Fail => EventKind::Fail,
            Event::Detect => EventKind::Detect,
            Event::BStep { .. } => EventKind::BStep,
            Event::BEnd { .. } => EventKind::BEnd,
            Event::BInt(_) => EventKind::BInt,
        }
    }

    /// The eight bytes that `read` reads back as this event.
    pub fn bytes(self) -> [u8; EVENT_BYTES] {
        let (status, operation, word) = match self {
            Event::PStep { word }
            | Event::PTime { word }
            | Event::BStep { word }
            | Event::BEnd { word } => (0, Operation::NONE, word),
            Event::PInt(interrupt) | Event::BInt(interrupt) => {
                (interrupt.status(), interrupt.operation, interrupt.data())
            }
            _ => (0, Operation::NONE, 0),
        };
        let mut bytes = [self.kind() as u8, status, 0, 0, 0, 0, 0, 0];
        bytes[2..4].copy_from_slice(&operation.0.to_le_bytes());
        bytes[4..8].copy_from_slice(&word.to_le_bytes());
        bytes
    }
}

fn read_interrupt(status: u8, operation: Operation, data: u32) -> Option<DeviceInterrupt> {
    if operation == Operation::NONE {
        return None;
    }
    DeviceInterrupt::read(status, operation, data)
}
