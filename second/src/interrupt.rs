//! Interrupts: what a device reports about an operation, and what the timer reports.

use crate::numbers::Operation;

/// "Status 1 is completion", with its data; status 2 is uncertain, and its data is always 0.
#[derive(Clone, Copy, Debug, PartialEq, Eq)]
pub enum Outcome {
    Completed(u32),
    Uncertain,
}

/// What PINT and BINT bring, Int messages carry and buffers hold.
#[derive(Clone, Copy, Debug, PartialEq, Eq)]
pub struct DeviceInterrupt {
    pub operation: Operation,
    pub outcome: Outcome,
}

impl DeviceInterrupt {
    /// "status 1 or 2", "data 0 for status 2". That the operation is not 0 is for the caller.
    pub fn read(status: u8, operation: Operation, data: u32) -> Option<DeviceInterrupt> {
        let outcome = match (status, data) {
            (1, _) => Outcome::Completed(data),
            (2, 0) => Outcome::Uncertain,
            _ => return None,
        };
        Some(DeviceInterrupt { operation, outcome })
    }

    pub fn status(self) -> u8 {
        match self.outcome {
            Outcome::Completed(_) => 1,
            Outcome::Uncertain => 2,
        }
    }

    pub fn data(self) -> u32 {
        match self.outcome {
            Outcome::Completed(data) => data,
            Outcome::Uncertain => 0,
        }
    }
}

/// What stands in a guest's queue.
#[derive(Clone, Copy, Debug, PartialEq, Eq)]
pub enum Interrupt {
    Device(DeviceInterrupt),
    /// "(status 3, operation 0, data clock)"
    Timer {
        clock: u32,
    },
}

impl Interrupt {
    /// "queue statuses 1 to 3", a timer entry with operation 0, uncertain data 0.
    pub fn read(status: u8, operation: Operation, data: u32) -> Option<Interrupt> {
        if status == 3 {
            return (operation == Operation::NONE).then_some(Interrupt::Timer { clock: data });
        }
        DeviceInterrupt::read(status, operation, data).map(Interrupt::Device)
    }

    pub fn status(self) -> u8 {
        match self {
            Interrupt::Device(interrupt) => interrupt.status(),
            Interrupt::Timer { .. } => 3,
        }
    }

    pub fn operation(self) -> Operation {
        match self {
            Interrupt::Device(interrupt) => interrupt.operation,
            Interrupt::Timer { .. } => Operation::NONE,
        }
    }

    pub fn data(self) -> u32 {
        match self {
            Interrupt::Device(interrupt) => interrupt.data(),
            Interrupt::Timer { clock } => clock,
        }
    }

    pub fn is_timer(self) -> bool {
        matches!(self, Interrupt::Timer { .. })
    }
}
