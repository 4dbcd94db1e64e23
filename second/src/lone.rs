//! "The lone card": one card and its devices, without a second.

use crate::guest::{Guest, RecordEntry};
use crate::instruction::Instruction;
use crate::interrupt::{DeviceInterrupt, Outcome};
use crate::numbers::Operation;
use crate::pair::Pair;
use crate::refusal::Refusal;

/// "Its steps: instruction(word, reaches device or not); interrupt(operation, status, data) [..];
/// boundary(word)". The fields are as they come: whether they are allowed is for the card.
#[derive(Clone, Copy, Debug, PartialEq, Eq)]
pub enum Step {
    Instruction { word: u32, reaches: bool },
    Interrupt { operation: Operation, status: u8, data: u32 },
    Boundary { word: u32 },
}

impl Step {
    pub fn interrupt(interrupt: DeviceInterrupt) -> Step {
        let (status, data) = (interrupt.status(), interrupt.data());
        Step::Interrupt { operation: interrupt.operation, status, data }
    }
}

/// The lone-card rule that a step breaks.
#[derive(Clone, Copy, Debug, PartialEq, Eq)]
pub struct NotAllowed(pub &'static str);

fn rule(holds: bool, words: &'static str) -> Result<(), NotAllowed> {
    if holds {
        Ok(())
    } else {
        Err(NotAllowed(words))
    }
}

#[derive(Clone, Debug, PartialEq, Eq)]
pub struct LoneCard {
    program: Vec<u8>,
    l: u16,
    n: u16,
    /// "Same guest."
    pub guest: Guest,
    /// Interrupts that wait for the boundary, in order of arrival.
    pub buffer: Vec<DeviceInterrupt>,
    /// "Its record holds the STARTs that reached a device."
    pub record: Vec<RecordEntry>,
}

impl LoneCard {
    /// A fresh guest under a program and an L with which a pair can be made; 8 for any other.
    pub fn fresh(program: &[u8], l: u16) -> Result<LoneCard, Refusal> {
        let n = Pair::fresh(program, l)?.n;
        let (program, guest) = (program.to_vec(), Guest::fresh());
        Ok(LoneCard { program, l, n, guest, buffer: Vec::new(), record: Vec::new() })
    }

    /// One step. A step that is not allowed leaves the card as it came.
    pub fn take(&mut self, step: Step) -> Result<(), NotAllowed> {
        match step {
            Step::Instruction { word, reaches } => self.instruction(word, reaches),
            Step::Interrupt { operation, status, data } => self.interrupt(operation, status, data),
            Step::Boundary { word } => self.boundary(word),
        }
    }

    /// "An instruction runs only while the epoch isn't complete." A step says "reaches" only where
    /// a START starts something (READINGS 71).
    fn instruction(&mut self, word: u32, reaches: bool) -> Result<(), NotAllowed> {
        rule(!self.guest.complete(self.l), "an instruction although the epoch is complete")?;
        let instruction = Instruction::at(&self.program, self.guest.pc, self.n)
            .ok_or(NotAllowed("an instruction that is not well formed"))?;
        let mut guest = self.guest.clone();
        let started = guest.run(instruction, self.n, word);
        rule(started.is_some() || !reaches, "it reaches a device although nothing is started")?;
        self.guest = guest;
        self.record.extend(started.filter(|_| reaches));
        Ok(())
    }

    /// "interrupt(operation, status, data) for an operation in the table and not yet buffered,
    /// status 1 only if it reached its device, data 0 for status 2". Also when the epoch is
    /// complete (READINGS 72), and uncertain also where it reached (READINGS 73, IO2).
    fn interrupt(&mut self, operation: Operation, status: u8, data: u32) -> Result<(), NotAllowed> {
        let interrupt = DeviceInterrupt::read(status, operation, data)
            .ok_or(NotAllowed("an interrupt with another status than 1 or 2, or 2 with data"))?;
        let outstanding = self.guest.table.contains(&operation);
        let buffered = self.buffer.iter().any(|other| other.operation == operation);
        let completed = interrupt.outcome != Outcome::Uncertain;
        rule(outstanding, "an interrupt for an operation that is not in the table")?;
        rule(!buffered, "an interrupt for an operation that has one buffered")?;
        rule(!completed || self.reached(operation), "a completion of what reached no device")?;
        self.buffer.push(interrupt);
        Ok(())
    }

    /// The record ascends: START numbers its operations one after the other.
    fn reached(&self, operation: Operation) -> bool {
        self.record.binary_search_by_key(&operation, |entry| entry.operation).is_ok()
    }

    /// "boundary(word) when complete". The lone card has no failover epoch.
    fn boundary(&mut self, word: u32) -> Result<(), NotAllowed> {
        rule(self.guest.complete(self.l), "a boundary although the epoch is not complete")?;
        let arrived = std::mem::take(&mut self.buffer);
        self.guest.boundary(&arrived, false, word);
        Ok(())
    }
}
