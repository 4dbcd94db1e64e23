//! "The pair": two cards, P (first) and B (second), and what lies between them.

use crate::guest::Guest;
use crate::instruction::good_program;
use crate::interrupt::DeviceInterrupt;
use crate::message::Message;
use crate::numbers::Epoch;
use crate::refusal::Refusal;

pub const LONGEST_EPOCH: u16 = 4_096;
/// "At most 58 messages are unacknowledged."
pub const LINK_SLOTS: usize = 58;
/// "B's inbox (128)"
pub const INBOX_SLOTS: usize = 128;

#[derive(Clone, Copy, Debug, PartialEq, Eq)]
pub enum PhaseP {
    Running,
    /// After PTIME, with the clock sent, until PEND.
    Waiting {
        clock_sent: u32,
    },
    Failed,
}

#[derive(Clone, Debug, PartialEq, Eq)]
pub enum PhaseB {
    Following,
    Failover,
    /// Only a promoted B buffers interrupts of its own.
    Promoted {
        buffer: Vec<DeviceInterrupt>,
    },
}

#[derive(Clone, Debug, PartialEq, Eq)]
pub struct Pair {
    pub l: u16,
    pub n: u16,
    pub phase_p: PhaseP,
    pub phase_b: PhaseB,
    /// B has learned that P failed.
    pub detected: bool,
    pub e_p: Epoch,
    pub e_b: Epoch,
    pub p: Guest,
    pub b: Guest,
    /// P's buffer, in order of arrival.
    pub buffer_p: Vec<DeviceInterrupt>,
    /// Messages in flight from P to B, the oldest first.
    pub link: Vec<Message>,
    /// Acknowledgements in flight from B to P.
    pub acknowledgements: u16,
    /// Messages that arrived at B, the oldest first.
    pub inbox: Vec<Message>,
}

impl Pair {
    /// "P starts in epoch 1, B in epoch 0, following." Refused with 8 for a bad program or L.
    pub fn fresh(program: &[u8], l: u16) -> Result<Pair, Refusal> {
        let n = good_program(program).ok_or(Refusal::BadProgram)?;
        if l == 0 || l > LONGEST_EPOCH {
            return Err(Refusal::BadProgram);
        }
        Ok(Pair {
            l,
            n,
            phase_p: PhaseP::Running,
            phase_b: PhaseB::Following,
            detected: false,
            e_p: Epoch(1),
            e_b: Epoch(0),
            p: Guest::fresh(),
            b: Guest::fresh(),
            buffer_p: Vec::new(),
            link: Vec::new(),
            acknowledgements: 0,
            inbox: Vec::new(),
        })
    }

    /// B's own buffer; empty before promotion.
    pub fn buffer_b(&self) -> &[DeviceInterrupt] {
        match &self.phase_b {
            PhaseB::Promoted { buffer } => buffer,
            PhaseB::Following | PhaseB::Failover => &[],
        }
    }

    /// A message is unacknowledged from its sending until ACK takes its acknowledgement.
    pub fn unacknowledged(&self) -> usize {
        self.link.len() + usize::from(self.acknowledgements)
    }
}

/// "not in P's table or already buffered 5", and the same for a promoted B.
pub fn accept(
    interrupt: DeviceInterrupt,
    guest: &Guest,
    buffer: &mut Vec<DeviceInterrupt>,
) -> Result<(), Refusal> {
    let outstanding = guest.table.contains(&interrupt.operation);
    let buffered = buffer.iter().any(|other| other.operation == interrupt.operation);
    if !outstanding || buffered {
        return Err(Refusal::UnknownOperation);
    }
    buffer.push(interrupt);
    Ok(())
}
