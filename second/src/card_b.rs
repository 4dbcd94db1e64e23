//! The events of B: DETECT, BSTEP, BEND, BINT.

use crate::guest::RecordEntry;
use crate::instruction::Instruction;
use crate::interrupt::DeviceInterrupt;
use crate::message::Message;
use crate::numbers::Epoch;
use crate::pair::{accept, Pair, PhaseB, PhaseP};
use crate::refusal::Refusal;

/// B is in no epoch yet: no instruction runs and no boundary is done.
const BEFORE_THE_FIRST: Epoch = Epoch(0);

impl Pair {
    /// "B learns of it". Acknowledgements in flight do not hold it up, messages do.
    pub(crate) fn detect(&mut self) -> Result<(), Refusal> {
        if self.phase_p != PhaseP::Failed || self.detected {
            return Err(Refusal::OutOfTurn);
        }
        if !self.link.is_empty() {
            return Err(Refusal::MustWait);
        }
        self.detected = true;
        Ok(())
    }

    /// "one instruction on B. [..] START shows in the record only after promotion"
    pub(crate) fn bstep(
        &mut self,
        program: &[u8],
        word: u32,
    ) -> Result<Option<RecordEntry>, Refusal> {
        if self.e_b == BEFORE_THE_FIRST || self.b.complete(self.l) {
            return Err(Refusal::OutOfTurn);
        }
        let instruction = Instruction::at(program, self.b.pc, self.n).ok_or(Refusal::BadProgram)?;
        let reading = match instruction {
            Instruction::Time { .. } => self.take_first_val().unwrap_or(word), // P6
            _ => word,
        };
        let entry = self.b.run(instruction, self.n, reading);
        let promoted = matches!(self.phase_b, PhaseB::Promoted { .. });
        Ok(entry.filter(|_| promoted))
    }

    /// "the first Val of B's epoch in the inbox", which leaves it. The rule asks for no phase.
    fn take_first_val(&mut self) -> Option<u32> {
        let e_b = self.e_b;
        let val = |message: &Message| match *message {
            Message::Val { epoch, reading } if epoch == e_b => Some(reading),
            _ => None,
        };
        let place = self.inbox.iter().position(|message| val(message).is_some())?;
        val(&self.inbox.remove(place))
    }

    /// BEND: how B leaves its epoch for the next.
    pub(crate) fn bend(&mut self, word: u32) -> Result<(), Refusal> {
        if self.e_b != BEFORE_THE_FIRST && !self.b.complete(self.l) {
            return Err(Refusal::OutOfTurn);
        }
        if self.e_b == Epoch::LAST {
            return Err(Refusal::EpochsUsedUp);
        }
        let next = self.e_b.next();
        match &mut self.phase_b {
            PhaseB::Following => {
                let p_finished_next = self.inbox.contains(&Message::End { epoch: next });
                if !p_finished_next && !self.detected {
                    return Err(Refusal::MustWait);
                }
                self.leave_relayed_epoch(false, word);
                if !p_finished_next {
                    self.phase_b = PhaseB::Failover; // P7, else P5
                }
            }
            PhaseB::Failover => {
                self.leave_relayed_epoch(true, word);
                self.phase_b = PhaseB::Promoted { buffer: Vec::new() };
            }
            PhaseB::Promoted { buffer } => {
                let arrived = std::mem::take(buffer);
                self.b.boundary(&arrived, false, word);
            }
        }
        self.e_b = next;
        Ok(())
    }

    /// "do the boundary of e_b with its Ints in inbox order and its first Tme there (else the
    /// word), remove all messages of e_b". "At epoch 0 no boundary is done and no clock taken."
    fn leave_relayed_epoch(&mut self, failover: bool, word: u32) {
        if self.e_b == BEFORE_THE_FIRST {
            return;
        }
        let mut arrived = Vec::new();
        let mut clock = None;
        for message in self.inbox.iter().filter(|message| message.epoch() == self.e_b) {
            match *message {
                Message::Int { interrupt, .. } => arrived.push(interrupt),
                Message::Tme { clock: sent, .. } => clock = clock.or(Some(sent)),
                Message::Val { .. } | Message::End { .. } => {}
            }
        }
        self.b.boundary(&arrived, failover, clock.unwrap_or(word));
        let left = self.e_b;
        self.inbox.retain(|message| message.epoch() != left);
    }

    /// "before promotion taken and ignored (P3); after, buffered"
    pub(crate) fn bint(&mut self, interrupt: DeviceInterrupt) -> Result<(), Refusal> {
        match &mut self.phase_b {
            PhaseB::Following | PhaseB::Failover => Ok(()),
            PhaseB::Promoted { buffer } => accept(interrupt, &self.b, buffer),
        }
    }
}
