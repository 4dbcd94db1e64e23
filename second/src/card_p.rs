//! The events of P: PSTEP, PINT, PTIME, PEND, FAIL.

use crate::guest::RecordEntry;
use crate::instruction::Instruction;
use crate::interrupt::DeviceInterrupt;
use crate::message::Message;
use crate::numbers::Epoch;
use crate::pair::{accept, Pair, PhaseP};
use crate::refusal::Refusal;

impl Pair {
    /// "P failed 2", first in the column of all that P does.
    pub(crate) fn p_is_alive(&self) -> Result<(), Refusal> {
        match self.phase_p {
            PhaseP::Failed => Err(Refusal::Dead),
            PhaseP::Running | PhaseP::Waiting { .. } => Ok(()),
        }
    }

    /// "one instruction on P. TIME reads the word and sends Val (P0); START adds to the record"
    pub(crate) fn pstep(
        &mut self,
        program: &[u8],
        word: u32,
    ) -> Result<Option<RecordEntry>, Refusal> {
        self.p_is_alive()?;
        if self.p.complete(self.l) {
            return Err(Refusal::OutOfTurn);
        }
        let instruction = Instruction::at(program, self.p.pc, self.n).ok_or(Refusal::BadProgram)?;
        let entry = self.p.run(instruction, self.n, word);
        if matches!(instruction, Instruction::Time { .. }) {
            self.link.push(Message::Val { epoch: self.e_p, reading: word }); // P0
        }
        Ok(entry)
    }

    /// "buffer, send Int (P1)". Also while P waits: the interrupt is then still of this epoch.
    pub(crate) fn pint(&mut self, interrupt: DeviceInterrupt) -> Result<(), Refusal> {
        self.p_is_alive()?;
        accept(interrupt, &self.p, &mut self.buffer_p)?;
        self.link.push(Message::Int { epoch: self.e_p, interrupt }); // P1
        Ok(())
    }

    /// "send Tme with the word, keep it as the clock sent, P waits"
    pub(crate) fn ptime(&mut self, word: u32) -> Result<(), Refusal> {
        self.p_is_alive()?;
        let waiting = matches!(self.phase_p, PhaseP::Waiting { .. });
        if !self.p.complete(self.l) || waiting {
            return Err(Refusal::OutOfTurn);
        }
        self.link.push(Message::Tme { epoch: self.e_p, clock: word });
        self.phase_p = PhaseP::Waiting { clock_sent: word };
        Ok(())
    }

    /// "boundary with the clock sent, send end, next epoch (P2)". The end carries the epoch that P
    /// has finished.
    pub(crate) fn pend(&mut self) -> Result<(), Refusal> {
        self.p_is_alive()?;
        let PhaseP::Waiting { clock_sent } = self.phase_p else {
            return Err(Refusal::OutOfTurn);
        };
        if self.e_p == Epoch::LAST {
            return Err(Refusal::EpochsUsedUp);
        }
        if self.unacknowledged() > 0 {
            return Err(Refusal::MustWait);
        }
        let arrived = std::mem::take(&mut self.buffer_p);
        self.p.boundary(&arrived, false, clock_sent);
        self.link.push(Message::End { epoch: self.e_p }); // P2
        self.e_p = self.e_p.next();
        self.phase_p = PhaseP::Running;
        Ok(())
    }

    /// "P halts for good, clock sent becomes 0". All else stays: what is in flight still arrives.
    pub(crate) fn fail(&mut self) -> Result<(), Refusal> {
        self.p_is_alive()?;
        self.phase_p = PhaseP::Failed;
        Ok(())
    }
}
