//! What P sends to B.

use crate::interrupt::DeviceInterrupt;
use crate::numbers::Epoch;

#[derive(Clone, Copy, Debug, PartialEq, Eq)]
pub enum Message {
    /// P0: the clock reading of a TIME.
    Val { epoch: Epoch, reading: u32 },
    /// P1: a device interrupt that P buffered.
    Int { epoch: Epoch, interrupt: DeviceInterrupt },
    /// P2: the clock of the boundary.
    Tme { epoch: Epoch, clock: u32 },
    /// P2: P has finished this epoch.
    End { epoch: Epoch },
}

impl Message {
    pub fn epoch(self) -> Epoch {
        match self {
            Message::Val { epoch, .. }
            | Message::Int { epoch, .. }
            | Message::Tme { epoch, .. }
            | Message::End { epoch } => epoch,
        }
    }
}
