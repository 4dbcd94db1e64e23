//! The events between the cards: LINK and ACK.

use crate::pair::{Pair, INBOX_SLOTS};
use crate::refusal::Refusal;

impl Pair {
    /// LINK: "oldest message moves to B's inbox (128), acknowledgement sets out (P4)". A stop of P
    /// does not hold it up.
    pub(crate) fn carry(&mut self) -> Result<(), Refusal> {
        if self.link.is_empty() {
            return Err(Refusal::MustWait);
        }
        if self.inbox.len() >= INBOX_SLOTS {
            return Err(Refusal::InboxFull);
        }
        self.inbox.push(self.link.remove(0));
        self.acknowledgements += 1;
        Ok(())
    }

    /// ACK: "P receives one acknowledgement"
    pub(crate) fn ack(&mut self) -> Result<(), Refusal> {
        self.p_is_alive()?;
        if self.acknowledgements == 0 {
            return Err(Refusal::MustWait);
        }
        self.acknowledgements -= 1;
        Ok(())
    }
}
