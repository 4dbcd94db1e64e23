//! What there is to draw of a run: a column for each event taken, and the messages between them.

use std::collections::VecDeque;

use crate::draw::cells;
use crate::event::Event;
use crate::guest::RecordEntry;
use crate::message::Message;
use crate::numbers::Epoch;
use crate::pair::{Pair, PhaseB, PhaseP};
use crate::retell::Moment;

/// A small sign in the lane of a card.
#[derive(Clone, Copy, Debug, PartialEq, Eq)]
pub enum Mark {
    Instruction,
    /// START, and its device was shown it.
    Start,
    /// START, and no device was shown it.
    HiddenStart,
    Time,
    Interrupt,
    IgnoredInterrupt,
    /// P has sent the clock of the boundary and waits.
    Wait,
    Boundary,
    Stop,
    Detect,
}

/// What one event puts into the lane of one card.
#[derive(Clone, Debug, Default, PartialEq, Eq)]
pub struct Cell {
    pub mark: Option<Mark>,
    pub lines: Vec<String>,
}

/// How a card stands in an epoch.
#[derive(Clone, Copy, Debug, PartialEq, Eq)]
pub enum Role {
    Drives,
    Follows,
    Failover,
    /// B in epoch 0.
    Outside,
}

#[derive(Clone, Copy, Debug, PartialEq, Eq)]
pub struct Stay {
    pub epoch: Epoch,
    pub role: Role,
}

#[derive(Clone, Copy, Debug, PartialEq, Eq)]
pub enum WireKind {
    Val,
    Int,
    Tme,
    End,
    Acknowledgement,
}

/// A message from P to B, or an acknowledgement back, between two columns; one that is still in
/// flight at the end has no second.
#[derive(Clone, Copy, Debug, PartialEq, Eq)]
pub struct Wire {
    pub kind: WireKind,
    pub from: usize,
    pub to: Option<usize>,
}

/// One event that was taken.
#[derive(Clone, Debug, PartialEq, Eq)]
pub struct Column {
    /// Where the cards are while it happens; P is nowhere once it has stopped.
    pub stay_p: Option<Stay>,
    pub stay_b: Stay,
    pub p: Cell,
    pub b: Cell,
    /// The message that P sends, and the one that arrives at B.
    pub sent: Option<String>,
    pub arrived: Option<String>,
    /// What a device was shown.
    pub shown: Option<RecordEntry>,
}

/// A run as far as it is drawn.
#[derive(Default)]
pub struct Scene {
    pub columns: Vec<Column>,
    pub wires: Vec<Wire>,
    /// Places in `wires` of what is in flight, the oldest first.
    messages: VecDeque<usize>,
    acknowledgements: VecDeque<usize>,
}

impl Scene {
    pub fn add(&mut self, moment: &Moment, program: &[u8]) {
        let before = moment.before;
        let sent = moment.after.link.last().filter(|_| sends(moment));
        let arrived = moment.after.inbox.last().filter(|_| moment.event == Event::Link);
        self.connect(moment.event, sent);
        self.columns.push(Column {
            stay_p: stay_p(before),
            stay_b: stay_b(before),
            p: cells::of_p(moment, program),
            b: cells::of_b(moment, program),
            sent: sent.map(|message| cells::sent(*message)),
            arrived: arrived.map(|message| cells::arrived(*message)),
            shown: moment.shown,
        });
    }

    /// "oldest message moves to B's inbox, acknowledgement sets out": both are first in, first out.
    fn connect(&mut self, event: Event, sent: Option<&Message>) {
        let here = self.columns.len();
        if let Some(message) = sent {
            self.messages.push_back(self.wires.len());
            self.wires.push(Wire { kind: kind_of(*message), from: here, to: None });
        }
        if event == Event::Link {
            let message = self.messages.pop_front();
            self.arrive(message, here);
            self.acknowledgements.push_back(self.wires.len());
            self.wires.push(Wire { kind: WireKind::Acknowledgement, from: here, to: None });
        }
        if event == Event::Ack {
            let acknowledgement = self.acknowledgements.pop_front();
            self.arrive(acknowledgement, here);
        }
    }

    fn arrive(&mut self, wire: Option<usize>, here: usize) {
        if let Some(wire) = wire {
            self.wires[wire].to = Some(here);
        }
    }
}

/// Only P's events put a message on the link, and LINK alone takes one off.
fn sends(moment: &Moment) -> bool {
    moment.after.link.len() > moment.before.link.len()
}

fn kind_of(message: Message) -> WireKind {
    match message {
        Message::Val { .. } => WireKind::Val,
        Message::Int { .. } => WireKind::Int,
        Message::Tme { .. } => WireKind::Tme,
        Message::End { .. } => WireKind::End,
    }
}

fn stay_p(pair: &Pair) -> Option<Stay> {
    match pair.phase_p {
        PhaseP::Failed => None,
        PhaseP::Running | PhaseP::Waiting { .. } => {
            Some(Stay { epoch: pair.e_p, role: Role::Drives })
        }
    }
}

fn stay_b(pair: &Pair) -> Stay {
    let role = match pair.phase_b {
        PhaseB::Following if pair.e_b == Epoch(0) => Role::Outside,
        PhaseB::Following => Role::Follows,
        PhaseB::Failover => Role::Failover,
        PhaseB::Promoted { .. } => Role::Drives,
    };
    Stay { epoch: pair.e_b, role }
}
