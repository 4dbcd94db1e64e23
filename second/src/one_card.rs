//! "One card, as far as anyone can tell" (demand 3): the steps of a lone card that the events of a
//! pair stand for, found while the run goes on and tried on a lone card one by one.

use crate::event::Event;
use crate::guest::{Guest, RecordEntry};
use crate::interrupt::{DeviceInterrupt, Outcome};
use crate::lone::{LoneCard, Step};
use crate::message::Message;
use crate::pair::{Pair, PhaseB, PhaseP};
use crate::refusal::Refusal;
use crate::retell::Moment;

/// A lone card that is kept beside a pair. Steps are only ever added at the end, so the history at
/// any moment begins with the history at each moment before it.
pub struct OneCard {
    fresh: LoneCard,
    card: LoneCard,
    steps: Vec<Step>,
    /// What the pair showed the devices.
    shown: Vec<RecordEntry>,
}

impl OneCard {
    /// Beside a fresh pair; 8 where there is none.
    pub fn beside(program: &[u8], l: u16) -> Result<OneCard, Refusal> {
        let fresh = LoneCard::fresh(program, l)?;
        Ok(OneCard { card: fresh.clone(), fresh, steps: Vec::new(), shown: Vec::new() })
    }

    pub fn steps(&self) -> &[Step] {
        &self.steps
    }

    /// After an event that was taken: its steps are allowed, they leave exactly the record, and
    /// "that card's guest is the first card's until the stop and the second's from promotion on".
    pub fn follow(&mut self, moment: &Moment) -> Result<(), String> {
        let named = |reason: String| format!("{:?}: {reason}", moment.event);
        for step in steps_of(moment, &self.card) {
            self.card.take(step).map_err(|not_allowed| {
                named(format!("no lone card takes {step:?}: {}", not_allowed.0))
            })?;
            self.steps.push(step);
        }
        self.shown.extend(moment.shown);
        self.compare(moment.after).map_err(named)
    }

    /// Both records were equal before and only grow, by one entry at a time: their lengths and last
    /// entries tell.
    fn compare(&self, pair: &Pair) -> Result<(), String> {
        let record = &self.card.record;
        if record.len() != self.shown.len() || record.last() != self.shown.last() {
            let (pairs, lone) = (entry_words(self.shown.last()), entry_words(record.last()));
            return Err(format!("the record ends in {pairs}, the lone card's in {lone}"));
        }
        match driving(pair) {
            Some((guest, _)) if *guest != self.card.guest => {
                let parts = different_parts(guest, &self.card.guest);
                Err(format!("the driving card's guest is not the lone card's: {parts}"))
            }
            Some((_, buffer)) if *buffer != self.card.buffer => {
                Err("the driving card's buffer is not the lone card's".to_string())
            }
            _ => Ok(()),
        }
    }

    /// The whole list once more, from a fresh card: it is allowed and leaves exactly the record.
    pub fn check_whole(&self) -> Result<(), String> {
        let mut card = self.fresh.clone();
        for step in &self.steps {
            card.take(*step).map_err(|not_allowed| format!("{step:?}: {}", not_allowed.0))?;
        }
        if card == self.card && card.record == self.shown {
            Ok(())
        } else {
            Err("the whole history leaves another card or another record".to_string())
        }
    }
}

/// An entry as the bench prints it.
fn entry_words(entry: Option<&RecordEntry>) -> String {
    match entry {
        Some(RecordEntry { operation, device, word }) => {
            format!("`{} {} {word}`", operation.0, device.number())
        }
        None => "nothing".to_string(),
    }
}

/// Where two guests differ, in 01's words.
fn different_parts(one: &Guest, other: &Guest) -> String {
    let counts = |guest: &Guest| (guest.instructions, guest.times);
    let parts = [
        ("pc", one.pc == other.pc),
        ("epoch counts", counts(one) == counts(other)),
        ("timer", one.timer == other.timer),
        ("last number", one.last_operation == other.last_operation),
        ("registers", one.registers == other.registers),
        ("memory", one.memory == other.memory),
        ("table", one.table == other.table),
        ("queue", one.queue == other.queue),
    ];
    let different = parts.iter().filter(|(_, equal)| !equal).map(|(name, _)| *name);
    different.collect::<Vec<&str>>().join(", ")
}

/// The guest and the buffer that are the lone card's: P's until the stop, B's from promotion on,
/// and in between only the record is compared (READINGS 74).
fn driving(pair: &Pair) -> Option<(&Guest, &Vec<DeviceInterrupt>)> {
    match (pair.phase_p, &pair.phase_b) {
        (PhaseP::Running | PhaseP::Waiting { .. }, _) => Some((&pair.p, &pair.buffer_p)),
        (PhaseP::Failed, PhaseB::Promoted { buffer }) => Some((&pair.b, buffer)),
        (PhaseP::Failed, PhaseB::Following | PhaseB::Failover) => None,
    }
}

/// READINGS 74: "P's steps so far; then B's failover instructions past P's stop [..]; then B's
/// own." What is read is looked up in the pair as it was before the event, not taken from what the
/// event made of it.
fn steps_of(moment: &Moment, card: &LoneCard) -> Vec<Step> {
    match moment.before.phase_p {
        PhaseP::Running => steps_of_p(moment, None),
        PhaseP::Waiting { clock_sent } => steps_of_p(moment, Some(clock_sent)),
        PhaseP::Failed => steps_of_b(moment, card),
    }
}

fn steps_of_p(moment: &Moment, clock_sent: Option<u32>) -> Vec<Step> {
    let Moment { before, after, .. } = moment;
    match moment.event {
        Event::PStep { word } => vec![own_instruction(word, &before.p, &after.p)],
        Event::PInt(interrupt) => vec![Step::interrupt(interrupt)],
        Event::PEnd => clock_sent.map(|word| Step::Boundary { word }).into_iter().collect(),
        _ => Vec::new(),
    }
}

/// "B's failover instructions past P's stop with reaches = no; at B's failover BEND
/// interrupt(op, 2, 0) for each operation of the table not buffered, ascending; boundary(clock
/// used); then B's own."
fn steps_of_b(moment: &Moment, card: &LoneCard) -> Vec<Step> {
    let Moment { before, after, .. } = moment;
    match (moment.event, &before.phase_b) {
        (Event::BStep { word }, PhaseB::Failover) if past_the_stop(before) => {
            vec![Step::Instruction { word: reading(before, word), reaches: false }]
        }
        (Event::BEnd { word }, PhaseB::Failover) => {
            let mut steps = uncertain(card);
            steps.push(Step::Boundary { word: boundary_clock(before, word) });
            steps
        }
        (Event::BStep { word }, PhaseB::Promoted { .. }) => {
            vec![own_instruction(reading(before, word), &before.b, &after.b)]
        }
        (Event::BInt(interrupt), PhaseB::Promoted { .. }) => vec![Step::interrupt(interrupt)],
        (Event::BEnd { word }, PhaseB::Promoted { .. }) => vec![Step::Boundary { word }],
        _ => Vec::new(),
    }
}

/// An instruction of the card that drives the devices: whatever it starts reaches its device. That
/// it started something is seen by the number taken, not by what was shown.
fn own_instruction(word: u32, before: &Guest, after: &Guest) -> Step {
    Step::Instruction { word, reaches: after.last_operation != before.last_operation }
}

/// What P did in the failover epoch is in the history already, by P's own steps.
fn past_the_stop(pair: &Pair) -> bool {
    pair.b.instructions >= pair.p.instructions
}

/// "TIME reads the first Val of B's epoch in the inbox [..], else the word (P6)."
pub fn reading(pair: &Pair, word: u32) -> u32 {
    let val = pair.inbox.iter().find_map(|message| match *message {
        Message::Val { epoch, reading } if epoch == pair.e_b => Some(reading),
        _ => None,
    });
    val.unwrap_or(word)
}

/// "the first Tme if received, else the word"
fn boundary_clock(pair: &Pair, word: u32) -> u32 {
    let tme = pair.inbox.iter().find_map(|message| match *message {
        Message::Tme { epoch, clock } if epoch == pair.e_b => Some(clock),
        _ => None,
    });
    tme.unwrap_or(word)
}

/// P8, as IO2 lets a device say it. The table is ascending.
fn uncertain(card: &LoneCard) -> Vec<Step> {
    let is_buffered = |operation| card.buffer.iter().any(|other| other.operation == operation);
    let left = card.guest.table.iter().filter(|operation| !is_buffered(**operation));
    left.map(|operation| {
        Step::interrupt(DeviceInterrupt { operation: *operation, outcome: Outcome::Uncertain })
    })
    .collect()
}
