//! Runs that go on: each event is tried on a pair of our own, and those that are taken are kept.

use crate::event::{Event, EventKind, EVENT_BYTES};
use crate::generate::events::event_of_kind;
use crate::generate::programs::{self, Style};
use crate::generate::random::Random;
use crate::message::Message;
use crate::pair::{Pair, PhaseP, INBOX_SLOTS};
use crate::step::step;

/// Candidates in a row that may be refused before a run counts as stuck.
const PATIENCE: usize = 400;

/// At which stage of P the stop comes.
#[derive(Clone, Copy, Debug, PartialEq, Eq)]
enum Stop {
    Never,
    Anywhere,
    Running,
    Complete,
    WaitingUnacknowledged,
    WaitingAcknowledged,
    EndInFlight,
    ManyInFlight,
    BFarBehind,
    SomeInterruptsRelayed,
    TimerAndOperationsOut,
    InboxFull,
}

const STOPS: [Stop; 14] = [
    Stop::Never,
    Stop::Anywhere,
    Stop::Anywhere,
    Stop::Running,
    Stop::Complete,
    Stop::WaitingUnacknowledged,
    Stop::WaitingAcknowledged,
    Stop::EndInFlight,
    Stop::ManyInFlight,
    Stop::BFarBehind,
    Stop::SomeInterruptsRelayed,
    Stop::TimerAndOperationsOut,
    Stop::TimerAndOperationsOut,
    Stop::InboxFull,
];

impl Stop {
    fn has_come(self, pair: &Pair) -> bool {
        let complete = pair.p.complete(pair.l);
        let waiting = matches!(pair.phase_p, PhaseP::Waiting { .. });
        match self {
            Stop::Never => false,
            Stop::Anywhere => true,
            Stop::Running => pair.p.instructions > 0 && !complete,
            Stop::Complete => complete && !waiting,
            Stop::WaitingUnacknowledged => waiting && pair.unacknowledged() > 0,
            Stop::WaitingAcknowledged => waiting && pair.unacknowledged() == 0,
            Stop::EndInFlight => pair.link.iter().any(|m| matches!(m, Message::End { .. })),
            Stop::ManyInFlight => pair.link.len() >= 5,
            Stop::BFarBehind => pair.e_p.0.saturating_sub(pair.e_b.0) >= 4,
            Stop::SomeInterruptsRelayed => {
                !pair.buffer_p.is_empty() && pair.p.table.len() > pair.buffer_p.len()
            }
            Stop::TimerAndOperationsOut => pair.p.timer.is_some() && !pair.p.table.is_empty(),
            Stop::InboxFull => pair.inbox.len() == INBOX_SLOTS,
        }
    }
}

/// How often the parts of the pair get their turn.
#[derive(Clone, Copy, Debug)]
struct Pace {
    p: usize,
    link: usize,
    ack: usize,
    b: usize,
    /// B gets no turn before the inbox holds so many messages.
    b_from: usize,
    /// Messages and acknowledgements move only while P waits for them, or has failed.
    held: bool,
}

const PACES: [Pace; 7] = [
    Pace { p: 8, link: 8, ack: 8, b: 8, b_from: 0, held: false },
    Pace { p: 8, link: 8, ack: 8, b: 8, b_from: 0, held: false },
    Pace { p: 10, link: 8, ack: 8, b: 1, b_from: 0, held: false },
    Pace { p: 10, link: 1, ack: 3, b: 3, b_from: 0, held: false },
    Pace { p: 10, link: 6, ack: 1, b: 6, b_from: 0, held: false },
    Pace { p: 10, link: 10, ack: 10, b: 3, b_from: INBOX_SLOTS - 1, held: false },
    Pace { p: 10, link: 10, ack: 10, b: 1, b_from: INBOX_SLOTS, held: false },
];

const HELD: Pace = Pace { p: 10, link: 2, ack: 1, b: 4, b_from: 0, held: true };

#[derive(Clone, Copy, Debug)]
enum Clock {
    Zero,
    Small,
    Rising,
    Any,
}

/// Drawn once for each run, so that runs differ in kind and not only in detail.
#[derive(Clone, Copy, Debug)]
struct Plan {
    stop: Stop,
    stop_after: usize,
    pace: Pace,
    interrupts: usize,
    detect: usize,
    clock: Clock,
}

/// A run that is being told.
pub struct Story {
    plan: Plan,
    now: u32,
    pub program: Vec<u8>,
    pub pair: Pair,
    /// The events taken so far.
    pub events: Vec<[u8; EVENT_BYTES]>,
}

impl Story {
    /// `length`: how many events the run is meant to have, so that a stop leaves room for B.
    pub fn begin(random: &mut Random, length: usize) -> Story {
        let (style, program) = programs::program(random);
        let l = match style {
            Style::Example => random.pick(&[1, 2, 2, 3, 10]),
            Style::Clocks => random.pick(&[3, 40, 41, 45, 60, 100, 4_095, 4_096]),
            Style::Brink => random.pick(&[71, 72, 73, 4_096]),
            Style::Mixed => random.pick(&[1, 2, 3, 4, 5, 7, 10, 16, 30, 41, 60, 4_096]),
        };
        let pace = match style {
            Style::Brink if random.chance(70) => HELD,
            Style::Clocks if random.chance(60) => random.pick(&PACES[4..]),
            _ => random.pick(&PACES),
        };
        let plan = Plan {
            stop: random.pick(&STOPS),
            stop_after: random.below(1 + length * 2 / 3),
            pace,
            interrupts: if style == Style::Brink { 12 } else { random.pick(&[0, 1, 3, 8]) },
            detect: random.pick(&[1, 4, 20]),
            clock: random.pick(&[
                Clock::Zero,
                Clock::Small,
                Clock::Rising,
                Clock::Rising,
                Clock::Any,
            ]),
        };
        let pair = Pair::fresh(&program, l).expect("the program and L are good");
        Story { plan, now: 0, program, pair, events: Vec::new() }
    }

    /// B moves only once its inbox is full, or nearly so.
    pub fn fills_the_inbox(&self) -> bool {
        self.plan.pace.b_from > 0
    }

    /// An event that fits the plan; the pair may still refuse it.
    pub fn candidate(&mut self, random: &mut Random) -> Event {
        let weights = self.weights();
        let kind = random.pick_weighted(&weights);
        let mut word = self.word(random);
        if of_b(kind) && random.chance(20) {
            word = random.word(); // B's word must not matter where P's clock came through.
        }
        event_of_kind(random, kind, &self.pair, word)
    }

    /// One more event that is taken; false if none was found.
    pub fn go_on(&mut self, random: &mut Random) -> bool {
        for _ in 0..PATIENCE {
            let event = self.candidate(random).bytes();
            if step(&mut self.pair, &self.program, &event).is_ok() {
                self.events.push(event);
                return true;
            }
        }
        false
    }

    /// How often each kind of event is tried.
    fn weights(&self) -> Vec<(EventKind, usize)> {
        let Pace { p, mut link, mut ack, b, b_from, held } = self.plan.pace;
        let failed = self.pair.phase_p == PhaseP::Failed;
        if held && self.pair.phase_p == PhaseP::Running {
            (link, ack) = (0, 0);
        }
        let b = match self.pair.inbox.len() < b_from {
            _ if failed => 8,
            true => 0,
            false => b,
        };
        let p = if failed { 0 } else { p };
        let stops =
            self.events.len() >= self.plan.stop_after && self.plan.stop.has_come(&self.pair);
        let fail = if stops && !failed { 1_000 } else { 0 };
        let detect = if failed { self.plan.detect } else { 0 };
        let pint = if failed { 0 } else { self.plan.interrupts };
        let now_and_then = usize::from(self.events.len() % 16 == 0);
        let bint = if self.pair.detected { self.plan.interrupts } else { now_and_then };
        vec![
            (EventKind::PStep, 2 * p),
            (EventKind::PInt, pint),
            (EventKind::PTime, p),
            (EventKind::PEnd, p),
            (EventKind::Link, link),
            (EventKind::Ack, ack),
            (EventKind::Fail, fail),
            (EventKind::Detect, detect),
            (EventKind::BStep, 2 * b),
            (EventKind::BEnd, b),
            (EventKind::BInt, bint),
        ]
    }

    fn word(&mut self, random: &mut Random) -> u32 {
        match self.plan.clock {
            Clock::Zero => 0,
            Clock::Small => random.below(16) as u32,
            Clock::Rising => {
                self.now += random.below(4) as u32;
                self.now
            }
            Clock::Any => random.word(),
        }
    }
}

/// The kinds whose word or data only B sees.
fn of_b(kind: EventKind) -> bool {
    matches!(kind, EventKind::BStep | EventKind::BEnd | EventKind::BInt)
}
