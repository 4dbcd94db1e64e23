//! Sound pairs that no run need reach: every field is drawn, and drawn often at its ends.

use std::collections::BTreeSet;

use crate::generate::events::outcome;
use crate::generate::random::Random;
use crate::guest::{Guest, MOST_TIMES, TABLE_SLOTS};
use crate::interrupt::{DeviceInterrupt, Interrupt};
use crate::message::Message;
use crate::numbers::{Epoch, Operation};
use crate::pair::{Pair, PhaseB, PhaseP, INBOX_SLOTS};

/// A sound pair.
pub fn sound_pair(random: &mut Random) -> Pair {
    let l = random.pick(&[1, 2, 2, 3, 5, 16, 39, 40, 41, 50, 200, 4_095, 4_096]);
    let n = random.pick(&[1, 2, 3, 5, 5, 8, 8, 12, 64, 1_023, 1_024]);
    let (phase_p, detected) = first_phase(random);
    let mut p = guest(random, l, n);
    if matches!(phase_p, PhaseP::Waiting { .. }) && !p.complete(l) {
        p.instructions = l;
    }
    let b = guest(random, l, n);
    let buffer_p = buffer(random, &p.table);
    let phase_b = second_phase(random, detected, &b.table);
    let about = Epoch(random.pick(&[1, 2, 65_533, 65_535]));
    let e_p = epoch(random, about);
    let e_b = epoch(random, e_p);
    let mut pair = Pair {
        l,
        n,
        phase_p,
        phase_b,
        detected,
        e_p,
        e_b,
        p,
        b,
        buffer_p,
        link: Vec::new(),
        acknowledgements: 0,
        inbox: Vec::new(),
    };
    fill_link(random, &mut pair);
    fill_inbox(random, &mut pair);
    if pair.phase_b == PhaseB::Following && random.chance(20) {
        pair.e_b = Epoch(0);
        pair.b.instructions = 0;
        pair.b.times = 0;
    }
    pair
}

/// A size from 0 to `most`, often one of the two.
fn size(random: &mut Random, most: usize) -> usize {
    match random.below(4) {
        0 => 0,
        1 => most,
        _ => random.between(0, most),
    }
}

fn first_phase(random: &mut Random) -> (PhaseP, bool) {
    match random.below(6) {
        0 => (PhaseP::Running, false),
        1 => (PhaseP::Waiting { clock_sent: random.word() }, false),
        2 => (PhaseP::Failed, false),
        _ => (PhaseP::Failed, true),
    }
}

fn second_phase(random: &mut Random, detected: bool, table: &[Operation]) -> PhaseB {
    match random.below(3) {
        1 if detected => PhaseB::Failover,
        2 if detected => PhaseB::Promoted { buffer: buffer(random, table) },
        _ => PhaseB::Following,
    }
}

/// An epoch from 1 on: beside another, at an end, or any.
fn epoch(random: &mut Random, near: Epoch) -> Epoch {
    let number = match random.below(8) {
        0 => random.pick(&[1, 65_534, 65_535]),
        1 => random.u16(),
        2 => near.0.saturating_sub(1),
        3 | 4 => near.0.saturating_add(1),
        _ => near.0,
    };
    Epoch(number.max(1))
}

fn guest(random: &mut Random, l: u16, n: u16) -> Guest {
    let instructions = match random.below(3) {
        0 => l,
        1 => l - 1,
        _ => random.between(0, usize::from(l)) as u16,
    };
    let most_times = usize::from(instructions).min(usize::from(MOST_TIMES));
    let last_operation =
        Operation(random.pick(&[0, 1, 3, 16, 17, 20, 300, 65_533, 65_534, 65_535]));
    let table = table(random, last_operation);
    let queue = queue(random, &table);
    let anywhere = random.below(usize::from(n)) as u16;
    Guest {
        pc: random.pick(&[0, n - 1, anywhere]),
        instructions,
        times: size(random, most_times) as u8,
        timer: random.chance(60).then(|| random.word()),
        last_operation,
        registers: std::array::from_fn(|_| random.word()),
        memory: std::array::from_fn(|_| random.word()),
        table,
        queue,
    }
}

/// Numbers not far below the last, ascending.
fn table(random: &mut Random, last: Operation) -> Vec<Operation> {
    let span = usize::from(last.0).min(random.pick(&[TABLE_SLOTS, 40, 60_000]));
    let entries = size(random, span.min(TABLE_SLOTS));
    let mut numbers = BTreeSet::new();
    while numbers.len() < entries {
        numbers.insert(last.0 - random.below(span) as u16);
    }
    numbers.into_iter().map(Operation).collect()
}

/// Device entries beside the table, also for operations that are in it; and perhaps a timer entry.
fn queue(random: &mut Random, table: &[Operation]) -> Vec<Interrupt> {
    let entries = size(random, TABLE_SLOTS - table.len());
    let mut queue: Vec<Interrupt> =
        (0..entries).map(|_| Interrupt::Device(any_interrupt(random, table))).collect();
    if random.chance(40) {
        let place = random.between(0, queue.len());
        queue.insert(place, Interrupt::Timer { clock: random.word() });
    }
    queue
}

/// An interrupt of an operation of the table, or of any.
fn any_interrupt(random: &mut Random, table: &[Operation]) -> DeviceInterrupt {
    let any = random.u16().max(1);
    let operation = if !table.is_empty() && random.chance(70) {
        random.pick(table)
    } else {
        Operation(random.pick(&[1, 2, 17, 65_535, any]))
    };
    DeviceInterrupt { operation, outcome: outcome(random) }
}

fn buffer(random: &mut Random, table: &[Operation]) -> Vec<DeviceInterrupt> {
    let mut operations = table.to_vec();
    random.shuffle(&mut operations);
    operations.truncate(size(random, table.len()));
    let entry = |operation| DeviceInterrupt { operation, outcome: outcome(random) };
    operations.into_iter().map(entry).collect()
}

/// Any message; the epochs are near those of the cards, and the same Int may come twice.
fn message(random: &mut Random, epoch_near: Epoch, table: &[Operation]) -> Message {
    let epoch = epoch(random, epoch_near);
    match random.below(8) {
        0..=2 => Message::Val { epoch, reading: random.word() },
        3..=5 => Message::Int { epoch, interrupt: any_interrupt(random, table) },
        6 => Message::Tme { epoch, clock: random.word() },
        _ => Message::End { epoch },
    }
}

/// Messages on the link and acknowledgements, up to what "Sound" allows.
fn fill_link(random: &mut Random, pair: &mut Pair) {
    let of_the_boundary = usize::from(pair.phase_p != PhaseP::Running);
    let bound = 1 + usize::from(pair.p.times) + pair.buffer_p.len() + of_the_boundary;
    let waits_for_nothing = matches!(pair.phase_p, PhaseP::Waiting { .. }) && random.chance(40);
    let unacknowledged = if waits_for_nothing { 0 } else { size(random, bound) };
    let on_the_link = size(random, unacknowledged);
    pair.acknowledgements = (unacknowledged - on_the_link) as u16;
    pair.link = (0..on_the_link).map(|_| message(random, pair.e_p, &pair.p.table)).collect();
}

fn fill_inbox(random: &mut Random, pair: &mut Pair) {
    let most = random.pick(&[4, 20, INBOX_SLOTS, INBOX_SLOTS]);
    let count = size(random, most);
    pair.inbox = (0..count).map(|_| message(random, pair.e_b, &pair.b.table)).collect();
    let lets_b_in = Message::End { epoch: Epoch(pair.e_b.0.saturating_add(1)) };
    if count > 0 && random.chance(40) {
        pair.inbox[random.below(count)] = lets_b_in;
    }
}
