//! The signs and words that an event puts into a card's lane.

use crate::draw::scene::{Cell, Mark};
use crate::event::Event;
use crate::guest::{Guest, RecordEntry};
use crate::instruction::Instruction;
use crate::interrupt::{DeviceInterrupt, Interrupt, Outcome};
use crate::message::Message;
use crate::one_card::reading;
use crate::pair::PhaseB;
use crate::retell::Moment;

/// So many lines say what a guest is told at a boundary; what is more is counted.
const MOST_TOLD: usize = 4;

fn cell(mark: Mark, lines: Vec<String>) -> Cell {
    Cell { mark: Some(mark), lines }
}

fn words(lines: &[&str]) -> Vec<String> {
    lines.iter().map(|line| line.to_string()).collect()
}

pub fn of_p(moment: &Moment, program: &[u8]) -> Cell {
    let (before, after) = (&moment.before.p, &moment.after.p);
    match moment.event {
        Event::PStep { .. } => match instruction(moment, before, program) {
            // The reading stands at the message.
            Some(Instruction::Time { .. }) => cell(Mark::Time, words(&["TIME"])),
            Some(Instruction::Start { .. }) => start(before, after, moment.shown),
            _ => cell(Mark::Instruction, Vec::new()),
        },
        Event::PInt(interrupt) => cell(Mark::Interrupt, said(interrupt)),
        Event::PTime { .. } => cell(Mark::Wait, words(&["waits"])),
        Event::PEnd => cell(Mark::Boundary, told(before, after)),
        Event::Fail => cell(Mark::Stop, words(&["STOP"])),
        _ => Cell::default(),
    }
}

pub fn of_b(moment: &Moment, program: &[u8]) -> Cell {
    let (before, after) = (&moment.before.b, &moment.after.b);
    let promoted = matches!(moment.before.phase_b, PhaseB::Promoted { .. });
    match moment.event {
        Event::BStep { word } => match instruction(moment, before, program) {
            Some(Instruction::Time { .. }) => {
                cell(Mark::Time, vec!["TIME".to_string(), reading(moment.before, word).to_string()])
            }
            Some(Instruction::Start { .. }) => start(before, after, moment.shown),
            _ => cell(Mark::Instruction, Vec::new()),
        },
        Event::BEnd { .. } => {
            let mut lines = told(before, after);
            lines.extend(entered(moment));
            cell(Mark::Boundary, lines)
        }
        Event::BInt(interrupt) if promoted => cell(Mark::Interrupt, said(interrupt)),
        Event::BInt(interrupt) => {
            let operation = format!("op {}", interrupt.operation.0);
            cell(Mark::IgnoredInterrupt, vec![operation, "ignored".to_string()])
        }
        Event::Detect => cell(Mark::Detect, words(&["stop", "detected"])),
        _ => Cell::default(),
    }
}

fn instruction(moment: &Moment, guest: &Guest, program: &[u8]) -> Option<Instruction> {
    Instruction::at(program, guest.pc, moment.before.n)
}

fn start(before: &Guest, after: &Guest, shown: Option<RecordEntry>) -> Cell {
    if after.last_operation == before.last_operation {
        return cell(Mark::HiddenStart, words(&["START", "gives 0"]));
    }
    if shown.is_some() {
        return cell(Mark::Start, words(&["START"])); // The rest stands in the devices' lane.
    }
    let operation = format!("op {}", after.last_operation.0);
    cell(Mark::HiddenStart, vec!["START".to_string(), operation])
}

/// What a device says of an operation.
fn said(interrupt: DeviceInterrupt) -> Vec<String> {
    let outcome = match interrupt.outcome {
        Outcome::Completed(data) => format!("done {data}"),
        Outcome::Uncertain => "uncertain".to_string(),
    };
    vec![format!("op {}", interrupt.operation.0), outcome]
}

/// What the guest is told at a boundary: a boundary only adds to its queue.
fn told(before: &Guest, after: &Guest) -> Vec<String> {
    let told = after.queue.get(before.queue.len()..).unwrap_or(&[]);
    let mut lines: Vec<String> = told.iter().take(MOST_TOLD).map(told_line).collect();
    if told.len() > MOST_TOLD {
        lines.push(format!("{} more", told.len() - MOST_TOLD));
    }
    lines
}

fn told_line(interrupt: &Interrupt) -> String {
    match interrupt {
        Interrupt::Timer { clock } => format!("timer {clock}"),
        Interrupt::Device(DeviceInterrupt { operation, outcome: Outcome::Completed(_) }) => {
            format!("{} done", operation.0)
        }
        Interrupt::Device(DeviceInterrupt { operation, outcome: Outcome::Uncertain }) => {
            format!("{} uncertain", operation.0)
        }
    }
}

/// The turns of the switch, at the BEND that takes them.
fn entered(moment: &Moment) -> Option<String> {
    match (&moment.before.phase_b, &moment.after.phase_b) {
        (PhaseB::Following, PhaseB::Failover) => Some("FAILOVER".to_string()),
        (PhaseB::Failover, PhaseB::Promoted { .. }) => Some("PROMOTED".to_string()),
        _ => None,
    }
}

pub fn sent(message: Message) -> String {
    match message {
        Message::Val { reading, .. } => format!("Val {reading}"),
        Message::Int { interrupt, .. } => format!("Int {}", interrupt.operation.0),
        Message::Tme { clock, .. } => format!("Tme {clock}"),
        Message::End { epoch } => format!("end {}", epoch.0),
    }
}

/// What was said at length where the message set out is said briefly here.
pub fn arrived(message: Message) -> String {
    match message {
        Message::Val { .. } => "Val".to_string(),
        Message::Tme { .. } => "Tme".to_string(),
        Message::Int { .. } | Message::End { .. } => sent(message),
    }
}
