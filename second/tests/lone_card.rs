//! "The lone card": each rule with a step that keeps it and a step that breaks it, and the history
//! that demand 3 asks for, word by word, of the runs that 01 and the examples tell.

use std::fs;
use std::path::Path;

use second::check::{check_file, Tried};
use second::event::Event;
use second::generate::programs::EXAMPLE;
use second::guest::RecordEntry;
use second::instruction::Device;
use second::interrupt::{DeviceInterrupt, Interrupt, Outcome};
use second::lone::{LoneCard, NotAllowed, Step};
use second::numbers::Operation;
use second::one_card::OneCard;
use second::pair::Pair;
use second::refusal::Refusal;
use second::retell::{retell, Moment};
use second::runfile::{read, write_whole};
use second::step::step;

const REACHES: Step = Step::Instruction { word: 0, reaches: true };
const REACHES_NOT: Step = Step::Instruction { word: 0, reaches: false };
const BOUNDARY: Step = Step::Boundary { word: 0 };

fn interrupt(operation: u16, status: u8, data: u32) -> Step {
    Step::Interrupt { operation: Operation(operation), status, data }
}

/// A fresh card under the example program, L 2, after some steps.
fn after(steps: &[Step]) -> LoneCard {
    let mut card = LoneCard::fresh(&EXAMPLE, 2).unwrap();
    for step in steps {
        card.take(*step).unwrap();
    }
    card
}

/// The steps are allowed, and the last one then is not; the card stays as it was.
fn refused(steps: &[Step], last: Step, reason: &str) {
    let mut card = after(steps);
    let before = card.clone();
    let NotAllowed(words) = card.take(last).unwrap_err();
    assert!(words.contains(reason), "{last:?}: {words}");
    assert_eq!(card, before);
}

#[test]
fn a_fresh_card_is_made_with_what_a_fresh_pair_is_made_with() {
    assert_eq!(LoneCard::fresh(&EXAMPLE, 0), Err(Refusal::BadProgram));
    assert_eq!(LoneCard::fresh(&EXAMPLE, 4_097), Err(Refusal::BadProgram));
    assert_eq!(LoneCard::fresh(&EXAMPLE[..19], 2), Err(Refusal::BadProgram));
    let card = LoneCard::fresh(&EXAMPLE, 2).unwrap();
    assert_eq!(card.guest, Pair::fresh(&EXAMPLE, 2).unwrap().p);
    assert!(card.buffer.is_empty() && card.record.is_empty());
}

#[test]
fn an_instruction_runs_only_while_the_epoch_is_not_complete() {
    refused(&[REACHES_NOT, REACHES], REACHES_NOT, "the epoch is complete");
    after(&[REACHES_NOT, REACHES, BOUNDARY, REACHES_NOT]);
}

#[test]
fn a_boundary_comes_when_the_epoch_is_complete() {
    refused(&[], BOUNDARY, "not complete");
    refused(&[REACHES_NOT], BOUNDARY, "not complete");
    let card = after(&[REACHES_NOT, REACHES, BOUNDARY]);
    assert_eq!(card.guest.instructions, 0);
}

/// READINGS 71.
#[test]
fn nothing_is_reached_where_nothing_is_started() {
    refused(&[], REACHES, "nothing is started");
    // START r1 0 r1: the 17th finds 16 operations outstanding and starts nothing.
    let mut card = LoneCard::fresh(&[17, 1, 0, 1], 20).unwrap();
    for _ in 0..16 {
        card.take(REACHES).unwrap();
    }
    assert!(card.take(REACHES).is_err());
    card.take(REACHES_NOT).unwrap();
    assert_eq!(card.record.len(), 16);
}

#[test]
fn the_record_holds_the_starts_that_reached_a_device() {
    let card = after(&[REACHES_NOT, REACHES]);
    let entries: Vec<_> =
        card.record.iter().map(|e| (e.operation.0, e.device.number(), e.word)).collect();
    assert_eq!(entries, [(1, 2, 7)]);
    let card = after(&[REACHES_NOT, REACHES_NOT]);
    assert!(card.record.is_empty());
    assert_eq!(card.guest.table, [Operation(1)]);
}

#[test]
fn an_interrupt_is_for_an_operation_in_the_table_and_not_yet_buffered() {
    refused(&[REACHES_NOT], interrupt(1, 2, 0), "not in the table");
    refused(&[REACHES_NOT, REACHES], interrupt(2, 1, 0), "not in the table");
    refused(&[REACHES_NOT, REACHES, interrupt(1, 1, 9)], interrupt(1, 1, 9), "buffered");
    refused(&[REACHES_NOT, REACHES, interrupt(1, 1, 9)], interrupt(1, 2, 0), "buffered");
    refused(&[REACHES_NOT, REACHES, interrupt(1, 1, 9), BOUNDARY], interrupt(1, 2, 0), "table");
}

#[test]
fn completion_only_for_what_reached_its_device() {
    refused(&[REACHES_NOT, REACHES_NOT], interrupt(1, 1, 9), "reached no device");
    after(&[REACHES_NOT, REACHES_NOT, interrupt(1, 2, 0)]);
    after(&[REACHES_NOT, REACHES, interrupt(1, 1, 9)]);
}

/// READINGS 73: a device may be uncertain about what reached it (IO2).
#[test]
fn uncertain_also_for_what_reached_its_device() {
    let card = after(&[REACHES_NOT, REACHES, interrupt(1, 2, 0), BOUNDARY]);
    let uncertain = DeviceInterrupt { operation: Operation(1), outcome: Outcome::Uncertain };
    assert_eq!(card.guest.queue, [Interrupt::Device(uncertain)]);
}

#[test]
fn statuses_are_1_and_2_and_uncertain_has_no_data() {
    let started = [REACHES_NOT, REACHES];
    for (status, data) in [(0, 0), (3, 0), (255, 0), (2, 1)] {
        refused(&started, interrupt(1, status, data), "another status");
    }
}

/// READINGS 72, and the boundary's order: the buffer in order of arrival.
#[test]
fn interrupts_come_at_any_time_and_are_told_in_their_order() {
    // START r1 3 r1 twice an epoch
    let mut card = LoneCard::fresh(&[17, 1, 3, 1], 2).unwrap();
    let steps = [REACHES, interrupt(1, 1, 5), REACHES, interrupt(2, 2, 0), BOUNDARY];
    for step in steps {
        card.take(step).unwrap();
    }
    let told: Vec<_> = card.guest.queue.iter().map(|i| (i.operation().0, i.status())).collect();
    assert_eq!(told, [(1, 1), (2, 2)]);
    assert!(card.buffer.is_empty() && card.guest.table.is_empty());
}

/// The steps that a run stands for, each event checked on the way.
fn history(l: u16, program: &[u8], events: &[Event]) -> Vec<Step> {
    let events: Vec<u8> = events.iter().flat_map(|event| event.bytes()).collect();
    let file = write_whole(l, program, &events).unwrap();
    let mut one_card = OneCard::beside(program, l).unwrap();
    let ending = retell::<String>(&read(&file).unwrap(), |moment| one_card.follow(moment)).unwrap();
    assert_eq!(ending.refused, None);
    one_card.check_whole().unwrap();
    one_card.steps().to_vec()
}

const PSTEP: Event = Event::PStep { word: 0 };
const BSTEP: Event = Event::BStep { word: 0 };

fn bend(word: u32) -> Event {
    Event::BEnd { word }
}

/// Case B: the START of the failover epoch reaches no device, and is told uncertain.
#[test]
fn what_the_stop_kept_from_its_device_is_told_uncertain() {
    let events =
        [PSTEP, Event::Fail, Event::Detect, bend(3), BSTEP, BSTEP, bend(4), BSTEP, BSTEP, bend(5)];
    let expected = [
        REACHES_NOT,
        REACHES_NOT,
        interrupt(1, 2, 0),
        Step::Boundary { word: 4 },
        REACHES_NOT,
        REACHES_NOT,
        Step::Boundary { word: 5 },
    ];
    assert_eq!(history(2, &EXAMPLE, &events), expected);
}

/// Case C: a completion that was relayed stays a completion. P had sent its clock, so that is the
/// clock of the failover boundary; B's own interrupts follow.
#[test]
fn what_was_relayed_and_the_clock_sent_are_the_lone_cards() {
    let done = |operation| DeviceInterrupt {
        operation: Operation(operation),
        outcome: Outcome::Completed(9),
    };
    let events = [
        PSTEP,
        PSTEP,
        Event::PInt(done(1)),
        Event::PTime { word: 30 },
        Event::Fail,
        Event::Link,
        Event::Link,
        Event::Detect,
        bend(1),
        BSTEP,
        BSTEP,
        Event::BInt(done(1)),
        bend(99),
    ];
    let expected = [REACHES_NOT, REACHES, interrupt(1, 1, 9), Step::Boundary { word: 30 }];
    assert_eq!(history(2, &EXAMPLE, &events), expected);
}

/// What is said of the last event, told with one thing changed in what it showed or left.
fn told_wrongly(
    events: &[Event],
    change: impl Fn(&mut Pair, &mut Option<RecordEntry>),
) -> Result<(), String> {
    let mut pair = Pair::fresh(&EXAMPLE, 2).unwrap();
    let mut one_card = OneCard::beside(&EXAMPLE, 2).unwrap();
    for (place, event) in (1..).zip(events) {
        let before = pair.clone();
        let mut shown = step(&mut pair, &EXAMPLE, &event.bytes()).unwrap();
        if place == events.len() {
            change(&mut pair, &mut shown);
        }
        one_card.follow(&Moment { event: *event, before: &before, after: &pair, shown })?;
    }
    Ok(())
}

#[test]
fn what_no_lone_card_leaves_is_seen() {
    let switch = [PSTEP, PSTEP, Event::Fail, Event::Detect, bend(0), BSTEP, BSTEP, bend(0)];
    let operation = Operation(1);
    let entry = RecordEntry { operation, device: Device::new(2).unwrap(), word: 7 };
    let unchanged = told_wrongly(&switch, |_, _| ());
    assert_eq!(unchanged, Ok(()));
    let hidden = told_wrongly(&switch[..2], |_, shown| *shown = None);
    let shown_in_failover = told_wrongly(&switch[..7], |_, shown| *shown = Some(entry));
    for reason in [hidden, shown_in_failover] {
        assert!(
            reason.as_ref().is_err_and(|words| words.contains("the record ends")),
            "{reason:?}"
        );
    }
    let without_p8 = told_wrongly(&switch, |pair, _| {
        pair.b.queue.clear();
        pair.b.table.push(operation);
    });
    assert!(without_p8.as_ref().is_err_and(|words| words.contains("guest")), "{without_p8:?}");
    let done = DeviceInterrupt { operation, outcome: Outcome::Completed(9) };
    let forgotten =
        told_wrongly(&[PSTEP, PSTEP, Event::PInt(done)], |pair, _| pair.buffer_p.clear());
    assert!(forgotten.as_ref().is_err_and(|words| words.contains("buffer")), "{forgotten:?}");
}

/// Every example's record, at every moment, is one that a single card could have left.
#[test]
fn one_card_could_have_left_the_examples() {
    let directory = Path::new(env!("CARGO_MANIFEST_DIR")).join("../examples");
    let mut tried = Tried::default();
    for entry in fs::read_dir(directory).unwrap() {
        let path = entry.unwrap().path();
        if path.extension().is_some_and(|ending| ending == "run") {
            check_file(&fs::read(&path).unwrap(), &mut tried).unwrap();
        }
    }
    assert!(tried.runs >= 20 && tried.promoted >= 5, "{tried:?}");
}
