//! Points that 01 leaves open, as READINGS reads them, and the mistakes that 01 wants shut out.
//! The number at a test is that of the reading.

use second::event::Event;
use second::generate::programs::EXAMPLE;
use second::guest::Guest;
use second::interrupt::{DeviceInterrupt, Interrupt, Outcome};
use second::message::Message;
use second::numbers::{Epoch, Operation};
use second::pair::{Pair, PhaseB, PhaseP};
use second::refusal::{answer, Refusal};
use second::step::step;

const PEND: Event = Event::PEnd;

/// The answer to an event under the example program.
fn apply(pair: &mut Pair, event: Event) -> u8 {
    answer(&step(pair, &EXAMPLE, &event.bytes()))
}

fn all_taken(pair: &mut Pair, events: &[Event]) {
    for event in events {
        assert_eq!(apply(pair, *event), 0, "{event:?}");
    }
}

fn fresh() -> Pair {
    Pair::fresh(&EXAMPLE, 2).unwrap()
}

fn completion(operation: u16, data: u32) -> DeviceInterrupt {
    DeviceInterrupt { operation: Operation(operation), outcome: Outcome::Completed(data) }
}

fn uncertain(operation: u16) -> DeviceInterrupt {
    DeviceInterrupt { operation: Operation(operation), outcome: Outcome::Uncertain }
}

fn pstep() -> Event {
    Event::PStep { word: 0 }
}

fn bstep() -> Event {
    Event::BStep { word: 0 }
}

fn bend(word: u32) -> Event {
    Event::BEnd { word }
}

fn ptime(word: u32) -> Event {
    Event::PTime { word }
}

/// B in epoch 3 with its epoch complete, and operations 4 and 6 outstanding.
fn b_at_a_boundary(phase_b: PhaseB) -> Pair {
    let mut pair = fresh();
    pair.phase_p = PhaseP::Failed;
    pair.detected = true;
    pair.phase_b = phase_b;
    pair.e_p = Epoch(3);
    pair.e_b = Epoch(3);
    pair.b.instructions = 2;
    pair.b.last_operation = Operation(6);
    pair.b.table = vec![Operation(4), Operation(6)];
    pair
}

/// A guest that waits, with a timer and two operations.
fn waiting_guest(deadline: u32) -> Guest {
    let mut guest = Guest::fresh();
    guest.last_operation = Operation(2);
    guest.table = vec![Operation(1), Operation(2)];
    guest.timer = Some(deadline);
    guest
}

fn int(epoch: u16, interrupt: DeviceInterrupt) -> Message {
    Message::Int { epoch: Epoch(epoch), interrupt }
}

/// 1, 2, 3: 1 comes before 11, 11 before the length of the program, that before the column.
#[test]
fn order_of_refusals() {
    let malformed = [6, 1, 0, 0, 0, 0, 0, 0];
    let mut pair = fresh();
    pair.e_p = Epoch(0);
    assert_eq!(step(&mut pair, &EXAMPLE, &malformed), Err(Refusal::Malformed));
    assert_eq!(step(&mut pair, &EXAMPLE, &malformed[..7]), Err(Refusal::Malformed));
    assert_eq!(step(&mut pair, &[], &Event::Ack.bytes()), Err(Refusal::Unsound));
    pair.e_p = Epoch(1);
    assert_eq!(step(&mut pair, &[], &Event::Ack.bytes()), Err(Refusal::BadProgram));
    assert_eq!(step(&mut pair, &EXAMPLE[4..], &Event::Ack.bytes()), Err(Refusal::BadProgram));
    assert_eq!(step(&mut pair, &EXAMPLE, &Event::Ack.bytes()), Err(Refusal::MustWait));
}

/// 4, 5: only the instruction at the pc is looked at, and only after the column.
#[test]
fn bad_instruction_last() {
    let bad_at_0 = [&[9, 0, 0, 0][..], &EXAMPLE[4..]].concat();
    let bad_at_1 = [&EXAMPLE[..4], &[9, 0, 0, 0], &EXAMPLE[8..]].concat();
    let event = pstep().bytes();
    let mut pair = fresh();
    assert_eq!(step(&mut pair, &bad_at_0, &event), Err(Refusal::BadProgram));
    assert_eq!(step(&mut pair, &bad_at_0, &bstep().bytes()), Err(Refusal::OutOfTurn));
    assert_eq!(step(&mut pair, &bad_at_1, &event), Ok(None));
    assert_eq!(step(&mut pair, &bad_at_1, &event), Err(Refusal::BadProgram));
    pair.p.instructions = 2;
    assert_eq!(step(&mut pair, &bad_at_1, &event), Err(Refusal::OutOfTurn));
    pair.phase_p = PhaseP::Failed;
    assert_eq!(step(&mut pair, &bad_at_1, &event), Err(Refusal::Dead));
}

/// 11, 12: DETECT looks at the link only; a failed P takes no acknowledgement.
#[test]
fn acknowledgements_after_the_stop() {
    let mut pair = fresh();
    all_taken(&mut pair, &[pstep(), pstep(), ptime(0), Event::Fail]);
    assert_eq!(apply(&mut pair, Event::Detect), 4);
    all_taken(&mut pair, &[Event::Link]);
    assert_eq!(apply(&mut pair, Event::Ack), 2);
    all_taken(&mut pair, &[Event::Detect]);
    assert_eq!(pair.acknowledgements, 1);
    assert_eq!(apply(&mut pair, Event::Detect), 3);
}

/// 13, 17, 18: PINT while P waits is of this epoch; PEND waits for its acknowledgement.
#[test]
fn pint_while_waiting() {
    let mut pair = fresh();
    all_taken(&mut pair, &[pstep(), pstep(), ptime(5), Event::Link, Event::Ack]);
    all_taken(&mut pair, &[Event::PInt(completion(1, 9))]);
    assert_eq!(pair.link, [int(1, completion(1, 9))]);
    assert_eq!(apply(&mut pair, PEND), 4);
    all_taken(&mut pair, &[Event::Link, Event::Ack, PEND]);
    assert_eq!(pair.p.queue, [Interrupt::Device(completion(1, 9))]);
    assert_eq!(pair.phase_p, PhaseP::Running);
    assert_eq!(pair.link, [Message::End { epoch: Epoch(1) }]);
    assert_eq!(pair.e_p, Epoch(2));
}

/// 16, 34: the epochs are used up before a message is waited for.
#[test]
fn used_up_epochs() {
    let mut pair = fresh();
    all_taken(&mut pair, &[pstep(), pstep(), ptime(0)]);
    pair.e_p = Epoch::LAST;
    assert_eq!(apply(&mut pair, PEND), 7);
    pair.e_b = Epoch::LAST;
    assert_eq!(apply(&mut pair, bend(0)), 3);
    pair.b.instructions = 2;
    assert_eq!(apply(&mut pair, bend(0)), 7);
}

/// 20, 21, 22: [end, e_b+1] lets B in, also when the stop is detected, and stays in the inbox.
#[test]
fn the_end_that_let_b_in_stays() {
    let mut pair = b_at_a_boundary(PhaseB::Following);
    let end = |epoch| Message::End { epoch: Epoch(epoch) };
    pair.inbox = vec![end(3), end(4), Message::Tme { epoch: Epoch(4), clock: 1 }];
    all_taken(&mut pair, &[bend(0)]);
    assert_eq!(pair.phase_b, PhaseB::Following);
    assert_eq!(pair.inbox, [end(4), Message::Tme { epoch: Epoch(4), clock: 1 }]);
    assert_eq!(pair.e_b, Epoch(4));
}

/// 23: entering epoch 1 does no boundary, whatever B holds.
#[test]
fn no_boundary_at_epoch_0() {
    let mut pair = fresh();
    pair.b = waiting_guest(0);
    assert_eq!(apply(&mut pair, bend(9)), 4);
    pair.inbox = vec![Message::End { epoch: Epoch(1) }];
    all_taken(&mut pair, &[bend(9)]);
    assert_eq!(pair.b, waiting_guest(0));
    assert_eq!(pair.e_b, Epoch(1));
}

/// 24: the boundary before the failover epoch tells nothing uncertain.
#[test]
fn nothing_uncertain_before_the_failover_epoch() {
    let mut pair = b_at_a_boundary(PhaseB::Following);
    pair.inbox = vec![int(3, completion(4, 8))];
    all_taken(&mut pair, &[bend(0)]);
    assert_eq!(pair.phase_b, PhaseB::Failover);
    assert_eq!(pair.b.queue, [Interrupt::Device(completion(4, 8))]);
    assert_eq!(pair.b.table, [Operation(6)]);
}

/// 25, 26 and a mistake to shut out: relayed completion, then P8 ascending, then the timer with
/// P's clock.
#[test]
fn failover_boundary() {
    let mut pair = b_at_a_boundary(PhaseB::Failover);
    pair.b.last_operation = Operation(7);
    pair.b.table.push(Operation(7));
    pair.b.timer = Some(50);
    let tme = |clock| Message::Tme { epoch: Epoch(3), clock };
    pair.inbox = vec![tme(60), int(3, completion(6, 1)), tme(10), Message::End { epoch: Epoch(4) }];
    all_taken(&mut pair, &[bend(20)]);
    let expected = [
        Interrupt::Device(completion(6, 1)),
        Interrupt::Device(uncertain(4)),
        Interrupt::Device(uncertain(7)),
        Interrupt::Timer { clock: 60 },
    ];
    assert_eq!(pair.b.queue, expected);
    assert_eq!((pair.b.timer, &pair.b.table[..]), (None, &[][..]));
    assert_eq!(pair.inbox, [Message::End { epoch: Epoch(4) }]);
    assert_eq!(pair.phase_b, PhaseB::Promoted { buffer: Vec::new() });
}

/// 26: with no Tme of the epoch the word is the clock.
#[test]
fn failover_boundary_with_the_word() {
    let mut pair = b_at_a_boundary(PhaseB::Failover);
    pair.b.table.clear();
    pair.b.timer = Some(20);
    pair.inbox = vec![Message::Tme { epoch: Epoch(2), clock: 5 }];
    all_taken(&mut pair, &[bend(20)]);
    assert_eq!(pair.b.queue, [Interrupt::Timer { clock: 20 }]);
    assert_eq!(pair.inbox.len(), 1);
}

/// 27, 29: TIME reads the first Val of B's epoch in every phase, else the word.
#[test]
fn time_on_b() {
    let time = [16, 1, 0, 0].repeat(5);
    let val = |epoch, reading| Message::Val { epoch: Epoch(epoch), reading };
    for phase in [PhaseB::Following, PhaseB::Failover, PhaseB::Promoted { buffer: Vec::new() }] {
        let mut pair = b_at_a_boundary(phase);
        pair.b.instructions = 0;
        pair.inbox = vec![val(2, 1), val(3, 70), val(3, 80)];
        step(&mut pair, &time, &Event::BStep { word: 5 }.bytes()).unwrap();
        assert_eq!(pair.b.registers[1], 70);
        assert_eq!(pair.inbox, [val(2, 1), val(3, 80)]);
        pair.inbox = vec![val(2, 1)];
        step(&mut pair, &time, &Event::BStep { word: 5 }.bytes()).unwrap();
        assert_eq!(pair.b.registers[1], 5);
    }
}

/// 28: a promoted B takes its own buffer and the word, and leaves the inbox alone.
#[test]
fn promoted_boundary() {
    let mut pair = b_at_a_boundary(PhaseB::Promoted { buffer: vec![uncertain(6)] });
    pair.b.timer = Some(7);
    pair.inbox = vec![int(3, completion(4, 8)), Message::Tme { epoch: Epoch(3), clock: 9 }];
    let inbox = pair.inbox.clone();
    all_taken(&mut pair, &[bend(7)]);
    assert_eq!(pair.b.queue, [Interrupt::Device(uncertain(6)), Interrupt::Timer { clock: 7 }]);
    assert_eq!(pair.b.table, [Operation(4)]);
    assert_eq!(pair.inbox, inbox);
    assert_eq!(pair.buffer_b(), []);
}

/// 30, 31: before promotion BINT is taken and changes nothing.
#[test]
fn bint() {
    for phase in [PhaseB::Following, PhaseB::Failover] {
        let mut pair = b_at_a_boundary(phase);
        let before = pair.clone();
        all_taken(&mut pair, &[Event::BInt(completion(4, 1)), Event::BInt(completion(900, 1))]);
        assert_eq!(pair, before);
    }
    let mut pair = b_at_a_boundary(PhaseB::Promoted { buffer: Vec::new() });
    assert_eq!(apply(&mut pair, Event::BInt(completion(5, 1))), 5);
    all_taken(&mut pair, &[Event::BInt(completion(4, 1))]);
    assert_eq!(apply(&mut pair, Event::BInt(uncertain(4))), 5);
    assert_eq!(pair.buffer_b(), [completion(4, 1)]);
}

/// 32: of two Ints of one operation the second is dropped, as is one that is not in the table.
#[test]
fn the_same_int_twice() {
    let mut pair = b_at_a_boundary(PhaseB::Following);
    pair.inbox = vec![int(3, uncertain(6)), int(3, completion(5, 1)), int(3, completion(6, 1))];
    all_taken(&mut pair, &[bend(0)]);
    assert_eq!(pair.b.queue, [Interrupt::Device(uncertain(6))]);
    assert_eq!(pair.b.table, [Operation(4)]);
}

/// A mistake to shut out: an Int of the next epoch stays for the next epoch.
#[test]
fn ints_are_not_an_epoch_early() {
    let mut pair = b_at_a_boundary(PhaseB::Following);
    pair.inbox = vec![int(4, completion(4, 1)), Message::End { epoch: Epoch(4) }];
    all_taken(&mut pair, &[bend(0)]);
    assert_eq!(pair.b.queue, []);
    assert_eq!(pair.inbox.len(), 2);
}

/// 33 and a mistake to shut out: a START of the failover epoch is not shown.
#[test]
fn start_is_shown_only_when_promoted() {
    let start = [17, 1, 2, 3].repeat(5);
    let promoted = PhaseB::Promoted { buffer: Vec::new() };
    for (phase, shown) in [(PhaseB::Following, false), (PhaseB::Failover, false), (promoted, true)]
    {
        let mut pair = b_at_a_boundary(phase);
        pair.b.instructions = 0;
        let entry = step(&mut pair, &start, &bstep().bytes()).unwrap();
        assert_eq!(entry.is_some(), shown);
        assert_eq!(pair.b.table, [Operation(4), Operation(6), Operation(7)]);
    }
}

/// 35, 36: table entries and untaken device interrupts count, a timer entry does not.
#[test]
fn start_when_the_table_is_full() {
    let start = [17, 1, 2, 3].repeat(5);
    let mut pair = fresh();
    pair.p.last_operation = Operation(100);
    pair.p.table = (86..=100).map(Operation).collect();
    pair.p.queue = vec![Interrupt::Timer { clock: 0 }];
    pair.p.registers[3] = 55;
    assert!(step(&mut pair, &start, &pstep().bytes()).unwrap().is_some());
    assert_eq!((pair.p.registers[3], pair.p.table.len()), (101, 16));
    assert_eq!(step(&mut pair, &start, &pstep().bytes()), Ok(None));
    assert_eq!((pair.p.registers[3], pair.p.pc, pair.p.instructions), (0, 2, 2));
    pair.p.instructions = 0;
    pair.p.table.pop();
    pair.p.queue.push(Interrupt::Device(uncertain(7)));
    assert_eq!(step(&mut pair, &start, &pstep().bytes()), Ok(None));
    pair.p.queue.clear();
    pair.p.last_operation = Operation(65_535);
    assert_eq!(step(&mut pair, &start, &pstep().bytes()), Ok(None));
    assert_eq!(pair.p.last_operation, Operation(65_535));
}

/// 42, 43: only the timer waits while a timer interrupt is untaken.
#[test]
fn timer_waits() {
    let mut guest = waiting_guest(3);
    guest.queue = vec![Interrupt::Timer { clock: 1 }];
    guest.instructions = 2;
    guest.times = 1;
    guest.boundary(&[completion(2, 5)], true, 10);
    assert_eq!(guest.timer, Some(3));
    assert_eq!((guest.instructions, guest.times), (0, 0));
    let expected = [
        Interrupt::Timer { clock: 1 },
        Interrupt::Device(completion(2, 5)),
        Interrupt::Device(uncertain(1)),
    ];
    assert_eq!(guest.queue, expected);
    guest.queue.remove(0);
    guest.boundary(&[], false, 2);
    assert_eq!(guest.timer, Some(3));
    guest.boundary(&[], false, 3);
    assert_eq!(guest.timer, None);
    assert_eq!(guest.queue.last(), Some(&Interrupt::Timer { clock: 3 }));
}

/// 45: an epoch is complete after its 40th TIME, or after L instructions, whichever is first.
#[test]
fn forty_times() {
    let time = [16, 1, 0, 0];
    let mut pair = Pair::fresh(&time, 4_096).unwrap();
    for word in 0..40 {
        assert_eq!(step(&mut pair, &time, &Event::PStep { word }.bytes()), Ok(None));
    }
    assert_eq!(step(&mut pair, &time, &pstep().bytes()), Err(Refusal::OutOfTurn));
    assert_eq!(step(&mut pair, &time, &ptime(0).bytes()), Ok(None));
    assert_eq!(pair.link.len(), 41);
}
