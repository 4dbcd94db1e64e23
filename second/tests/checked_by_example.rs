//! "Checked by example": every case of 01, starred or not.

use second::bench::bench;
use second::event::Event;
use second::generate::programs::EXAMPLE;
use second::image::{load, retire, save};
use second::interrupt::{DeviceInterrupt, Interrupt, Outcome};
use second::numbers::Operation;
use second::pair::{Pair, PhaseB};
use second::refusal::Refusal;
use second::runfile::write_whole;
use second::step::step;

const COMPLETION: Outcome = Outcome::Completed(9);
const PSTEP: Event = Event::PStep { word: 0 };
const PTIME: Event = Event::PTime { word: 0 };
const BSTEP: Event = Event::BStep { word: 0 };
const BEND: Event = Event::BEnd { word: 0 };

fn pint(operation: u16) -> Event {
    Event::PInt(DeviceInterrupt { operation: Operation(operation), outcome: COMPLETION })
}

fn bench_of(l: u16, program: &[u8], events: &[Event]) -> String {
    let events: Vec<u8> = events.iter().flat_map(|event| event.bytes()).collect();
    bench(&write_whole(l, program, &events).unwrap())
}

fn example(events: &[Event]) -> String {
    bench_of(2, &EXAMPLE, events)
}

const AFTER_THE_STOP: [Event; 11] =
    [Event::Fail, Event::Detect, BEND, BSTEP, BSTEP, BEND, BSTEP, BSTEP, BEND, BSTEP, BSTEP];

const CASE_C: [Event; 10] = [
    PSTEP,
    PSTEP,
    Event::PInt(DeviceInterrupt { operation: Operation(1), outcome: COMPLETION }),
    Event::Fail,
    Event::Link,
    Event::Detect,
    BEND,
    BSTEP,
    BSTEP,
    BEND,
];

#[test]
fn the_program_is_written_as_in_01() {
    let words: [[u8; 4]; 5] = [
        [0x01, 0x01, 0x00, 0x07],
        [0x11, 0x01, 0x02, 0x03],
        [0x08, 0x04, 0x05, 0x06],
        [0x07, 0x04, 0x00, 0x02],
        [0x07, 0x00, 0x00, 0x01],
    ];
    assert_eq!(words.concat(), EXAMPLE);
}

#[test]
fn case_a() {
    let events = [&[PSTEP, PSTEP][..], &AFTER_THE_STOP].concat();
    assert_eq!(example(&events), "1 2 7\n2 2 7\nend 0 13\n");
}

#[test]
fn case_b() {
    let events = [&[PSTEP][..], &AFTER_THE_STOP].concat();
    assert_eq!(example(&events), "2 2 7\nend 0 12\n");
}

#[test]
fn case_c_queues_the_completion_and_nothing_uncertain() {
    assert_eq!(example(&CASE_C), "1 2 7\nend 0 10\n");
    let mut pair = Pair::fresh(&EXAMPLE, 2).unwrap();
    for event in CASE_C {
        step(&mut pair, &EXAMPLE, &event.bytes()).unwrap();
    }
    let completion = DeviceInterrupt { operation: Operation(1), outcome: COMPLETION };
    assert_eq!(pair.b.queue, [Interrupt::Device(completion)]);
    assert_eq!(pair.b.table, []);
    assert_eq!(pair.phase_b, PhaseB::Promoted { buffer: Vec::new() });
}

#[test]
fn case_c_detect_before_link() {
    let events = [PSTEP, PSTEP, pint(1), Event::Fail, Event::Detect, Event::Link];
    assert_eq!(example(&events), "1 2 7\nend 4 4\n");
}

#[test]
fn third_pstep() {
    assert_eq!(example(&[PSTEP, PSTEP, PSTEP]), "1 2 7\nend 3 2\n");
}

#[test]
fn pint_of_an_unknown_operation_and_pint_twice() {
    assert_eq!(example(&[PSTEP, PSTEP, pint(2)]), "1 2 7\nend 5 2\n");
    assert_eq!(example(&[PSTEP, PSTEP, pint(1), pint(1)]), "1 2 7\nend 5 3\n");
}

#[test]
fn pend_waits_for_the_acknowledgement() {
    assert_eq!(example(&[PSTEP, PSTEP, PTIME, Event::PEnd]), "1 2 7\nend 4 3\n");
    let with_link = [PSTEP, PSTEP, PTIME, Event::Link, Event::PEnd];
    assert_eq!(example(&with_link), "1 2 7\nend 4 4\n");
    let with_link_and_ack = [PSTEP, PSTEP, PTIME, Event::Link, Event::Ack, Event::PEnd];
    assert_eq!(example(&with_link_and_ack), "1 2 7\nend 0 6\n");
}

#[test]
fn division_by_zero_and_a_sum_that_wraps() {
    // SET r1 7; DIV r2 r1 r0; START r2 0 r3
    let divide = [1, 1, 0, 7, 4, 2, 1, 0, 17, 2, 0, 3];
    assert_eq!(bench_of(3, &divide, &[PSTEP; 3]), "1 0 4294967295\nend 0 3\n");
    // SET r1 1; TIME r2; ADD r2 r2 r1; START r2 0 r3
    let add = [1, 1, 0, 1, 16, 2, 0, 0, 2, 2, 2, 1, 17, 2, 0, 3];
    let read_the_largest = [PSTEP, Event::PStep { word: u32::MAX }, PSTEP, PSTEP];
    assert_eq!(bench_of(4, &add, &read_the_largest), "1 0 0\nend 0 4\n");
}

#[test]
fn limits_of_l() {
    for (l, line) in
        [(0, "end 8 0\n"), (4_097, "end 8 0\n"), (1, "end 0 1\n"), (4_096, "end 0 1\n")]
    {
        assert_eq!(bench_of(l, &EXAMPLE, &[PSTEP]), line, "L {l}");
    }
}

#[test]
fn retire_needs_room_for_a_fresh_pair() {
    let mut short = [7; 3_443];
    assert_eq!(retire(&EXAMPLE, 2, &mut short), Err(Refusal::TooShort));
    assert_eq!(short, [0; 3_443]);

    let mut exact = [7; 3_444];
    assert_eq!(retire(&EXAMPLE, 2, &mut exact), Ok(()));
    assert_eq!(load(&exact), Pair::fresh(&EXAMPLE, 2));

    let mut longer = [7; 3_500];
    assert_eq!(retire(&EXAMPLE, 2, &mut longer), Ok(()));
    assert_eq!(longer[..3_444], exact);
    assert_eq!(longer[3_444..], [0; 56]);

    let mut bad = [7; 3_500];
    assert_eq!(retire(&EXAMPLE, 0, &mut bad), Err(Refusal::BadProgram));
    assert_eq!(bad, [0; 3_500]);
}

/// The bytes of a fresh pair, counted from 01's words: a form, three flags, L, N, two epochs.
#[test]
fn a_fresh_image_byte_by_byte() {
    let mut image = [7; 3_444];
    save(&Pair::fresh(&EXAMPLE, 2).unwrap(), &mut image).unwrap();
    assert_eq!(image[..16], [1, 1, 1, 0, 2, 0, 5, 0, 1, 0, 0, 0, 0, 0, 0, 0]);
    assert!(image[16..].iter().all(|byte| *byte == 0));
}
