//! Requests for the probe: images that runs reach and images that they do not, stores and buffers
//! of every size, run files to read and to write.

use crate::event::{Event, EventKind, EVENT_BYTES, EVENT_KINDS};
use crate::generate::bad_files::{damaged, KINDS_OF_DAMAGE};
use crate::generate::corners::corner;
use crate::generate::damage::{damaged_image, DAMAGES};
use crate::generate::events::{event_of_kind, malformed, word_near, MALFORMED};
use crate::generate::pairs::sound_pair;
use crate::generate::programs::{
    self, bad_instruction, jump_to, program_of_length, replace, BAD_INSTRUCTIONS,
};
use crate::generate::random::Random;
use crate::generate::story::Story;
use crate::image::IMAGE_BYTES;
use crate::instruction::INSTRUCTION_BYTES;
use crate::pair::{Pair, PhaseP};
use crate::probe::{saved, Kind, Request, LONGEST_PART, REQUEST_HEADER_BYTES};
use crate::runfile::{self, HEADER_BYTES, LONGEST_FILE, MOST_EVENT_BYTES, MOST_PROGRAM_BYTES};
use crate::step::step;

/// Half of them are single steps.
const KINDS_OF_REQUEST: usize = 20;
const SNAPSHOTS: usize = 10;

/// Pairs that one run came by, and its program.
struct Reached {
    program: Vec<u8>,
    events: Vec<u8>,
    pairs: Vec<Pair>,
}

fn reach(random: &mut Random) -> Reached {
    let length = random.pick(&[20, 60, 200, 500, 1_200]);
    let mut story = Story::begin(random, length);
    let mut pairs = vec![story.pair.clone()];
    for _ in 0..SNAPSHOTS {
        for _ in 0..random.below(2 * length / SNAPSHOTS) {
            story.go_on(random);
        }
        pairs.push(story.pair.clone());
    }
    Reached { program: story.program, events: story.events.concat(), pairs }
}

/// A file of `count` requests; `first` is the number of its first among all of them.
pub fn file(random: &mut Random, first: usize, count: usize) -> Vec<u8> {
    let reached = reach(random);
    let mut bytes = Vec::new();
    for index in first..first + count - 1 {
        bytes.extend(encode(&request(random, index, &reached)));
    }
    if random.chance(20) {
        let any = random.below(KINDS_OF_REQUEST);
        let last = encode(&request(random, any, &reached));
        bytes.extend(spoiled(random, last));
    } else {
        bytes.extend(encode(&request(random, first + count - 1, &reached)));
    }
    bytes
}

/// Many requests of a few bytes.
pub fn small(random: &mut Random, count: usize) -> Vec<u8> {
    let mut bytes = Vec::new();
    for _ in 0..count {
        let kind = random.pick(&[Kind::Load, Kind::Read, Kind::Retire]);
        let count = random.below(3);
        let (a, b) = (random.bytes(count), random.bytes(count));
        bytes.extend(encode(&Request { kind, l: 1, a, b, c: Vec::new() }));
    }
    bytes
}

fn encode(request: &Request) -> Vec<u8> {
    let mut bytes = vec![request.kind as u8, 0];
    bytes.extend(request.l.to_le_bytes());
    for part in [&request.a, &request.b, &request.c] {
        bytes.extend((part.len() as u32).to_le_bytes());
    }
    for part in [&request.a, &request.b, &request.c] {
        bytes.extend(part);
    }
    bytes
}

/// A request that the probe answers with `bad`; what follows it is not looked at.
fn spoiled(random: &mut Random, mut request: Vec<u8>) -> Vec<u8> {
    match random.below(5) {
        0 => request.truncate(random.between(1, request.len() - 1)),
        1 => request.truncate(random.between(1, REQUEST_HEADER_BYTES - 1)),
        2 => request[0] = random.pick(&[0, 7, 255]),
        3 => request[1] = random.pick(&[1, 255]),
        _ => {
            let part = 4 + 4 * random.below(3);
            let length = random.pick(&[LONGEST_PART as u32 + 1, u32::MAX]);
            request[part..part + 4].copy_from_slice(&length.to_le_bytes());
            request.extend(random.bytes(LONGEST_PART + 1));
        }
    }
    request
}

/// The kinds of request come in turn, and so do, in each round of them, the rules of "Sound", the
/// bad instructions, the malformed events and the kinds of bad run files: a few thousand requests
/// are sure to have each.
fn request(random: &mut Random, index: usize, reached: &Reached) -> Request {
    let round = index / KINDS_OF_REQUEST;
    let mut request = match index % KINDS_OF_REQUEST {
        0 => only_a(Kind::Load, damaged_image(random, round)),
        1 | 2 => only_a(Kind::Load, image(random, reached)),
        3 => save(random, reached),
        4 => retire(random),
        5 => write(random),
        6 => only_a(Kind::Read, run_file(random, round, reached)),
        7 => corner_step(random),
        8 => bad_instruction_step(random, round),
        9 => malformed_step(random, round),
        _ => single_step(random, reached),
    };
    let uses_l = matches!(request.kind, Kind::Retire | Kind::Write);
    if !uses_l && random.chance(30) {
        request.l = random.u16();
    }
    if random.chance(10) {
        fill_unused_parts(random, &mut request);
    }
    request
}

fn only_a(kind: Kind, a: Vec<u8>) -> Request {
    Request { kind, l: 0, a, b: Vec::new(), c: Vec::new() }
}

/// "Parts that a kind doesn't use are read and ignored."
fn fill_unused_parts(random: &mut Random, request: &mut Request) {
    let count = random.pick(&[1, 8, 50, 50, IMAGE_BYTES, LONGEST_PART]);
    if matches!(request.kind, Kind::Load | Kind::Read | Kind::Save) {
        request.b = random.bytes(count);
    }
    if matches!(request.kind, Kind::Load | Kind::Read | Kind::Retire) {
        request.c = random.bytes(count);
    }
}

/// An image: taken, damaged at one rule, damaged anywhere, or of a wrong length.
fn image(random: &mut Random, reached: &Reached) -> Vec<u8> {
    match random.below(10) {
        0 | 1 => {
            let rule = random.below(DAMAGES.len());
            damaged_image(random, rule)
        }
        2..=4 => flipped(random, reached),
        5 | 6 => saved(&sound_pair(random)),
        7 | 8 => saved(&reached.pairs[random.below(reached.pairs.len())]),
        _ => {
            let mut image = saved(&sound_pair(random));
            image.resize(random.pick(&[0, 1, IMAGE_BYTES - 1, IMAGE_BYTES + 1, LONGEST_PART]), 0);
            image
        }
    }
}

/// Bits exchanged anywhere, or in the fields at the front of the image and its guests.
fn flipped(random: &mut Random, reached: &Reached) -> Vec<u8> {
    let mut image = if random.chance(50) {
        saved(&sound_pair(random))
    } else {
        saved(&reached.pairs[random.below(reached.pairs.len())])
    };
    for _ in 0..random.pick(&[1, 1, 1, 2, 4]) {
        let place = match random.below(4) {
            0 => random.below(32),
            1 => random.between(488, 499),
            2 => random.pick(&[320, 352, 788, 820, 956, 1_084, 1_212, 1_908]) + random.below(24),
            _ => random.below(IMAGE_BYTES),
        };
        image[place] ^= 1 << random.below(8);
    }
    image
}

fn single_step(random: &mut Random, reached: &Reached) -> Request {
    let from_run = random.chance(40);
    let pair = if from_run {
        reached.pairs[random.below(reached.pairs.len())].clone()
    } else {
        sound_pair(random)
    };
    let program = if from_run && random.chance(80) {
        reached.program.clone()
    } else {
        step_program(random, &pair)
    };
    let image = if random.chance(5) { image(random, reached) } else { saved(&pair) };
    let event = step_event(random, &pair, &program);
    Request { kind: Kind::Step, l: 0, a: image, b: program, c: event }
}

fn corner_step(random: &mut Random) -> Request {
    let (pair, program, event) = corner(random);
    step_of(&pair, program, event.bytes())
}

fn step_of(pair: &Pair, program: Vec<u8>, event: [u8; EVENT_BYTES]) -> Request {
    Request { kind: Kind::Step, l: 0, a: saved(pair), b: program, c: event.to_vec() }
}

/// A pair that would take the next instruction, were it not for that instruction.
fn bad_instruction_step(random: &mut Random, number: usize) -> Request {
    loop {
        let pair = sound_pair(random);
        let mut program = program_of_length(random, usize::from(pair.n));
        let (pc, event) = if random.chance(50) {
            (pair.p.pc, Event::PStep { word: 0 })
        } else {
            (pair.b.pc, Event::BStep { word: 0 })
        };
        if step(&mut pair.clone(), &program, &event.bytes()).is_ok() {
            let next_number = number % (BAD_INSTRUCTIONS.len() + 1);
            let past_the_end = jump_to(0, pair.n);
            let bad = *BAD_INSTRUCTIONS.get(next_number).unwrap_or(&past_the_end);
            replace(&mut program, usize::from(pc), bad);
            return step_of(&pair, program, event.bytes());
        }
    }
}

fn malformed_step(random: &mut Random, number: usize) -> Request {
    let pair = sound_pair(random);
    let program = program_of_length(random, usize::from(pair.n));
    step_of(&pair, program, MALFORMED[number % MALFORMED.len()])
}

/// A program for a step: good, of the wrong length, bad at the pc, or good at the pc alone.
fn step_program(random: &mut Random, pair: &Pair) -> Vec<u8> {
    let n = usize::from(pair.n);
    let mut program = program_of_length(random, n);
    let pcs = [usize::from(pair.p.pc), usize::from(pair.b.pc)];
    match random.below(14) {
        0 => {
            let length = program.len();
            let lengths = [0, length - 4, length - 1, length + 1, length + 4, 4 * 1_025];
            program.resize(random.pick(&lengths), 0);
        }
        1..=4 => {
            for pc in pcs {
                replace(&mut program, pc, bad_instruction(random, pair.n));
            }
        }
        5 => {
            for place in (0..n).filter(|place| !pcs.contains(place)) {
                replace(&mut program, place, bad_instruction(random, pair.n));
            }
        }
        _ => {}
    }
    program
}

/// An event for a step; most of the time, where one is soon found, an event that is taken.
fn step_event(random: &mut Random, pair: &Pair, program: &[u8]) -> Vec<u8> {
    match random.below(20) {
        0 => malformed(random, pair).to_vec(),
        1 if random.chance(50) => {
            let count = random.pick(&[0, 1, EVENT_BYTES - 1, EVENT_BYTES + 1, 2 * EVENT_BYTES]);
            vec![0; count]
        }
        2..=8 => well_formed(random, pair).to_vec(),
        _ => {
            let mut tries = (0..8).map(|_| well_formed(random, pair));
            let taken = tries.find(|event| step(&mut pair.clone(), program, event).is_ok());
            taken.unwrap_or([5, 0, 0, 0, 0, 0, 0, 0]).to_vec()
        }
    }
}

fn well_formed(random: &mut Random, pair: &Pair) -> [u8; EVENT_BYTES] {
    let failed = pair.phase_p == PhaseP::Failed;
    let weights = EVENT_KINDS.iter().map(|kind| (*kind, weight(*kind, failed)));
    let kind = random.pick_weighted(&weights.collect::<Vec<(EventKind, usize)>>());
    let word = word_near(random, pair);
    event_of_kind(random, kind, pair, word).bytes()
}

/// How often a kind of event is drawn while P lives, and once it has failed.
fn weight(kind: EventKind, failed: bool) -> usize {
    let (alive, dead) = match kind {
        EventKind::PStep => (8, 1),
        EventKind::PInt => (5, 1),
        EventKind::PTime => (4, 1),
        EventKind::PEnd => (6, 1),
        EventKind::Link => (4, 4),
        EventKind::Ack => (3, 1),
        EventKind::Fail => (2, 1),
        EventKind::Detect => (2, 3),
        EventKind::BStep | EventKind::BEnd => (8, 9),
        EventKind::BInt => (3, 4),
    };
    if failed {
        dead
    } else {
        alive
    }
}

fn save(random: &mut Random, reached: &Reached) -> Request {
    let image = image(random, reached);
    let buffer = dirty_buffer(random, IMAGE_BYTES);
    Request { kind: Kind::Save, l: 0, a: image, b: Vec::new(), c: buffer }
}

/// Bytes of somebody else: too few, just enough or more.
fn dirty_buffer(random: &mut Random, needed: usize) -> Vec<u8> {
    let lengths = [0, 1, needed - 1, needed, needed, needed, needed + 1, needed + 9, needed + 500];
    let length = random.pick(&lengths).min(LONGEST_PART);
    random.bytes(length)
}

fn retire(random: &mut Random) -> Request {
    let program = match random.below(6) {
        0 | 1 => programs::bad_program(random),
        2 => {
            let length = random.pick(&[0, 1, 3, 5, MOST_PROGRAM_BYTES + 4, MOST_PROGRAM_BYTES + 1]);
            vec![0; length]
        }
        _ => programs::program(random).1,
    };
    let l = random.pick(&[0, 1, 1, 2, 2, 100, 4_096, 4_096, 4_097, 65_535]);
    let store = dirty_buffer(random, IMAGE_BYTES);
    Request { kind: Kind::Retire, l, a: program, b: store, c: Vec::new() }
}

fn write(random: &mut Random) -> Request {
    let program_length =
        random.pick(&[0, 1, 3, 4, 4, 6, 8, 20, 20, 20, 4_096, 4_096, 4_097, 4_100]);
    let events_length =
        random.pick(&[0, 0, 8, 8, 16, 80, 1, 7, 12, MOST_EVENT_BYTES, MOST_EVENT_BYTES + 8]);
    let program = random
        .bytes(program_length / INSTRUCTION_BYTES * INSTRUCTION_BYTES)
        .into_iter()
        .chain(vec![0; program_length % INSTRUCTION_BYTES])
        .collect();
    let events = random.bytes(events_length);
    let buffer = dirty_buffer(random, HEADER_BYTES + program_length + events_length);
    Request { kind: Kind::Write, l: random.u16(), a: program, b: events, c: buffer }
}

fn run_file(random: &mut Random, round: usize, reached: &Reached) -> Vec<u8> {
    let l = random.pick(&[0, 1, 2, 4_096, 4_097, 65_535]);
    let mut events = reached.events.clone();
    events.truncate(EVENT_BYTES * random.pick(&[0, 1, 5, 100]));
    match random.below(4) {
        0 => runfile::write_whole(l, &reached.program, &events).expect("the lengths are allowed"),
        1 if random.chance(20) => {
            let bodies = random.bytes(LONGEST_FILE - HEADER_BYTES);
            let (program, events) = bodies.split_at(MOST_PROGRAM_BYTES);
            runfile::write_whole(l, program, events).expect("the lengths are allowed")
        }
        _ => {
            let events = [0; 3 * EVENT_BYTES];
            let file = runfile::write_whole(l, &reached.program, &events);
            damaged(random, round % KINDS_OF_DAMAGE, file.expect("the lengths are allowed"))
        }
    }
}
