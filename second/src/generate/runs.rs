//! Run files: most of them long runs that are taken, some that end at once.

use crate::event::{Event, EVENT_BYTES};
use crate::generate::bad_files::{damaged, KINDS_OF_DAMAGE};
use crate::generate::events::{any_event, malformed};
use crate::generate::programs;
use crate::generate::random::Random;
use crate::generate::story::Story;
use crate::refusal::{answer, Refusal};
use crate::runfile::{write_whole, MOST_EVENT_BYTES};
use crate::step::step;

const MOST_EVENTS: usize = MOST_EVENT_BYTES / EVENT_BYTES;
/// So many events let an inbox be full.
const EVENTS_TO_FILL: usize = 500;
/// Events that are tried on one pair to find one with a wanted refusal.
const TRIES: usize = 20;
/// Pairs on which they are tried.
const LONGEST_SEARCH: usize = 60;

/// The run file of an index; each eighth is one that is bad, or one at the edges.
pub fn run_file(random: &mut Random, index: usize) -> Vec<u8> {
    match index % 16 {
        7 => {
            let file = run(random, 20, true);
            damaged(random, index / 16 % KINDS_OF_DAMAGE, file)
        }
        15 => at_the_edges(random),
        _ => {
            let length = random.pick(&[10, 40, 100, 200, 400, 800, 1_500, 3_000, MOST_EVENTS]);
            let ends_refused = random.chance(65);
            run(random, length, ends_refused)
        }
    }
}

/// A run of events that are taken; then, if wished, one that is refused and some more. Where the
/// inbox fills, that may be the first LINK that finds it full.
fn run(random: &mut Random, length: usize, ends_refused: bool) -> Vec<u8> {
    let mut story = Story::begin(random, length);
    let fills = story.fills_the_inbox();
    let enough = if fills { length.max(EVENTS_TO_FILL) } else { length };
    let to_the_full = ends_refused && fills && random.chance(70);
    let earliest = random.below(enough);
    while story.events.len() < enough && story.go_on(random) {
        if to_the_full && story.events.len() >= earliest && inbox_is_full(&story) {
            break;
        }
    }
    let refused = if ends_refused { refused(random, &mut story) } else { Vec::new() };
    let mut events = story.events.concat();
    events.extend(refused);
    events.truncate(MOST_EVENT_BYTES);
    write_whole(story.pair.l, &story.program, &events).expect("the lengths are allowed")
}

fn inbox_is_full(story: &Story) -> bool {
    let outcome = step(&mut story.pair.clone(), &story.program, &Event::Link.bytes());
    outcome == Err(Refusal::InboxFull)
}

/// An event that is refused, and perhaps some more. The run goes on until one with the wanted
/// refusal is found; where none comes, the event is malformed.
fn refused(random: &mut Random, story: &mut Story) -> Vec<u8> {
    let wanted = if inbox_is_full(story) { 6 } else { random.pick(&[1, 2, 3, 3, 4, 4, 5, 5]) };
    let mut events = malformed(random, &story.pair).to_vec();
    for _ in 0..LONGEST_SEARCH {
        if let Some(event) = refused_with(random, story, wanted) {
            events = event.to_vec();
            break;
        }
        story.go_on(random);
    }
    for _ in 0..random.pick(&[0, 0, 3]) {
        events.extend(any_event(random, &story.pair).bytes());
    }
    events
}

/// An event that the pair refuses with `wanted`, if a few tries find one.
fn refused_with(random: &mut Random, story: &Story, wanted: u8) -> Option<[u8; EVENT_BYTES]> {
    for _ in 0..TRIES {
        let event = any_event(random, &story.pair).bytes();
        if answer(&step(&mut story.pair.clone(), &story.program, &event)) == wanted {
            return Some(event);
        }
    }
    None
}

/// Files of the right form at the edges: L and programs of which no pair is made, the least and the greatest L, no event, the most, and rubbish.
fn at_the_edges(random: &mut Random) -> Vec<u8> {
    let story = Story::begin(random, 1);
    let event = any_event(random, &story.pair).bytes();
    let (l, program, events) = match random.below(8) {
        0 => (random.pick(&[0, 4_097, 65_535]), story.program, event.to_vec()),
        1 => (random.pick(&[1, 4_096]), story.program, event.to_vec()),
        2 | 3 => (2, programs::bad_program(random), event.to_vec()),
        4 => (random.pick(&[0, 4_097]), programs::bad_program(random), Vec::new()),
        5 => (random.pick(&[1, 2, 4_096]), story.program, Vec::new()),
        6 => (
            4_096,
            programs::program_of_length(random, 1_024),
            [1, 0, 0, 0, 9, 0, 0, 0].repeat(MOST_EVENTS),
        ),
        _ => (2, story.program, random.bytes(16 * EVENT_BYTES)),
    };
    write_whole(l, &program, &events).expect("the lengths are allowed")
}
