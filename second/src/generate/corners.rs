//! Steps at the ends of the numbers, where two refusals stand side by side or a count runs out.

use crate::event::Event;
use crate::generate::events::{any_event, word_near};
use crate::generate::pairs::sound_pair;
use crate::generate::programs::program_of_length;
use crate::generate::random::Random;
use crate::numbers::{Epoch, Operation};
use crate::pair::{Pair, PhaseP, INBOX_SLOTS};
use crate::sound::sound;

/// A sound pair, a program and an event for a step.
pub fn corner(random: &mut Random) -> (Pair, Vec<u8>, Event) {
    loop {
        let mut pair = sound_pair(random);
        let word = word_near(random, &pair);
        let mut program = program_of_length(random, usize::from(pair.n));
        let event = match random.below(6) {
            0 => last_epoch_of_p(&mut pair, word),
            1 => last_epoch_of_b(random, &mut pair, word),
            2 => full_inbox(&mut pair),
            3 => last_operation(random, &mut pair, &mut program, word),
            4 => last_time(random, &mut pair, &mut program, word),
            _ => any_event(random, &pair),
        };
        if sound(&pair).is_ok() {
            return (pair, program, event);
        }
    }
}

/// 7 comes before 4, and 3 before 7.
fn last_epoch_of_p(pair: &mut Pair, word: u32) -> Event {
    pair.e_p = Epoch::LAST;
    if pair.phase_p == PhaseP::Running {
        pair.phase_p = PhaseP::Waiting { clock_sent: word };
    }
    Event::PEnd
}

fn last_epoch_of_b(random: &mut Random, pair: &mut Pair, word: u32) -> Event {
    pair.e_b = Epoch(random.pick(&[65_534, 65_535, 65_535]));
    pair.b.instructions = pair.l - random.pick(&[0, 0, 1]);
    Event::BEnd { word }
}

/// Full, with or without a message to come: 4 comes before 6.
fn full_inbox(pair: &mut Pair) -> Event {
    if let Some(last) = pair.inbox.last().copied() {
        pair.inbox.resize(INBOX_SLOTS, last);
    }
    Event::Link
}

/// A START with one number left, or none.
fn last_operation(random: &mut Random, pair: &mut Pair, program: &mut [u8], word: u32) -> Event {
    let last = Operation(random.pick(&[65_533, 65_534, 65_535]));
    fill_program(program, [17, 1, 2, random.pick(&[1, 3])]);
    pair.p.last_operation = last;
    pair.b.last_operation = last;
    pair.b.instructions = pair.b.instructions.min(pair.l - 1);
    random.pick(&[Event::PStep { word }, Event::BStep { word }, Event::BStep { word }])
}

/// The 39th, 40th or 41st TIME of an epoch.
fn last_time(random: &mut Random, pair: &mut Pair, program: &mut [u8], word: u32) -> Event {
    fill_program(program, [16, 1, 0, 0]);
    for guest in [&mut pair.p, &mut pair.b] {
        guest.times = random.pick(&[38, 39, 40]);
        guest.instructions = guest.instructions.max(40);
    }
    random.pick(&[Event::PStep { word }, Event::BStep { word }])
}

fn fill_program(program: &mut [u8], instruction: [u8; 4]) {
    for place in program.chunks_exact_mut(4) {
        place.copy_from_slice(&instruction);
    }
}
