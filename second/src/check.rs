//! What 01 says of every run and every sound pair, tried on many of them.

use std::collections::BTreeMap;

use crate::event::Event;
use crate::generate::events::any_event;
use crate::generate::pairs::sound_pair;
use crate::generate::programs::program_of_length;
use crate::generate::random::Random;
use crate::generate::runs::run_file;
use crate::generate::story::Story;
use crate::guest::{Guest, RecordEntry};
use crate::image;
use crate::numbers::Epoch;
use crate::one_card::OneCard;
use crate::pair::{Pair, PhaseB, LINK_SLOTS};
use crate::probe::saved;
use crate::refusal::{answer, Refusal};
use crate::retell::{retell, Moment};
use crate::runfile;
use crate::sound::sound;
use crate::step::step;
use crate::text;

/// What was tried, so that a reader sees how far it went.
#[derive(Clone, Debug, Default, PartialEq, Eq)]
pub struct Tried {
    /// How often each kind of event got each answer, kind first.
    pub answers: BTreeMap<(u8, u8), usize>,
    /// Runs, and those of them that went on past a promotion.
    pub runs: usize,
    pub promoted: usize,
    /// Steps of lone cards.
    pub lone_steps: usize,
}

impl Tried {
    fn run(&mut self, one_card: &OneCard, last: &Pair) {
        self.runs += 1;
        self.promoted += usize::from(matches!(last.phase_b, PhaseB::Promoted { .. }));
        self.lone_steps += one_card.steps().len();
    }
}

const EVENTS_IN_A_RUN: usize = 1_500;

/// `count` long runs and run files, random sound pairs and texts; what was tried, or what went
/// wrong.
pub fn check(seed: u64, count: usize) -> Result<Tried, String> {
    let mut tried = Tried::default();
    for index in 0..count {
        let random = &mut Random::new(seed, index);
        let named = |reason: String| format!("seed {seed}, number {index}: {reason}");
        check_run(random, &mut tried).map_err(named)?;
        for _ in 0..20 {
            check_pair(random, &mut tried).map_err(named)?;
        }
        let file = run_file(random, index);
        check_text(&file).map_err(named)?;
        check_file(&file, &mut tried).map_err(named)?;
    }
    Ok(tried)
}

/// A run from a fresh pair: sound throughout, at most 58 unacknowledged, guests equal on entry, and
/// a single card could have left the record.
fn check_run(random: &mut Random, tried: &mut Tried) -> Result<(), String> {
    let mut story = Story::begin(random, EVENTS_IN_A_RUN);
    let mut entries = vec![story.pair.p.clone()];
    let mut one_card = OneCard::beside(&story.program, story.pair.l)?;
    for _ in 0..EVENTS_IN_A_RUN {
        let event = match random.below(100) {
            0..=2 => Event::Link,
            3 => any_event(random, &story.pair), // also of a card that has failed
            _ => story.candidate(random),
        };
        let before = story.pair.clone();
        let outcome = check_event(&mut story.pair, &story.program, event, tried)?;
        ensure(story.pair.unacknowledged() <= LINK_SLOTS, "more than 58 unacknowledged")?;
        if outcome == Err(Refusal::InboxFull) {
            check_full_inbox(before, &story.program)?;
        } else if let Ok(shown) = outcome {
            story.events.push(event.bytes());
            check_entry(&before, &story.pair, &mut entries)?;
            one_card.follow(&Moment { event, before: &before, after: &story.pair, shown })?;
        }
    }
    tried.run(&one_card, &story.pair);
    one_card.check_whole()
}

/// A single card could have left the record of a run file, at every moment of it; a file of which
/// no pair is made has no record.
pub fn check_file(file: &[u8], tried: &mut Tried) -> Result<(), String> {
    let Ok(file) = runfile::read(file) else {
        return Ok(());
    };
    let Ok(mut one_card) = OneCard::beside(file.program, file.l) else {
        return Ok(());
    };
    let ending = retell(&file, |moment| one_card.follow(moment))?;
    tried.run(&one_card, &ending.pair);
    one_card.check_whole()
}

/// One event and its outcome: a refusal leaves the pair, soundness stays, and the image gives the
/// pair back.
fn check_event(
    pair: &mut Pair,
    program: &[u8],
    event: Event,
    tried: &mut Tried,
) -> Result<Result<Option<RecordEntry>, Refusal>, String> {
    let before = pair.clone();
    let outcome = step(pair, program, &event.bytes());
    *tried.answers.entry((event.kind() as u8, answer(&outcome))).or_default() += 1;
    sound(pair).map_err(|unsound| format!("{event:?} broke: {}", unsound.0))?;
    ensure(outcome.is_ok() || *pair == before, "a refusal changed the pair")?;
    ensure(image::load(&saved(pair)).as_ref() == Ok(pair), "saved and loaded is not the same")?;
    Ok(outcome)
}

/// "In each epoch that both cards enter, their guests are equal on entry." `entries` holds P's.
fn check_entry(before: &Pair, after: &Pair, entries: &mut Vec<Guest>) -> Result<(), String> {
    if after.e_p != before.e_p {
        entries.push(after.p.clone());
    }
    if after.e_b == before.e_b || after.e_b > after.e_p {
        return Ok(());
    }
    let at_p = &entries[usize::from(after.e_b.0) - 1];
    ensure(*at_p == after.b, "the guests differ on entry")
}

/// "LINK is refused with 6 only if, after at most L BSTEPs, a BEND will be taken."
fn check_full_inbox(mut pair: Pair, program: &[u8]) -> Result<(), String> {
    let step_b = Event::BStep { word: 0 }.bytes();
    let end_b = Event::BEnd { word: 0 }.bytes();
    if pair.e_b != Epoch(0) {
        while !pair.b.complete(pair.l) {
            step(&mut pair, program, &step_b).map_err(|_| "BSTEP refused on the way")?;
        }
    }
    step(&mut pair, program, &end_b).map_err(|_| "LINK 6, and no BEND will be taken")?;
    Ok(())
}

/// A random sound pair: its image, and some events on it.
fn check_pair(random: &mut Random, tried: &mut Tried) -> Result<(), String> {
    let mut pair = sound_pair(random);
    sound(&pair).map_err(|unsound| format!("a pair was made that breaks: {}", unsound.0))?;
    let image = saved(&pair);
    ensure(image::load(&image).as_ref() == Ok(&pair), "an image gives another pair")?;
    let program = program_of_length(random, usize::from(pair.n));
    for _ in 0..10 {
        let event = any_event(random, &pair);
        check_event(&mut pair, &program, event, tried)?.ok();
    }
    Ok(())
}

/// A good run file goes through its text and comes back; a bad one has none.
pub fn check_text(file: &[u8]) -> Result<(), String> {
    let Ok(content) = runfile::read(file) else {
        return ensure(text::unpack(file).is_err(), "a bad run file has a text");
    };
    let again = runfile::write_whole(content.l, content.program, content.events);
    ensure(again.as_deref() == Ok(file), "a run file read and written is not the same")?;
    let text = text::unpack(file).map_err(|_| "a good run file has no text")?;
    let packed = text::pack(&text).map_err(|error| error.to_string())?;
    ensure(packed == file, "unpacked and packed is not the same")
}

fn ensure(holds: bool, otherwise: &str) -> Result<(), String> {
    if holds {
        Ok(())
    } else {
        Err(otherwise.to_string())
    }
}
