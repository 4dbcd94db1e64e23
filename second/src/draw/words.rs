//! What is said above and below a drawing.

use crate::event::Event;
use crate::pair::{PhaseB, PhaseP};
use crate::reason::{name, why};
use crate::retell::Ending;
use crate::text::event_line;

/// What the run is about: whether P stopped, and how far the switch went.
pub fn title(ending: &Ending) -> String {
    let pair = &ending.pair;
    let (e_p, e_b) = (pair.e_p.0, pair.e_b.0);
    if pair.phase_p != PhaseP::Failed {
        return match e_b {
            0 => format!("P drives the devices, up to epoch {e_p}; B has not begun to follow"),
            _ => format!("P drives the devices, up to epoch {e_p}; B follows, up to epoch {e_b}"),
        };
    }
    let then = match (&pair.phase_b, pair.detected) {
        (PhaseB::Following, false) => "B has not yet learned of it".to_string(),
        (PhaseB::Following, true) => "B has learned of it".to_string(),
        (PhaseB::Failover, _) => "B does that epoch as its failover epoch".to_string(),
        // The epoch behind the failover epoch, which is the one that P stopped in.
        (PhaseB::Promoted { .. }, _) => {
            format!("B drives the devices from epoch {} on", u32::from(e_p) + 1)
        }
    };
    format!("P stops in epoch {e_p}; {then}")
}

pub fn subtitle(ending: &Ending, shown: usize) -> String {
    let (l, n) = (ending.pair.l, ending.pair.n);
    format!(
        "{}, from left to right. Program: {}; L {l}. The devices are shown {}.",
        count(ending.taken, "event"),
        count(usize::from(n), "instruction"),
        count(shown, "operation"),
    )
}

/// How the run ended: which event was refused, and why.
pub fn ending(ending: &Ending) -> String {
    let Some((bytes, refusal)) = &ending.refused else {
        let words = match ending.taken {
            0 => "The run has no events.",
            _ => "The run ends here; every event was taken.",
        };
        return words.to_string();
    };
    let number = ending.taken + 1;
    let line = event_line(bytes);
    let reason = match Event::read(bytes) {
        Some(event) => why(event.kind(), *refusal),
        None => "no event of document 01",
    };
    format!(
        "Event {number}, {line}, is refused with {} ({}): {reason}.",
        *refusal as u8,
        name(*refusal)
    )
}

fn count(number: usize, thing: &str) -> String {
    match number {
        1 => format!("1 {thing}"),
        _ => format!("{number} {thing}s"),
    }
}
