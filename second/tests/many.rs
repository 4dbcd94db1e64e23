//! Long random runs, random sound pairs, and what the generator reaches.

use std::collections::{BTreeMap, BTreeSet};

use second::bench::bench;
use second::check::check;
use second::event::EventKind;
use second::generate::random::Random;
use second::generate::{requests, runs};
use second::probe::probe;

/// Soundness, 58 unacknowledged, guests equal on entry, LINK 6, save and load, text and back, and
/// that a single card could have left each record.
#[test]
fn nothing_goes_wrong_and_everything_is_reached() {
    let tried = check(2, 600).unwrap();
    // The answers of 01's table, event by event; 8 and 11 are no answer of the column.
    let answers: &[(EventKind, &[u8])] = &[
        (EventKind::PStep, &[0, 2, 3]),
        (EventKind::PInt, &[0, 2, 5]),
        (EventKind::PTime, &[0, 2, 3]),
        (EventKind::PEnd, &[0, 2, 3, 4, 7]),
        (EventKind::Link, &[0, 4, 6]),
        (EventKind::Ack, &[0, 2, 4]),
        (EventKind::Fail, &[0, 2]),
        (EventKind::Detect, &[0, 3, 4]),
        (EventKind::BStep, &[0, 3]),
        (EventKind::BEnd, &[0, 3, 4, 7]),
        (EventKind::BInt, &[0, 5]),
    ];
    let expected: BTreeSet<(u8, u8)> = answers
        .iter()
        .flat_map(|(kind, answers)| answers.iter().map(|answer| (*kind as u8, *answer)))
        .collect();
    assert_eq!(tried.answers.into_keys().collect::<BTreeSet<(u8, u8)>>(), expected);
    assert!(tried.promoted > 300, "{} runs past a promotion", tried.promoted);
}

#[test]
fn run_files_end_in_every_way() {
    let mut reached: BTreeMap<u8, usize> = BTreeMap::new();
    for index in 0..600 {
        let lines = bench(&runs::run_file(&mut Random::new(3, index), index));
        let last = lines.lines().last().unwrap();
        let answer: u8 = last.split(' ').nth(1).unwrap().parse().unwrap();
        *reached.entry(answer).or_default() += 1;
    }
    for answer in [0, 1, 2, 3, 4, 5, 6, 8, 10] {
        assert!(reached.contains_key(&answer), "answer {answer}");
    }
}

#[test]
fn requests_get_every_answer() {
    let mut output = Vec::new();
    for index in 0..60 {
        let file = requests::file(&mut Random::new(4, index), 40 * index, 40);
        assert_eq!(file, requests::file(&mut Random::new(4, index), 40 * index, 40));
        probe(&mut &file[..], &mut output).unwrap();
    }
    let output = String::from_utf8(output).unwrap();
    let reached = |line: &str| output.lines().any(|other| other.starts_with(line));
    let lines = [
        "1 0 ", "1 10", "1 11", "2 0 ", "2 1 ", "2 2 ", "2 3 ", "2 4 ", "2 5 ", "2 6 ", "2 7 ",
        "2 8 ", "2 10", "2 11", "3 0 ", "3 8 ", "3 9 ", "4 0 ", "4 9 ", "4 10 ", "5 0 ", "5 10",
        "6 0 ", "6 9 ", "6 10", "6 11", "bad",
    ];
    for line in lines {
        assert!(reached(line), "{line}");
    }
}
