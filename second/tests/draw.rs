//! Drawings: what stands in them, that no text lies over another, and what a bad file is told.

use std::fs;
use std::path::{Path, PathBuf};

use second::bench::bench;
use second::draw::draw;
use second::event::Event;
use second::generate::random::Random;
use second::generate::runs::run_file;
use second::runfile::write_whole;

const NOP: [u8; 4] = [0; 4];

fn at_the_top(path: &str) -> PathBuf {
    Path::new(env!("CARGO_MANIFEST_DIR")).join("..").join(path)
}

fn example(name: &str) -> Vec<u8> {
    fs::read(at_the_top("examples").join(name)).unwrap()
}

/// All run files of the examples, with their names.
fn examples() -> Vec<(String, Vec<u8>)> {
    let paths = fs::read_dir(at_the_top("examples")).unwrap().map(|entry| entry.unwrap().path());
    let runs = paths.filter(|path| path.extension().is_some_and(|ending| ending == "run"));
    runs.map(|path| (path.display().to_string(), fs::read(&path).unwrap())).collect()
}

/// The drawing that the documents show is the one that is drawn.
#[test]
fn the_drawing_in_the_documents() {
    let kept = fs::read_to_string(at_the_top("docs/stop-and-switch.svg")).unwrap();
    assert_eq!(draw(&example("stop-and-switch.run")).unwrap(), kept);
}

#[test]
fn a_text_is_drawn_as_its_run_file_is() {
    for name in ["stop-and-switch", "case-c", "long-shift"] {
        let of_text = draw(&example(&format!("{name}.txt")));
        assert_eq!(of_text, draw(&example(&format!("{name}.run"))), "{name}");
        assert!(of_text.is_ok());
    }
}

/// The room that a text takes: left, top, right, bottom, in hundredths.
#[derive(Clone, Debug)]
struct Room {
    left: i64,
    top: i64,
    right: i64,
    bottom: i64,
    line: String,
}

fn attribute(line: &str, name: &str) -> String {
    let after = line.split(&format!(" {name}=\"")).nth(1).unwrap();
    after.split('"').next().unwrap().to_string()
}

fn size_of(class: &str) -> i64 {
    let sizes = [("ft", 16), ("fx", 12), ("fl", 11), ("fc", 10), ("fn", 9)];
    let place = sizes.iter().find(|(name, _)| class.split(' ').any(|word| word == *name));
    place.unwrap().1
}

/// A letter of a monospace font is at most 0.62 wide, 0.76 high, and reaches 0.24 below the line.
fn rooms(drawing: &str) -> Vec<Room> {
    let texts = drawing.lines().filter(|line| line.starts_with("<text "));
    let room = |line: &str| {
        let class = attribute(line, "class");
        let size = size_of(&class);
        let words = line.split('>').nth(1).unwrap().split('<').next().unwrap();
        let width = words.chars().count() as i64 * size * 62;
        let x = 100 * attribute(line, "x").parse::<i64>().unwrap();
        let y = 100 * attribute(line, "y").parse::<i64>().unwrap();
        let left = if class.ends_with(" m") { x - width / 2 } else { x };
        let (top, bottom) = (y - 76 * size, y + 24 * size);
        Room { left, top, right: left + width, bottom, line: line.to_string() }
    };
    texts.map(room).collect()
}

fn no_text_over_text(name: &str, drawing: &str) {
    let height = attribute(drawing.lines().next().unwrap(), "height").parse::<i64>().unwrap();
    let mut rooms = rooms(drawing);
    rooms.sort_by_key(|room| room.top);
    for (place, room) in rooms.iter().enumerate() {
        let inside = room.left >= 0 && room.right <= 100_000 && room.bottom <= 100 * height;
        assert!(inside && room.top >= 0, "{name}: {}", room.line);
        let beside = rooms[place + 1..].iter().take_while(|other| other.top < room.bottom);
        for other in beside {
            let apart = other.left >= room.right || other.right <= room.left;
            assert!(apart, "{name}: {} and {}", room.line, other.line);
        }
    }
}

/// Every element is opened and closed in its order.
fn well_formed(name: &str, drawing: &str) {
    let mut open = Vec::new();
    for element in drawing.split('<').skip(1) {
        let (tag, rest) = element.split_once('>').unwrap();
        assert!(!rest.contains('>'), "{name}: {element}");
        let word = tag.split_whitespace().next().unwrap();
        match word.strip_prefix('/') {
            Some(closed) => assert_eq!(open.pop(), Some(closed), "{name}: {element}"),
            None if tag.ends_with('/') => {}
            None => open.push(word),
        }
    }
    assert!(open.is_empty(), "{name}: {open:?}");
}

/// What is drawn is what the bench prints: a box for each record entry, an arrow for each message
/// that arrives.
fn holds_the_run(name: &str, file: &[u8], drawing: &str) {
    let printed = bench(file);
    let boxes = drawing.matches("<rect class=\"shown\"").count();
    assert_eq!(boxes, printed.lines().count() - 1, "{name}");
    for line in printed.lines().filter(|line| !line.starts_with("end")) {
        let [operation, device, word] = line.split(' ').collect::<Vec<_>>()[..] else {
            panic!("{name}: {line}");
        };
        for words in [format!("op {operation}"), format!("device {device}"), format!("word {word}")]
        {
            assert!(drawing.contains(&format!(">{words}</text>")), "{name}: {words}");
        }
    }
}

#[test]
fn every_example_is_drawn_whole() {
    let undrawn = ["bad-program", "limit-0", "limit-4097"];
    for (name, file) in examples() {
        if undrawn.iter().any(|other| name.contains(other)) {
            assert!(draw(&file).is_err(), "{name}");
            continue;
        }
        let drawing = draw(&file).unwrap();
        well_formed(&name, &drawing);
        no_text_over_text(&name, &drawing);
        holds_the_run(&name, &file, &drawing);
        assert!(drawing.len() < 1_000_000, "{name}: {} bytes", drawing.len());
    }
}

/// Run files of all kinds: a drawing, or words for what is wrong.
#[test]
fn generated_runs_are_drawn_whole() {
    for index in 0..150 {
        let file = run_file(&mut Random::new(11, index), index);
        let name = format!("number {index}");
        let Ok(drawing) = draw(&file) else {
            assert!(["end 10 0\n", "end 8 0\n"].contains(&bench(&file).as_str()), "{name}");
            continue;
        };
        well_formed(&name, &drawing);
        no_text_over_text(&name, &drawing);
        holds_the_run(&name, &file, &drawing);
    }
}

/// The most that a file can hold: 4,096 events, each with the widest words.
#[test]
fn the_longest_run_is_drawn() {
    let time = [16, 1, 0, 0];
    let step = Event::PStep { word: u32::MAX }.bytes();
    let longest = write_whole(4_096, &NOP, &step.repeat(4_096)).unwrap();
    let clocks = write_whole(4_096, &time, &step.repeat(40)).unwrap();
    for file in [longest, clocks] {
        let drawing = draw(&file).unwrap();
        well_formed("longest", &drawing);
        no_text_over_text("longest", &drawing);
        assert!(drawing.len() < 1_000_000);
    }
}

#[test]
fn the_end_says_which_event_was_refused_and_why() {
    let cases = [
        (
            "pend-waits",
            "Event 4, PEND, is refused with 4 (must wait): a message is not acknowledged.",
        ),
        (
            "third-pstep",
            "Event 3, PSTEP 0, is refused with 3 (out of turn): P's epoch is complete.",
        ),
        ("dead-card", "Event 3, PSTEP 0, is refused with 2 (dead): P has failed."),
        ("full-inbox", "is refused with 6 (inbox full): B's inbox holds 128 messages."),
        ("malformed-event", "is refused with 1 (malformed): no event of document 01."),
        ("case-a", "The run ends here; every event was taken."),
    ];
    for (name, words) in cases {
        let drawing = draw(&example(&format!("{name}.run"))).unwrap();
        assert!(drawing.contains(words), "{name}");
    }
    let empty = draw(&write_whole(2, &NOP, &[]).unwrap()).unwrap();
    assert!(empty.contains("The run has no events."));
    well_formed("no events", &empty);
}

#[test]
fn the_switch_can_be_seen() {
    let drawing = draw(&example("stop-and-switch.run")).unwrap();
    let words = [
        "P stops in epoch 2; B drives the devices from epoch 3 on",
        "STOP",
        "detected",
        "FAILOVER",
        "PROMOTED",
        "Int 2",
        "Tme 10",
        "end 1",
        "epoch 4",
    ];
    for words in words {
        assert!(drawing.contains(&format!(">{words}</text>")), "{words}");
    }
}

#[test]
fn a_bad_file_is_told_what_is_wrong() {
    let run = example("case-a.run");
    let cases: [(&[u8], &str); 8] = [
        (b"", "bad run file: the file is shorter than its header"),
        (&run[..20], "bad run file: the file is shorter than its header"),
        (&run[..run.len() - 1], "bad run file: the bodies do not stand back to back"),
        (&[&[2], &run[1..]].concat(), "bad run file: the form is not 1"),
        (&example("limit-0.run"), "L is 0, and must be 1 to 4096"),
        (&example("bad-program.run"), "instruction 1 of the program is not well formed"),
        (b"L 2\nprogram\n NOPE\nevents\n", "line 3: `NOPE` is no instruction"),
        ("L 2 \u{e9}".as_bytes(), "line 1: the first line is `L` and a number"),
    ];
    for (content, words) in cases {
        let reason = draw(content).unwrap_err();
        assert!(reason.starts_with(words), "{words}: {reason}");
    }
}
