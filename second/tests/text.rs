//! The text form: there and back, errors that name the line, and the directory of examples.

use std::fs;
use std::path::Path;

use second::bench::bench;
use second::check::check_text;
use second::generate::random::Random;
use second::generate::runs::run_file;
use second::runfile::write_whole;
use second::text::{pack, unpack};

const EVERYTHING: &str = "# all names
L 4097

program
  NOP
  SET r1 65535
  ADD r1 r2 r3
  SUB r1 r2 r3   # a comment
  DIV r1 r2 r3
  LOAD r1 r2
  STORE r1 r2
  JZ r4 13
  TAKE r4 r5 r6
  TIME r1
  START r1 2 r3
  TIMER r7
  BYTES ff 00 01 fE
  JZ r0 0

events
  PSTEP 4294967295
  PINT 1 1 9
  PINT 2 65535 0
  PTIME 1
  PEND
  LINK
  ACK
  FAIL
  DETECT
  BSTEP 2
  BEND 3
  BINT 1 2 3
  BYTES 00 01 02 03 04 05 06 07
";

#[test]
fn every_name_goes_there_and_back() {
    let file = pack(EVERYTHING).unwrap();
    assert_eq!(file.len(), 28 + 14 * 4 + 13 * 8);
    let text = unpack(&file).unwrap();
    assert_eq!(pack(&text).unwrap(), file);
    let words = |text: &str| -> Vec<String> {
        let uncommented = text.lines().map(|line| line.split('#').next().unwrap_or(""));
        uncommented.flat_map(str::split_whitespace).map(str::to_lowercase).collect()
    };
    assert_eq!(words(&text), words(EVERYTHING));
}

#[test]
fn good_files_go_there_and_back() {
    let random = &mut Random::new(9, 0);
    for index in 0..300 {
        check_text(&run_file(random, index)).unwrap();
    }
    for _ in 0..300 {
        let program_length = 4 * random.between(1, 30);
        let events_length = 8 * random.between(0, 30);
        let (program, events) = (random.bytes(program_length), random.bytes(events_length));
        check_text(&write_whole(random.u16(), &program, &events).unwrap()).unwrap();
    }
}

#[test]
fn errors_name_the_line_and_the_reason() {
    let cases = [
        ("", 1, "the text ends before the line `L ..`"),
        ("L 2", 1, "the text ends before `program`"),
        ("L 2\nprogram\nNOP\n", 3, "the text ends before `events`"),
        ("program", 1, "the first line is `L`"),
        ("L 65536\nprogram\nNOP\nevents", 1, "65536 is too large"),
        ("L 2\nevents", 2, "after `L ..` comes the line `program`"),
        ("L 2\n\nprogram\nevents", 3, "1 to 1,024 instructions"),
        ("L 2\nprogram\n# why\n NOPE\nevents", 4, "`NOPE` is no instruction"),
        ("L 2\nprogram\nSET r1\nevents", 3, "it is written `SET r1 7`"),
        ("L 2\nprogram\nSET r8 1\nevents", 3, "`r8` is no register"),
        ("L 2\nprogram\nSET 1 1\nevents", 3, "`1` is no register"),
        ("L 2\nprogram\nSTART r1 4 r1\nevents", 3, "there is no device 4"),
        ("L 2\nprogram\nJZ r1 1\nevents", 3, "not below N = 1"),
        ("L 2\nprogram\nBYTES 00 01\nevents", 3, "BYTES takes 4 bytes here, not 2"),
        ("L 2\nprogram\nBYTES 0 01 02 03\nevents", 3, "`0` is not a byte"),
        ("L 2\nprogram\nNOP\nevents\nPSTEP", 5, "it is written `PSTEP 0`"),
        ("L 2\nprogram\nNOP\nevents\nPSTEP -1", 5, "`-1` is no decimal number"),
        ("L 2\nprogram\nNOP\nevents\nPINT 3 1 0", 5, "status 1 or 2"),
        ("L 2\nprogram\nNOP\nevents\nBINT 2 1 1", 5, "data 0 for status 2"),
        ("L 2\nprogram\nNOP\nevents\nSTOP", 5, "`STOP` is no event"),
    ];
    for (text, line, reason) in cases {
        let error = pack(text).unwrap_err();
        assert_eq!(error.line, line, "{text:?}");
        assert!(error.reason.contains(reason), "{text:?}: {}", error.reason);
    }
    let many = "PEND\n".repeat(4_097);
    let error = pack(&format!("L 2\nprogram\nNOP\nevents\n{many}")).unwrap_err();
    assert_eq!(error.line, 4 + 4_097);
}

/// Each text of the examples is the run file beside it, and the bench prints what stands beside it.
#[test]
fn the_examples_are_what_they_say() {
    let directory = Path::new(env!("CARGO_MANIFEST_DIR")).join("../examples");
    let mut seen = 0;
    for entry in fs::read_dir(directory).unwrap() {
        let path = entry.unwrap().path();
        if path.extension().is_none_or(|ending| ending != "txt") {
            continue;
        }
        let text = fs::read_to_string(&path).unwrap();
        let file = fs::read(path.with_extension("run")).unwrap();
        assert_eq!(pack(&text).unwrap(), file, "{}", path.display());
        assert_eq!(bench(&file), fs::read_to_string(path.with_extension("out")).unwrap());
        seen += 1;
    }
    assert!(seen >= 20);
}
