//! `../desk`, the script that stands before this program: what it writes, and how it ends.

use std::fs::{self, File};
use std::path::PathBuf;
use std::process::{Command, Output, Stdio};

fn at_the_top(path: &str) -> PathBuf {
    PathBuf::from(env!("CARGO_MANIFEST_DIR")).join("..").join(path)
}

/// The script with some words, called from another folder; `None` where there is no Python.
fn desk(words: &[&str], output: Stdio) -> Option<Output> {
    let mut command = Command::new("python3");
    command.arg(at_the_top("desk")).args(words).current_dir(at_the_top("examples"));
    command.stdin(Stdio::null()).stdout(output).stderr(Stdio::piped());
    command.spawn().ok().map(|child| child.wait_with_output().unwrap())
}

#[test]
fn it_writes_what_this_program_writes() {
    let cases = [
        (&["draw", "stop-and-switch.run"][..], "docs/stop-and-switch.svg"),
        (&["draw", "stop-and-switch.txt"], "docs/stop-and-switch.svg"),
        (&["pack", "case-a.txt"], "examples/case-a.run"),
    ];
    for (words, expected) in cases {
        let Some(done) = desk(words, Stdio::piped()) else { return };
        assert_eq!(done.status.code(), Some(0), "{words:?}: {:?}", done.stderr);
        assert!(done.stdout == fs::read(at_the_top(expected)).unwrap(), "{words:?}");
        assert_eq!(String::from_utf8_lossy(&done.stderr), "", "{words:?}");
    }
}

#[test]
fn alone_it_lists_its_commands() {
    let Some(done) = desk(&[], Stdio::piped()) else { return };
    assert_eq!(done.status.code(), Some(0));
    let lines = String::from_utf8(done.stdout).unwrap();
    for name in ["draw", "text", "pack"] {
        assert!(lines.lines().any(|line| line.starts_with(&format!("./desk {name} "))), "{name}");
    }
}

#[test]
fn it_says_what_is_wrong() {
    let cases: [(&[&str], i32, &str); 7] = [
        (&["draw", "limit-0.run"], 1, "limit-0.run: L is 0"),
        (&["text", "case-a.txt"], 1, "case-a.txt: bad run file"),
        (&["pack", "case-a.run"], 1, "case-a.run: "),
        (&["draw", "nowhere.run"], 2, "there is no file nowhere.run"),
        (&["text", "."], 2, ". is a folder"),
        (&["text"], 2, "text takes one file, not 0"),
        (&["paint", "case-a.run"], 2, "there is no command paint"),
    ];
    for (words, status, reason) in cases {
        let Some(done) = desk(words, Stdio::piped()) else { return };
        let told = String::from_utf8_lossy(&done.stderr).to_string();
        assert_eq!(done.status.code(), Some(status), "{words:?}: {told}");
        assert!(told.starts_with(&format!("desk: {reason}")), "{words:?}: {told}");
        assert!(done.stdout.is_empty(), "{words:?}");
    }
}

/// Output that cannot be written is never lost without a word.
#[test]
fn a_full_output_is_an_error() {
    for words in [&["text", "case-a.run"][..], &["pack", "case-a.txt"], &[]] {
        let Ok(full) = File::options().write(true).open("/dev/full") else { return };
        let Some(done) = desk(words, Stdio::from(full)) else { return };
        assert_eq!(done.status.code(), Some(2), "{words:?}");
        assert!(String::from_utf8_lossy(&done.stderr).contains("could not be written"));
    }
}
