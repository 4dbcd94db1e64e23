//! The subcommands of `second`.

use std::collections::BTreeMap;
use std::fs;
use std::io::{self, BufReader, BufWriter, Read, Write};
use std::path::Path;
use std::process::ExitCode;

use second::check::Tried;
use second::runfile::LONGEST_FILE;
use second::{bench, check, draw, generate, probe, text};

/// A text of the longest run file with room for comments.
const LONGEST_TEXT: usize = 1 << 20;

const USAGE: &str = "usage:
  second bench < FILE.run
  second probe < FILE.req
  second generate runs|requests|limit SEED COUNT DIR
  second text pack [FILE.txt] > FILE.run
  second text unpack [FILE.run] > FILE.txt
  second draw < FILE.run > FILE.svg
  second check SEED COUNT";

fn main() -> ExitCode {
    let words: Vec<String> = std::env::args().skip(1).collect();
    let words: Vec<&str> = words.iter().map(String::as_str).collect();
    match run(&words) {
        Ok(()) => ExitCode::SUCCESS,
        Err(reason) => {
            eprintln!("{reason}");
            ExitCode::FAILURE
        }
    }
}

fn run(words: &[&str]) -> Result<(), String> {
    match *words {
        ["bench"] => print_out(bench::bench(&read_input(LONGEST_FILE)?).as_bytes()),
        ["probe"] => run_probe().map_err(|error| error.to_string()),
        ["draw"] => print_out(draw::draw(&read_content()?)?.as_bytes()),
        ["generate", kind, seed, count, directory] => {
            generate::generate(kind, number(seed)?, number(count)? as usize, Path::new(directory))
        }
        ["text", way @ ("pack" | "unpack")] => print_out(&turn(way, &read_content()?)?),
        ["text", way @ ("pack" | "unpack"), file] => {
            let turned = turn(way, &read_file(file)?);
            print_out(&turned.map_err(|reason| format!("{file}: {reason}"))?)
        }
        ["check", seed, count] => run_check(number(seed)?, number(count)? as usize),
        _ => Err(USAGE.to_string()),
    }
}

/// Text to run file, or back.
fn turn(way: &str, content: &[u8]) -> Result<Vec<u8>, String> {
    if way == "pack" {
        let content = std::str::from_utf8(content).map_err(|_| "not UTF-8 text")?;
        return text::pack(content).map_err(|error| error.to_string());
    }
    let text = text::unpack(content).map_err(|reason| format!("bad run file: {reason}"))?;
    Ok(text.into_bytes())
}

fn run_probe() -> io::Result<()> {
    let mut output = BufWriter::new(io::stdout().lock());
    probe::probe(&mut BufReader::new(io::stdin().lock()), &mut output)?;
    output.flush()
}

/// Says how often each kind of event got each answer, so that a reader sees what was reached.
fn run_check(seed: u64, count: usize) -> Result<(), String> {
    let tried = check::check(seed, count)?;
    let mut kinds: BTreeMap<u8, Vec<String>> = BTreeMap::new();
    for ((kind, answer), times) in &tried.answers {
        kinds.entry(*kind).or_default().push(format!("{answer} × {times}"));
    }
    let mut lines = String::from("kind: answer × times\n");
    for (kind, cells) in kinds {
        lines.push_str(&format!("{kind}: {}\n", cells.join(", ")));
    }
    let Tried { runs, promoted, lone_steps, .. } = tried;
    lines.push_str(&format!(
        "lone card: {runs} records, {promoted} past a promotion, {lone_steps} steps\n"
    ));
    lines.push_str(&format!("{count} runs checked, nothing wrong\n"));
    print_out(lines.as_bytes())
}

fn number(word: &str) -> Result<u64, String> {
    word.parse().map_err(|_| format!("`{word}` is not a number\n{USAGE}"))
}

fn read_file(path: &str) -> Result<Vec<u8>, String> {
    fs::read(path).map_err(|error| format!("{path}: {error}"))
}

/// A run file, or the text of one, on standard input.
fn read_content() -> Result<Vec<u8>, String> {
    let content = read_input(LONGEST_TEXT)?;
    if content.len() > LONGEST_TEXT {
        return Err(format!("longer than {LONGEST_TEXT} bytes: no run file, and no text of one"));
    }
    Ok(content)
}

/// Standard input. One byte beyond the longest is enough to see that it is too long.
fn read_input(longest: usize) -> Result<Vec<u8>, String> {
    let mut content = Vec::new();
    let mut input = io::stdin().lock().take(longest as u64 + 1);
    input.read_to_end(&mut content).map_err(|error| format!("standard input: {error}"))?;
    Ok(content)
}

/// Flushed here, where an output that is full or closed can still be told.
fn print_out(bytes: &[u8]) -> Result<(), String> {
    let mut output = io::stdout().lock();
    let written = output.write_all(bytes).and_then(|()| output.flush());
    written.map_err(|error| format!("standard output: {error}"))
}
