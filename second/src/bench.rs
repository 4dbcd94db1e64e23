//! The bench program: a run file in, the record and how it ended out.

use std::fmt::Write;

use crate::pair::Pair;
use crate::refusal::{answer, Refusal};
use crate::runfile::{self, EventReader};
use crate::step::step;

/// "stops at the first refusal, prints a line per record entry (operation, device, word, in
/// decimal) and `end A C`: the refusal or 0, and the events taken. A bad run file gives only
/// `end 10 0`; a bad program or L only `end 8 0`."
pub fn bench(file: &[u8]) -> String {
    let mut lines = String::new();
    let mut taken = 0;
    let outcome = run(file, &mut lines, &mut taken);
    writeln!(lines, "end {} {}", answer(&outcome), taken).expect("a String takes every line");
    lines
}

fn run(file: &[u8], lines: &mut String, taken: &mut usize) -> Result<(), Refusal> {
    let file = runfile::read(file)?;
    let mut pair = Pair::fresh(file.program, file.l)?;
    for event in EventReader::new(&file) {
        if let Some(entry) = step(&mut pair, file.program, event)? {
            let (operation, device) = (entry.operation.0, entry.device.number());
            writeln!(lines, "{operation} {device} {}", entry.word)
                .expect("a String takes every line");
        }
        *taken += 1;
    }
    Ok(())
}
