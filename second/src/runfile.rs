//! "Run file": form, entry count, L; contents; the program and the events, back to back.

use crate::bytes::Source;
use crate::event::EVENT_BYTES;
use crate::instruction::{INSTRUCTION_BYTES, MOST_INSTRUCTIONS};
use crate::refusal::Refusal;

pub const HEADER_BYTES: usize = 28;
pub const MOST_PROGRAM_BYTES: usize = MOST_INSTRUCTIONS * INSTRUCTION_BYTES;
pub const MOST_EVENT_BYTES: usize = 32_768;
pub const LONGEST_FILE: usize = HEADER_BYTES + MOST_PROGRAM_BYTES + MOST_EVENT_BYTES;
const FORM: u8 = 1;
const ENTRIES: u8 = 2;
const TAG_PROGRAM: u32 = 1;
const TAG_EVENTS: u32 = 2;

/// A good run file. L, the instructions and the events themselves are not judged here.
#[derive(Clone, Copy, Debug, PartialEq, Eq)]
pub struct RunFile<'a> {
    pub l: u16,
    pub program: &'a [u8],
    pub events: &'a [u8],
}

const BACK_TO_BACK: &str = "the bodies do not stand back to back from byte 28 to the end";
const PROGRAM_LENGTH: &str = "the program is not 4 to 4,096 bytes in fours";
const EVENTS_LENGTH: &str = "the events are not 0 to 32,768 bytes in eights";

/// A rule of the run file that does not hold, for the person at the bench.
pub type Reason = &'static str;

fn rule(holds: bool, otherwise: Reason) -> Result<(), Reason> {
    if holds {
        Ok(())
    } else {
        Err(otherwise)
    }
}

/// "Program 4 to 4,096 bytes in fours, events 0 to 32,768 in eights."
fn judge_lengths(program: usize, events: usize) -> Result<(), Reason> {
    let whole_instructions = program % INSTRUCTION_BYTES == 0;
    let program_in_range = (INSTRUCTION_BYTES..=MOST_PROGRAM_BYTES).contains(&program);
    let whole_events = events % EVENT_BYTES == 0;
    rule(whole_instructions && program_in_range, PROGRAM_LENGTH)?;
    rule(whole_events && events <= MOST_EVENT_BYTES, EVENTS_LENGTH)
}

/// An entry of the contents. The numbers are held wide, so that no sum of them wraps.
struct Entry {
    tag: u32,
    offset: u64,
    length: u64,
}

impl Entry {
    fn read(source: &mut Source) -> Entry {
        Entry { tag: source.u32(), offset: source.u32().into(), length: source.u32().into() }
    }

    fn end(&self) -> u64 {
        self.offset + self.length
    }
}

/// The parts of a good run file; 10 for any other bytes.
pub fn read(file: &[u8]) -> Result<RunFile<'_>, Refusal> {
    judge(file).map_err(|_| Refusal::BadFile)
}

/// The parts of a good run file, or the first rule that does not hold.
pub fn judge(file: &[u8]) -> Result<RunFile<'_>, Reason> {
    let header = file.get(..HEADER_BYTES).ok_or("the file is shorter than its header")?;
    let mut header = Source::new(header);
    rule(header.u8() == FORM, "the form is not 1")?;
    rule(header.u8() == ENTRIES, "the entry count is not 2")?;
    let l = header.u16();
    let program = Entry::read(&mut header);
    let events = Entry::read(&mut header);
    rule(program.tag == TAG_PROGRAM, "the first tag is not 1 (program)")?;
    rule(events.tag == TAG_EVENTS, "the second tag is not 2 (events)")?;
    rule(program.offset == HEADER_BYTES as u64, BACK_TO_BACK)?;
    rule(events.offset == program.end(), BACK_TO_BACK)?;
    rule(events.end() == file.len() as u64, BACK_TO_BACK)?; // "nothing after"

    // Back to back up to the end of the file, both bodies lie inside it.
    let (program, events) = file[HEADER_BYTES..].split_at(program.length as usize);
    judge_lengths(program.len(), events.len())?;
    Ok(RunFile { l, program, events })
}

/// "Writing one: 10 for a length that breaks these rules, then 9." L and the contents are written
/// as they are; the rest of a longer buffer is kept.
pub fn write(l: u16, program: &[u8], events: &[u8], buffer: &mut [u8]) -> Result<(), Refusal> {
    judge_lengths(program.len(), events.len()).map_err(|_| Refusal::BadFile)?;
    let file = bytes_of(l, program, events);
    let place = buffer.get_mut(..file.len()).ok_or(Refusal::TooShort)?;
    place.copy_from_slice(&file);
    Ok(())
}

fn bytes_of(l: u16, program: &[u8], events: &[u8]) -> Vec<u8> {
    let program_end = HEADER_BYTES + program.len();
    let mut file = vec![FORM, ENTRIES];
    file.extend(l.to_le_bytes());
    let contents = [
        [TAG_PROGRAM as usize, HEADER_BYTES, program.len()],
        [TAG_EVENTS as usize, program_end, events.len()],
    ];
    for number in contents.concat() {
        file.extend((number as u32).to_le_bytes());
    }
    file.extend(program);
    file.extend(events);
    file
}

/// A run file in a buffer of just its length; 10 as for `write`.
pub fn write_whole(l: u16, program: &[u8], events: &[u8]) -> Result<Vec<u8>, Refusal> {
    let mut file = vec![0; HEADER_BYTES + program.len() + events.len()];
    write(l, program, events, &mut file)?;
    Ok(file)
}

/// "It is read through a reader over the run file that remembers its place."
pub struct EventReader<'a> {
    events: &'a [u8],
    place: usize,
}

impl<'a> EventReader<'a> {
    pub fn new(file: &RunFile<'a>) -> EventReader<'a> {
        EventReader { events: file.events, place: 0 }
    }
}

impl<'a> Iterator for EventReader<'a> {
    type Item = &'a [u8];

    fn next(&mut self) -> Option<&'a [u8]> {
        let event = self.events.get(self.place..self.place + EVENT_BYTES)?;
        self.place += EVENT_BYTES;
        Some(event)
    }
}
