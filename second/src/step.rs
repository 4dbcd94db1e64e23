//! One event on a pair.

use crate::event::Event;
use crate::guest::RecordEntry;
use crate::instruction::INSTRUCTION_BYTES;
use crate::pair::Pair;
use crate::refusal::Refusal;
use crate::sound::sound;

/// "Order for an event: 1, 11, program length 8, the event's column, bad instruction 8." Each event
/// asks all its questions before it changes anything, so a refusal leaves the pair as it came.
pub fn step(pair: &mut Pair, program: &[u8], event: &[u8]) -> Result<Option<RecordEntry>, Refusal> {
    let event = Event::read(event).ok_or(Refusal::Malformed)?;
    if sound(pair).is_err() {
        return Err(Refusal::Unsound);
    }
    if program.len() != INSTRUCTION_BYTES * usize::from(pair.n) {
        return Err(Refusal::BadProgram);
    }
    match event {
        Event::PStep { word } => return pair.pstep(program, word),
        Event::BStep { word } => return pair.bstep(program, word),
        Event::PInt(interrupt) => pair.pint(interrupt)?,
        Event::PTime { word } => pair.ptime(word)?,
        Event::PEnd => pair.pend()?,
        Event::Link => pair.carry()?,
        Event::Ack => pair.ack()?,
        Event::Fail => pair.fail()?,
        Event::Detect => pair.detect()?,
        Event::BEnd { word } => pair.bend(word)?,
        Event::BInt(interrupt) => pair.bint(interrupt)?,
    }
    Ok(None)
}
