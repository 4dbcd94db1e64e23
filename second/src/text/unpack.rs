//! From a run file to text.

use std::fmt::Write;

use crate::event::Event;
use crate::instruction::{Instruction, Register, INSTRUCTION_BYTES};
use crate::interrupt::DeviceInterrupt;
use crate::runfile::{self, EventReader, Reason};

/// Where the comments with the place of an instruction stand.
const COMMENT_COLUMN: usize = 24;

/// The text of a good run file, or why the file is bad. Packed, it gives the same bytes again.
pub fn unpack(file: &[u8]) -> Result<String, Reason> {
    let file = runfile::judge(file)?;
    let n = (file.program.len() / INSTRUCTION_BYTES) as u16;
    let mut text = format!("L {}\n\nprogram\n", file.l);
    for (place, bytes) in file.program.chunks_exact(INSTRUCTION_BYTES).enumerate() {
        let line = format!("  {}", instruction_line(bytes, n));
        writeln!(text, "{line:COMMENT_COLUMN$}# {place}").expect("a String takes every line");
    }
    text.push_str("\nevents\n");
    for bytes in EventReader::new(&file) {
        text.push_str(&format!("  {}\n", event_line(bytes)));
    }
    Ok(text)
}

fn instruction_line(bytes: &[u8], n: u16) -> String {
    let Some(instruction) = Instruction::at(bytes, 0, n) else {
        return bytes_line(bytes);
    };
    let r = |register: Register| format!("r{}", register.index());
    match instruction {
        Instruction::Nop => "NOP".to_string(),
        Instruction::Set { x, value } => format!("SET {} {value}", r(x)),
        Instruction::Add { x, y, z } => format!("ADD {} {} {}", r(x), r(y), r(z)),
        Instruction::Sub { x, y, z } => format!("SUB {} {} {}", r(x), r(y), r(z)),
        Instruction::Div { x, y, z } => format!("DIV {} {} {}", r(x), r(y), r(z)),
        Instruction::Load { x, y } => format!("LOAD {} {}", r(x), r(y)),
        Instruction::Store { x, y } => format!("STORE {} {}", r(x), r(y)),
        Instruction::Jz { x, target } => format!("JZ {} {target}", r(x)),
        Instruction::Take { x, y, z } => format!("TAKE {} {} {}", r(x), r(y), r(z)),
        Instruction::Time { x } => format!("TIME {}", r(x)),
        Instruction::Start { x, device, z } => {
            format!("START {} {} {}", r(x), device.number(), r(z))
        }
        Instruction::Timer { x } => format!("TIMER {}", r(x)),
    }
}

/// An event as a line of the text, without the room before it.
pub fn event_line(bytes: &[u8]) -> String {
    let Some(event) = Event::read(bytes) else {
        return bytes_line(bytes);
    };
    match event {
        Event::PStep { word } => format!("PSTEP {word}"),
        Event::PInt(interrupt) => format!("PINT {}", interrupt_fields(interrupt)),
        Event::PTime { word } => format!("PTIME {word}"),
        Event::PEnd => "PEND".to_string(),
        Event::Link => "LINK".to_string(),
        Event::Ack => "ACK".to_string(),
        Event::Fail => "FAIL".to_string(),
        Event::Detect => "DETECT".to_string(),
        Event::BStep { word } => format!("BSTEP {word}"),
        Event::BEnd { word } => format!("BEND {word}"),
        Event::BInt(interrupt) => format!("BINT {}", interrupt_fields(interrupt)),
    }
}

fn interrupt_fields(interrupt: DeviceInterrupt) -> String {
    format!("{} {} {}", interrupt.status(), interrupt.operation.0, interrupt.data())
}

fn bytes_line(bytes: &[u8]) -> String {
    let pairs: Vec<String> = bytes.iter().map(|byte| format!("{byte:02x}")).collect();
    format!("BYTES {}", pairs.join(" "))
}
