//! From text to a run file.

use std::fmt;
use std::str::FromStr;

use crate::event::{Event, EVENT_BYTES};
use crate::instruction::{
    Device, Instruction, Register, DEVICES, INSTRUCTION_BYTES, MOST_INSTRUCTIONS, REGISTERS,
};
use crate::runfile::{write_whole, MOST_EVENT_BYTES};
use crate::text::names::{wrong_line, EVENT_FORMS, INSTRUCTION_FORMS};

#[derive(Clone, Debug, PartialEq, Eq)]
pub struct TextError {
    pub line: usize,
    pub reason: String,
}

impl fmt::Display for TextError {
    fn fmt(&self, out: &mut fmt::Formatter) -> fmt::Result {
        write!(out, "line {}: {}", self.line, self.reason)
    }
}

/// A line that says something: its number, counted from 1, and its words.
struct Line<'a> {
    number: usize,
    words: Vec<&'a str>,
}

impl Line<'_> {
    fn error(&self, reason: String) -> TextError {
        TextError { line: self.number, reason }
    }
}

/// The run file that the text stands for.
pub fn pack(text: &str) -> Result<Vec<u8>, TextError> {
    let lines = lines_of(text);
    let at_the_end = |reason: &str| TextError {
        line: text.lines().count().max(1),
        reason: format!("the text ends before {reason}"),
    };
    let (first, rest) = lines.split_first().ok_or_else(|| at_the_end("the line `L ..`"))?;
    let l = limit(first)?;
    let (second, rest) = rest.split_first().ok_or_else(|| at_the_end("`program`"))?;
    if second.words != ["program"] {
        return Err(second.error("after `L ..` comes the line `program`".to_string()));
    }
    let events_at = rest.iter().position(|line| line.words == ["events"]);
    let events_at = events_at.ok_or_else(|| at_the_end("`events`"))?;
    let program = pack_program(second, &rest[..events_at])?;
    let events = pack_events(&rest[events_at + 1..])?;
    write_whole(l, &program, &events)
        .map_err(|refusal| first.error(format!("no run file can be written: {refusal:?}")))
}

fn lines_of(text: &str) -> Vec<Line<'_>> {
    text.lines()
        .enumerate()
        .map(|(index, line)| {
            let before_comment = line.split('#').next().unwrap_or("");
            Line { number: index + 1, words: before_comment.split_whitespace().collect() }
        })
        .filter(|line| !line.words.is_empty())
        .collect()
}

fn limit(line: &Line) -> Result<u16, TextError> {
    match line.words.as_slice() {
        ["L", value] => number(value).map_err(|reason| line.error(reason)),
        _ => Err(line.error("the first line is `L` and a number, such as `L 2`".to_string())),
    }
}

fn pack_program(section: &Line, lines: &[Line]) -> Result<Vec<u8>, TextError> {
    if lines.is_empty() || lines.len() > MOST_INSTRUCTIONS {
        let reason = format!("a program has 1 to 1,024 instructions, this one {}", lines.len());
        return Err(section.error(reason));
    }
    let n = lines.len() as u16;
    let mut program = Vec::new();
    for line in lines {
        let bytes = instruction(&line.words, n).map_err(|reason| line.error(reason))?;
        program.extend(bytes);
    }
    Ok(program)
}

fn pack_events(lines: &[Line]) -> Result<Vec<u8>, TextError> {
    let mut events = Vec::new();
    for line in lines {
        let bytes = event(&line.words).map_err(|reason| line.error(reason))?;
        events.extend(bytes);
        if events.len() > MOST_EVENT_BYTES {
            return Err(line.error("a run file has at most 4,096 events".to_string()));
        }
    }
    Ok(events)
}

fn instruction(words: &[&str], n: u16) -> Result<[u8; INSTRUCTION_BYTES], String> {
    let r = register;
    let instruction = match *words {
        ["BYTES", ref pairs @ ..] => return hex_bytes(pairs),
        ["NOP"] => Instruction::Nop,
        ["SET", x, value] => Instruction::Set { x: r(x)?, value: number(value)? },
        ["ADD", x, y, z] => Instruction::Add { x: r(x)?, y: r(y)?, z: r(z)? },
        ["SUB", x, y, z] => Instruction::Sub { x: r(x)?, y: r(y)?, z: r(z)? },
        ["DIV", x, y, z] => Instruction::Div { x: r(x)?, y: r(y)?, z: r(z)? },
        ["LOAD", x, y] => Instruction::Load { x: r(x)?, y: r(y)? },
        ["STORE", x, y] => Instruction::Store { x: r(x)?, y: r(y)? },
        ["JZ", x, target] => Instruction::Jz { x: r(x)?, target: jump(target, n)? },
        ["TAKE", x, y, z] => Instruction::Take { x: r(x)?, y: r(y)?, z: r(z)? },
        ["TIME", x] => Instruction::Time { x: r(x)? },
        ["START", x, y, z] => Instruction::Start { x: r(x)?, device: device(y)?, z: r(z)? },
        ["TIMER", x] => Instruction::Timer { x: r(x)? },
        _ => return Err(wrong_line(words, "instruction", INSTRUCTION_FORMS)),
    };
    Ok(instruction.bytes())
}

fn event(words: &[&str]) -> Result<[u8; EVENT_BYTES], String> {
    let event = match *words {
        ["BYTES", ref pairs @ ..] => return hex_bytes(pairs),
        ["PSTEP", word] => Event::PStep { word: number(word)? },
        ["PINT", status, operation, data] => return interrupt(2, [status, operation, data]),
        ["PTIME", word] => Event::PTime { word: number(word)? },
        ["PEND"] => Event::PEnd,
        ["LINK"] => Event::Link,
        ["ACK"] => Event::Ack,
        ["FAIL"] => Event::Fail,
        ["DETECT"] => Event::Detect,
        ["BSTEP", word] => Event::BStep { word: number(word)? },
        ["BEND", word] => Event::BEnd { word: number(word)? },
        ["BINT", status, operation, data] => return interrupt(11, [status, operation, data]),
        _ => return Err(wrong_line(words, "event", EVENT_FORMS)),
    };
    Ok(event.bytes())
}

/// PINT and BINT with fields that 01 allows; a malformed one is written with BYTES.
fn interrupt(kind: u8, fields: [&str; 3]) -> Result<[u8; EVENT_BYTES], String> {
    let status: u8 = number(fields[0])?;
    let operation: u16 = number(fields[1])?;
    let data: u32 = number(fields[2])?;
    let mut bytes = [kind, status, 0, 0, 0, 0, 0, 0];
    bytes[2..4].copy_from_slice(&operation.to_le_bytes());
    bytes[4..8].copy_from_slice(&data.to_le_bytes());
    if Event::read(&bytes).is_none() {
        return Err(
            "an interrupt has status 1 or 2, an operation from 1, and data 0 for status 2; \
             a malformed event is written with BYTES"
                .to_string(),
        );
    }
    Ok(bytes)
}

fn register(word: &str) -> Result<Register, String> {
    let number = word.strip_prefix('r').and_then(|digits| number::<u8>(digits).ok());
    number
        .and_then(Register::new)
        .ok_or_else(|| format!("`{word}` is no register; they are r0 to r{}", REGISTERS - 1))
}

fn device(word: &str) -> Result<Device, String> {
    Device::new(number(word)?)
        .ok_or_else(|| format!("there is no device {word}; they are 0 to {}", DEVICES - 1))
}

fn jump(word: &str, n: u16) -> Result<u16, String> {
    let target = number(word)?;
    if target < n {
        return Ok(target);
    }
    Err(format!(
        "the jump target {target} is not below N = {n}; a bad instruction is written with BYTES"
    ))
}

/// A number in decimal digits that its field can hold.
fn number<T: FromStr>(word: &str) -> Result<T, String> {
    if word.is_empty() || !word.bytes().all(|byte| byte.is_ascii_digit()) {
        return Err(format!("`{word}` is no decimal number"));
    }
    word.parse().map_err(|_| format!("{word} is too large for its field"))
}

fn hex_bytes<const COUNT: usize>(pairs: &[&str]) -> Result<[u8; COUNT], String> {
    let mut bytes = Vec::new();
    for pair in pairs {
        let two_digits = pair.len() == 2 && pair.bytes().all(|byte| byte.is_ascii_hexdigit());
        if !two_digits {
            return Err(format!("`{pair}` is not a byte of two hexadecimal digits"));
        }
        bytes.push(u8::from_str_radix(pair, 16).map_err(|error| error.to_string())?);
    }
    let count = bytes.len();
    bytes.try_into().map_err(|_| format!("BYTES takes {COUNT} bytes here, not {count}"))
}
