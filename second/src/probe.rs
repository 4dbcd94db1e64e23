//! The probe: stored forms and single events, one request in, one line out (PROBE.md).

use std::io::{self, Read, Write};

use crate::bytes::Source;
use crate::image;
use crate::pair::Pair;
use crate::refusal::{answer, Refusal};
use crate::runfile;
use crate::step::step;

pub const REQUEST_HEADER_BYTES: usize = 16;
/// "A part has at most 40,000 bytes."
pub const LONGEST_PART: usize = 40_000;
/// "After 65,536 requests it ends too."
const MOST_REQUESTS: usize = 65_536;

#[derive(Clone, Copy, Debug, PartialEq, Eq)]
pub enum Kind {
    Load = 1,
    Step = 2,
    Retire = 3,
    Write = 4,
    Read = 5,
    Save = 6,
}

pub const KINDS: [Kind; 6] =
    [Kind::Load, Kind::Step, Kind::Retire, Kind::Write, Kind::Read, Kind::Save];

pub struct Request {
    pub kind: Kind,
    pub l: u16,
    pub a: Vec<u8>,
    pub b: Vec<u8>,
    pub c: Vec<u8>,
}

enum Next {
    Request(Request),
    /// "A kind that is not listed, a byte 1 that is not zero, a longer part, or an input that ends
    /// inside a request"
    Bad,
    End,
}

/// "it reads requests on standard input until the input ends, and writes one line for each"
pub fn probe(input: &mut impl Read, output: &mut impl Write) -> io::Result<()> {
    for _ in 0..MOST_REQUESTS {
        match next_request(input)? {
            Next::Request(request) => writeln!(output, "{}", line(request))?,
            Next::Bad => return writeln!(output, "bad"),
            Next::End => return Ok(()),
        }
    }
    Ok(())
}

fn next_request(input: &mut impl Read) -> io::Result<Next> {
    let header = read_up_to(input, REQUEST_HEADER_BYTES)?;
    if header.is_empty() {
        return Ok(Next::End);
    }
    if header.len() < REQUEST_HEADER_BYTES {
        return Ok(Next::Bad);
    }
    let mut header = Source::new(&header);
    let code = header.u8();
    let zero = header.u8();
    let l = header.u16();
    let lengths: [usize; 3] = std::array::from_fn(|_| header.u32() as usize);
    let kind = KINDS.into_iter().find(|kind| *kind as u8 == code);
    let short_enough = lengths.iter().all(|length| *length <= LONGEST_PART);
    let Some(kind) = kind.filter(|_| zero == 0 && short_enough) else {
        return Ok(Next::Bad);
    };
    let mut parts = Vec::new();
    for length in lengths {
        let part = read_up_to(input, length)?;
        if part.len() < length {
            return Ok(Next::Bad);
        }
        parts.push(part);
    }
    let [a, b, c] = <[Vec<u8>; 3]>::try_from(parts).expect("three lengths give three parts");
    Ok(Next::Request(Request { kind, l, a, b, c }))
}

/// So many bytes, or fewer where the input ends.
fn read_up_to(input: &mut impl Read, count: usize) -> io::Result<Vec<u8>> {
    let mut bytes = Vec::with_capacity(count);
    input.by_ref().take(count as u64).read_to_end(&mut bytes)?;
    Ok(bytes)
}

/// The line that answers a request.
pub fn line(request: Request) -> String {
    let Request { kind, l, a, b, mut c } = request;
    match kind {
        Kind::Load => match image::load(&a) {
            Ok(pair) => format!("1 0 {}", hex(&saved(&pair))),
            Err(refusal) => format!("1 {}", refusal as u8),
        },
        Kind::Step => match image::load(&a) {
            Ok(pair) => step_line(pair, &b, &c),
            Err(refusal) => format!("2 {}", refusal as u8),
        },
        Kind::Retire => {
            let mut store = b;
            let outcome = image::retire(&a, l, &mut store);
            format!("3 {} {}", answer(&outcome), hex(&store))
        }
        Kind::Write => {
            let outcome = runfile::write(l, &a, &b, &mut c);
            format!("4 {} {}", answer(&outcome), hex(&c))
        }
        Kind::Read => match runfile::read(&a) {
            Ok(file) => format!("5 0 {} {} {}", file.l, hex(file.program), hex(file.events)),
            Err(refusal) => format!("5 {}", refusal as u8),
        },
        Kind::Save => match image::load(&a) {
            Ok(pair) => save_line(&pair, c),
            Err(refusal) => format!("6 {}", refusal as u8),
        },
    }
}

/// "its answer, its record entry in decimal (0 0 0 where there is none) and the pair then held"
fn step_line(mut pair: Pair, program: &[u8], event: &[u8]) -> String {
    let outcome = step(&mut pair, program, event);
    let entry = match outcome {
        Ok(Some(entry)) => {
            format!("{} {} {}", entry.operation.0, entry.device.number(), entry.word)
        }
        Ok(None) | Err(_) => "0 0 0".to_string(),
    };
    format!("2 {} {entry} {}", answer(&outcome), hex(&saved(&pair)))
}

fn save_line(pair: &Pair, mut buffer: Vec<u8>) -> String {
    let outcome: Result<(), Refusal> = image::save(pair, &mut buffer);
    format!("6 {} {}", answer(&outcome), hex(&buffer))
}

/// The image of a pair that was loaded, or that an event on such a pair made: it is sound.
pub fn saved(pair: &Pair) -> Vec<u8> {
    let mut image = vec![0; image::IMAGE_BYTES];
    image::save(pair, &mut image).expect("every event keeps a sound pair sound");
    image
}

/// "two lower-case digits a byte, and a single `-` for no bytes"
fn hex(bytes: &[u8]) -> String {
    if bytes.is_empty() {
        return "-".to_string();
    }
    let digits = bytes.iter().flat_map(|byte| [byte >> 4, byte & 15]);
    digits.map(|digit| char::from(b"0123456789abcdef"[usize::from(digit)])).collect()
}
