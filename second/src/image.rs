//! "Image, 3,444 bytes": saving, loading, retiring.

use crate::bytes::Source;
use crate::guest::{Guest, MEMORY_WORDS, QUEUE_SLOTS, TABLE_SLOTS};
use crate::instruction::REGISTERS;
use crate::interrupt::{DeviceInterrupt, Interrupt};
use crate::message::Message;
use crate::numbers::{Epoch, Operation};
use crate::pair::{Pair, PhaseB, PhaseP, INBOX_SLOTS, LINK_SLOTS};
use crate::refusal::Refusal;
use crate::sound::{rule, sound, Unsound};

pub const IMAGE_BYTES: usize = 3_444;
const FORM: u8 = 1;
const BUFFER_SLOTS: usize = 16;
const NUMBER_BYTES: usize = 2;
const INTERRUPT_BYTES: usize = 8;
const MESSAGE_BYTES: usize = 12;

/// "Save: 11, then 9." Refused, it writes nothing; taken, it keeps the rest of a longer buffer.
pub fn save(pair: &Pair, buffer: &mut [u8]) -> Result<(), Refusal> {
    sound(pair).map_err(|_| Refusal::Unsound)?;
    let place = buffer.get_mut(..IMAGE_BYTES).ok_or(Refusal::TooShort)?;
    place.copy_from_slice(&image_of(pair));
    Ok(())
}

/// "Load: 10, then 11."
pub fn load(image: &[u8]) -> Result<Pair, Refusal> {
    if image.len() != IMAGE_BYTES {
        return Err(Refusal::BadFile);
    }
    judge(image).map_err(|_| Refusal::Unsound)
}

/// The pair in an image of the right length, or the rule of "Sound" that it breaks.
pub fn judge(image: &[u8]) -> Result<Pair, Unsound> {
    let pair = read_pair(&mut Source::new(image))?;
    sound(&pair)?;
    Ok(pair)
}

/// "Retire: 8, then 9; on both every byte becomes 0." Taken, a fresh pair and then zeros.
pub fn retire(program: &[u8], l: u16, store: &mut [u8]) -> Result<(), Refusal> {
    store.fill(0);
    save(&Pair::fresh(program, l)?, store)
}

fn image_of(pair: &Pair) -> Vec<u8> {
    let mut image = Vec::with_capacity(IMAGE_BYTES);
    write_header(&mut image, pair);
    write_guest(&mut image, &pair.p);
    write_guest(&mut image, &pair.b);
    for buffer in [&pair.buffer_p[..], pair.buffer_b()] {
        write_slots(&mut image, BUFFER_SLOTS, buffer, |entry| {
            interrupt_bytes(Interrupt::Device(*entry))
        });
    }
    write_slots(&mut image, LINK_SLOTS, &pair.link, |message| message_bytes(*message));
    write_slots(&mut image, INBOX_SLOTS, &pair.inbox, |message| message_bytes(*message));
    image
}

/// "Header 20: form 1; P phase (1 running, 2 waiting, 3 failed); B phase (1 following, 2 failover,
/// 3 promoted); detected; then L, N, e_p, e_b, acknowledgements in flight, zero, 2 bytes each; then
/// the clock sent, 4."
fn write_header(image: &mut Vec<u8>, pair: &Pair) {
    let (phase_p, clock_sent) = match pair.phase_p {
        PhaseP::Running => (1, 0),
        PhaseP::Waiting { clock_sent } => (2, clock_sent),
        PhaseP::Failed => (3, 0),
    };
    let phase_b = match pair.phase_b {
        PhaseB::Following => 1,
        PhaseB::Failover => 2,
        PhaseB::Promoted { .. } => 3,
    };
    image.extend([FORM, phase_p, phase_b, u8::from(pair.detected)]);
    for number in [pair.l, pair.n, pair.e_p.0, pair.e_b.0, pair.acknowledgements, 0] {
        image.extend(number.to_le_bytes());
    }
    image.extend(clock_sent.to_le_bytes());
}

/// "pc 2, instructions 2, TIMEs 1, armed 1, last number 2, deadline 4, registers 32, memory 256,
/// table 16×2, queue 17×8"
fn write_guest(image: &mut Vec<u8>, guest: &Guest) {
    image.extend(guest.pc.to_le_bytes());
    image.extend(guest.instructions.to_le_bytes());
    image.extend([guest.times, u8::from(guest.timer.is_some())]);
    image.extend(guest.last_operation.0.to_le_bytes());
    image.extend(guest.timer.unwrap_or(0).to_le_bytes());
    for word in guest.registers.iter().chain(&guest.memory) {
        image.extend(word.to_le_bytes());
    }
    write_slots(image, TABLE_SLOTS, &guest.table, |operation| operation.0.to_le_bytes());
    write_slots(image, QUEUE_SLOTS, &guest.queue, |entry| interrupt_bytes(*entry));
}

/// The list from the front, and zeros in the slots that it does not use.
fn write_slots<T, const SIZE: usize>(
    image: &mut Vec<u8>,
    slots: usize,
    list: &[T],
    bytes: impl Fn(&T) -> [u8; SIZE],
) {
    let end = image.len() + slots * SIZE;
    image.extend(list.iter().flat_map(bytes));
    image.resize(end, 0);
}

/// "(status, 0, operation 2, data 4)"
fn interrupt_bytes(interrupt: Interrupt) -> [u8; INTERRUPT_BYTES] {
    let [o0, o1] = interrupt.operation().0.to_le_bytes();
    let [d0, d1, d2, d3] = interrupt.data().to_le_bytes();
    [interrupt.status(), 0, o0, o1, d0, d1, d2, d3]
}

/// "kind (1 Val, 2 Int, 3 Tme, 4 end), status, epoch 2, operation 2, zero 2, word 4"
fn message_bytes(message: Message) -> [u8; MESSAGE_BYTES] {
    let (kind, status, operation, word) = match message {
        Message::Val { reading, .. } => (1, 0, Operation::NONE, reading),
        Message::Int { interrupt, .. } => {
            (2, interrupt.status(), interrupt.operation, interrupt.data())
        }
        Message::Tme { clock, .. } => (3, 0, Operation::NONE, clock),
        Message::End { .. } => (4, 0, Operation::NONE, 0),
    };
    let [e0, e1] = message.epoch().0.to_le_bytes();
    let [o0, o1] = operation.0.to_le_bytes();
    let [w0, w1, w2, w3] = word.to_le_bytes();
    [kind, status, e0, e1, o0, o1, 0, 0, w0, w1, w2, w3]
}

fn read_pair(image: &mut Source) -> Result<Pair, Unsound> {
    rule(image.u8() == FORM, "form in range")?;
    let code_p = image.u8();
    let code_b = image.u8();
    let detected = read_flag(image.u8())?;
    let [l, n, e_p, e_b, acknowledgements, zero] = std::array::from_fn(|_| image.u16());
    rule(zero == 0, "zero fields 0")?;
    let clock_sent = image.u32();
    let p = read_guest(image)?;
    let b = read_guest(image)?;
    let buffer_p = read_slots(image, BUFFER_SLOTS, INTERRUPT_BYTES, read_buffered)?;
    let buffer_b = read_slots(image, BUFFER_SLOTS, INTERRUPT_BYTES, read_buffered)?;
    let link = read_slots(image, LINK_SLOTS, MESSAGE_BYTES, read_message)?;
    let inbox = read_slots(image, INBOX_SLOTS, MESSAGE_BYTES, read_message)?;
    Ok(Pair {
        l,
        n,
        phase_p: read_phase_p(code_p, clock_sent)?,
        phase_b: read_phase_b(code_b, buffer_b)?,
        detected,
        e_p: Epoch(e_p),
        e_b: Epoch(e_b),
        p,
        b,
        buffer_p,
        link,
        acknowledgements,
        inbox,
    })
}

fn read_flag(byte: u8) -> Result<bool, Unsound> {
    rule(byte <= 1, "flags in range")?;
    Ok(byte == 1)
}

fn read_phase_p(code: u8, clock_sent: u32) -> Result<PhaseP, Unsound> {
    let phase = match code {
        1 => PhaseP::Running,
        2 => return Ok(PhaseP::Waiting { clock_sent }),
        3 => PhaseP::Failed,
        _ => return Err(Unsound("phases in range")),
    };
    rule(clock_sent == 0, "clock sent 0 unless waiting")?;
    Ok(phase)
}

fn read_phase_b(code: u8, buffer: Vec<DeviceInterrupt>) -> Result<PhaseB, Unsound> {
    let phase = match code {
        1 => PhaseB::Following,
        2 => PhaseB::Failover,
        3 => return Ok(PhaseB::Promoted { buffer }),
        _ => return Err(Unsound("phases in range")),
    };
    rule(buffer.is_empty(), "B's buffer empty unless promoted")?;
    Ok(phase)
}

fn read_guest(image: &mut Source) -> Result<Guest, Unsound> {
    let pc = image.u16();
    let instructions = image.u16();
    let times = image.u8();
    let armed = read_flag(image.u8())?;
    let last_operation = Operation(image.u16());
    let deadline = image.u32();
    rule(armed || deadline == 0, "deadline 0 unless armed")?;
    let registers: [u32; REGISTERS] = std::array::from_fn(|_| image.u32());
    let memory: [u32; MEMORY_WORDS] = std::array::from_fn(|_| image.u32());
    let table = read_slots(image, TABLE_SLOTS, NUMBER_BYTES, read_operation)?;
    let queue = read_slots(image, QUEUE_SLOTS, INTERRUPT_BYTES, read_queued)?;
    let timer = armed.then_some(deadline);
    Ok(Guest { pc, instructions, times, timer, last_operation, registers, memory, table, queue })
}

/// "slots filled from the front, the rest zero". A slot is filled if any byte of it is not zero, so
/// that nothing can lie in a slot that no list reaches.
fn read_slots<T>(
    image: &mut Source,
    slots: usize,
    size: usize,
    read: impl Fn(&[u8]) -> Result<T, Unsound>,
) -> Result<Vec<T>, Unsound> {
    let all = image.take(slots * size);
    let filled = |slot: &&[u8]| slot.iter().any(|byte| *byte != 0);
    let list = all.chunks_exact(size).take_while(filled);
    let list = list.map(read).collect::<Result<Vec<T>, Unsound>>()?;
    let rest_is_zero = all[list.len() * size..].iter().all(|byte| *byte == 0);
    rule(rest_is_zero, "slots filled from the front, the rest zero")?;
    Ok(list)
}

fn read_operation(slot: &[u8]) -> Result<Operation, Unsound> {
    Ok(Operation(Source::new(slot).u16()))
}

fn read_interrupt_fields(slot: &[u8]) -> Result<(u8, Operation, u32), Unsound> {
    let mut slot = Source::new(slot);
    let status = slot.u8();
    rule(slot.u8() == 0, "zero fields 0")?;
    Ok((status, Operation(slot.u16()), slot.u32()))
}

fn read_queued(slot: &[u8]) -> Result<Interrupt, Unsound> {
    let (status, operation, data) = read_interrupt_fields(slot)?;
    let words = "queue statuses 1 to 3, uncertain data 0, timer operation 0";
    Interrupt::read(status, operation, data).ok_or(Unsound(words))
}

fn read_buffered(slot: &[u8]) -> Result<DeviceInterrupt, Unsound> {
    let (status, operation, data) = read_interrupt_fields(slot)?;
    let words = "statuses in buffers 1 or 2, uncertain data 0";
    DeviceInterrupt::read(status, operation, data).ok_or(Unsound(words))
}

/// "messages with kind 1 to 4, [..] Ints as in PINT and unused fields 0"
fn read_message(slot: &[u8]) -> Result<Message, Unsound> {
    let mut slot = Source::new(slot);
    let kind = slot.u8();
    let status = slot.u8();
    let epoch = Epoch(slot.u16());
    let operation = Operation(slot.u16());
    rule(slot.u16() == 0, "zero fields 0")?;
    let word = slot.u32();
    if kind == 2 {
        let interrupt = DeviceInterrupt::read(status, operation, word);
        let interrupt = interrupt.ok_or(Unsound("Ints as in PINT"))?;
        return Ok(Message::Int { epoch, interrupt });
    }
    rule((1..=4).contains(&kind), "messages with kind 1 to 4")?;
    rule(status == 0 && operation == Operation::NONE, "messages with unused fields 0")?;
    match kind {
        1 => Ok(Message::Val { epoch, reading: word }),
        3 => Ok(Message::Tme { epoch, clock: word }),
        _ => {
            rule(word == 0, "messages with unused fields 0")?;
            Ok(Message::End { epoch })
        }
    }
}
