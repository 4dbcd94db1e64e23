//! "Sound": what must hold of a pair before an event, a save or a load is taken.
//!
//! A part of that sentence holds of every `Pair` by its type, and `image` judges it while it reads:
//! form, phases and flags in range; zero fields 0; deadline 0 unless armed; clock sent 0 unless
//! waiting; slots filled from the front, the rest zero; statuses; uncertain data 0; a timer entry
//! has operation 0; message kinds, unused fields of messages 0; B's buffer empty unless promoted.
//! The rest is here.

use crate::guest::{Guest, MOST_TIMES, TABLE_SLOTS};
use crate::instruction::MOST_INSTRUCTIONS;
use crate::interrupt::DeviceInterrupt;
use crate::message::Message;
use crate::numbers::{Epoch, Operation};
use crate::pair::{Pair, PhaseB, PhaseP, INBOX_SLOTS, LINK_SLOTS, LONGEST_EPOCH};

/// The rule that does not hold, in 01's words.
#[derive(Clone, Copy, Debug, PartialEq, Eq)]
pub struct Unsound(pub &'static str);

pub fn rule(holds: bool, words: &'static str) -> Result<(), Unsound> {
    if holds {
        Ok(())
    } else {
        Err(Unsound(words))
    }
}

pub fn sound(pair: &Pair) -> Result<(), Unsound> {
    rule(pair.l >= 1 && pair.l <= LONGEST_EPOCH, "L 1 to 4,096")?;
    rule(pair.n >= 1 && usize::from(pair.n) <= MOST_INSTRUCTIONS, "N 1 to 1,024")?;
    sound_guest(&pair.p, pair)?;
    sound_guest(&pair.b, pair)?;
    sound_buffer(&pair.buffer_p, &pair.p)?;
    sound_buffer(pair.buffer_b(), &pair.b)?;
    sound_messages(&pair.link)?;
    sound_messages(&pair.inbox)?;
    rule(pair.inbox.len() <= INBOX_SLOTS, "inbox 128")?;
    sound_count_of_messages(pair)?;
    sound_phases(pair)
}

fn sound_guest(guest: &Guest, pair: &Pair) -> Result<(), Unsound> {
    rule(guest.pc < pair.n, "pc < N")?;
    rule(guest.instructions <= pair.l, "instructions ≤ L")?;
    rule(guest.times <= MOST_TIMES, "TIMEs ≤ 40")?;
    rule(u16::from(guest.times) <= guest.instructions, "TIMEs ≤ instructions")?;

    // A number twice is not ascending, and no entry is 0.
    let ascending = guest.table.windows(2).all(|two| two[0] < two[1]);
    rule(ascending && !guest.table.contains(&Operation::NONE), "table ascending")?;
    let highest = guest.table.last().copied().unwrap_or(Operation::NONE);
    rule(highest <= guest.last_operation, "table ≤ the last number")?;

    let named = |operation: Operation| operation != Operation::NONE;
    let devices_named =
        guest.queue.iter().all(|entry| entry.is_timer() || named(entry.operation()));
    rule(devices_named, "device entries with operation 1 to 65,535")?;
    let timers = guest.queue.iter().filter(|entry| entry.is_timer()).count();
    rule(timers <= 1, "at most one timer entry")?;
    let held = guest.table.len() + guest.untaken_device_interrupts();
    rule(held <= TABLE_SLOTS, "table plus device entries ≤ 16")
}

/// "each buffered operation in its guest's table, once". The table has at most 16 entries, and so
/// the buffer has.
fn sound_buffer(buffer: &[DeviceInterrupt], guest: &Guest) -> Result<(), Unsound> {
    let times_buffered =
        |operation: Operation| buffer.iter().filter(|other| other.operation == operation).count();
    let known = buffer.iter().all(|entry| guest.table.contains(&entry.operation));
    rule(known, "each buffered operation in its guest's table")?;
    let once = buffer.iter().all(|entry| times_buffered(entry.operation) == 1);
    rule(once, "each buffered operation once")
}

/// "epoch 1 to 65,535, Ints as in PINT". Neither the order of messages nor a tie of their epochs to
/// e_p or e_b is asked for.
fn sound_messages(messages: &[Message]) -> Result<(), Unsound> {
    let epochs = messages.iter().all(|message| message.epoch() != Epoch(0));
    rule(epochs, "messages with epoch 1 to 65,535")?;
    let as_in_pint = messages.iter().all(|message| match message {
        Message::Int { interrupt, .. } => interrupt.operation != Operation::NONE,
        _ => true,
    });
    rule(as_in_pint, "Ints as in PINT")
}

/// "messages on the link plus acknowledgements in flight ≤ 1 + P's TIMEs + P's buffered + (1 if
/// waiting or failed), and 58"
fn sound_count_of_messages(pair: &Pair) -> Result<(), Unsound> {
    let of_the_boundary = match pair.phase_p {
        PhaseP::Running => 0,
        PhaseP::Waiting { .. } | PhaseP::Failed => 1,
    };
    let bound = 1 + usize::from(pair.p.times) + pair.buffer_p.len() + of_the_boundary;
    rule(pair.unacknowledged() <= bound, "messages unacknowledged")?;
    rule(pair.unacknowledged() <= LINK_SLOTS, "58 messages unacknowledged")
}

fn sound_phases(pair: &Pair) -> Result<(), Unsound> {
    let following = pair.phase_b == PhaseB::Following;
    let waiting = matches!(pair.phase_p, PhaseP::Waiting { .. });
    let not_begun = following && pair.b.instructions == 0;
    rule(pair.e_p != Epoch(0), "e_p 1 to 65,535")?;
    rule(pair.e_b != Epoch(0) || not_begun, "e_b 0 only while following, no instructions done")?;
    rule(!waiting || pair.p.complete(pair.l), "waiting only when complete")?;
    rule(!pair.detected || pair.phase_p == PhaseP::Failed, "detected only when failed")?;
    rule(following || pair.detected, "failover and promoted only when detected")
}
