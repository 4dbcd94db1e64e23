//! Run files that break one of the run file rules.

use crate::generate::random::Random;
use crate::runfile::{HEADER_BYTES, LONGEST_FILE, MOST_EVENT_BYTES, MOST_PROGRAM_BYTES};

/// Where the six numbers of the contents stand: tag, offset, length, twice.
const CONTENTS: [usize; 6] = [4, 8, 12, 16, 20, 24];

/// How many kinds of damage `damaged` knows.
pub const KINDS_OF_DAMAGE: usize = 13;

/// A good file with one kind of damage. `file` has a program and at least one event.
pub fn damaged(random: &mut Random, kind: usize, mut file: Vec<u8>) -> Vec<u8> {
    match kind {
        0 => file[0] = random.pick(&[0, 2, 255]),
        1 => file[1] = random.pick(&[0, 1, 3, 255]),
        2 => number_replaced(random, &mut file),
        3 => file.truncate(random.below(file.len())),
        4 => file.truncate(random.below(HEADER_BYTES + 1)),
        5 => {
            let count = random.pick(&[1, 4, 8, 100]);
            let more = random.bytes(count);
            file.extend(more);
        }
        6 => file.resize(LONGEST_FILE + random.pick(&[1, 8, 3_000]), 0),
        7 => return wrong_lengths(random),
        8 => return entries_exchanged(random),
        9 => return gap_between_bodies(random),
        10 => return wrapping_sums(random),
        11 => {
            let count = random.pick(&[0, 1, 3, 27, 28, 29, 40, 500]);
            return random.bytes(count);
        }
        _ => {
            let place = random.below(HEADER_BYTES.min(file.len()));
            file[place] ^= 1 << random.below(8);
        }
    }
    file
}

/// One number of the contents replaced by one beside it, or by one near 2^32, where sums wrap.
fn number_replaced(random: &mut Random, file: &mut [u8]) {
    let place = random.pick(&CONTENTS);
    let bytes: [u8; 4] = std::array::from_fn(|index| file[place + index]);
    let old = u32::from_le_bytes(bytes);
    let replacement = match random.below(6) {
        0 => old.wrapping_add(1),
        1 => old.wrapping_sub(1),
        2 => old.wrapping_add(random.pick(&[4, 8, 12])),
        3 => old.wrapping_sub(random.pick(&[4, 8, 12])),
        4 => u32::MAX - random.below(64) as u32,
        _ => random.pick(&[0, 0x8000_0000, old ^ 0x0001_0000, old ^ 0x8000_0000]),
    };
    file[place..place + 4].copy_from_slice(&replacement.to_le_bytes());
}

/// A file whose contents agree with its bodies, whatever their order and place.
fn file_of(head: [u8; 4], contents: [usize; 6], bodies: Vec<u8>) -> Vec<u8> {
    let mut file = head.to_vec();
    for number in contents {
        file.extend((number as u32).to_le_bytes());
    }
    file.extend(bodies);
    file
}

/// Consistent, but with a length that the rules do not allow.
fn wrong_lengths(random: &mut Random) -> Vec<u8> {
    let (program, events) = random.pick(&[
        (0, 0),
        (0, 8),
        (1, 0),
        (3, 8),
        (5, 8),
        (6, 16),
        (MOST_PROGRAM_BYTES + 4, 8),
        (MOST_PROGRAM_BYTES + 1, 0),
        (4, 1),
        (4, 7),
        (8, 12),
        (4, MOST_EVENT_BYTES + 8),
        (MOST_PROGRAM_BYTES, MOST_EVENT_BYTES + 8),
        (MOST_PROGRAM_BYTES, MOST_EVENT_BYTES + 1),
    ]);
    let contents = [1, HEADER_BYTES, program, 2, HEADER_BYTES + program, events];
    file_of([1, 2, 2, 0], contents, vec![0; program + events])
}

/// The events' entry, or their body, first.
fn entries_exchanged(random: &mut Random) -> Vec<u8> {
    let contents = random.pick(&[
        [2, HEADER_BYTES, 8, 1, HEADER_BYTES + 8, 4],
        [1, HEADER_BYTES + 8, 4, 2, HEADER_BYTES, 8],
        [2, HEADER_BYTES, 4, 1, HEADER_BYTES + 4, 8],
        [1, HEADER_BYTES, 4, 1, HEADER_BYTES + 4, 8],
    ]);
    file_of([1, 2, 2, 0], contents, vec![0; 12])
}

/// Bytes between the bodies, before them or after them, and bodies that overlap.
fn gap_between_bodies(random: &mut Random) -> Vec<u8> {
    let (contents, bodies) = random.pick(&[
        ([1, HEADER_BYTES + 8, 4, 2, HEADER_BYTES + 12, 8], 20),
        ([1, HEADER_BYTES, 4, 2, HEADER_BYTES + 12, 8], 20),
        ([1, HEADER_BYTES, 4, 2, HEADER_BYTES + 4, 8], 20),
        ([1, HEADER_BYTES - 8, 8, 2, HEADER_BYTES, 8], 8),
        ([1, HEADER_BYTES - 8, 8, 2, HEADER_BYTES, 8], 16),
        ([1, 0, 4, 2, 4, 40], 16),
        ([1, HEADER_BYTES, 4, 2, HEADER_BYTES + 8, 8], 16),
        ([1, HEADER_BYTES + 4, 4, 2, HEADER_BYTES + 8, 8], 16),
        ([1, HEADER_BYTES, 8, 2, HEADER_BYTES + 4, 8], 12),
        ([1, HEADER_BYTES, 8, 2, HEADER_BYTES, 8], 8),
        ([1, HEADER_BYTES, 4, 2, HEADER_BYTES + 4, 8], 8),
    ]);
    file_of([1, 2, 2, 0], contents, vec![0; bodies])
}

/// Offsets and lengths that agree with each other and with the file if sums wrap at 2^32.
fn wrapping_sums(random: &mut Random) -> Vec<u8> {
    let below_wrap = |count: u32| 0_u32.wrapping_sub(count) as usize;
    let contents = random.pick(&[
        [1, HEADER_BYTES, below_wrap(4), 2, HEADER_BYTES - 4, 20],
        [1, HEADER_BYTES, below_wrap(8), 2, HEADER_BYTES - 8, 24],
        [1, HEADER_BYTES, 24, 2, HEADER_BYTES + 24, below_wrap(8)],
        [1, HEADER_BYTES, below_wrap(24), 2, 4, 40],
        [1, below_wrap(4), 32, 2, HEADER_BYTES, 16],
    ]);
    file_of([1, 2, 2, 0], contents, vec![0; 16])
}
