//! Images with one rule of "Sound" broken.
//!
//! The places of the fields are counted here from 01's words, apart from `image`.

use crate::generate::pairs::sound_pair;
use crate::generate::random::Random;
use crate::image::judge;
use crate::probe::saved;

const PHASE_P: usize = 1;
const PHASE_B: usize = 2;
const DETECTED: usize = 3;
const L: usize = 4;
const N: usize = 6;
const E_P: usize = 8;
const E_B: usize = 10;
const ACKNOWLEDGEMENTS: usize = 12;
const HEADER_ZERO: usize = 14;
const CLOCK_SENT: usize = 16;

const GUESTS: [usize; 2] = [20, 488];
const PC: usize = 0;
const INSTRUCTIONS: usize = 2;
const TIMES: usize = 4;
const ARMED: usize = 5;
const LAST: usize = 6;
const DEADLINE: usize = 8;

/// A row of slots of an image.
#[derive(Clone, Copy, Debug)]
struct Slots {
    start: usize,
    count: usize,
    size: usize,
}

const TABLES: [Slots; 2] =
    [Slots { start: 320, count: 16, size: 2 }, Slots { start: 788, count: 16, size: 2 }];
const QUEUES: [Slots; 2] =
    [Slots { start: 352, count: 17, size: 8 }, Slots { start: 820, count: 17, size: 8 }];
const BUFFERS: [Slots; 2] =
    [Slots { start: 956, count: 16, size: 8 }, Slots { start: 1_084, count: 16, size: 8 }];
const MESSAGES: [Slots; 2] =
    [Slots { start: 1_212, count: 58, size: 12 }, Slots { start: 1_908, count: 128, size: 12 }];
const EVERY_ROW: [Slots; 8] =
    [TABLES[0], TABLES[1], QUEUES[0], QUEUES[1], BUFFERS[0], BUFFERS[1], MESSAGES[0], MESSAGES[1]];

impl Slots {
    fn slot(self, index: usize) -> usize {
        self.start + index * self.size
    }

    fn filled(self, image: &[u8]) -> usize {
        let is_filled = |index: &usize| {
            image[self.slot(*index)..self.slot(*index + 1)].iter().any(|byte| *byte != 0)
        };
        (0..self.count).take_while(is_filled).count()
    }

    /// The start of a filled slot, or of the first where none is.
    fn any_filled(self, random: &mut Random, image: &[u8]) -> usize {
        self.slot(random.below(self.filled(image).max(1)))
    }
}

fn u16_at(image: &[u8], place: usize) -> u16 {
    u16::from_le_bytes([image[place], image[place + 1]])
}

fn put_u16(image: &mut [u8], place: usize, number: u16) {
    image[place..place + 2].copy_from_slice(&number.to_le_bytes());
}

/// A way to break a rule in an image; it may need an image of a certain kind to break it.
type Break = fn(&mut Random, &mut [u8]);

/// Each rule of "Sound", in 01's order, as the judge words it, and ways to break it (`r` is the
/// random numbers, `i` the image).
pub const DAMAGES: [(&str, Break); 48] = [
    ("form in range", |r, i| i[0] = r.pick(&[0, 2, 255])),
    ("phases in range", |r, i| i[PHASE_P] = r.pick(&[0, 4, 255])),
    ("phases in range", |r, i| i[PHASE_B] = r.pick(&[0, 4, 255])),
    ("flags in range", |r, i| i[DETECTED] = r.pick(&[2, 255])),
    ("flags in range", |r, i| i[r.pick(&GUESTS) + ARMED] = r.pick(&[2, 255])),
    ("zero fields 0", |r, i| i[HEADER_ZERO + r.below(2)] = r.pick(&[1, 128])),
    ("zero fields 0", |r, i| i[r.pick(&QUEUES).any_filled(r, i) + 1] = r.pick(&[1, 255])),
    ("zero fields 0", |r, i| i[r.pick(&BUFFERS).any_filled(r, i) + 1] = r.pick(&[1, 255])),
    ("zero fields 0", |r, i| i[r.pick(&MESSAGES).any_filled(r, i) + 6 + r.below(2)] = 1),
    ("deadline 0 unless armed", |r, i| i[r.pick(&GUESTS) + DEADLINE + r.below(4)] = 1),
    ("clock sent 0 unless waiting", |r, i| i[CLOCK_SENT + r.below(4)] = 1),
    ("L 1 to 4,096", |r, i| put_u16(i, L, r.pick(&[0, 4_097, 65_535]))),
    ("N 1 to 1,024", |r, i| put_u16(i, N, r.pick(&[0, 1_025, 65_535]))),
    ("pc < N", |r, i| put_u16(i, r.pick(&GUESTS) + PC, u16_at(i, N))),
    ("instructions ≤ L", |r, i| put_u16(i, r.pick(&GUESTS) + INSTRUCTIONS, u16_at(i, L) + 1)),
    ("TIMEs ≤ 40", a_41st_time),
    ("TIMEs ≤ instructions", one_time_too_many),
    ("slots filled from the front, the rest zero", gap_in_a_row),
    ("slots filled from the front, the rest zero", byte_in_an_unused_slot),
    ("table ascending", table_number_twice),
    ("table ascending", table_numbers_exchanged),
    ("table ≤ the last number", last_below_the_table),
    ("queue statuses 1 to 3, uncertain data 0, timer operation 0", queue_status),
    ("queue statuses 1 to 3, uncertain data 0, timer operation 0", queue_data_alone),
    ("queue statuses 1 to 3, uncertain data 0, timer operation 0", |r, i| {
        uncertain_data(r, i, &QUEUES)
    }),
    ("queue statuses 1 to 3, uncertain data 0, timer operation 0", timer_with_operation),
    ("statuses in buffers 1 or 2, uncertain data 0", buffer_status),
    ("statuses in buffers 1 or 2, uncertain data 0", |r, i| uncertain_data(r, i, &BUFFERS)),
    ("device entries with operation 1 to 65,535", |r, i| {
        put_u16(i, r.pick(&QUEUES).any_filled(r, i) + 2, 0)
    }),
    ("at most one timer entry", second_timer_entry),
    ("table plus device entries ≤ 16", one_device_entry_too_many),
    ("each buffered operation in its guest's table", |r, i| {
        put_u16(i, r.pick(&BUFFERS).any_filled(r, i) + 2, r.u16())
    }),
    ("each buffered operation once", buffered_twice),
    ("messages with kind 1 to 4", |r, i| {
        i[r.pick(&MESSAGES).any_filled(r, i)] = r.pick(&[0, 5, 255])
    }),
    ("messages with epoch 1 to 65,535", |r, i| {
        put_u16(i, r.pick(&MESSAGES).any_filled(r, i) + 2, 0)
    }),
    ("Ints as in PINT", |r, i| i[r.pick(&MESSAGES).any_filled(r, i) + 1] = r.pick(&[0, 3, 255])),
    ("Ints as in PINT", |r, i| put_u16(i, r.pick(&MESSAGES).any_filled(r, i) + 4, 0)),
    ("Ints as in PINT", |r, i| i[r.pick(&MESSAGES).any_filled(r, i) + 1] = 2),
    ("messages with unused fields 0", |r, i| i[r.pick(&MESSAGES).any_filled(r, i) + 1] = 1),
    ("messages with unused fields 0", |r, i| {
        i[r.pick(&MESSAGES).any_filled(r, i) + 4 + r.below(2)] = 1
    }),
    ("messages with unused fields 0", |r, i| {
        i[r.pick(&MESSAGES).any_filled(r, i) + 8 + r.below(4)] = 1
    }),
    ("messages unacknowledged", |_, i| {
        put_u16(i, ACKNOWLEDGEMENTS, u16_at(i, ACKNOWLEDGEMENTS) + 1)
    }),
    ("e_p 1 to 65,535", |_, i| put_u16(i, E_P, 0)),
    ("e_b 0 only while following, no instructions done", |_, i| put_u16(i, E_B, 0)),
    ("waiting only when complete", |_, i| put_u16(i, GUESTS[0] + INSTRUCTIONS, u16_at(i, L) - 1)),
    ("detected only when failed", |_, i| i[DETECTED] = 1),
    ("failover and promoted only when detected", |r, i| i[PHASE_B] = r.pick(&[2, 3])),
    ("B's buffer empty unless promoted", |r, i| i[PHASE_B] = r.pick(&[1, 2])),
];

/// A sound image with the damage of an index, counted round.
pub fn damaged_image(random: &mut Random, index: usize) -> Vec<u8> {
    let (words, break_it) = DAMAGES[index % DAMAGES.len()];
    loop {
        let mut image = saved(&sound_pair(random));
        break_it(random, &mut image);
        if judge(&image).is_err_and(|unsound| unsound.0 == words) {
            return image;
        }
    }
}

/// In an epoch of more instructions, so that no other rule is broken with it.
fn a_41st_time(random: &mut Random, image: &mut [u8]) {
    let guest = random.pick(&GUESTS);
    if u16_at(image, guest + INSTRUCTIONS) > 40 {
        image[guest + TIMES] = 41;
    }
}

fn one_time_too_many(random: &mut Random, image: &mut [u8]) {
    let guest = random.pick(&GUESTS);
    image[guest + TIMES] = (u16_at(image, guest + INSTRUCTIONS) + 1).min(41) as u8;
}

/// An entry that the slot before it no longer reaches: a count lowered, the entry left.
fn gap_in_a_row(random: &mut Random, image: &mut [u8]) {
    let row = random.pick(&EVERY_ROW);
    let filled = row.filled(image);
    if filled >= 2 {
        let gap = random.below(filled - 1);
        image[row.slot(gap)..row.slot(gap + 1)].fill(0);
    }
}

fn byte_in_an_unused_slot(random: &mut Random, image: &mut [u8]) {
    let row = random.pick(&EVERY_ROW);
    let first = row.filled(image) + 1;
    if first < row.count {
        let place = random.between(row.slot(first), row.slot(row.count) - 1);
        image[place] = random.pick(&[1, 2, 128]);
    }
}

fn table_number_twice(random: &mut Random, image: &mut [u8]) {
    let table = random.pick(&TABLES);
    let filled = table.filled(image);
    if filled >= 2 {
        let place = table.slot(random.below(filled - 1));
        put_u16(image, place + 2, u16_at(image, place));
    }
}

fn table_numbers_exchanged(random: &mut Random, image: &mut [u8]) {
    let table = random.pick(&TABLES);
    let filled = table.filled(image);
    if filled >= 2 {
        let place = table.slot(random.below(filled - 1));
        let (first, second) = (u16_at(image, place), u16_at(image, place + 2));
        put_u16(image, place, second);
        put_u16(image, place + 2, first);
    }
}

fn last_below_the_table(random: &mut Random, image: &mut [u8]) {
    let which = random.below(2);
    let filled = TABLES[which].filled(image);
    if filled >= 1 {
        let highest = u16_at(image, TABLES[which].slot(filled - 1));
        put_u16(image, GUESTS[which] + LAST, highest - 1);
    }
}

fn queue_status(random: &mut Random, image: &mut [u8]) {
    image[random.pick(&QUEUES).any_filled(random, image)] = random.pick(&[0, 4, 255]);
}

/// Data in the first unused slot, with no status before it.
fn queue_data_alone(random: &mut Random, image: &mut [u8]) {
    let queue = random.pick(&QUEUES);
    let filled = queue.filled(image);
    if filled < queue.count {
        image[queue.slot(filled) + random.between(2, 7)] = 1;
    }
}

fn uncertain_data(random: &mut Random, image: &mut [u8], rows: &[Slots; 2]) {
    let place = random.pick(rows).any_filled(random, image);
    if image[place] == 2 {
        image[place + random.between(4, 7)] = 1;
    }
}

fn timer_with_operation(random: &mut Random, image: &mut [u8]) {
    let place = random.pick(&QUEUES).any_filled(random, image);
    if image[place] == 3 {
        put_u16(image, place + 2, random.pick(&[1, 256, 65_535]));
    }
}

fn buffer_status(random: &mut Random, image: &mut [u8]) {
    image[random.pick(&BUFFERS).any_filled(random, image)] = random.pick(&[0, 3, 4]);
}

fn second_timer_entry(random: &mut Random, image: &mut [u8]) {
    let queue = random.pick(&QUEUES);
    let filled = queue.filled(image);
    if filled < queue.count {
        image[queue.slot(filled)] = 3;
    }
}

fn one_device_entry_too_many(random: &mut Random, image: &mut [u8]) {
    let queue = random.pick(&QUEUES);
    let filled = queue.filled(image);
    if filled < queue.count {
        image[queue.slot(filled)] = 1;
        put_u16(image, queue.slot(filled) + 2, 1);
    }
}

fn buffered_twice(random: &mut Random, image: &mut [u8]) {
    let buffer = random.pick(&BUFFERS);
    let filled = buffer.filled(image);
    if filled >= 1 && filled < buffer.count {
        let operation = u16_at(image, buffer.slot(random.below(filled)) + 2);
        image[buffer.slot(filled)] = 1;
        put_u16(image, buffer.slot(filled) + 2, operation);
    }
}
