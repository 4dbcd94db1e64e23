//! Programs, good and bad.

use crate::generate::random::Random;
use crate::instruction::{Device, Instruction, Register, INSTRUCTION_BYTES};

/// The program of "Checked by example".
pub const EXAMPLE: [u8; 20] = [1, 1, 0, 7, 17, 1, 2, 3, 8, 4, 5, 6, 7, 4, 0, 2, 7, 0, 0, 1];

/// How often each instruction stands in a program, in the order of 01's table: NOP, SET, ADD, SUB,
/// DIV, LOAD, STORE, JZ, TAKE, TIME, START, TIMER.
type Mixture = [usize; 12];

const ANYTHING: Mixture = [1, 2, 1, 1, 1, 1, 1, 1, 2, 2, 3, 2];
/// Starts and takes, with enough arithmetic that the words in the record tell the guest's state.
const DEVICES: Mixture = [0, 1, 2, 1, 0, 1, 1, 0, 5, 1, 6, 1];
/// Starts until the table and the queue are full.
const STARTS: Mixture = [0, 1, 1, 0, 0, 0, 0, 0, 1, 0, 12, 1];
const STARTS_ONLY: Mixture = [1, 1, 0, 0, 0, 0, 0, 0, 0, 0, 8, 0];
/// Ends its epochs by the 40th TIME.
const CLOCKS: Mixture = [0, 0, 1, 0, 0, 0, 1, 0, 1, 14, 2, 1];
const TIMERS: Mixture = [0, 3, 1, 1, 0, 0, 0, 0, 3, 3, 3, 4];
/// Arms timers and never takes an interrupt.
const UNTAKEN_TIMERS: Mixture = [1, 2, 0, 0, 0, 0, 0, 0, 0, 1, 2, 3];
const ARITHMETIC: Mixture = [0, 3, 3, 3, 4, 3, 3, 1, 3, 1, 5, 0];
const JUMPS: Mixture = [1, 2, 1, 1, 0, 1, 1, 6, 3, 2, 3, 1];

#[derive(Clone, Copy, Debug, PartialEq, Eq)]
pub enum Style {
    Example,
    Clocks,
    /// All that one epoch can send: 40 Vals and 16 Ints.
    Brink,
    Mixed,
}

/// A good program, and what kind it is of.
pub fn program(random: &mut Random) -> (Style, Vec<u8>) {
    let n = match random.below(20) {
        0 => 1,
        1 => random.pick(&[2, 1_023, 1_024]),
        2 => random.between(100, 300),
        _ => random.between(3, 24),
    };
    match random.below(18) {
        14 => (Style::Brink, brink()),
        15..=17 => (Style::Mixed, told(random)),
        0 => (Style::Example, EXAMPLE.to_vec()),
        1..=3 => (Style::Clocks, mixed(random, n, &CLOCKS)),
        4 | 5 => (Style::Mixed, mixed(random, n, &DEVICES)),
        6 => (Style::Mixed, mixed(random, n, &STARTS)),
        7 => (Style::Mixed, mixed(random, n, &STARTS_ONLY)),
        8 | 9 => (Style::Mixed, mixed(random, n, &TIMERS)),
        10 => (Style::Mixed, mixed(random, n, &UNTAKEN_TIMERS)),
        11 => (Style::Mixed, mixed(random, n, &ARITHMETIC)),
        12 => (Style::Mixed, mixed(random, n, &JUMPS)),
        _ => (Style::Mixed, mixed(random, n, &ANYTHING)),
    }
}

/// In each round 16 operations, each in the place of one that was taken, and 40 TIMEs.
fn brink() -> Vec<u8> {
    let take_and_start = [8, 4, 5, 6, 17, 1, 2, 3].repeat(16);
    let times = [16, 1, 0, 0].repeat(40);
    [take_and_start, times].concat()
}

/// Parts of programs that start, arm and take, and tell a device what they took.
const TOLD: [&[[u8; INSTRUCTION_BYTES]]; 8] = [
    &[[1, 1, 0, 5], [18, 1, 0, 0]],                // SET r1 5, TIMER r1
    &[[16, 2, 0, 0], [18, 2, 0, 0]],               // TIME r2, TIMER r2
    &[[17, 1, 2, 3]],                              // START r1 2 r3
    &[[17, 1, 2, 3], [17, 3, 0, 3]],               // START r1 2 r3, START r3 0 r3
    &[[8, 4, 5, 6], [17, 4, 1, 3], [17, 6, 1, 3]], // TAKE r4 r5 r6, START r4 1 r3, START r6 1 r3
    &[[8, 4, 5, 6], [17, 5, 1, 3]],                // TAKE r4 r5 r6, START r5 1 r3
    &[[8, 4, 5, 7], [8, 4, 5, 6], [2, 1, 1, 6]],   // TAKE r4 r5 r7, TAKE r4 r5 r6, ADD r1 r1 r6
    &[[16, 2, 0, 0], [2, 1, 1, 2], [6, 1, 2, 0], [5, 1, 7, 0]], // TIME, ADD, STORE, LOAD
];

fn told(random: &mut Random) -> Vec<u8> {
    let parts = random.between(3, 9);
    (0..parts).flat_map(|_| random.pick(&TOLD).concat()).collect()
}

/// A good program of a given length.
pub fn program_of_length(random: &mut Random, n: usize) -> Vec<u8> {
    mixed(random, n, &ANYTHING)
}

fn mixed(random: &mut Random, n: usize, mixture: &Mixture) -> Vec<u8> {
    let mut program = Vec::new();
    for _ in 0..n {
        program.extend(instruction(random, n as u16, mixture).bytes());
    }
    program
}

fn instruction(random: &mut Random, n: u16, mixture: &Mixture) -> Instruction {
    let kind = random.weighted(mixture);
    let x = register(random);
    let mut y = register(random);
    let mut z = register(random);
    if random.chance(20) {
        // Equal registers: START reads its word before it writes, TAKE writes in order.
        z = x;
        y = random.pick(&[x, y]);
    }
    match kind {
        0 => Instruction::Nop,
        1 => Instruction::Set { x, value: random.pick(&[0, 1, 2, 3, 7, 12, 64, 255, 256, 65_535]) },
        2 => Instruction::Add { x, y, z },
        3 => Instruction::Sub { x, y, z },
        4 => Instruction::Div { x, y, z },
        5 => Instruction::Load { x, y },
        6 => Instruction::Store { x, y },
        7 => Instruction::Jz { x, target: random.below(usize::from(n)) as u16 },
        8 => Instruction::Take { x, y, z },
        9 => Instruction::Time { x },
        10 => Instruction::Start { x, device: device(random), z },
        _ => Instruction::Timer { x },
    }
}

fn register(random: &mut Random) -> Register {
    Register::new(random.below(8) as u8).expect("below 8")
}

fn device(random: &mut Random) -> Device {
    Device::new(random.below(4) as u8).expect("below 4")
}

/// One for each way to be not well formed, whatever N is.
pub const BAD_INSTRUCTIONS: [[u8; INSTRUCTION_BYTES]; 36] = [
    [0, 1, 0, 0],
    [0, 0, 1, 0],
    [0, 0, 0, 1],
    [1, 8, 0, 7],
    [2, 8, 1, 1],
    [2, 1, 8, 1],
    [2, 1, 1, 8],
    [3, 8, 1, 1],
    [3, 1, 8, 1],
    [3, 1, 1, 8],
    [4, 8, 1, 1],
    [4, 1, 8, 1],
    [4, 1, 1, 8],
    [5, 8, 1, 0],
    [5, 1, 8, 0],
    [5, 1, 1, 1],
    [6, 8, 1, 0],
    [6, 1, 8, 0],
    [6, 1, 1, 1],
    [7, 8, 0, 0],
    [7, 0, 255, 255],
    [8, 8, 1, 1],
    [8, 1, 8, 1],
    [8, 1, 1, 8],
    [9, 0, 0, 0],
    [15, 0, 0, 0],
    [16, 8, 0, 0],
    [16, 1, 1, 0],
    [16, 1, 0, 1],
    [17, 8, 1, 1],
    [17, 1, 4, 1],
    [17, 1, 1, 8],
    [18, 8, 0, 0],
    [18, 1, 1, 0],
    [18, 1, 0, 1],
    [19, 0, 0, 0],
];

/// Four bytes that are no well formed instruction of a program of `n`.
pub fn bad_instruction(random: &mut Random, n: u16) -> [u8; INSTRUCTION_BYTES] {
    loop {
        let bytes = match random.below(10) {
            0 | 1 => jump_to(random.below(8) as u8, random.pick(&[n, n, n + 1])),
            2 => [random.u8(), random.u8(), random.u8(), random.u8()],
            _ => random.pick(&BAD_INSTRUCTIONS),
        };
        if Instruction::read(bytes, n).is_none() {
            return bytes;
        }
    }
}

/// JZ with any target.
pub fn jump_to(x: u8, target: u16) -> [u8; INSTRUCTION_BYTES] {
    let [high, low] = target.to_be_bytes();
    [7, x, high, low]
}

/// A program with whole instructions, one or more of them bad.
pub fn bad_program(random: &mut Random) -> Vec<u8> {
    let n = random.pick(&[1, 2, 5, 20, 1_024]);
    let mut program = program_of_length(random, n);
    for _ in 0..random.pick(&[1, 1, 1, 3]) {
        let place = random.below(n);
        replace(&mut program, place, bad_instruction(random, n as u16));
    }
    program
}

pub fn replace(program: &mut [u8], place: usize, bytes: [u8; INSTRUCTION_BYTES]) {
    let start = place * INSTRUCTION_BYTES;
    program[start..start + INSTRUCTION_BYTES].copy_from_slice(&bytes);
}
