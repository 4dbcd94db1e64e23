//! "The guest": what one card runs.

use crate::instruction::{Device, Instruction, Register, REGISTERS};
use crate::interrupt::{DeviceInterrupt, Interrupt, Outcome};
use crate::numbers::Operation;

pub const MEMORY_WORDS: usize = 64;
/// "table of outstanding operations (16 slots)"
pub const TABLE_SLOTS: usize = 16;
/// "interrupt queue (17 slots)": 16 for the devices and one for the timer.
pub const QUEUE_SLOTS: usize = 17;
/// An epoch is complete at "its 40th TIME".
pub const MOST_TIMES: u8 = 40;

/// "at most one record entry (operation 2 bytes, device 1, zero 1, word 4)"
#[derive(Clone, Copy, Debug, PartialEq, Eq)]
pub struct RecordEntry {
    pub operation: Operation,
    pub device: Device,
    pub word: u32,
}

#[derive(Clone, Debug, PartialEq, Eq)]
pub struct Guest {
    pub pc: u16,
    /// Instructions done this epoch.
    pub instructions: u16,
    /// TIMEs done this epoch.
    pub times: u8,
    /// The deadline while the timer is armed.
    pub timer: Option<u32>,
    pub last_operation: Operation,
    pub registers: [u32; REGISTERS],
    pub memory: [u32; MEMORY_WORDS],
    /// Outstanding operations, ascending.
    pub table: Vec<Operation>,
    /// Untaken interrupts, the oldest first.
    pub queue: Vec<Interrupt>,
}

impl Guest {
    /// "Fresh: all zero."
    pub fn fresh() -> Guest {
        Guest {
            pc: 0,
            instructions: 0,
            times: 0,
            timer: None,
            last_operation: Operation::NONE,
            registers: [0; REGISTERS],
            memory: [0; MEMORY_WORDS],
            table: Vec::new(),
            queue: Vec::new(),
        }
    }

    /// "An epoch is complete after L instructions (1 to 4,096) or its 40th TIME."
    pub fn complete(&self, l: u16) -> bool {
        self.instructions >= l || self.times >= MOST_TIMES
    }

    /// One instruction of a program of `n`. TIME reads `reading`; a START that starts something
    /// gives its record entry, and whether it is shown is for the monitor.
    pub fn run(&mut self, instruction: Instruction, n: u16, reading: u32) -> Option<RecordEntry> {
        self.instructions += 1;
        self.pc = (self.pc + 1) % n; // "Unless JZ jumps, pc moves on by 1, from N-1 to 0."
        match instruction {
            Instruction::Nop => {}
            Instruction::Set { x, value } => self.set(x, u32::from(value)),
            Instruction::Add { x, y, z } => self.set(x, self.get(y).wrapping_add(self.get(z))),
            Instruction::Sub { x, y, z } => self.set(x, self.get(y).wrapping_sub(self.get(z))),
            Instruction::Div { x, y, z } => self.set(x, divide(self.get(y), self.get(z))),
            Instruction::Load { x, y } => self.set(x, self.memory[self.address(y)]),
            Instruction::Store { x, y } => self.memory[self.address(y)] = self.get(x),
            Instruction::Jz { x, target } if self.get(x) == 0 => self.pc = target,
            Instruction::Jz { .. } => {}
            Instruction::Take { x, y, z } => self.take(x, y, z),
            Instruction::Time { x } => {
                self.times += 1;
                self.set(x, reading);
            }
            Instruction::Start { x, device, z } => return self.start(x, device, z),
            Instruction::Timer { x } => self.timer = Some(self.get(x)),
        }
        None
    }

    fn get(&self, register: Register) -> u32 {
        self.registers[register.index()]
    }

    fn set(&mut self, register: Register, value: u32) {
        self.registers[register.index()] = value;
    }

    /// "memory[r[y] mod 64]"
    fn address(&self, y: Register) -> usize {
        self.get(y) as usize % MEMORY_WORDS
    }

    /// "oldest interrupt leaves the queue: r[x] status, then r[y] operation, then r[z] data; all 0
    /// if the queue is empty". In this order, so of equal registers the last write stands.
    fn take(&mut self, x: Register, y: Register, z: Register) {
        let (status, operation, data) = if self.queue.is_empty() {
            (0, 0, 0)
        } else {
            let oldest = self.queue.remove(0);
            (oldest.status(), oldest.operation().0, oldest.data())
        };
        self.set(x, u32::from(status));
        self.set(y, u32::from(operation));
        self.set(z, data);
    }

    /// "START gives 0, starts nothing and shows nothing if table entries plus untaken device
    /// interrupts are 16, or the last number is 65,535. Otherwise it takes the next number (first
    /// is 1), enters it in the table, and the word is read before r[z] is written."
    fn start(&mut self, x: Register, device: Device, z: Register) -> Option<RecordEntry> {
        let full = self.table.len() + self.untaken_device_interrupts() >= TABLE_SLOTS;
        if full || self.last_operation == Operation::LAST {
            self.set(z, 0);
            return None;
        }
        let operation = self.last_operation.next();
        let word = self.get(x);
        self.last_operation = operation;
        self.table.push(operation);
        self.set(z, u32::from(operation.0));
        Some(RecordEntry { operation, device, word })
    }

    pub fn untaken_device_interrupts(&self) -> usize {
        self.queue.iter().filter(|interrupt| !interrupt.is_timer()).count()
    }

    /// "Boundary(clock)": the interrupts of the epoch in order of arrival; in a failover epoch P8;
    /// the timer last; both epoch counts become 0.
    pub fn boundary(&mut self, arrived: &[DeviceInterrupt], failover: bool, clock: u32) {
        for interrupt in arrived {
            self.deliver(*interrupt);
        }
        if failover {
            self.deliver_uncertain();
        }
        self.deliver_timer(clock);
        self.instructions = 0;
        self.times = 0;
    }

    /// "each leaving the table and joining the queue (one whose number isn't in the table is
    /// dropped)"
    fn deliver(&mut self, interrupt: DeviceInterrupt) {
        let place = self.table.iter().position(|operation| *operation == interrupt.operation);
        if let Some(place) = place {
            self.table.remove(place);
            self.queue.push(Interrupt::Device(interrupt));
        }
    }

    /// P8: "an uncertain interrupt (status 2, data 0) for each operation still in the table,
    /// ascending". The table is ascending.
    fn deliver_uncertain(&mut self) {
        for operation in self.table.clone() {
            self.deliver(DeviceInterrupt { operation, outcome: Outcome::Uncertain });
        }
    }

    /// "last, if armed and deadline ≤ clock, disarm, set the deadline to 0 and queue (status 3,
    /// operation 0, data clock); these three acts, and nothing else, wait while a timer interrupt
    /// is untaken."
    fn deliver_timer(&mut self, clock: u32) {
        let due = self.timer.is_some_and(|deadline| deadline <= clock);
        let untaken = self.queue.iter().any(|interrupt| interrupt.is_timer());
        if due && !untaken {
            self.timer = None;
            self.queue.push(Interrupt::Timer { clock });
        }
    }
}

/// "rounded down; 4,294,967,295 for divisor 0"
fn divide(dividend: u32, divisor: u32) -> u32 {
    dividend.checked_div(divisor).unwrap_or(u32::MAX)
}
