//! "A program has N instructions (1 to 1,024) of 4 bytes: code, x, y, z."

pub const MOST_INSTRUCTIONS: usize = 1_024;
pub const INSTRUCTION_BYTES: usize = 4;
pub const REGISTERS: usize = 8;
pub const DEVICES: u8 = 4;

/// A register number, below 8.
#[derive(Clone, Copy, Debug, PartialEq, Eq)]
pub struct Register(u8);

impl Register {
    pub fn new(number: u8) -> Option<Register> {
        (usize::from(number) < REGISTERS).then_some(Register(number))
    }

    pub fn index(self) -> usize {
        usize::from(self.0)
    }
}

/// A device number, below 4.
#[derive(Clone, Copy, Debug, PartialEq, Eq)]
pub struct Device(u8);

impl Device {
    pub fn new(number: u8) -> Option<Device> {
        (number < DEVICES).then_some(Device(number))
    }

    pub fn number(self) -> u8 {
        self.0
    }
}

/// A well formed instruction; the fields are named as in 01's table.
#[derive(Clone, Copy, Debug, PartialEq, Eq)]
pub enum Instruction {
    Nop,
    Set { x: Register, value: u16 },
    Add { x: Register, y: Register, z: Register },
    Sub { x: Register, y: Register, z: Register },
    Div { x: Register, y: Register, z: Register },
    Load { x: Register, y: Register },
    Store { x: Register, y: Register },
    Jz { x: Register, target: u16 },
    Take { x: Register, y: Register, z: Register },
    Time { x: Register },
    Start { x: Register, device: Device, z: Register },
    Timer { x: Register },
}

impl Instruction {
    /// "Well formed: a listed code, registers below 8, device below 4, jump target below N, unused
    /// bytes 0." Anything else is `None`.
    pub fn read(bytes: [u8; INSTRUCTION_BYTES], n: u16) -> Option<Instruction> {
        let [code, x_byte, y_byte, z_byte] = bytes;
        let both = u16::from_be_bytes([y_byte, z_byte]); // 256y + z
        if code == 0 {
            return (bytes == [0; INSTRUCTION_BYTES]).then_some(Instruction::Nop);
        }
        let x = Register::new(x_byte)?;
        let y = Register::new(y_byte);
        let z = Register::new(z_byte);
        match code {
            1 => Some(Instruction::Set { x, value: both }),
            2 => Some(Instruction::Add { x, y: y?, z: z? }),
            3 => Some(Instruction::Sub { x, y: y?, z: z? }),
            4 => Some(Instruction::Div { x, y: y?, z: z? }),
            5 if z_byte == 0 => Some(Instruction::Load { x, y: y? }),
            6 if z_byte == 0 => Some(Instruction::Store { x, y: y? }),
            7 if both < n => Some(Instruction::Jz { x, target: both }),
            8 => Some(Instruction::Take { x, y: y?, z: z? }),
            16 if both == 0 => Some(Instruction::Time { x }),
            17 => Some(Instruction::Start { x, device: Device::new(y_byte)?, z: z? }),
            18 if both == 0 => Some(Instruction::Timer { x }),
            _ => None,
        }
    }

    /// The instruction at `pc`, if the program reaches that far and it is well formed there.
    pub fn at(program: &[u8], pc: u16, n: u16) -> Option<Instruction> {
        let bytes = program.chunks_exact(INSTRUCTION_BYTES).nth(usize::from(pc))?;
        Instruction::read([bytes[0], bytes[1], bytes[2], bytes[3]], n)
    }

    /// The four bytes that `read` reads back as this instruction.
    pub fn bytes(self) -> [u8; INSTRUCTION_BYTES] {
        let [high, low] = match self {
            Instruction::Set { value: both, .. } | Instruction::Jz { target: both, .. } => {
                both.to_be_bytes()
            }
            _ => [0, 0],
        };
        match self {
            Instruction::Nop => [0, 0, 0, 0],
            Instruction::Set { x, .. } => [1, x.0, high, low],
            Instruction::Add { x, y, z } => [2, x.0, y.0, z.0],
            Instruction::Sub { x, y, z } => [3, x.0, y.0, z.0],
            Instruction::Div { x, y, z } => [4, x.0, y.0, z.0],
            Instruction::Load { x, y } => [5, x.0, y.0, 0],
            Instruction::Store { x, y } => [6, x.0, y.0, 0],
            Instruction::Jz { x, .. } => [7, x.0, high, low],
            Instruction::Take { x, y, z } => [8, x.0, y.0, z.0],
            Instruction::Time { x } => [16, x.0, 0, 0],
            Instruction::Start { x, device, z } => [17, x.0, device.0, z.0],
            Instruction::Timer { x } => [18, x.0, 0, 0],
        }
    }
}

/// N of a program that a fresh pair may be made with: whole instructions, 1 to 1,024 of them, each
/// well formed, also those that are never reached.
pub fn good_program(program: &[u8]) -> Option<u16> {
    let count = program.len() / INSTRUCTION_BYTES;
    let whole = program.len() % INSTRUCTION_BYTES == 0;
    if !whole || count == 0 || count > MOST_INSTRUCTIONS {
        return None;
    }
    let n = count as u16;
    (0..n).all(|pc| Instruction::at(program, pc, n).is_some()).then_some(n)
}
