//! The job of `trace` and `run` as a plain Rust program: the same datapath phase by phase, the same journal, the same output.
//! `plain trace < FILE` prints the trace of a bench file, `plain run < FILE` its last line alone.

use std::fmt::{self, Write as _};
use std::io::{self, Read, Write};

/// The number of a refusal.
#[derive(Clone, Copy)]
struct Refused(u8);

/// A memory that holds an image at a base address.
struct Memory {
    base: u32,
    image: Vec<u8>,
}

impl Memory {
    /// Where the bytes of word `k` begin in the image.
    fn place(&self, k: u32) -> Option<usize> {
        if !(self.base..0x4000_0000).contains(&k) {
            return None;
        }
        let at = 4 * (k - self.base) as usize;
        (at + 3 < self.image.len()).then_some(at)
    }

    fn read(&self, k: u32) -> Result<u32, Refused> {
        let at = self.place(k).ok_or(Refused(2))?;
        let bytes = self.image[at..at + 4].try_into().unwrap();
        Ok(u32::from_le_bytes(bytes))
    }

    fn write(&mut self, k: u32, value: u32, mask: u8) -> Result<(), Refused> {
        let at = self.place(k).ok_or(Refused(2))?;
        for (lane, byte) in value.to_le_bytes().into_iter().enumerate() {
            if mask >> lane & 1 == 1 {
                self.image[at + lane] = byte;
            }
        }
        Ok(())
    }
}

#[derive(Clone, Copy)]
enum Operation {
    Add,
    Sub,
    Sll,
    Slt,
    Sltu,
    Xor,
    Srl,
    Sra,
    Or,
    And,
}

impl Operation {
    fn of(self, a: u32, b: u32) -> u32 {
        match self {
            Operation::Add => a.wrapping_add(b),
            Operation::Sub => a.wrapping_sub(b),
            Operation::Sll => a.wrapping_shl(b),
            Operation::Slt => u32::from(a.cast_signed() < b.cast_signed()),
            Operation::Sltu => u32::from(a < b),
            Operation::Xor => a ^ b,
            Operation::Srl => a.wrapping_shr(b),
            Operation::Sra => a.cast_signed().wrapping_shr(b).cast_unsigned(),
            Operation::Or => a | b,
            Operation::And => a & b,
        }
    }
}

#[derive(Clone, Copy)]
enum Comparison {
    Equal,
    NotEqual,
    Less,
    GreaterOrEqual,
    LessUnsigned,
    GreaterOrEqualUnsigned,
}

impl Comparison {
    fn holds(self, a: u32, b: u32) -> bool {
        match self {
            Comparison::Equal => a == b,
            Comparison::NotEqual => a != b,
            Comparison::Less => a.cast_signed() < b.cast_signed(),
            Comparison::GreaterOrEqual => a.cast_signed() >= b.cast_signed(),
            Comparison::LessUnsigned => a < b,
            Comparison::GreaterOrEqualUnsigned => a >= b,
        }
    }
}

#[derive(Clone, Copy)]
enum Load {
    Byte,
    Half,
    Word,
    ByteUnsigned,
    HalfUnsigned,
}

impl Load {
    fn size(self) -> u32 {
        match self {
            Load::Byte | Load::ByteUnsigned => 1,
            Load::Half | Load::HalfUnsigned => 2,
            Load::Word => 4,
        }
    }

    fn of(self, word: u32, address: u32) -> u32 {
        let byte = (word >> (8 * (address % 4))) as u8;
        let half = (word >> (16 * (address / 2 % 2))) as u16;
        match self {
            Load::Byte => i32::from(byte.cast_signed()).cast_unsigned(),
            Load::Half => i32::from(half.cast_signed()).cast_unsigned(),
            Load::Word => word,
            Load::ByteUnsigned => u32::from(byte),
            Load::HalfUnsigned => u32::from(half),
        }
    }
}

#[derive(Clone, Copy)]
enum Store {
    Byte,
    Half,
    Word,
}

impl Store {
    fn size(self) -> u32 {
        match self {
            Store::Byte => 1,
            Store::Half => 2,
            Store::Word => 4,
        }
    }

    /// The value in its lanes, and their mask.
    fn lanes(self, value: u32, address: u32) -> (u32, u8) {
        match self {
            Store::Byte => ((value & 0xff) << (8 * (address % 4)), 1 << (address % 4)),
            Store::Half => {
                let high = address / 2 % 2;
                ((value & 0xffff) << (16 * high), 3 << (2 * high))
            }
            Store::Word => (value, 15),
        }
    }
}

#[derive(Clone, Copy)]
enum Action {
    Comp(Operation, u8, u8, u8),
    CompI(Operation, u8, u8, u32),
    Lui(u8, u32),
    Auipc(u8, u32),
    Ld(Load, u8, u8, u32),
    St(Store, u8, u8, u32),
    Jal(u8, u32),
    Jalr(u8, u8, u32),
    Br(Comparison, u8, u8, u32),
}

fn field(word: u32, low: u32, width: u32) -> u32 {
    word >> low & ((1 << width) - 1)
}

fn signed(number: u32, width: u32) -> u32 {
    (number << (32 - width))
        .cast_signed()
        .wrapping_shr(32 - width)
        .cast_unsigned()
}

/// What a word does as an instruction.
fn action_of(word: u32) -> Option<Action> {
    let rd = field(word, 7, 5) as u8;
    let rs1 = field(word, 15, 5) as u8;
    let rs2 = field(word, 20, 5) as u8;
    let funct7 = field(word, 25, 7);
    let i = signed(word >> 20, 12);
    let s = signed(field(word, 25, 7) << 5 | field(word, 7, 5), 12);
    let b = signed(
        field(word, 31, 1) << 12
            | field(word, 7, 1) << 11
            | field(word, 25, 6) << 5
            | field(word, 8, 4) << 1,
        13,
    );
    let u = word & 0xffff_f000;
    let j = signed(
        field(word, 31, 1) << 20
            | field(word, 12, 8) << 12
            | field(word, 20, 1) << 11
            | field(word, 21, 10) << 1,
        21,
    );
    let shift = u32::from(rs2);
    Some(match (field(word, 0, 7), field(word, 12, 3)) {
        (0b0110011, funct3) => {
            let operation = match (funct3, funct7) {
                (0b000, 0) => Operation::Add,
                (0b000, 0b0100000) => Operation::Sub,
                (0b001, 0) => Operation::Sll,
                (0b010, 0) => Operation::Slt,
                (0b011, 0) => Operation::Sltu,
                (0b100, 0) => Operation::Xor,
                (0b101, 0) => Operation::Srl,
                (0b101, 0b0100000) => Operation::Sra,
                (0b110, 0) => Operation::Or,
                (0b111, 0) => Operation::And,
                _ => return None,
            };
            Action::Comp(operation, rd, rs1, rs2)
        }
        (0b0010011, funct3) => match (funct3, funct7) {
            (0b000, _) => Action::CompI(Operation::Add, rd, rs1, i),
            (0b001, 0) => Action::CompI(Operation::Sll, rd, rs1, shift),
            (0b010, _) => Action::CompI(Operation::Slt, rd, rs1, i),
            (0b011, _) => Action::CompI(Operation::Sltu, rd, rs1, i),
            (0b100, _) => Action::CompI(Operation::Xor, rd, rs1, i),
            (0b101, 0) => Action::CompI(Operation::Srl, rd, rs1, shift),
            (0b101, 0b0100000) => Action::CompI(Operation::Sra, rd, rs1, shift),
            (0b110, _) => Action::CompI(Operation::Or, rd, rs1, i),
            (0b111, _) => Action::CompI(Operation::And, rd, rs1, i),
            _ => return None,
        },
        (0b0110111, _) => Action::Lui(rd, u),
        (0b0010111, _) => Action::Auipc(rd, u),
        (0b0000011, funct3) => {
            let load = match funct3 {
                0b000 => Load::Byte,
                0b001 => Load::Half,
                0b010 => Load::Word,
                0b100 => Load::ByteUnsigned,
                0b101 => Load::HalfUnsigned,
                _ => return None,
            };
            Action::Ld(load, rd, rs1, i)
        }
        (0b0100011, funct3) => {
            let store = match funct3 {
                0b000 => Store::Byte,
                0b001 => Store::Half,
                0b010 => Store::Word,
                _ => return None,
            };
            Action::St(store, rs1, rs2, s)
        }
        (0b1101111, _) => Action::Jal(rd, j),
        (0b1100111, 0) => Action::Jalr(rd, rs1, i),
        (0b1100011, funct3) => {
            let comparison = match funct3 {
                0b000 => Comparison::Equal,
                0b001 => Comparison::NotEqual,
                0b100 => Comparison::Less,
                0b101 => Comparison::GreaterOrEqual,
                0b110 => Comparison::LessUnsigned,
                0b111 => Comparison::GreaterOrEqualUnsigned,
                _ => return None,
            };
            Action::Br(comparison, rs1, rs2, b)
        }
        _ => return None,
    })
}

#[derive(Clone, Copy, PartialEq)]
enum Phase {
    T0,
    T1,
    T2,
    T3,
}

/// The datapath ARCH-1.
struct Core {
    registers: [u32; 32],
    pc: u32,
    tr: u32,
    ir: u32,
    action: Option<Action>,
    dr: u32,
    ar: u32,
    flg: bool,
    phase: Phase,
}

impl Core {
    fn put(&mut self, rd: u8, value: u32) {
        if rd != 0 {
            self.registers[usize::from(rd)] = value;
        }
    }

    fn get(&self, register: u8) -> u32 {
        self.registers[usize::from(register)]
    }

    /// One clock by the register-transfer table.
    fn transfer(&mut self, memory: &mut Memory) -> Result<(), Refused> {
        self.phase = match (self.phase, self.action) {
            (Phase::T0, _) => {
                if self.pc % 4 != 0 {
                    return Err(Refused(1));
                }
                self.dr = memory.read(self.pc / 4)?;
                self.tr = self.pc;
                self.pc = self.pc.wrapping_add(4);
                Phase::T1
            }
            (Phase::T1, _) => {
                self.ir = self.dr;
                self.action = action_of(self.dr);
                Phase::T2
            }
            (Phase::T2, None) => return Err(Refused(3)),
            (Phase::T2, Some(Action::Comp(operation, rd, rs1, rs2))) => {
                self.put(rd, operation.of(self.get(rs1), self.get(rs2)));
                Phase::T0
            }
            (Phase::T2, Some(Action::CompI(operation, rd, rs1, immediate))) => {
                self.put(rd, operation.of(self.get(rs1), immediate));
                Phase::T0
            }
            (Phase::T2, Some(Action::Lui(rd, immediate))) => {
                self.put(rd, immediate);
                Phase::T0
            }
            (Phase::T2, Some(Action::Auipc(rd, immediate))) => {
                self.put(rd, self.tr.wrapping_add(immediate));
                Phase::T0
            }
            (Phase::T2, Some(Action::Ld(load, _, rs1, immediate))) => {
                let address = self.get(rs1).wrapping_add(immediate);
                if address % load.size() != 0 {
                    return Err(Refused(4));
                }
                self.dr = memory.read(address / 4)?;
                self.ar = address;
                Phase::T3
            }
            (Phase::T2, Some(Action::St(store, rs1, rs2, immediate))) => {
                let address = self.get(rs1).wrapping_add(immediate);
                if address % store.size() != 0 {
                    return Err(Refused(4));
                }
                let (value, mask) = store.lanes(self.get(rs2), address);
                memory.write(address / 4, value, mask)?;
                self.ar = address;
                Phase::T0
            }
            (Phase::T2, Some(Action::Jal(rd, immediate))) => {
                self.put(rd, self.pc);
                self.pc = self.tr.wrapping_add(immediate);
                Phase::T0
            }
            (Phase::T2, Some(Action::Jalr(rd, rs1, immediate))) => {
                let target = self.get(rs1).wrapping_add(immediate);
                self.put(rd, self.pc);
                self.pc = target & !1;
                Phase::T0
            }
            (Phase::T2, Some(Action::Br(comparison, rs1, rs2, _))) => {
                self.flg = comparison.holds(self.get(rs1), self.get(rs2));
                Phase::T3
            }
            (Phase::T3, Some(Action::Ld(load, rd, _, _))) => {
                self.put(rd, load.of(self.dr, self.ar));
                Phase::T0
            }
            (Phase::T3, Some(Action::Br(_, _, _, immediate))) => {
                if self.flg {
                    self.pc = self.tr.wrapping_add(immediate);
                }
                Phase::T0
            }
            (Phase::T3, _) => Phase::T0,
        };
        Ok(())
    }

    /// One clock; a refused one drops the open instruction.
    fn tick(&mut self, memory: &mut Memory) -> Result<(), Refused> {
        let address = match self.phase {
            Phase::T0 => self.pc,
            _ => self.tr,
        };
        let answer = self.transfer(memory);
        if answer.is_err() {
            *self = Core::new(address, self.registers);
        }
        answer
    }

    fn new(pc: u32, registers: [u32; 32]) -> Core {
        Core {
            registers,
            pc,
            tr: 0,
            ir: 0,
            action: None,
            dr: 0,
            ar: 0,
            flg: false,
            phase: Phase::T0,
        }
    }
}

/// What an instruction wrote over.
#[derive(Clone, Copy)]
#[expect(
    dead_code,
    reason = "kept for a way back, which neither side goes here"
)]
enum Overwritten {
    Register { number: u8, value: u32 },
    Bytes { word: u32, value: u32, mask: u8 },
}

/// A retired instruction, as the journal keeps it.
#[derive(Clone, Copy)]
struct Entry {
    address: u32,
    word: u32,
    clocks: u64,
    #[expect(
        dead_code,
        reason = "kept for a way back, which neither side goes here"
    )]
    overwritten: Option<Overwritten>,
}

const EMPTY: Entry = Entry {
    address: 0,
    word: 0,
    clocks: 0,
    overwritten: None,
};

/// The newest 256 retired instructions, in a ring.
struct Journal {
    entries: [Entry; 256],
    next: usize,
    length: usize,
}

impl Journal {
    fn push(&mut self, entry: Entry) {
        self.entries[self.next] = entry;
        self.next = (self.next + 1) % 256;
        self.length = (self.length + 1).min(256);
    }
}

struct Bench {
    core: Core,
    memory: Memory,
    journal: Journal,
    clocks: u64,
    retired: u64,
}

impl Bench {
    /// What the next clock writes over if it retires the instruction.
    fn overwritten(&self) -> Option<Overwritten> {
        let core = &self.core;
        let register = |number| {
            Some(Overwritten::Register {
                number,
                value: core.get(number),
            })
        };
        match (core.phase, core.action?) {
            (Phase::T2, Action::Comp(_, rd, ..) | Action::CompI(_, rd, ..)) => register(rd),
            (Phase::T2, Action::Lui(rd, _) | Action::Auipc(rd, _)) => register(rd),
            (Phase::T2, Action::Jal(rd, _) | Action::Jalr(rd, ..)) => register(rd),
            (Phase::T3, Action::Ld(_, rd, ..)) => register(rd),
            (Phase::T2, Action::St(store, rs1, rs2, immediate)) => {
                let address = core.get(rs1).wrapping_add(immediate);
                let (_, mask) = store.lanes(core.get(rs2), address);
                let word = address / 4;
                let value = self.memory.read(word).ok()?;
                Some(Overwritten::Bytes { word, value, mask })
            }
            _ => None,
        }
    }

    /// Clocks until an instruction retires or one is refused.
    fn step(&mut self) -> Result<Entry, Refused> {
        loop {
            let open = self.core.phase as u64;
            let entry = Entry {
                address: self.core.tr,
                word: self.core.ir,
                clocks: open + 1,
                overwritten: self.overwritten(),
            };
            match self.core.tick(&mut self.memory) {
                Ok(()) => {
                    self.clocks = self.clocks.wrapping_add(1);
                    if self.core.phase == Phase::T0 {
                        self.retired = self.retired.wrapping_add(1);
                        self.journal.push(entry);
                        return Ok(entry);
                    }
                }
                Err(refused) => {
                    self.clocks = self.clocks.wrapping_sub(open);
                    return Err(refused);
                }
            }
        }
    }

    /// So many steps, fewer only if one is refused.
    fn run(&mut self, limit: u32) -> Result<(), Refused> {
        for _ in 0..limit {
            self.step()?;
        }
        Ok(())
    }

    /// The same, with a line for each step.
    fn trace(&mut self, limit: u32, text: &mut String) -> Result<(), Refused> {
        for _ in 0..limit {
            let Entry {
                address,
                word,
                clocks,
                ..
            } = self.step()?;
            writeln!(text, "{address:08x} {word:08x} {clocks}").unwrap();
        }
        Ok(())
    }
}

impl fmt::Display for Bench {
    fn fmt(&self, f: &mut fmt::Formatter<'_>) -> fmt::Result {
        let (pc, retired, clocks) = (self.core.pc, self.retired, self.clocks);
        writeln!(
            f,
            " at {pc:08x} after {retired} instructions and {clocks} clocks"
        )
    }
}

struct File<'a> {
    start: u32,
    base: u32,
    limit: u32,
    image: &'a [u8],
}

fn number(bytes: &[u8], at: usize) -> u32 {
    u32::from_le_bytes(bytes[at..at + 4].try_into().unwrap())
}

/// What a bench file says.
fn read(bytes: &[u8]) -> Result<File<'_>, Refused> {
    if bytes.len() < 24 || &bytes[..3] != b"RVB" {
        return Err(Refused(11));
    }
    if bytes[3..5] != [1, 0] {
        return Err(Refused(12));
    }
    let image = &bytes[24..];
    let [start, base, length, limit] = [8, 12, 16, 20].map(|at| number(bytes, at));
    let fits = base % 4 == 0
        && length % 4 == 0
        && length <= 32_768
        && length as usize == image.len()
        && u64::from(base) + u64::from(length) <= 1 << 32;
    if bytes[5..8] != [0; 3] || !fits {
        return Err(Refused(13));
    }
    if limit > 1_000_000 {
        return Err(Refused(7));
    }
    Ok(File {
        start,
        base,
        limit,
        image,
    })
}

fn output(bytes: &[u8], lines: bool) -> String {
    let mut text = String::new();
    let file = match read(bytes) {
        Ok(file) => file,
        Err(Refused(number)) => return format!("file {number}\n"),
    };
    let mut bench = Bench {
        core: Core::new(file.start, [0; 32]),
        memory: Memory {
            base: file.base / 4,
            image: file.image.to_vec(),
        },
        journal: Journal {
            entries: [EMPTY; 256],
            next: 0,
            length: 0,
        },
        clocks: 0,
        retired: 0,
    };
    let answer = if lines {
        bench.trace(file.limit, &mut text)
    } else {
        bench.run(file.limit)
    };
    let number = answer.err().map_or(0, |Refused(number)| number);
    write!(text, "stop {number}{bench}").unwrap();
    // The journal is kept, as in the bench that can go back.
    std::hint::black_box(&bench.journal);
    text
}

fn main() -> io::Result<()> {
    let lines = std::env::args().nth(1).as_deref() == Some("trace");
    let mut bytes = Vec::new();
    io::stdin().take(32_793).read_to_end(&mut bytes)?;
    io::stdout().write_all(output(&bytes, lines).as_bytes())
}
