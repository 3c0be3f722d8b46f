//! A plain simulator, to measure `ultra words` against. It runs the same files, keeps the same log of steps and prints the
//! same report, as ordinary Rust with no proof.
//!
//! `baseline FILE` prints the report. `baseline --count FILE` prints how many instructions retired and how many steps the
//! log has.

mod instructions;

use instructions::{Amo, Fault, Insn, alu, amo, decode, is_taken, number};
use std::process::ExitCode;
use std::{env, fs};

const CODE_START: u32 = 0x0001_0000;
const LOCAL_START: u32 = 0x0002_0000;
const REGION_BYTES: u32 = 0x0001_0000;
const SHARED_START: u32 = 0x8000_0000;
const SHARED_WORDS: u32 = 1024;
const CODE_WORDS: usize = 0x4000;
const BUDGET: u32 = 1_000_000;

/// A step of the log, with the variants of `ultra`'s own and their layout, in the order that they are written. A run of hex
/// words takes only turns and module steps.
#[allow(dead_code)]
#[derive(Clone, Copy)]
#[repr(u8)]
enum Step {
    Turn(u8),
    Up { stage: u8, wire: u8 },
    Serve(u8),
    Down { stage: u8, wire: u8 },
    Poke(Poke),
}

const _: () = assert!(size_of::<Step>() == 16);

#[allow(dead_code)]
#[derive(Clone, Copy)]
#[repr(u8)]
enum Poke {
    Register {
        processor: u8,
        register: u8,
        value: u32,
    },
    Local {
        processor: u8,
        address: u32,
        value: u8,
    },
    Shared {
        address: u32,
        value: u8,
    },
}

/// Why the processor stopped.
enum Stop {
    Halt(u8),
    Fault(Fault),
}

/// A shared word, or a place from the first address of local memory or of code.
enum Place {
    Shared(usize),
    Local(usize),
    Code(usize),
}

/// Where an access of memory goes.
fn place(size: u32, address: u32, writes: bool) -> Result<Place, Fault> {
    if address % size != 0 {
        return Err(Fault::AddressNotAligned);
    }
    if (SHARED_START..SHARED_START + 4 * SHARED_WORDS).contains(&address) {
        return Ok(Place::Shared(((address - SHARED_START) / 4) as usize));
    }
    let place = (address % REGION_BYTES) as usize;
    match address / REGION_BYTES * REGION_BYTES {
        LOCAL_START => Ok(Place::Local(place)),
        CODE_START if writes => Err(Fault::StoreToCode),
        CODE_START => Ok(Place::Code(place)),
        _ => Err(Fault::NoRegion),
    }
}

struct Machine {
    pc: u32,
    registers: [u32; 32],
    local: Vec<u8>,
    shared: Vec<u32>,
    code: Vec<u8>,
    insns: Vec<Option<Insn>>,
    log: Vec<Step>,
}

impl Machine {
    fn new(words: &[u32]) -> Machine {
        let mut code: Vec<u8> = words.iter().flat_map(|word| word.to_le_bytes()).collect();
        code.resize(REGION_BYTES as usize, 0);
        Machine {
            pc: CODE_START,
            registers: [0; 32],
            local: vec![0; REGION_BYTES as usize],
            shared: vec![0; SHARED_WORDS as usize],
            insns: code.chunks(4).map(|bytes| decode(number(bytes))).collect(),
            code,
            log: Vec::new(),
        }
    }

    fn read(&self, register: u8) -> u32 {
        self.registers[register as usize]
    }

    fn write(&mut self, register: u8, value: u32) {
        if register != 0 {
            self.registers[register as usize] = value;
        }
    }

    fn fetch(&self) -> Result<Insn, Fault> {
        if self.pc / REGION_BYTES != CODE_START / REGION_BYTES {
            return Err(Fault::FetchOutsideCode);
        }
        self.insns[(self.pc % REGION_BYTES / 4) as usize].ok_or(Fault::NoRow)
    }

    /// Enters the two steps that a shared access takes before the one that every instruction takes: its request, and its
    /// module's.
    fn refer(&mut self) {
        self.log.push(Step::Turn(0));
        self.log.push(Step::Serve(0));
    }

    fn load(&mut self, size: u32, address: u32) -> Result<u32, Fault> {
        Ok(match place(size, address, false)? {
            Place::Shared(word) => {
                self.refer();
                let ones = u32::MAX >> (32 - 8 * size);
                self.shared[word] >> (8 * (address % 4)) & ones
            }
            Place::Local(at) => number(&self.local[at..at + size as usize]),
            Place::Code(at) => number(&self.code[at..at + size as usize]),
        })
    }

    fn store(&mut self, size: u32, address: u32, value: u32) -> Result<(), Fault> {
        match place(size, address, true)? {
            Place::Shared(word) => {
                self.refer();
                let shift = 8 * (address % 4);
                let ones = (u32::MAX >> (32 - 8 * size)) << shift;
                self.shared[word] = self.shared[word] & !ones | value << shift & ones;
            }
            Place::Local(at) => {
                self.local[at..at + size as usize]
                    .copy_from_slice(&value.to_le_bytes()[..size as usize]);
            }
            Place::Code(_) => unreachable!(),
        }
        Ok(())
    }

    fn fetch_and_phi(&mut self, op: Amo, address: u32, value: u32) -> Result<u32, Fault> {
        match place(4, address, true)? {
            Place::Shared(word) => {
                self.refer();
                let old = self.shared[word];
                self.shared[word] = amo(op, old, value);
                Ok(old)
            }
            Place::Local(at) => {
                let old = number(&self.local[at..at + 4]);
                self.local[at..at + 4].copy_from_slice(&amo(op, old, value).to_le_bytes());
                Ok(old)
            }
            Place::Code(_) => unreachable!(),
        }
    }

    /// Jumps, with the address of the next instruction in `rd`.
    fn jump(&mut self, rd: u8, target: u32) -> Result<(), Fault> {
        if target % 4 != 0 {
            return Err(Fault::TargetNotAligned);
        }
        self.write(rd, self.pc.wrapping_add(4));
        self.pc = target;
        Ok(())
    }

    fn call(&mut self) -> Result<(), Stop> {
        match self.read(17) {
            0 => return Err(Stop::Halt(self.read(10).to_le_bytes()[0])),
            1 => {}
            2 => self.write(10, 0),
            3 => self.write(10, 1),
            _ => return Err(Stop::Fault(Fault::UnknownCall)),
        }
        Ok(())
    }

    /// Takes one instruction.
    fn take(&mut self) -> Result<(), Stop> {
        match self.fetch()? {
            Insn::Op { op, rd, rs1, rs2 } => {
                self.write(rd, alu(op, self.read(rs1), self.read(rs2)));
            }
            Insn::OpImm { op, rd, rs1, imm } => self.write(rd, alu(op, self.read(rs1), imm)),
            Insn::Load {
                size,
                signed,
                rd,
                rs1,
                imm,
            } => {
                let value = self.load(size, self.read(rs1).wrapping_add(imm))?;
                let shift = 32 - 8 * size;
                let extended = ((value << shift).cast_signed() >> shift).cast_unsigned();
                self.write(rd, if signed { extended } else { value });
            }
            Insn::Store {
                size,
                rs1,
                rs2,
                imm,
            } => {
                self.store(size, self.read(rs1).wrapping_add(imm), self.read(rs2))?;
            }
            Insn::Branch {
                test,
                rs1,
                rs2,
                offset,
            } => {
                if is_taken(test, self.read(rs1), self.read(rs2)) {
                    return Ok(self.jump(0, self.pc.wrapping_add(offset))?);
                }
            }
            Insn::Lui { rd, value } => self.write(rd, value),
            Insn::Auipc { rd, value } => self.write(rd, self.pc.wrapping_add(value)),
            Insn::Jal { rd, offset } => return Ok(self.jump(rd, self.pc.wrapping_add(offset))?),
            Insn::Jalr { rd, rs1, imm } => {
                return Ok(self.jump(rd, self.read(rs1).wrapping_add(imm) & !1)?);
            }
            Insn::Fence => {}
            Insn::Ecall => self.call()?,
            Insn::Ebreak => return Err(Stop::Fault(Fault::Breakpoint)),
            Insn::Amo { op, rd, rs1, rs2 } => {
                let old = self.fetch_and_phi(op, self.read(rs1), self.read(rs2))?;
                self.write(rd, old);
            }
        }
        self.pc = self.pc.wrapping_add(4);
        Ok(())
    }

    /// Runs until the processor stops, and answers how many instructions retired and why it stopped; nothing if too many
    /// retire.
    fn run(&mut self) -> Option<(u32, Stop)> {
        for retired in 0..BUDGET {
            let taken = self.take();
            self.log.push(Step::Turn(0));
            if let Err(stop) = taken {
                return Some((retired, stop));
            }
        }
        None
    }
}

impl From<Fault> for Stop {
    fn from(fault: Fault) -> Stop {
        Stop::Fault(fault)
    }
}

/// The words of a file, or the number of its first bad line.
fn words_of(text: &str) -> Result<Vec<u32>, usize> {
    let word = |(at, line): (usize, &str)| match u32::from_str_radix(line, 16) {
        Ok(word) if line.len() == 8 && !line.starts_with('+') && at < CODE_WORDS => Ok(word),
        _ => Err(at + 1),
    };
    text.split_terminator('\n').enumerate().map(word).collect()
}

fn report(machine: &Machine, stop: &Stop) -> String {
    let mut lines: Vec<String> = machine
        .registers
        .iter()
        .enumerate()
        .map(|(at, value)| format!("x{at} {value:08x}\n"))
        .collect();
    lines.push(format!("pc {:08x}\n", machine.pc));
    lines.push(match stop {
        Stop::Halt(byte) => format!("halt {byte:02x}\n"),
        Stop::Fault(fault) => format!("fault {}\n", *fault as u8),
    });
    lines.concat()
}

fn main() -> ExitCode {
    let arguments: Vec<String> = env::args().skip(1).collect();
    let (counts, file) = match arguments.as_slice() {
        [option, file] if option == "--count" => (true, file),
        [file] => (false, file),
        _ => {
            eprintln!("usage: baseline [--count] FILE");
            return ExitCode::from(2);
        }
    };
    let Ok(text) = fs::read_to_string(file) else {
        eprintln!("baseline: {file} cannot be read");
        return ExitCode::from(3);
    };
    let words = match words_of(&text) {
        Ok(words) => words,
        Err(line) => {
            eprintln!("baseline: line {line} is no word");
            return ExitCode::from(2);
        }
    };
    let mut machine = Machine::new(&words);
    let Some((retired, stop)) = machine.run() else {
        eprintln!("baseline: the processor ran for too long");
        return ExitCode::from(4);
    };
    if counts {
        println!("{retired} {}", machine.log.len());
    } else {
        print!("{}", report(&machine, &stop));
    }
    ExitCode::from(u8::from(matches!(stop, Stop::Fault(_))))
}
