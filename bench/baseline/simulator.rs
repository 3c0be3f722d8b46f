//! The machine of the plain simulators `machine` and `traces`: what an image says, the machine that opens on it, the steps that it
//! takes, and its report. An observer hears what a step does; those of a sweep have none, and cost nothing.

use crate::instructions::{Amo, Fault, Insn, alu, amo, decode, is_taken, number};
use std::collections::VecDeque;
use std::fmt;

pub const CODE_START: u32 = 0x0001_0000;
const LOCAL_START: u32 = 0x0002_0000;
const REGION_BYTES: usize = 0x0001_0000;
const SHARED_START: u32 = 0x8000_0000;

#[derive(Clone, Copy)]
pub struct Config {
    pub k: u8,
    pub c: usize,
    pub b: usize,
    pub words: u32,
}

/// A function of words.
#[derive(Clone, Copy)]
pub enum Phi {
    Add(u32),
    Bits { and: u32, xor: u32 },
    Clamp { low: i32, high: i32 },
    ClampU { low: u32, high: u32 },
}

impl Phi {
    fn of_amo(op: Amo, value: u32) -> Phi {
        match op {
            Amo::Add => Phi::Add(value),
            Amo::Swap => Phi::Bits { and: 0, xor: value },
            Amo::Xor => Phi::Bits {
                and: u32::MAX,
                xor: value,
            },
            Amo::Or => Phi::Bits {
                and: !value,
                xor: value,
            },
            Amo::And => Phi::Bits { and: value, xor: 0 },
            Amo::Min => Phi::Clamp {
                low: i32::MIN,
                high: value.cast_signed(),
            },
            Amo::Max => Phi::Clamp {
                low: value.cast_signed(),
                high: i32::MAX,
            },
            Amo::Minu => Phi::ClampU {
                low: 0,
                high: value,
            },
            Amo::Maxu => Phi::ClampU {
                low: value,
                high: u32::MAX,
            },
        }
    }

    pub fn apply(self, word: u32) -> u32 {
        match self {
            Phi::Add(amount) => word.wrapping_add(amount),
            Phi::Bits { and, xor } => word & and ^ xor,
            Phi::Clamp { low, high } => word.cast_signed().max(low).min(high).cast_unsigned(),
            Phi::ClampU { low, high } => word.max(low).min(high),
        }
    }

    pub fn is_identity(self) -> bool {
        match self {
            Phi::Add(amount) => amount == 0,
            Phi::Bits { and, xor } => and == u32::MAX && xor == 0,
            Phi::Clamp { low, high } => low == i32::MIN && high == i32::MAX,
            Phi::ClampU { low, high } => low == 0 && high == u32::MAX,
        }
    }

    pub fn is_constant(self) -> bool {
        match self {
            Phi::Add(_) => false,
            Phi::Bits { and, .. } => and == 0,
            Phi::Clamp { low, high } => low == high,
            Phi::ClampU { low, high } => low == high,
        }
    }

    /// This function and then the other.
    pub fn then(self, next: Phi) -> Option<Phi> {
        Some(match (self, next) {
            (Phi::Add(a), Phi::Add(b)) => Phi::Add(a.wrapping_add(b)),
            (Phi::Bits { and, xor }, Phi::Bits { and: mask, xor: turn }) => Phi::Bits {
                and: and & mask,
                xor: xor & mask ^ turn,
            },
            (Phi::Clamp { low, high }, Phi::Clamp { low: l, high: h }) => Phi::Clamp {
                low: low.max(l).min(h),
                high: high.max(l).min(h),
            },
            (Phi::ClampU { low, high }, Phi::ClampU { low: l, high: h }) => Phi::ClampU {
                low: low.max(l).min(h),
                high: high.max(l).min(h),
            },
            _ if self.is_identity() || next.is_constant() => next,
            _ if next.is_identity() => self,
            _ if self.is_constant() => Phi::Bits {
                and: 0,
                xor: next.apply(self.apply(0)),
            },
            _ => return None,
        })
    }
}

#[derive(Clone, Copy)]
pub struct Request {
    pub leader: u8,
    pub word: u32,
    pub phi: Phi,
}

#[derive(Clone, Copy)]
struct Entry {
    request: Request,
    is_combined: bool,
}

#[derive(Clone, Copy)]
struct Reply {
    leader: u8,
    value: u32,
}

#[derive(Clone, Copy)]
pub struct Record {
    pub leader: u8,
    pub phi: Phi,
    pub second: u8,
}

/// A step of the log.
#[derive(Clone, Copy)]
pub enum Step {
    Turn(u8),
    Up(u8, u8),
    Serve(u8),
    Down(u8, u8),
}

/// What a step did, as far as the report asks.
#[derive(Clone, Copy, PartialEq)]
pub enum Outcome {
    Stalled,
    Moved,
    Retired(Option<u8>),
    Halted,
    Faulted,
}

#[derive(Clone, Copy, PartialEq)]
pub enum Status {
    Running,
    Halted(u8),
    Faulted(u8),
}

impl fmt::Display for Status {
    fn fmt(&self, out: &mut fmt::Formatter) -> fmt::Result {
        match self {
            Status::Running => write!(out, "run"),
            Status::Halted(byte) => write!(out, "halt {byte:02x}"),
            Status::Faulted(cause) => write!(out, "fault {cause}"),
        }
    }
}

/// How an open reference changes its processor once the word is there.
#[derive(Clone, Copy)]
pub enum Wanted {
    Nothing,
    Word(u8),
    Part {
        rd: u8,
        shift: u32,
        size: u32,
        signed: bool,
    },
}

impl Wanted {
    /// The register that is written, and its value, if the word has this value.
    pub fn written(self, value: u32) -> Option<(u8, u32)> {
        match self {
            Wanted::Nothing => None,
            Wanted::Word(rd) => Some((rd, value)),
            Wanted::Part {
                rd,
                shift,
                size,
                signed,
            } => Some((rd, extended(value >> shift, size, signed))),
        }
    }
}

/// Hears what steps do. A register is given with its new value, also if it is register 0.
pub trait Observer {
    /// A step is taken, which may stall.
    fn begins(&mut self, _step: Step) {}

    /// A processor whose reference is at `pc` sends its request.
    fn sends(&mut self, _pc: u32, _request: &Request, _wanted: Wanted) {}

    /// A processor carries out a local instruction, which may write a register, or a byte to the console.
    fn retires(&mut self, _p: u8, _pc: u32, _written: Option<(u8, u32)>, _byte: Option<u8>) {}

    /// A processor takes its reply, and so carries out its reference.
    fn completes(&mut self, _p: u8, _pc: u32, _written: Option<(u8, u32)>) {}

    fn stops(&mut self, _p: u8, _pc: u32, _status: Status) {}

    /// A request moves into a queue, which holds this many then.
    fn rises(&mut self, _stage: u8, _queued: usize) {}

    /// A request is combined with another. `both` does what both do, and the buffer holds this many records then.
    fn combines(&mut self, _stage: u8, _record: &Record, _both: Phi, _records: usize) {}

    fn serves(&mut self, _module: u8, _request: &Request, _before: u32, _after: u32) {}

    /// A reply moves into a queue, which holds this many then.
    fn returns(&mut self, _stage: u8, _queued: usize) {}

    /// A reply is split, and the second gets this value. The longer of the two queues holds this many then.
    fn splits(&mut self, _stage: u8, _second: u8, _value: u32, _queued: usize) {}
}

/// The observer that hears nothing.
impl Observer for () {}

pub struct Processor {
    pub pc: u32,
    registers: [u32; 32],
    local: Vec<u8>,
    pub status: Status,
    open: Option<Wanted>,
}

pub struct Layout {
    entry: u32,
    pub code: Vec<u8>,
    local: Vec<u8>,
    shared: Vec<u32>,
}

pub struct Machine {
    pub config: Config,
    pub n: u8,
    insns: Vec<Option<Insn>>,
    code: Vec<u8>,
    pub processors: Vec<Processor>,
    pub shared: Vec<u32>,
    slots: Vec<Option<Request>>,
    requests: Vec<VecDeque<Entry>>,
    records: Vec<Vec<Record>>,
    replies: Vec<VecDeque<Reply>>,
    module_replies: Vec<Option<Reply>>,
    /// For each depth, a bit for each wire that holds a request, and for each that holds a reply.
    pub asking: [u64; 7],
    pub told: [u64; 7],
    pub running: u32,
    pub open: u32,
}

/// Where an access of memory goes.
enum Place {
    Shared(u32),
    Local(usize),
    Code(usize),
}

impl Machine {
    pub fn new(config: Config, layout: &Layout) -> Machine {
        let n = 1usize << config.k;
        let places = n * config.k as usize;
        let processor = |_| Processor {
            pc: layout.entry,
            registers: [0; 32],
            local: layout.local.clone(),
            status: Status::Running,
            open: None,
        };
        Machine {
            config,
            n: n as u8,
            insns: layout.code.chunks(4).map(|bytes| decode(number(bytes))).collect(),
            code: layout.code.clone(),
            processors: (0..n).map(processor).collect(),
            shared: layout.shared.clone(),
            slots: vec![None; n],
            requests: vec![VecDeque::with_capacity(config.c); places],
            records: vec![Vec::with_capacity(config.b); places],
            replies: vec![VecDeque::with_capacity(config.c); places],
            module_replies: vec![None; n],
            asking: [0; 7],
            told: [0; 7],
            running: n as u32,
            open: 0,
        }
    }

    fn left(&self, wire: u8) -> u8 {
        if self.config.k == 0 { 0 } else { (wire << 1 | wire >> (self.config.k - 1)) & (self.n - 1) }
    }

    fn right(&self, wire: u8) -> u8 {
        if self.config.k == 0 { 0 } else { (wire >> 1 | wire << (self.config.k - 1)) & (self.n - 1) }
    }

    fn at(&self, stage: u8, wire: u8) -> usize {
        (stage as usize) << self.config.k | wire as usize
    }

    fn bit(&self, number: u8, stage: u8) -> u8 {
        number >> (self.config.k - 1 - stage) & 1
    }

    fn module(&self, word: u32) -> u8 {
        (word & u32::from(self.n - 1)) as u8
    }

    pub fn apply(&mut self, step: Step, observer: &mut impl Observer) -> Outcome {
        observer.begins(step);
        match step {
            Step::Turn(p) => self.turn(p as usize, observer),
            Step::Up(stage, wire) => self.up(stage, wire, observer),
            Step::Serve(m) => self.serve(m, observer),
            Step::Down(stage, wire) => self.down(stage, wire, observer),
        }
    }

    /// The request before a stage on a wire, if any.
    fn request(&self, stage: u8, wire: u8) -> Option<Request> {
        if stage == 0 {
            return self.slots[wire as usize];
        }
        Some(self.requests[self.at(stage - 1, wire)].front()?.request)
    }

    fn take_request(&mut self, stage: u8, wire: u8) {
        let mut stays = false;
        if stage == 0 {
            self.slots[wire as usize] = None;
        } else {
            let at = self.at(stage - 1, wire);
            self.requests[at].pop_front();
            stays = !self.requests[at].is_empty();
        }
        if !stays {
            self.asking[stage as usize] &= !(1 << wire);
        }
    }

    fn up(&mut self, stage: u8, wire: u8, observer: &mut impl Observer) -> Outcome {
        let Some(request) = self.request(stage, wire) else {
            return Outcome::Stalled;
        };
        let out = self.left(wire) & !1 | self.bit(self.module(request.word), stage);
        let at = self.at(stage, out);
        if !self.combine(stage, at, request, observer) {
            if self.requests[at].len() >= self.config.c {
                return Outcome::Stalled;
            }
            self.requests[at].push_back(Entry {
                request,
                is_combined: false,
            });
            self.asking[stage as usize + 1] |= 1 << out;
            observer.rises(stage, self.requests[at].len());
        }
        self.take_request(stage, wire);
        Outcome::Moved
    }

    /// Combines a request with the first entry that it can be combined with, and answers whether there is one.
    fn combine(&mut self, stage: u8, at: usize, request: Request, observer: &mut impl Observer) -> bool {
        if self.records[at].len() >= self.config.b {
            return false;
        }
        for entry in &mut self.requests[at] {
            if entry.is_combined || entry.request.word != request.word {
                continue;
            }
            let Some(phi) = entry.request.phi.then(request.phi) else {
                continue;
            };
            let record = Record {
                leader: entry.request.leader,
                phi: entry.request.phi,
                second: request.leader,
            };
            self.records[at].push(record);
            entry.request.phi = phi;
            entry.is_combined = true;
            observer.combines(stage, &record, phi, self.records[at].len());
            return true;
        }
        false
    }

    fn serve(&mut self, module: u8, observer: &mut impl Observer) -> Outcome {
        if self.module_replies[module as usize].is_some() {
            return Outcome::Stalled;
        }
        let Some(request) = self.request(self.config.k, module) else {
            return Outcome::Stalled;
        };
        let word = &mut self.shared[request.word as usize];
        let before = *word;
        self.module_replies[module as usize] = Some(Reply {
            leader: request.leader,
            value: before,
        });
        *word = request.phi.apply(before);
        observer.serves(module, &request, before, *word);
        self.told[self.config.k as usize] |= 1 << module;
        self.take_request(self.config.k, module);
        Outcome::Moved
    }

    /// The reply before a stage on a wire, if any; at depth k that of a module.
    fn reply(&self, stage: u8, wire: u8) -> Option<Reply> {
        if stage == self.config.k {
            return self.module_replies[wire as usize];
        }
        self.replies[self.at(stage, self.left(wire))].front().copied()
    }

    fn take_reply(&mut self, stage: u8, wire: u8) {
        let mut stays = false;
        if stage == self.config.k {
            self.module_replies[wire as usize] = None;
        } else {
            let at = self.at(stage, self.left(wire));
            self.replies[at].pop_front();
            stays = !self.replies[at].is_empty();
        }
        if !stays {
            self.told[stage as usize] &= !(1 << wire);
        }
    }

    fn down(&mut self, stage: u8, wire: u8, observer: &mut impl Observer) -> Outcome {
        let Some(reply) = self.reply(stage + 1, wire) else {
            return Outcome::Stalled;
        };
        let at = self.at(stage, wire);
        let record = self.records[at].iter().position(|record| record.leader == reply.leader);
        let first = wire & !1 | self.bit(reply.leader, stage);
        let place = self.at(stage, first);
        match record {
            None => {
                if self.replies[place].len() >= self.config.c {
                    return Outcome::Stalled;
                }
                self.push_reply(stage, first, reply);
                observer.returns(stage, self.replies[place].len());
            }
            Some(number) => {
                let record = self.records[at][number];
                let second = wire & !1 | self.bit(record.second, stage);
                let further = self.at(stage, second);
                let room = |place: usize| self.config.c - self.replies[place].len();
                let both = if first == second { room(place) >= 2 } else { room(place) > 0 && room(further) > 0 };
                if !both {
                    return Outcome::Stalled;
                }
                self.records[at].remove(number);
                self.push_reply(stage, first, reply);
                let value = record.phi.apply(reply.value);
                self.push_reply(stage, second, Reply {
                    leader: record.second,
                    value,
                });
                let queued = self.replies[place].len().max(self.replies[further].len());
                observer.splits(stage, record.second, value, queued);
            }
        }
        self.take_reply(stage + 1, wire);
        Outcome::Moved
    }

    fn push_reply(&mut self, stage: u8, input: u8, reply: Reply) {
        let place = self.at(stage, input);
        self.replies[place].push_back(reply);
        self.told[stage as usize] |= 1 << self.right(input);
    }

    fn turn(&mut self, p: usize, observer: &mut impl Observer) -> Outcome {
        if let Some(wanted) = self.processors[p].open {
            if self.told[0] >> p & 1 == 0 {
                return Outcome::Stalled;
            }
            return self.finish(p, wanted, observer);
        }
        if self.processors[p].status != Status::Running {
            return Outcome::Stalled;
        }
        match self.begin(p, observer) {
            Ok(outcome) => outcome,
            Err(fault) => {
                self.stop(p, Status::Faulted(fault as u8), observer);
                Outcome::Faulted
            }
        }
    }

    fn stop(&mut self, p: usize, status: Status, observer: &mut impl Observer) {
        self.processors[p].status = status;
        self.running -= 1;
        observer.stops(p as u8, self.processors[p].pc, status);
    }

    fn finish(&mut self, p: usize, wanted: Wanted, observer: &mut impl Observer) -> Outcome {
        let wire = p as u8;
        let value = self.reply(0, wire).expect("its bit is set").value;
        self.take_reply(0, wire);
        self.open -= 1;
        let processor = &mut self.processors[p];
        let written = wanted.written(value);
        observer.completes(wire, processor.pc, written);
        processor.open = None;
        processor.pc = processor.pc.wrapping_add(4);
        if let Some((rd, value)) = written {
            write(processor, rd, value);
        }
        Outcome::Retired(None)
    }

    fn issue(&mut self, p: usize, word: u32, phi: Phi, wanted: Wanted, observer: &mut impl Observer) -> Outcome {
        let request = Request {
            leader: p as u8,
            word,
            phi,
        };
        observer.sends(self.processors[p].pc, &request, wanted);
        self.slots[p] = Some(request);
        self.asking[0] |= 1 << p;
        self.processors[p].open = Some(wanted);
        self.open += 1;
        Outcome::Moved
    }

    /// Where an access of memory goes.
    fn place(&self, size: u32, address: u32, writes: bool) -> Result<Place, Fault> {
        if address % size != 0 {
            return Err(Fault::AddressNotAligned);
        }
        if address >= SHARED_START && (address - SHARED_START) / 4 < self.config.words {
            return Ok(Place::Shared((address - SHARED_START) / 4));
        }
        let place = address as usize % REGION_BYTES;
        match address & 0xFFFF_0000 {
            LOCAL_START => Ok(Place::Local(place)),
            CODE_START if writes => Err(Fault::StoreToCode),
            CODE_START => Ok(Place::Code(place)),
            _ => Err(Fault::NoRegion),
        }
    }

    /// The turn of a processor that runs and has no reference open.
    fn begin(&mut self, p: usize, observer: &mut impl Observer) -> Result<Outcome, Fault> {
        let pc = self.processors[p].pc;
        if pc & 0xFFFF_0000 != CODE_START {
            return Err(Fault::FetchOutsideCode);
        }
        let insn = self.insns[pc as usize % REGION_BYTES / 4].ok_or(Fault::NoRow)?;
        let registers = &self.processors[p].registers;
        let read = |register: u8| registers[register as usize];
        let mut next = pc.wrapping_add(4);
        let mut out = None;
        let written = match insn {
            Insn::Op { op, rd, rs1, rs2 } => Some((rd, alu(op, read(rs1), read(rs2)))),
            Insn::OpImm { op, rd, rs1, imm } => Some((rd, alu(op, read(rs1), imm))),
            Insn::Load {
                size,
                signed,
                rd,
                rs1,
                imm,
            } => {
                let address = read(rs1).wrapping_add(imm);
                let value = match self.place(size, address, false)? {
                    Place::Shared(word) => {
                        let phi = Phi::Bits {
                            and: u32::MAX,
                            xor: 0,
                        };
                        let shift = 8 * (address % 4);
                        let wanted = Wanted::Part { rd, shift, size, signed };
                        return Ok(self.issue(p, word, phi, wanted, observer));
                    }
                    Place::Local(at) => number(&self.processors[p].local[at..at + size as usize]),
                    Place::Code(at) => number(&self.code[at..at + size as usize]),
                };
                Some((rd, extended(value, size, signed)))
            }
            Insn::Store { size, rs1, rs2, imm } => {
                let address = read(rs1).wrapping_add(imm);
                let value = read(rs2);
                match self.place(size, address, true)? {
                    Place::Shared(word) => {
                        let shift = 8 * (address % 4);
                        let ones = (u32::MAX >> (32 - 8 * size)) << shift;
                        let phi = Phi::Bits {
                            and: !ones,
                            xor: value << shift & ones,
                        };
                        return Ok(self.issue(p, word, phi, Wanted::Nothing, observer));
                    }
                    Place::Local(at) => {
                        let size = size as usize;
                        self.processors[p].local[at..at + size].copy_from_slice(&value.to_le_bytes()[..size]);
                    }
                    Place::Code(_) => unreachable!(),
                }
                None
            }
            Insn::Branch {
                test,
                rs1,
                rs2,
                offset,
            } => {
                if is_taken(test, read(rs1), read(rs2)) {
                    next = aligned(pc.wrapping_add(offset))?;
                }
                None
            }
            Insn::Lui { rd, value } => Some((rd, value)),
            Insn::Auipc { rd, value } => Some((rd, pc.wrapping_add(value))),
            Insn::Jal { rd, offset } => {
                let back = next;
                next = aligned(pc.wrapping_add(offset))?;
                Some((rd, back))
            }
            Insn::Jalr { rd, rs1, imm } => {
                let back = next;
                next = aligned(read(rs1).wrapping_add(imm) & !1)?;
                Some((rd, back))
            }
            Insn::Fence => None,
            Insn::Ebreak => return Err(Fault::Breakpoint),
            Insn::Ecall => match read(17) {
                0 => {
                    let byte = read(10) as u8;
                    self.stop(p, Status::Halted(byte), observer);
                    return Ok(Outcome::Halted);
                }
                1 => {
                    out = Some(read(10) as u8);
                    None
                }
                2 => Some((10, p as u32)),
                3 => Some((10, u32::from(self.n))),
                _ => return Err(Fault::UnknownCall),
            },
            Insn::Amo { op, rd, rs1, rs2 } => {
                let (address, value) = (read(rs1), read(rs2));
                match self.place(4, address, true)? {
                    Place::Shared(word) => {
                        let phi = Phi::of_amo(op, value);
                        return Ok(self.issue(p, word, phi, Wanted::Word(rd), observer));
                    }
                    Place::Local(at) => {
                        let bytes = &mut self.processors[p].local[at..at + 4];
                        let old = number(bytes);
                        bytes.copy_from_slice(&amo(op, old, value).to_le_bytes());
                        Some((rd, old))
                    }
                    Place::Code(_) => unreachable!(),
                }
            }
        };
        let processor = &mut self.processors[p];
        if let Some((rd, value)) = written {
            write(processor, rd, value);
        }
        processor.pc = next;
        observer.retires(p as u8, pc, written, out);
        Ok(Outcome::Retired(out))
    }

    /// Whether a fault has stopped a processor.
    pub fn is_faulted(&self) -> bool {
        self.processors.iter().any(|processor| matches!(processor.status, Status::Faulted(_)))
    }

    /// The next step of a drain; none if no reference is open.
    pub fn drain_step(&self) -> Option<Step> {
        if self.open == 0 {
            return None;
        }
        let k = self.config.k;
        let first = |set: u64| (set != 0).then(|| set.trailing_zeros() as u8);
        if let Some(p) = first(self.told[0]) {
            return Some(Step::Turn(p));
        }
        let down = (0..k).find_map(|s| Some(Step::Down(s, first(self.told[s as usize + 1])?)));
        let serve = || Some(Step::Serve(first(self.asking[k as usize])?));
        let up = || (0..k).rev().find_map(|s| Some(Step::Up(s, first(self.asking[s as usize])?)));
        down.or_else(serve).or_else(up)
    }
}

fn write(processor: &mut Processor, register: u8, value: u32) {
    if register != 0 {
        processor.registers[register as usize] = value;
    }
}

fn extended(value: u32, size: u32, signed: bool) -> u32 {
    let shift = 32 - 8 * size;
    let high = value << shift;
    if signed { (high.cast_signed() >> shift).cast_unsigned() } else { high >> shift }
}

fn aligned(target: u32) -> Result<u32, Fault> {
    if target % 4 == 0 { Ok(target) } else { Err(Fault::TargetNotAligned) }
}

/// The little-endian number of four bytes of a file, of two.
fn word(bytes: &[u8], at: usize) -> u32 {
    number(&bytes[at..at + 4])
}

fn half(bytes: &[u8], at: usize) -> u32 {
    number(&bytes[at..at + 2])
}

/// What an image that is no fault says of the regions.
pub fn layout(bytes: &[u8], words: u32) -> Layout {
    let mut layout = Layout {
        entry: word(bytes, 24),
        code: vec![0; REGION_BYTES],
        local: vec![0; REGION_BYTES],
        shared: vec![0; words as usize],
    };
    let (table, count) = (word(bytes, 28) as usize, half(bytes, 44) as usize);
    for header in (0..count).map(|number| table + 32 * number) {
        let (start, address) = (word(bytes, header + 4) as usize, word(bytes, header + 8));
        let size = word(bytes, header + 16) as usize;
        if word(bytes, header) != 1 {
            continue;
        }
        let bytes = &bytes[start..start + size];
        let place = address as usize % REGION_BYTES;
        match address & 0xFFFF_0000 {
            CODE_START => layout.code[place..place + size].copy_from_slice(bytes),
            LOCAL_START => layout.local[place..place + size].copy_from_slice(bytes),
            _ => {
                for (at, byte) in bytes.iter().enumerate() {
                    let at = (address - SHARED_START) as usize + at;
                    layout.shared[at / 4] |= u32::from(*byte) << (8 * (at % 4));
                }
            }
        }
    }
    layout
}

/// What processors have shown: how many instructions of each have retired, and the bytes that it has written to the console.
pub struct Tally {
    retired: Vec<u32>,
    consoles: Vec<String>,
}

impl Tally {
    pub fn new(machine: &Machine) -> Tally {
        let n = machine.processors.len();
        Tally { retired: vec![0; n], consoles: vec![String::new(); n] }
    }

    pub fn report(&self, machine: &Machine) -> String {
        let mut text = String::new();
        for (p, processor) in machine.processors.iter().enumerate() {
            let console = if self.consoles[p].is_empty() { "-" } else { &self.consoles[p] };
            let (pc, status, retired) = (processor.pc, processor.status, self.retired[p]);
            text += &format!("processor {p} pc {pc:08x} {status} retired {retired} console {console}\n");
        }
        for (number, word) in machine.shared.iter().enumerate().filter(|(_, word)| **word != 0) {
            text += &format!("word {number} {word:08x}\n");
        }
        text
    }
}

impl Observer for Tally {
    fn retires(&mut self, p: u8, _pc: u32, _written: Option<(u8, u32)>, byte: Option<u8>) {
        self.retired[p as usize] += 1;
        if let Some(byte) = byte {
            self.consoles[p as usize] += &format!("{byte:02x}");
        }
    }

    fn completes(&mut self, p: u8, _pc: u32, _written: Option<(u8, u32)>) {
        self.retired[p as usize] += 1;
    }
}
