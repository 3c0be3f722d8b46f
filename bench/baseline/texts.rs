//! A plain assembler, checker and disassembler, to measure `ultra asm`, `ultra check` and `ultra dis` against. They read and print
//! the same, as ordinary Rust with no proof.
//!
//! `texts asm FILE OUT`, `texts check FILE` and `texts dis FILE` do what the commands of `ultra` do. Of all faults, `check` only
//! knows how to list a register that does not exist.

mod instructions;
#[allow(dead_code)]
mod simulator;
mod written;

use simulator::{CODE_START, layout};
use std::collections::HashMap;
use std::io::Write;
use std::process::ExitCode;
use std::{env, fs, io};
use written::{push_insn, push_number, push_word};

/// A part of a program, with its first address and its room.
#[derive(Clone, Copy, PartialEq)]
enum Section {
    Code,
    Local,
    Shared,
}

const FIRST: [u32; 3] = [0x0001_0000, 0x0002_0000, 0x8000_0000];
const ROOM: [u32; 3] = [0x0001_0000, 0x0001_0000, 786_432];

/// A number or a label.
#[derive(Clone, Copy)]
enum Value<'a> {
    Number(i64),
    Label(&'a [u8]),
}

/// The field of an instruction for a value.
#[derive(Clone, Copy)]
enum Field {
    /// Twelve bits, in the place for loads.
    Lower,
    /// Twelve bits, in the places for stores.
    Store,
    Branch,
    Upper,
    Jump,
}

enum Statement<'a> {
    Section(Section),
    Words(Vec<Value<'a>>),
    Bytes(Vec<u8>),
    Zeros(u32),
    Whole(u32),
    /// An instruction that still lacks the value of a field.
    Partial(u32, Field, Value<'a>),
}

/// What is wrong with a line.
enum Fault<'a> {
    Unknown,
    Form,
    /// A register that does not exist.
    Register(&'a [u8]),
    Range,
    LabelTwice,
    LabelMissing,
    SectionFull,
}

impl Fault<'_> {
    fn code(&self) -> &'static str {
        match self {
            Fault::Unknown => "A1",
            Fault::Form | Fault::Register(_) => "A2",
            Fault::Range => "A3",
            Fault::LabelTwice => "A4",
            Fault::LabelMissing => "A5",
            Fault::SectionFull => "A6",
        }
    }
}

/// The operands of an instruction.
#[derive(Clone, Copy)]
enum Shape {
    /// `rd, rs1, rs2`
    Op,
    /// `rd, rs1, i`
    OpImm,
    /// `rd, rs1, i`, with i from 0 to 31.
    Shift,
    /// `rd, i(rs1)`
    Load,
    /// `rs2, i(rs1)`
    Store,
    /// `rs1, rs2, target`
    Branch,
    /// `rd, u`
    Upper,
    /// `rd, target`
    Jal,
    /// `rd, rs1, v`
    Fence,
    /// `rd, rs2, (rs1)`
    Amo,
    Bare,
}

/// The shape of a mnemonic, and the word of its instruction with all operands 0.
fn row(mnemonic: &[u8]) -> Option<(Shape, u32)> {
    let op = |funct3: u32, funct7: u32| (Shape::Op, 0x33 | funct3 << 12 | funct7 << 25);
    let op_imm = |funct3: u32| (Shape::OpImm, 0x13 | funct3 << 12);
    let amo = |funct5: u32| (Shape::Amo, 0x202F | funct5 << 27);
    Some(match mnemonic {
        b"lui" => (Shape::Upper, 0x37),
        b"auipc" => (Shape::Upper, 0x17),
        b"jal" => (Shape::Jal, 0x6F),
        b"jalr" => (Shape::Load, 0x67),
        b"beq" => (Shape::Branch, 0x63),
        b"bne" => (Shape::Branch, 0x1063),
        b"blt" => (Shape::Branch, 0x4063),
        b"bge" => (Shape::Branch, 0x5063),
        b"bltu" => (Shape::Branch, 0x6063),
        b"bgeu" => (Shape::Branch, 0x7063),
        b"lb" => (Shape::Load, 0x03),
        b"lh" => (Shape::Load, 0x1003),
        b"lw" => (Shape::Load, 0x2003),
        b"lbu" => (Shape::Load, 0x4003),
        b"lhu" => (Shape::Load, 0x5003),
        b"sb" => (Shape::Store, 0x23),
        b"sh" => (Shape::Store, 0x1023),
        b"sw" => (Shape::Store, 0x2023),
        b"addi" => op_imm(0),
        b"slti" => op_imm(2),
        b"sltiu" => op_imm(3),
        b"xori" => op_imm(4),
        b"ori" => op_imm(6),
        b"andi" => op_imm(7),
        b"slli" => (Shape::Shift, 0x1013),
        b"srli" => (Shape::Shift, 0x5013),
        b"srai" => (Shape::Shift, 0x4000_5013),
        b"add" => op(0, 0),
        b"sub" => op(0, 32),
        b"sll" => op(1, 0),
        b"slt" => op(2, 0),
        b"sltu" => op(3, 0),
        b"xor" => op(4, 0),
        b"srl" => op(5, 0),
        b"sra" => op(5, 32),
        b"or" => op(6, 0),
        b"and" => op(7, 0),
        b"mul" => op(0, 1),
        b"mulh" => op(1, 1),
        b"mulhsu" => op(2, 1),
        b"mulhu" => op(3, 1),
        b"div" => op(4, 1),
        b"divu" => op(5, 1),
        b"rem" => op(6, 1),
        b"remu" => op(7, 1),
        b"fence" => (Shape::Fence, 0x0F),
        b"ecall" => (Shape::Bare, 0x73),
        b"ebreak" => (Shape::Bare, 0x0010_0073),
        b"amoadd.w" => amo(0),
        b"amoswap.w" => amo(1),
        b"amoxor.w" => amo(4),
        b"amoor.w" => amo(8),
        b"amoand.w" => amo(12),
        b"amomin.w" => amo(16),
        b"amomax.w" => amo(20),
        b"amominu.w" => amo(24),
        b"amomaxu.w" => amo(28),
        _ => return None,
    })
}

/// The row of a mnemonic, which may have an ordering if it is an `amo`.
fn ordered_row(mnemonic: &[u8]) -> Option<(Shape, u32)> {
    if let Some(row) = row(mnemonic) {
        return Some(row);
    }
    let dot = mnemonic.iter().rposition(|byte| *byte == b'.')?;
    let order = match &mnemonic[dot + 1..] {
        b"aq" => 2,
        b"rl" => 1,
        b"aqrl" => 3,
        _ => return None,
    };
    match row(&mnemonic[..dot]) {
        Some((Shape::Amo, word)) => Some((Shape::Amo, word | order << 25)),
        _ => None,
    }
}

fn is_name(word: &[u8]) -> bool {
    let is_letter = |byte: &u8| byte.is_ascii_alphabetic() || *byte == b'_';
    word.first().is_some_and(is_letter) && word.iter().all(|byte| is_letter(byte) || byte.is_ascii_digit())
}

fn trim(mut bytes: &[u8]) -> &[u8] {
    while let [b' ' | b'\t', rest @ ..] | [rest @ .., b' ' | b'\t'] = bytes {
        bytes = rest;
    }
    bytes
}

/// The bytes before and after the first byte like this, if there is one.
fn cut(bytes: &[u8], is_mark: impl Fn(u8) -> bool) -> Option<(&[u8], &[u8])> {
    let at = bytes.iter().position(|byte| is_mark(*byte))?;
    Some((&bytes[..at], &bytes[at + 1..]))
}

fn register(word: &[u8]) -> Result<u32, Fault<'_>> {
    let number = match word {
        b"zero" => 0,
        b"ra" => 1,
        b"sp" => 2,
        b"gp" => 3,
        b"tp" => 4,
        [b'x', digit @ b'0'..=b'9'] => u32::from(digit - b'0'),
        [b'x', tens @ b'1'..=b'3', digit @ b'0'..=b'9'] => u32::from(tens - b'0') * 10 + u32::from(digit - b'0'),
        [b't', digit @ b'0'..=b'2'] => 5 + u32::from(digit - b'0'),
        [b't', digit @ b'3'..=b'6'] => 25 + u32::from(digit - b'0'),
        [b's', digit @ b'0'..=b'1'] => 8 + u32::from(digit - b'0'),
        [b's', digit @ b'2'..=b'9'] => 16 + u32::from(digit - b'0'),
        [b's', b'1', digit @ b'0'..=b'1'] => 26 + u32::from(digit - b'0'),
        [b'a', digit @ b'0'..=b'7'] => 10 + u32::from(digit - b'0'),
        _ => 32,
    };
    if number < 32 { Ok(number) } else { Err(Fault::Register(word)) }
}

/// A number from `least` to `most`.
fn number(word: &[u8], least: i64, most: i64) -> Result<i64, Fault<'_>> {
    let (digits, base, sign) = match word {
        [b'-', digits @ ..] => (digits, 10, -1),
        [b'0', b'x', digits @ ..] => (digits, 16, 1),
        _ => (word, 10, 1),
    };
    if digits.is_empty() {
        return Err(Fault::Form);
    }
    let mut value = 0i64;
    for byte in digits {
        let digit = (*byte as char).to_digit(base).ok_or(Fault::Form)?;
        value = (value * i64::from(base) + i64::from(digit)).min(1 << 33);
    }
    let value = sign * value;
    if (least..=most).contains(&value) { Ok(value) } else { Err(Fault::Range) }
}

/// A label, or a number from `least` to `most`.
fn value(word: &[u8], least: i64, most: i64) -> Result<Value<'_>, Fault<'_>> {
    if is_name(word) { Ok(Value::Label(word)) } else { Ok(Value::Number(number(word, least, most)?)) }
}

/// The texts before and within the brackets at the end.
fn brackets(word: &[u8]) -> Option<(&[u8], &[u8])> {
    let body = word.strip_suffix(b")")?;
    let at = body.iter().rposition(|byte| *byte == b'(')?;
    Some((trim(&body[..at]), trim(&body[at + 1..])))
}

/// A part of a label's value, or a number from `least` to `most`.
fn part<'a>(word: &'a [u8], modifier: &[u8], least: i64, most: i64) -> Result<Value<'a>, Fault<'a>> {
    match brackets(word) {
        Some((front, name)) if front == modifier && is_name(name) => Ok(Value::Label(name)),
        _ => Ok(Value::Number(number(word, least, most)?)),
    }
}

fn lower(word: &[u8]) -> Result<Value<'_>, Fault<'_>> {
    part(word, b"%lo", -2048, 2047)
}

/// The instruction of a mnemonic with this row.
fn instruction<'a>(shape: Shape, word: u32, operands: &[&'a [u8]]) -> Result<Statement<'a>, Fault<'a>> {
    Ok(match (shape, operands) {
        (Shape::Op, [rd, rs1, rs2]) => {
            Statement::Whole(word | register(rd)? << 7 | register(rs1)? << 15 | register(rs2)? << 20)
        }
        (Shape::OpImm, [rd, rs1, imm]) => {
            let word = word | register(rd)? << 7 | register(rs1)? << 15;
            Statement::Partial(word, Field::Lower, lower(imm)?)
        }
        (Shape::Shift, [rd, rs1, amount]) => {
            let word = word | register(rd)? << 7 | register(rs1)? << 15;
            Statement::Whole(word | (number(amount, 0, 31)? as u32) << 20)
        }
        (Shape::Load, [rd, address]) => {
            let word = word | register(rd)? << 7;
            let (imm, rs1) = brackets(address).ok_or(Fault::Form)?;
            let imm = lower(imm)?;
            Statement::Partial(word | register(rs1)? << 15, Field::Lower, imm)
        }
        (Shape::Store, [rs2, address]) => {
            let word = word | register(rs2)? << 20;
            let (imm, rs1) = brackets(address).ok_or(Fault::Form)?;
            let imm = lower(imm)?;
            Statement::Partial(word | register(rs1)? << 15, Field::Store, imm)
        }
        (Shape::Branch, [rs1, rs2, target]) => {
            let word = word | register(rs1)? << 15 | register(rs2)? << 20;
            Statement::Partial(word, Field::Branch, value(target, -4096, 4094)?)
        }
        (Shape::Upper, [rd, upper]) => {
            let word = word | register(rd)? << 7;
            Statement::Partial(word, Field::Upper, part(upper, b"%hi", 0, 1_048_575)?)
        }
        (Shape::Jal, [rd, target]) => {
            let word = word | register(rd)? << 7;
            Statement::Partial(word, Field::Jump, value(target, -1_048_576, 1_048_574)?)
        }
        (Shape::Fence, [rd, rs1, ordering]) => {
            let word = word | register(rd)? << 7 | register(rs1)? << 15;
            Statement::Whole(word | (number(ordering, 0, 4095)? as u32) << 20)
        }
        (Shape::Amo, [rd, rs2, base]) => {
            let word = word | register(rd)? << 7 | register(rs2)? << 20;
            match brackets(base) {
                Some((b"", rs1)) => Statement::Whole(word | register(rs1)? << 15),
                _ => return Err(Fault::Form),
            }
        }
        (Shape::Bare, [b""]) => Statement::Whole(word),
        _ => return Err(Fault::Form),
    })
}

/// The statement with this first word and the text after it.
fn statement<'a>(word: &[u8], rest: &'a [u8]) -> Result<Statement<'a>, Fault<'a>> {
    let mut operands = rest.split(|byte| *byte == b',').map(trim);
    let section = match word {
        b".code" => Section::Code,
        b".local" => Section::Local,
        b".shared" => Section::Shared,
        b".word" => {
            let words = operands.map(|operand| value(operand, -(1 << 31), u32::MAX.into()));
            return Ok(Statement::Words(words.collect::<Result<_, _>>()?));
        }
        b".byte" => {
            let bytes = operands.map(|operand| Ok(number(operand, -128, 255)? as u8));
            return Ok(Statement::Bytes(bytes.collect::<Result<_, _>>()?));
        }
        b".zero" => {
            let (Some(operand), None) = (operands.next(), operands.next()) else {
                return Err(Fault::Form);
            };
            return Ok(Statement::Zeros(number(operand, 0, 1_048_576)? as u32));
        }
        _ => {
            let (shape, word) = ordered_row(word).ok_or(Fault::Unknown)?;
            let mut found = [&[][..]; 4];
            let mut count = 0;
            for operand in operands {
                *found.get_mut(count).ok_or(Fault::Form)? = operand;
                count += 1;
            }
            return instruction(shape, word, &found[..count]);
        }
    };
    if trim(rest).is_empty() { Ok(Statement::Section(section)) } else { Err(Fault::Form) }
}

/// The label and the statement of a line.
struct Line<'a> {
    label: Option<&'a [u8]>,
    statement: Option<Statement<'a>>,
}

fn line(text: &[u8]) -> Result<Line<'_>, Fault<'_>> {
    let text = cut(text, |byte| byte == b'#').map_or(text, |(text, _)| text);
    let (label, rest) = match cut(text, |byte| byte == b':') {
        Some((front, rest)) if is_name(trim(front)) => (Some(trim(front)), rest),
        _ => (None, text),
    };
    let rest = trim(rest);
    if rest.is_empty() {
        return Ok(Line { label, statement: None });
    }
    let (word, rest) = cut(rest, |byte| byte == b' ' || byte == b'\t').unwrap_or((rest, &[]));
    Ok(Line { label, statement: Some(statement(word, rest)?) })
}

/// A line at its place.
struct Placed<'a> {
    text: &'a [u8],
    line: Result<Line<'a>, Fault<'a>>,
    section: Section,
    /// How many bytes of the section come before.
    count: u32,
}

/// What is known of a label: the number of its first line, and its section and address on its last.
#[derive(Clone, Copy)]
struct Label {
    line: usize,
    section: Section,
    address: u32,
}

struct Text<'a> {
    lines: Vec<Placed<'a>>,
    labels: HashMap<&'a [u8], Label>,
}

impl<'a> Text<'a> {
    /// Reads a text, and finds the place of each line. A line that is at fault in itself takes no bytes.
    fn new(text: &'a [u8]) -> Text<'a> {
        let (mut lines, mut labels) = (Vec::new(), HashMap::new());
        let (mut section, mut counts) = (Section::Code, [0u32; 3]);
        for (number, text) in text.split(|byte| *byte == b'\n').enumerate() {
            let (here, count) = (section, counts[section as usize]);
            let line = line(text);
            if let Ok(line) = &line {
                if let Some(name) = line.label {
                    let address = FIRST[section as usize] + count;
                    let label = labels.entry(name).or_insert(Label { line: number, section, address });
                    *label = Label { line: label.line, section, address };
                }
                let size = line.statement.as_ref().map_or(0, |statement| match statement {
                    Statement::Section(_) => 0,
                    Statement::Words(values) => 4 * values.len() as u32,
                    Statement::Bytes(bytes) => bytes.len() as u32,
                    Statement::Zeros(count) => *count,
                    Statement::Whole(_) | Statement::Partial(..) => 4,
                });
                // A text has at most 16 MiB, but may have many lines that take a MiB each.
                counts[section as usize] = count.saturating_add(size);
                if let Some(Statement::Section(next)) = line.statement {
                    section = next;
                }
            }
            lines.push(Placed { text, line, section: here, count });
        }
        Text { lines, labels }
    }

    /// Appends the bytes of a line.
    fn emit(&self, number: usize, out: &mut Vec<u8>) -> Result<(), &Fault<'a>> {
        let Placed { line, section, count, .. } = &self.lines[number];
        let line = line.as_ref()?;
        if line.label.is_some_and(|name| self.labels[name].line != number) {
            return Err(&Fault::LabelTwice);
        }
        let Some(statement) = &line.statement else {
            return Ok(());
        };
        let start = out.len();
        match statement {
            Statement::Whole(_) | Statement::Partial(..) if *section != Section::Code => return Err(&Fault::Form),
            Statement::Whole(_) | Statement::Partial(..) | Statement::Words(_) if count % 4 != 0 => {
                return Err(&Fault::Range);
            }
            Statement::Section(_) => {}
            Statement::Words(values) => {
                for value in values {
                    out.extend_from_slice(&(self.number(*value, i64::from)? as u32).to_le_bytes());
                }
            }
            Statement::Bytes(bytes) => out.extend_from_slice(bytes),
            Statement::Zeros(zeros) => out.resize(start + *zeros as usize, 0),
            Statement::Whole(word) => out.extend_from_slice(&word.to_le_bytes()),
            Statement::Partial(word, field, value) => {
                let word = word | self.field(*field, *value, FIRST[0] + count)?;
                out.extend_from_slice(&word.to_le_bytes());
            }
        }
        let room = u64::from(ROOM[*section as usize]);
        if u64::from(*count) + (out.len() - start) as u64 > room { Err(&Fault::SectionFull) } else { Ok(()) }
    }

    /// A number, or what is taken of the address of a label.
    fn number(&self, value: Value, taken: impl Fn(u32) -> i64) -> Result<i64, &Fault<'a>> {
        match value {
            Value::Number(number) => Ok(number),
            Value::Label(name) => Ok(taken(self.labels.get(name).ok_or(&Fault::LabelMissing)?.address)),
        }
    }

    /// The bits of a field, in an instruction at this address.
    fn field(&self, field: Field, value: Value, at: u32) -> Result<u32, &Fault<'a>> {
        let low = |address: u32| (i64::from(address) + 0x800) % 4096 - 0x800;
        let high = |address: u32| i64::from(address.wrapping_add(0x800) >> 12);
        let distance = |reach: i64| {
            let distance = self.number(value, |address| i64::from(address) - i64::from(at))?;
            let is_near = (-reach..reach).contains(&distance) && distance % 2 == 0;
            if is_near { Ok(distance as u32) } else { Err(&Fault::Range) }
        };
        Ok(match field {
            Field::Lower => (self.number(value, low)? as u32) << 20,
            Field::Store => {
                let imm = self.number(value, low)? as u32;
                (imm >> 5 & 127) << 25 | (imm & 31) << 7
            }
            Field::Upper => (self.number(value, high)? as u32) << 12,
            Field::Branch => {
                let imm = distance(4096)?;
                (imm >> 12 & 1) << 31 | (imm >> 5 & 63) << 25 | (imm >> 1 & 15) << 8 | (imm >> 11 & 1) << 7
            }
            Field::Jump => {
                let imm = distance(1_048_576)?;
                (imm >> 20 & 1) << 31 | (imm >> 1 & 1023) << 21 | (imm >> 11 & 1) << 20 | (imm >> 12 & 255) << 12
            }
        })
    }

    /// The image of the text, or the number of a line that is at fault.
    fn image(&self) -> Result<Vec<u8>, (usize, &Fault<'a>)> {
        let mut sections = [const { Vec::new() }; 3];
        for (number, placed) in self.lines.iter().enumerate() {
            self.emit(number, &mut sections[placed.section as usize]).map_err(|fault| (number + 1, fault))?;
        }
        let entry = match self.labels.get(&b"start"[..]) {
            Some(label) if label.section == Section::Code && label.address % 4 == 0 => label.address,
            _ => CODE_START,
        };
        Ok(image(entry, &sections))
    }

    /// The list of faults, and whether there are any.
    fn faults(&self) -> (Vec<u8>, bool) {
        let (mut out, mut bytes, mut count) = (Vec::new(), Vec::new(), 0);
        for (number, placed) in self.lines.iter().enumerate() {
            bytes.clear();
            let Err(fault) = self.emit(number, &mut bytes) else {
                continue;
            };
            let Fault::Register(word) = fault else {
                panic!("line {} has a fault, {}, that the baseline cannot list", number + 1, fault.code());
            };
            count += 1;
            out.extend_from_slice(b"line ");
            push_number(&mut out, number + 1);
            out.extend_from_slice(b" column ");
            push_number(&mut out, word.as_ptr() as usize - placed.text.as_ptr() as usize + 1);
            out.extend_from_slice(b": A2 ");
            out.extend_from_slice(word);
            out.extend_from_slice(b": there is no such register; registers are x0 to x31 and names such as a0\n");
        }
        match count {
            0 => out.extend_from_slice(b"no faults\n"),
            1 => out.extend_from_slice(b"1 fault\n"),
            _ => {
                push_number(&mut out, count);
                out.extend_from_slice(b" faults\n");
            }
        }
        (out, count > 0)
    }
}

/// The image that has these bytes of code, of local memory and of shared memory.
fn image(entry: u32, sections: &[Vec<u8>; 3]) -> Vec<u8> {
    let is_written = |at: &usize| *at == 0 || !sections[*at].is_empty();
    let count = (0..3).filter(is_written).count() as u16;
    let mut out = b"\x7fELF\x01\x01\x01\0\0\0\0\0\0\0\0\0".to_vec();
    let halves = |out: &mut Vec<u8>, halves: &[u16]| out.extend(halves.iter().flat_map(|half| half.to_le_bytes()));
    let words = |out: &mut Vec<u8>, words: &[u32]| out.extend(words.iter().flat_map(|word| word.to_le_bytes()));
    halves(&mut out, &[2, 243]);
    words(&mut out, &[1, entry, 52, 0, 0]);
    halves(&mut out, &[52, 32, count, 0, 0, 0]);
    let mut offset = 52 + 32 * u32::from(count);
    for at in (0..3).filter(is_written) {
        let size = sections[at].len() as u32;
        words(&mut out, &[1, offset, FIRST[at], FIRST[at], size, size, if at == 0 { 5 } else { 6 }, 1]);
        offset += size;
    }
    sections.iter().for_each(|bytes| out.extend_from_slice(bytes));
    out
}

/// A line for each word of code, up to the last that is not 0.
fn disassembly(code: &[u8]) -> Vec<u8> {
    let words: Vec<u32> = code.chunks(4).map(instructions::number).collect();
    let count = words.iter().rposition(|word| *word != 0).map_or(0, |last| last + 1);
    let mut out = Vec::new();
    for (word, address) in words[..count].iter().zip((CODE_START..).step_by(4)) {
        push_word(&mut out, address);
        out.push(b' ');
        push_word(&mut out, *word);
        out.push(b' ');
        push_insn(&mut out, *word);
        out.push(b'\n');
    }
    out
}

fn main() -> ExitCode {
    let words: Vec<String> = env::args().skip(1).collect();
    let words: Vec<&str> = words.iter().map(String::as_str).collect();
    let read = |file| fs::read(file).expect("FILE can be read");
    let print = |bytes: &[u8]| io::stdout().write_all(bytes).expect("standard output can be written");
    match words[..] {
        ["asm", file, out] => match Text::new(text(&read(file))).image() {
            Ok(image) => fs::write(out, image).expect("OUT can be written"),
            Err((line, fault)) => {
                eprintln!("ultra: {} line {line}", fault.code());
                return ExitCode::from(2);
            }
        },
        ["check", file] => {
            let bytes = read(file);
            let (list, is_faulty) = Text::new(text(&bytes)).faults();
            print(&list);
            return ExitCode::from(u8::from(is_faulty));
        }
        ["dis", file] => print(&disassembly(&layout(&read(file), 1024).code)),
        _ => {
            eprintln!("usage: texts asm FILE OUT, texts check FILE, texts dis FILE");
            return ExitCode::from(2);
        }
    }
    ExitCode::SUCCESS
}

/// The bytes of a file that is a text.
fn text(bytes: &[u8]) -> &[u8] {
    str::from_utf8(bytes).expect("FILE is UTF-8").as_bytes()
}
