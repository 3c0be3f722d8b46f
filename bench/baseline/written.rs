//! Texts of numbers and of instructions, for the plain programs that print many of them.

use crate::instructions::{Alu, Amo, Insn, Test, decode};

const DIGITS: &[u8; 16] = b"0123456789abcdef";

/// Appends a word as eight hex digits.
pub fn push_word(out: &mut Vec<u8>, word: u32) {
    let mut text = [0; 8];
    for (digits, byte) in text.chunks_exact_mut(2).zip(word.to_be_bytes()) {
        digits[0] = DIGITS[byte as usize >> 4];
        digits[1] = DIGITS[byte as usize & 15];
    }
    out.extend_from_slice(&text);
}

/// Appends a number in decimal.
pub fn push_number(out: &mut Vec<u8>, number: usize) {
    let (mut text, mut from, mut left) = ([0; 20], 20, number);
    loop {
        from -= 1;
        text[from] = DIGITS[left % 10];
        left /= 10;
        if left == 0 {
            return out.extend_from_slice(&text[from..]);
        }
    }
}

fn push_signed(out: &mut Vec<u8>, number: u32) {
    let number = number.cast_signed();
    if number < 0 {
        out.push(b'-');
    }
    push_number(out, number.unsigned_abs() as usize);
}

/// Appends the text of the instruction that a word spells, or `-`.
pub fn push_insn(out: &mut Vec<u8>, word: u32) {
    let Some(insn) = decode(word) else {
        return out.push(b'-');
    };
    match insn {
        Insn::Op { op, rd, rs1, rs2 } => {
            push_first(out, op_name(op), rd);
            push_register(out, ", x", rs1);
            push_register(out, ", x", rs2);
        }
        Insn::OpImm { op, rd, rs1, imm } => {
            push_first(out, immediate_name(op), rd);
            push_register(out, ", x", rs1);
            push_immediate(out, imm);
        }
        Insn::Load {
            size,
            signed,
            rd,
            rs1,
            imm,
        } => {
            push_first(out, load_name(size, signed), rd);
            push_address(out, imm, rs1);
        }
        Insn::Store { size, rs1, rs2, imm } => {
            push_first(out, store_name(size), rs2);
            push_address(out, imm, rs1);
        }
        Insn::Branch {
            test,
            rs1,
            rs2,
            offset,
        } => {
            push_first(out, branch_name(test), rs1);
            push_register(out, ", x", rs2);
            push_immediate(out, offset);
        }
        Insn::Lui { rd, value } => {
            push_first(out, "lui", rd);
            push_immediate(out, value >> 12);
        }
        Insn::Auipc { rd, value } => {
            push_first(out, "auipc", rd);
            push_immediate(out, value >> 12);
        }
        Insn::Jal { rd, offset } => {
            push_first(out, "jal", rd);
            push_immediate(out, offset);
        }
        Insn::Jalr { rd, rs1, imm } => {
            push_first(out, "jalr", rd);
            push_address(out, imm, rs1);
        }
        Insn::Fence => {
            push_first(out, "fence", (word >> 7 & 31) as u8);
            push_register(out, ", x", (word >> 15 & 31) as u8);
            push_immediate(out, word >> 20);
        }
        Insn::Ecall => out.extend_from_slice(b"ecall"),
        Insn::Ebreak => out.extend_from_slice(b"ebreak"),
        Insn::Amo { op, rd, rs1, rs2 } => {
            out.extend_from_slice(amo_name(op).as_bytes());
            let order = ["", ".rl", ".aq", ".aqrl"][word as usize >> 25 & 3];
            push_first(out, order, rd);
            push_register(out, ", x", rs2);
            push_register(out, ", (x", rs1);
            out.push(b')');
        }
    }
}

/// Appends a mnemonic, or its end, and the first operand.
fn push_first(out: &mut Vec<u8>, name: &str, register: u8) {
    out.extend_from_slice(name.as_bytes());
    push_register(out, " x", register);
}

fn push_register(out: &mut Vec<u8>, before: &str, register: u8) {
    out.extend_from_slice(before.as_bytes());
    push_number(out, register as usize);
}

fn push_immediate(out: &mut Vec<u8>, number: u32) {
    out.extend_from_slice(b", ");
    push_signed(out, number);
}

fn push_address(out: &mut Vec<u8>, imm: u32, rs1: u8) {
    push_immediate(out, imm);
    push_register(out, "(x", rs1);
    out.push(b')');
}

fn op_name(op: Alu) -> &'static str {
    match op {
        Alu::Add => "add",
        Alu::Sub => "sub",
        Alu::Sll => "sll",
        Alu::Slt => "slt",
        Alu::Sltu => "sltu",
        Alu::Xor => "xor",
        Alu::Srl => "srl",
        Alu::Sra => "sra",
        Alu::Or => "or",
        Alu::And => "and",
        Alu::Mul => "mul",
        Alu::Mulh => "mulh",
        Alu::Mulhsu => "mulhsu",
        Alu::Mulhu => "mulhu",
        Alu::Div => "div",
        Alu::Divu => "divu",
        Alu::Rem => "rem",
        Alu::Remu => "remu",
    }
}

/// The name of an operation whose second operand is an immediate.
fn immediate_name(op: Alu) -> &'static str {
    match op {
        Alu::Add => "addi",
        Alu::Sll => "slli",
        Alu::Slt => "slti",
        Alu::Sltu => "sltiu",
        Alu::Xor => "xori",
        Alu::Srl => "srli",
        Alu::Sra => "srai",
        Alu::Or => "ori",
        Alu::And => "andi",
        _ => unreachable!(),
    }
}

fn load_name(size: u32, signed: bool) -> &'static str {
    match (size, signed) {
        (1, true) => "lb",
        (1, false) => "lbu",
        (2, true) => "lh",
        (2, false) => "lhu",
        _ => "lw",
    }
}

fn store_name(size: u32) -> &'static str {
    match size {
        1 => "sb",
        2 => "sh",
        _ => "sw",
    }
}

fn branch_name(test: Test) -> &'static str {
    match test {
        Test::Eq => "beq",
        Test::Ne => "bne",
        Test::Lt => "blt",
        Test::Ge => "bge",
        Test::Ltu => "bltu",
        Test::Geu => "bgeu",
    }
}

fn amo_name(op: Amo) -> &'static str {
    match op {
        Amo::Add => "amoadd.w",
        Amo::Swap => "amoswap.w",
        Amo::Xor => "amoxor.w",
        Amo::Or => "amoor.w",
        Amo::And => "amoand.w",
        Amo::Min => "amomin.w",
        Amo::Max => "amomax.w",
        Amo::Minu => "amominu.w",
        Amo::Maxu => "amomaxu.w",
    }
}
