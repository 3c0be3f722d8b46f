//! The instructions of both plain simulators: reading a word, and what the rows compute.

#[derive(Clone, Copy)]
pub enum Alu {
    Add,
    Sub,
    Sll,
    Slt,
    Sltu,
    Xor,
    Srl,
    Sra,
    Or,
    And,
    Mul,
    Mulh,
    Mulhsu,
    Mulhu,
    Div,
    Divu,
    Rem,
    Remu,
}

#[derive(Clone, Copy)]
pub enum Test {
    Eq,
    Ne,
    Lt,
    Ge,
    Ltu,
    Geu,
}

#[derive(Clone, Copy)]
pub enum Amo {
    Add,
    Swap,
    Xor,
    Or,
    And,
    Min,
    Max,
    Minu,
    Maxu,
}

#[derive(Clone, Copy)]
pub enum Insn {
    Op {
        op: Alu,
        rd: u8,
        rs1: u8,
        rs2: u8,
    },
    OpImm {
        op: Alu,
        rd: u8,
        rs1: u8,
        imm: u32,
    },
    Load {
        size: u32,
        signed: bool,
        rd: u8,
        rs1: u8,
        imm: u32,
    },
    Store {
        size: u32,
        rs1: u8,
        rs2: u8,
        imm: u32,
    },
    Branch {
        test: Test,
        rs1: u8,
        rs2: u8,
        offset: u32,
    },
    Lui {
        rd: u8,
        value: u32,
    },
    Auipc {
        rd: u8,
        value: u32,
    },
    Jal {
        rd: u8,
        offset: u32,
    },
    Jalr {
        rd: u8,
        rs1: u8,
        imm: u32,
    },
    Fence,
    Ecall,
    Ebreak,
    Amo {
        op: Amo,
        rd: u8,
        rs1: u8,
        rs2: u8,
    },
}

#[derive(Clone, Copy)]
pub enum Fault {
    NoRow = 1,
    FetchOutsideCode,
    TargetNotAligned,
    AddressNotAligned,
    NoRegion,
    StoreToCode,
    UnknownCall,
    Breakpoint,
}

/// The instruction that a word spells, if any.
pub fn decode(word: u32) -> Option<Insn> {
    let register = |at: u32| (word >> at & 31) as u8;
    let (rd, rs1, rs2) = (register(7), register(15), register(20));
    let (funct3, funct7) = (word >> 12 & 7, word >> 25);
    let signed = word.cast_signed();
    let upper = word & 0xFFFF_F000;
    // The immediates of the manual's formats, with their sign.
    let imm_i = (signed >> 20).cast_unsigned();
    let imm_s = (signed >> 20).cast_unsigned() & !31 | word >> 7 & 31;
    let imm_b = (signed >> 31).cast_unsigned() << 12
        | (word >> 7 & 1) << 11
        | (word >> 25 & 63) << 5
        | (word >> 8 & 15) << 1;
    let imm_j = (signed >> 31).cast_unsigned() << 20
        | word & 0xF_F000
        | (word >> 20 & 1) << 11
        | (word >> 21 & 1023) << 1;
    Some(match word & 127 {
        0x33 => {
            let op = match (funct7, funct3) {
                (0, 0) => Alu::Add,
                (32, 0) => Alu::Sub,
                (0, 1) => Alu::Sll,
                (0, 2) => Alu::Slt,
                (0, 3) => Alu::Sltu,
                (0, 4) => Alu::Xor,
                (0, 5) => Alu::Srl,
                (32, 5) => Alu::Sra,
                (0, 6) => Alu::Or,
                (0, 7) => Alu::And,
                (1, 0) => Alu::Mul,
                (1, 1) => Alu::Mulh,
                (1, 2) => Alu::Mulhsu,
                (1, 3) => Alu::Mulhu,
                (1, 4) => Alu::Div,
                (1, 5) => Alu::Divu,
                (1, 6) => Alu::Rem,
                (1, 7) => Alu::Remu,
                _ => return None,
            };
            Insn::Op { op, rd, rs1, rs2 }
        }
        0x13 => {
            let amount = u32::from(rs2);
            let (op, imm) = match (funct3, funct7) {
                (0, _) => (Alu::Add, imm_i),
                (2, _) => (Alu::Slt, imm_i),
                (3, _) => (Alu::Sltu, imm_i),
                (4, _) => (Alu::Xor, imm_i),
                (6, _) => (Alu::Or, imm_i),
                (7, _) => (Alu::And, imm_i),
                (1, 0) => (Alu::Sll, amount),
                (5, 0) => (Alu::Srl, amount),
                (5, 32) => (Alu::Sra, amount),
                _ => return None,
            };
            Insn::OpImm { op, rd, rs1, imm }
        }
        0x03 if funct3 <= 5 && funct3 != 3 => {
            let (size, signed) = (1 << (funct3 & 3), funct3 < 3);
            Insn::Load {
                size,
                signed,
                rd,
                rs1,
                imm: imm_i,
            }
        }
        0x23 if funct3 <= 2 => Insn::Store {
            size: 1 << funct3,
            rs1,
            rs2,
            imm: imm_s,
        },
        0x63 => {
            let test = match funct3 {
                0 => Test::Eq,
                1 => Test::Ne,
                4 => Test::Lt,
                5 => Test::Ge,
                6 => Test::Ltu,
                7 => Test::Geu,
                _ => return None,
            };
            Insn::Branch {
                test,
                rs1,
                rs2,
                offset: imm_b,
            }
        }
        0x37 => Insn::Lui { rd, value: upper },
        0x17 => Insn::Auipc { rd, value: upper },
        0x6F => Insn::Jal { rd, offset: imm_j },
        0x67 if funct3 == 0 => Insn::Jalr {
            rd,
            rs1,
            imm: imm_i,
        },
        0x0F if funct3 == 0 => Insn::Fence,
        0x73 if word == 0x73 => Insn::Ecall,
        0x73 if word == 0x0010_0073 => Insn::Ebreak,
        0x2F if funct3 == 2 => {
            let op = match word >> 27 {
                0 => Amo::Add,
                1 => Amo::Swap,
                4 => Amo::Xor,
                8 => Amo::Or,
                12 => Amo::And,
                16 => Amo::Min,
                20 => Amo::Max,
                24 => Amo::Minu,
                28 => Amo::Maxu,
                _ => return None,
            };
            Insn::Amo { op, rd, rs1, rs2 }
        }
        _ => return None,
    })
}

pub fn alu(op: Alu, a: u32, b: u32) -> u32 {
    match op {
        Alu::Add => a.wrapping_add(b),
        Alu::Sub => a.wrapping_sub(b),
        Alu::Sll => a << (b & 31),
        Alu::Slt => u32::from(a.cast_signed() < b.cast_signed()),
        Alu::Sltu => u32::from(a < b),
        Alu::Xor => a ^ b,
        Alu::Srl => a >> (b & 31),
        Alu::Sra => (a.cast_signed() >> (b & 31)).cast_unsigned(),
        Alu::Or => a | b,
        Alu::And => a & b,
        Alu::Mul => a.wrapping_mul(b),
        Alu::Mulh => (i64::from(a.cast_signed()) * i64::from(b.cast_signed()) >> 32) as u32,
        Alu::Mulhsu => (i64::from(a.cast_signed()) * i64::from(b) >> 32) as u32,
        Alu::Mulhu => (u64::from(a) * u64::from(b) >> 32) as u32,
        Alu::Div if b == 0 => u32::MAX,
        Alu::Div => a.cast_signed().wrapping_div(b.cast_signed()).cast_unsigned(),
        Alu::Divu => a.checked_div(b).unwrap_or(u32::MAX),
        Alu::Rem if b == 0 => a,
        Alu::Rem => a.cast_signed().wrapping_rem(b.cast_signed()).cast_unsigned(),
        Alu::Remu => a.checked_rem(b).unwrap_or(a),
    }
}

pub fn is_taken(test: Test, a: u32, b: u32) -> bool {
    match test {
        Test::Eq => a == b,
        Test::Ne => a != b,
        Test::Lt => a.cast_signed() < b.cast_signed(),
        Test::Ge => a.cast_signed() >= b.cast_signed(),
        Test::Ltu => a < b,
        Test::Geu => a >= b,
    }
}

pub fn amo(op: Amo, old: u32, value: u32) -> u32 {
    match op {
        Amo::Add => old.wrapping_add(value),
        Amo::Swap => value,
        Amo::Xor => old ^ value,
        Amo::Or => old | value,
        Amo::And => old & value,
        Amo::Min => old.cast_signed().min(value.cast_signed()).cast_unsigned(),
        Amo::Max => old.cast_signed().max(value.cast_signed()).cast_unsigned(),
        Amo::Minu => old.min(value),
        Amo::Maxu => old.max(value),
    }
}

/// The little-endian number of these bytes.
pub fn number(bytes: &[u8]) -> u32 {
    bytes
        .iter()
        .rev()
        .fold(0, |sum, byte| sum << 8 | u32::from(*byte))
}
