//! A record as NASM text. Forced: each choice that NASM has is taken by document 01's code list. Plain: left to NASM.

use crate::groups::{ARITHMETIC, CONDITIONAL, LOOPS};
use crate::meaning::is_shift;
use crate::records::{op, Operand, Record, BYTE, FAR, IMM, MEM, NAMES, NEAR, NONE, REG, SEG, SHORT, UNSTATED, WORD};

#[derive(Clone, Copy, PartialEq, Eq)]
pub enum Manner {
    Forced,
    Plain,
}
use Manner::{Forced, Plain};

const REGISTERS_8: [&str; 8] = ["al", "cl", "dl", "bl", "ah", "ch", "dh", "bh"];
const REGISTERS_16: [&str; 8] = ["ax", "cx", "dx", "bx", "sp", "bp", "si", "di"];
const SEGMENTS: [&str; 4] = ["es", "cs", "ss", "ds"];
const BASES: [&str; 8] = ["bx+si", "bx+di", "bp+si", "bp+di", "si", "di", "bp", "bx"];

fn segment_prefix(prefix: u8) -> &'static str {
    match prefix {
        0x26 => "es:",
        0x2E => "cs:",
        0x36 => "ss:",
        0x3E => "ds:",
        _ => "",
    }
}

/// `[es:byte bx+si-5]` forced by mode 1, `[word bx+5]` by mode 2; `[bx+5]` plain.
fn memory(operand: &Operand, manner: Manner) -> String {
    let prefix = segment_prefix(operand.prefix);
    let size = match (manner, operand.mode) {
        (Forced, 1) => "byte ",
        (Forced, 2) => "word ",
        _ => "",
    };
    let displacement = operand.displacement;
    if operand.is_direct() {
        return format!("[{prefix}{displacement}]");
    }
    let base = BASES[operand.rm as usize];
    match operand.mode {
        0 => format!("[{prefix}{base}]"),
        _ => format!("[{size}{prefix}{base}{displacement:+}]"),
    }
}

fn sized(width: u8) -> &'static str {
    match width {
        BYTE => "byte ",
        WORD => "word ",
        _ => "",
    }
}

fn operand(operand: &Operand, width: u8, manner: Manner) -> String {
    match operand.kind {
        REG if width == BYTE => REGISTERS_8[operand.rm as usize].to_string(),
        REG => REGISTERS_16[operand.rm as usize].to_string(),
        SEG => SEGMENTS[operand.rm as usize].to_string(),
        MEM => format!("{}{}", sized(width), memory(operand, manner)),
        _ => operand.imm.to_string(),
    }
}

/// The text of an accepted record at its offset.
pub fn text(record: &Record, offset: u16, manner: Manner) -> String {
    let operation = record.operation;
    let name = NAMES[operation as usize].to_ascii_lowercase();
    let [a, b] = &record.operands;
    let distance = |target: &Operand| format!("$ + {}", target.imm as i64 - offset as i64);
    let in_pairs = ARITHMETIC.contains(&operation) || matches!(operation, op::MOV | op::TEST | op::XCHG);
    if in_pairs {
        let width = if a.size == UNSTATED { b.size } else { a.size };
        let first = operand(a, width, manner);
        if b.kind != IMM || manner == Plain {
            return format!("{name} {first}, {}", operand(b, width, manner));
        }
        // 83 for -128 to 127, else the accumulator's form or 81
        let byte = width == BYTE || ARITHMETIC.contains(&operation) && (-128..=127).contains(&b.imm);
        return format!("{name} {first}, strict {}{}", sized(if byte { BYTE } else { WORD }), b.imm);
    }
    if is_shift(operation) {
        let count = if b.kind == IMM { "1" } else { "cl" };
        return format!("{name} {}, {count}", operand(a, a.size, manner));
    }
    if CONDITIONAL.contains(&operation) {
        return format!("{name} {}{}", if manner == Forced { "short " } else { "" }, distance(a));
    }
    if LOOPS.contains(&operation) {
        return format!("{name} {}", distance(a));
    }
    match operation {
        op::NOT | op::NEG | op::MUL | op::IMUL | op::DIV | op::IDIV | op::INC | op::DEC | op::PUSH | op::POP => {
            format!("{name} {}", operand(a, a.size, manner))
        }
        op::LEA | op::LES | op::LDS => format!("{name} {}, {}", operand(a, WORD, manner), memory(b, manner)),
        op::CALL | op::JMP => match (a.kind, a.jump) {
            (MEM, FAR) => format!("{name} far {}", memory(a, manner)),
            (IMM, SHORT) => format!("{name} short {}", distance(a)),
            (IMM, FAR) => format!("{name} {}:{}", a.displacement, a.imm),
            // without a kind NASM is free to take EB
            (IMM, NONE) if manner == Plain => format!("{name} {}", distance(a)),
            (IMM, NONE | NEAR) => format!("{name} near {}", distance(a)),
            _ => format!("{name} {}", operand(a, WORD, manner)),
        },
        op::INT => format!("{name} {}", a.imm),
        // a count of 2 says no more than 1: no operation looks at an operand that it does not use
        op::RET if record.count != 0 => format!("{name} {}", a.imm),
        op::XLATB => format!("{} {name}", segment_prefix(a.prefix).trim_end_matches(':')),
        op::IN => format!("{name} {}, {}", operand(a, a.size, manner), operand(b, WORD, manner)),
        op::OUT => format!("{name} {}, {}", operand(a, WORD, manner), operand(b, b.size, manner)),
        _ => name,
    }
}
