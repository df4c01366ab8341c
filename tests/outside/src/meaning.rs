//! What an instruction means, in document 01's terms: operation, width, used operands; and the repeat, which document 02 adds (No. 11). A disassembler's answer is brought into this shape by the
//! conventions below, each counted where it changes something, so that nothing of 'same instruction' is taken on faith.

use crate::records::{op, BYTE, NAMES, UNSTATED, WORD};

#[derive(Clone, Copy, PartialEq, Eq, PartialOrd, Ord, Hash, Debug)]
pub enum Operand {
    None,
    Register(u8),
    Segment(u8),
    /// base as r/m counts it, 8 for none; displacement; the segment in effect
    Memory(u8, u16, u8),
    Immediate(u16),
    Near(u16),
    /// offset, segment
    Far(u16, u16),
    One,
}

#[derive(Clone, Copy, PartialEq, Eq, PartialOrd, Ord, Hash, Debug)]
pub struct Meaning {
    pub operation: u8,
    /// F2 or F3 before a string operation, else 0
    pub repeat: u8,
    pub width: u8,
    pub operands: [Operand; 2],
}

/// An operand as a disassembler gives it, with the size that it states.
#[derive(Clone, Copy, PartialEq, Eq, Debug)]
pub enum Said {
    Register8(u8),
    Register16(u8),
    Segment(u8),
    /// base, displacement, segment (None: no prefix said), size; a far pointer's is `POINTER`
    Memory(u8, u16, Option<u8>, u8),
    Immediate(u16),
    /// a near target
    Target(u16),
    Far(u16, u16),
}

/// The size of offset and segment in memory, which the far CALL goes through. Document 01 has no such size: the form has no width.
pub const POINTER: u8 = 3;

/// The conventions by which two answers that look different are the same instruction.
pub const CONVENTIONS: [&str; 8] =
    ["xchg-order", "xchg-ax-ax", "default-segment", "sign-extended", "lea-segment", "notrack", "base-ten", "test-order"];
/// XCHG has no first and second.
pub const XCHG_ORDER: u8 = 1;
/// XCHG AX,AX is NOP.
pub const XCHG_AX_AX: u8 = 2;
/// A prefix names the default segment, and ndisasm shows it.
pub const DEFAULT_SEGMENT: u8 = 4;
/// ndisasm shows a word immediate as the signed byte that it is made of.
pub const SIGN_EXTENDED: u8 = 8;
/// The segment in effect counts for all memory; to Zydis LEA has none.
pub const LEA_SEGMENT: u8 = 16;
/// 3E before CALL or JMP through memory names DS; Zydis takes it for NOTRACK of later processors.
pub const NOTRACK: u8 = 32;
/// Zydis writes the base of AAM and AAD.
pub const BASE_TEN: u8 = 64;
/// TEST of a register and memory has no first and second; two registers keep their order.
pub const TEST_ORDER: u8 = 128;

/// The meaning, and by a bit for each the conventions of the answer itself that it took.
pub type Taken = (Meaning, u8);

/// Names that are not 002's.
const ALIASES: [(&str, u8); 26] = [
    ("jz", op::JE), ("jnz", op::JNE), ("jc", op::JB), ("jnc", op::JNB), ("jna", op::JBE), ("ja", op::JNBE), ("jpe", op::JP), ("jpo", op::JNP),
    ("jng", op::JLE), ("jg", op::JNLE), ("jnge", op::JL), ("jge", op::JNL), ("jae", op::JNB), ("loopne", op::LOOPNZ), ("loope", op::LOOPZ),
    ("xlat", op::XLATB), ("sal", op::SHL), ("repe", op::REP), ("repz", op::REP), ("repnz", op::REPNE), ("setalc", op::SALC), ("retn", op::RET),
    ("iretw", op::IRET), ("pushfw", op::PUSHF), ("popfw", op::POPF), ("fwait", op::WAIT),
];

pub fn operation(name: &str) -> Option<u8> {
    let upper = name.to_ascii_uppercase();
    let own = NAMES.iter().position(|n| *n == upper).map(|n| n as u8);
    own.or_else(|| ALIASES.iter().find(|(alias, _)| *alias == name).map(|(_, o)| *o))
}

pub fn is_shift(operation: u8) -> bool {
    (op::SHL..=op::RCR).contains(&operation)
}

/// The ten that take a repeat.
pub fn is_string(operation: u8) -> bool {
    (op::MOVSB..=op::STOSW).contains(&operation)
}

/// The same behind a repeat, or nothing where what stands there is no string operation.
pub fn repeated((meaning, used): Taken, repeat: u8) -> Option<Taken> {
    (repeat == 0 || is_string(meaning.operation)).then_some((Meaning { repeat, ..meaning }, used))
}

pub fn default_segment(base: u8) -> u8 {
    if matches!(base, 2 | 3 | 6) { 2 } else { 3 }
}

/// The meaning of an operation with these operands, or nothing where document 01 has no such operands.
pub fn meaning(operation: u8, said: &[Said]) -> Option<Taken> {
    let mut used = 0;
    let width = width(operation, said)?;
    let mut operands = [Operand::None; 2];
    if said.len() > 2 {
        return None;
    }
    for (i, one) in said.iter().enumerate() {
        operands[i] = match *one {
            Said::Register8(n) | Said::Register16(n) => Operand::Register(n),
            Said::Segment(n) => Operand::Segment(n),
            Said::Memory(base, displacement, segment, _) => {
                if segment == Some(default_segment(base)) {
                    used |= DEFAULT_SEGMENT;
                }
                Operand::Memory(base, displacement, segment.unwrap_or(default_segment(base)))
            }
            Said::Immediate(1) if is_shift(operation) => Operand::One,
            Said::Immediate(v) if width == BYTE || matches!(operation, op::IN | op::OUT | op::INT) => Operand::Immediate(v % 256),
            Said::Immediate(v) => Operand::Immediate(v),
            Said::Target(t) => Operand::Near(t),
            Said::Far(offset, segment) => Operand::Far(offset, segment),
        };
    }
    let mut result = Meaning { operation, repeat: 0, width, operands };
    if operation == op::XCHG {
        let [a, b] = operands;
        let exchanged = match (a, b) {
            (Operand::Register(m), Operand::Register(n)) => n < m,
            (Operand::Register(_), _) => false,
            _ => true,
        };
        if exchanged {
            result.operands = [b, a];
            used |= XCHG_ORDER;
        }
        if width == WORD && result.operands == [Operand::Register(0); 2] {
            result = Meaning { operation: op::NOP, repeat: 0, width: UNSTATED, operands: [Operand::None; 2] };
            used |= XCHG_AX_AX;
        }
    }
    if let (op::TEST, [memory @ Operand::Memory(..), register @ Operand::Register(_)]) = (operation, operands) {
        result.operands = [register, memory];
        used |= TEST_ORDER;
    }
    Some((result, used))
}

/// The form's width: what its operands state, or what document 01 and docs/DECISIONS.md say where they state none.
fn width(operation: u8, said: &[Said]) -> Option<u8> {
    let of = |one: &Said| match one {
        Said::Register8(_) => BYTE,
        Said::Register16(_) | Said::Segment(_) => WORD,
        Said::Memory(_, _, _, size) => *size,
        _ => UNSTATED,
    };
    let stated: Vec<u8> = said.iter().map(of).filter(|w| *w != UNSTATED).collect();
    match operation {
        op::XLATB => Some(BYTE),
        op::LEA | op::LES | op::LDS => Some(WORD),
        op::CALL | op::JMP => match said {
            [Said::Target(_)] | [Said::Far(..)] => Some(UNSTATED),
            [Said::Memory(_, _, _, POINTER)] if operation == op::CALL => Some(UNSTATED),
            [Said::Register16(_)] | [Said::Memory(_, _, _, UNSTATED | WORD)] => Some(WORD),
            _ => None,
        },
        // the count's or the port's size says nothing
        op::OUT => said.get(1).map(of),
        _ if operation == op::IN || is_shift(operation) => said.first().map(of).filter(|w| *w != UNSTATED),
        _ if stated.is_empty() => Some(UNSTATED),
        _ if stated.iter().all(|w| *w == stated[0]) => Some(stated[0]),
        _ => None,
    }
}
