//! What docs/DIFFERENCES.md lists, by the same ids: where an entry applies, what 000 answers there and what ours must.
//! A difference that no entry explains is a failure, and so is an entry that is never met.

use super::answers::{self, Answer};
use super::bindings::{FSQ_INVALID_OPERANDS, FSQ_INVALID_OPERAND_SIZE, FSQ_NOT_SUPPORTED};
use super::groups::{ARITHMETIC, CONDITIONAL, LOOPS};
use super::left_open;
use super::oracle::Oracle;
use super::records::{op, Operand, Record, BYTE, FAR, IMM, MEM, NONE, REG, SEG, SHORT, UNSTATED, WORD};

#[derive(Clone, Copy, PartialEq, Eq)]
pub enum Kind {
    /// ours answers otherwise, by document 01
    Answer,
    /// ours answers otherwise, by a request of document 02
    Request,
    /// ours refuses as 000 does, but 000 panics or has emitted bytes by then
    Manner,
    /// document 01 names it, and 000 answers the same
    Agrees,
}

pub struct Entry {
    pub id: &'static str,
    pub kind: Kind,
    pub operations: &'static [u8],
    pub applies: fn(&Record, u16) -> bool,
    /// did 000 do what the entry says of it?
    pub theirs: fn(&Record, &Oracle) -> bool,
    /// what ours must answer
    pub ours: fn(&Record, u16, &Oracle) -> Answer,
}

pub const EMITTED_BEFORE_FAILING: &str = "emitted-before-failing";
pub const SIGN_EXTENDED_NEGATIVE: &str = "sign-extended-negative";
pub const ARITHMETIC_RANGE: &str = "arithmetic-range";
pub const LEFT_OPEN: &str = "left-open";
pub const CALL_FAR_BYTE_MEMORY: &str = "call-far-byte-memory";
pub const TODO: &str = "todo";
/// Where 000 panics.
pub const PANICS: [&str; 3] = [TODO, LEFT_OPEN, CALL_FAR_BYTE_MEMORY];
/// Where 000 has emitted bytes when it refuses.
pub const EMITS: [&str; 3] = [EMITTED_BEFORE_FAILING, SIGN_EXTENDED_NEGATIVE, ARITHMETIC_RANGE];
/// Where a range is wider than 000's: a run must meet both what it takes more and its refusal.
pub const WIDER: [&str; 3] = ["test-immediate", ARITHMETIC_RANGE, "mov-register-range"];

pub static ENTRIES: &[Entry] = &[
    Entry {
        id: "aam-aad",
        kind: Kind::Answer,
        operations: &[op::AAM, op::AAD],
        applies: |_, _| true,
        theirs: |r, o| o.answer == answers::bytes(&[adjust(r), 0xA0]),
        ours: |r, _, _| answers::bytes(&[adjust(r), 0x0A]),
    },
    Entry {
        id: "xchg-byte-al",
        kind: Kind::Answer,
        operations: &[op::XCHG],
        applies: |r, _| {
            let [first, second] = &r.operands;
            r.common_size() == Some(BYTE) && first.kind == REG && second.kind == REG && second.rm == 0
        },
        theirs: |r, o| o.answer == answers::bytes(&[0x90 + r.operands[0].rm]),
        ours: |r, _, _| answers::bytes(&[0x86, 0xC0 + 8 * r.operands[0].rm]),
    },
    Entry {
        id: "test-immediate",
        kind: Kind::Answer,
        operations: &[op::TEST],
        // where both immediates are the same byte, nothing shows whose it was
        applies: |r, _| {
            let [first, second] = &r.operands;
            let taken = r.common_size() == Some(BYTE) && first.kind == REG && first.rm == 0 && second.kind == IMM;
            taken && test_al(first, 0) != test_al(second, -128)
        },
        theirs: |r, o| o.answer == test_al(&r.operands[0], 0),
        ours: |r, _, _| test_al(&r.operands[1], -128),
    },
    Entry {
        id: "pop-cs",
        kind: Kind::Answer,
        operations: &[op::POP],
        applies: |r, _| r.operands[0].kind == SEG && r.operands[0].rm == 1,
        theirs: |_, o| o.answer == answers::bytes(&[0x0F]),
        ours: |r, _, _| answers::refused(FSQ_INVALID_OPERANDS, r.span),
    },
    Entry {
        id: "call-register-kind",
        kind: Kind::Answer,
        operations: &[op::CALL],
        applies: |r, _| r.operands[0].kind == REG && matches!(r.operands[0].jump, FAR | SHORT),
        theirs: |r, o| o.answer == with_modrm(0xFF, 2, &r.operands[0], &[]),
        ours: |r, _, _| answers::refused(FSQ_INVALID_OPERANDS, r.span),
    },
    Entry {
        id: "call-memory-short",
        kind: Kind::Answer,
        operations: &[op::CALL],
        applies: |r, _| r.operands[0].kind == MEM && r.operands[0].jump == SHORT,
        theirs: |r, o| o.answer == with_modrm(0xFF, 2, &r.operands[0], &[]),
        ours: |r, _, _| answers::refused(FSQ_INVALID_OPERANDS, r.span),
    },
    Entry {
        id: "byte-target",
        kind: Kind::Answer,
        operations: &[op::CALL, op::JMP],
        applies: |r, _| {
            let target = &r.operands[0];
            let refused_there = if r.operation == op::CALL {
                target.kind == MEM && target.jump == FAR
            } else {
                matches!(target.jump, FAR | SHORT)
            };
            target.is_rm() && target.size == BYTE && !refused_there
        },
        theirs: |r, o| {
            let n = if r.operation == op::CALL { 2 } else { 4 };
            o.answer == with_modrm(0xFF, n, &r.operands[0], &[])
        },
        ours: |r, _, _| answers::refused(FSQ_INVALID_OPERANDS, r.span),
    },
    Entry {
        id: "mov-memory-range",
        kind: Kind::Answer,
        operations: &[op::MOV],
        applies: |r, _| {
            let [first, second] = &r.operands;
            let (low, high) = data_limits(r);
            first.kind == MEM && second.kind == IMM && r.common_size().is_some() && !(low..=high).contains(&second.imm)
        },
        theirs: |r, o| {
            let [first, second] = &r.operands;
            let imm = second.imm.to_le_bytes();
            o.answer
                == match r.common_size() {
                    Some(BYTE) => with_modrm(0xC6, 0, first, &imm[..1]),
                    _ => with_modrm(0xC7, 0, first, &imm[..2]),
                }
        },
        ours: |r, _, _| {
            let (low, high) = data_limits(r);
            answers::out_of_range(r.operands[1].span, r.operands[1].imm, low, high)
        },
    },
    Entry {
        id: "port-range",
        kind: Kind::Answer,
        operations: &[op::IN, op::OUT],
        applies: |r, _| {
            let (accumulator, port) = accumulator_and_port(r);
            is_accumulator(accumulator) && accumulator.size != UNSTATED && port.kind == IMM && !is_byte(port.imm)
        },
        theirs: |r, o| {
            let (accumulator, port) = accumulator_and_port(r);
            let base = if r.operation == op::IN { 0xE4 } else { 0xE6 };
            o.answer == answers::bytes(&[base + (accumulator.size == WORD) as u8, port.imm as u8])
        },
        ours: |r, _, _| {
            let (_, port) = accumulator_and_port(r);
            answers::out_of_range(port.span, port.imm, 0, 255)
        },
    },
    Entry {
        id: EMITTED_BEFORE_FAILING,
        kind: Kind::Manner,
        operations: &[
            op::MOV, op::INT,
            op::JO, op::JNO, op::JB, op::JNB, op::JE, op::JNE, op::JBE, op::JNBE, op::JS, op::JNS, op::JP, op::JNP,
            op::JL, op::JNL, op::JLE, op::JNLE, op::LOOPNZ, op::LOOPZ, op::LOOP, op::JCXZ,
        ],
        applies: fails_after_emitting,
        theirs: |_, o| o.emitted > 0 && matches!(o.answer, Answer::Refused(_)),
        // the same refusal; that ours writes no byte is asked of every refusal
        ours: |_, _, o| o.answer,
    },
    Entry {
        id: TODO,
        kind: Kind::Manner,
        operations: &[op::INT1, op::ESC],
        applies: |_, _| true,
        theirs: |_, o| o.panicked,
        ours: |r, _, _| answers::refused(FSQ_NOT_SUPPORTED, r.span),
    },
    Entry {
        id: LEFT_OPEN,
        kind: Kind::Request,
        operations: &[op::TEST, op::PUSH, op::POP, op::RET, op::CALL, op::JMP, op::WAIT],
        applies: |r, offset| left_open::answer(r, offset).is_some(),
        theirs: |_, o| o.panicked,
        ours: |r, offset, o| left_open::answer(r, offset).unwrap_or(o.answer),
    },
    Entry {
        id: CALL_FAR_BYTE_MEMORY,
        kind: Kind::Request,
        operations: &[op::CALL],
        applies: |r, _| r.operands[0].kind == MEM && r.operands[0].jump == FAR && r.operands[0].size == BYTE,
        theirs: |_, o| o.panicked,
        ours: |r, _, _| answers::refused(FSQ_INVALID_OPERANDS, r.span),
    },
    Entry {
        id: "push-byte-register",
        kind: Kind::Agrees,
        operations: &[op::PUSH],
        applies: |r, _| r.operands[0].kind == REG && r.operands[0].size == BYTE,
        theirs: |r, o| o.answer == answers::refused(FSQ_INVALID_OPERANDS, r.operands[0].span),
        ours: |r, _, _| answers::refused(FSQ_INVALID_OPERANDS, r.operands[0].span),
    },
    Entry {
        id: "push-unstated-register",
        kind: Kind::Agrees,
        operations: &[op::PUSH],
        applies: |r, _| r.operands[0].kind == REG && r.operands[0].size == UNSTATED,
        theirs: |r, o| o.answer == answers::refused(FSQ_INVALID_OPERANDS, r.operands[0].span),
        ours: |r, _, _| answers::refused(FSQ_INVALID_OPERANDS, r.operands[0].span),
    },
    Entry {
        id: "in-out-unstated-accumulator",
        kind: Kind::Agrees,
        operations: &[op::IN, op::OUT],
        applies: |r, _| {
            let (accumulator, port) = accumulator_and_port(r);
            let has_form = port.kind == IMM || is_dx(port) && port.size == WORD;
            is_accumulator(accumulator) && accumulator.size == UNSTATED && has_form
        },
        theirs: |r, o| o.answer == answers::refused(FSQ_INVALID_OPERANDS, r.span),
        ours: |r, _, _| answers::refused(FSQ_INVALID_OPERANDS, r.span),
    },
    Entry {
        id: "in-out-byte-dx",
        kind: Kind::Agrees,
        operations: &[op::IN, op::OUT],
        applies: |r, _| dx_of_size(r, BYTE),
        theirs: |r, o| o.answer == answers::refused(FSQ_INVALID_OPERANDS, r.span),
        ours: |r, _, _| answers::refused(FSQ_INVALID_OPERANDS, r.span),
    },
    Entry {
        id: "in-out-unstated-dx",
        kind: Kind::Agrees,
        operations: &[op::IN, op::OUT],
        applies: |r, _| dx_of_size(r, UNSTATED),
        theirs: |r, o| o.answer == answers::refused(FSQ_INVALID_OPERANDS, r.span),
        ours: |r, _, _| answers::refused(FSQ_INVALID_OPERANDS, r.span),
    },
    Entry {
        id: "pop-immediate",
        kind: Kind::Agrees,
        operations: &[op::POP],
        applies: |r, _| r.operands[0].kind == IMM,
        theirs: |r, o| o.answer == answers::refused(FSQ_INVALID_OPERAND_SIZE, r.operands[0].span),
        ours: |r, _, _| answers::refused(FSQ_INVALID_OPERAND_SIZE, r.operands[0].span),
    },
    Entry {
        id: SIGN_EXTENDED_NEGATIVE,
        kind: Kind::Request,
        operations: &ARITHMETIC,
        applies: |r, _| {
            let [first, second] = &r.operands;
            let word_immediate = r.common_size() == Some(WORD) && first.is_rm() && second.kind == IMM;
            word_immediate && (-128..0).contains(&second.imm)
        },
        theirs: |r, o| o.emitted > 0 && o.answer == answers::out_of_range(r.operands[1].span, r.operands[1].imm, 0, 255),
        ours: |r, _, _| {
            with_modrm(0x83, digit(r), &r.operands[0], &[r.operands[1].imm as u8])
        },
    },
    Entry {
        id: ARITHMETIC_RANGE,
        kind: Kind::Request,
        operations: &ARITHMETIC,
        applies: |r, _| {
            let [first, second] = &r.operands;
            let taken = first.is_rm() && second.kind == IMM;
            // -128 to -1 of a Word is sign-extended-negative
            taken && is_outside(r, second.imm) && !(r.common_size() == Some(WORD) && (-128..0).contains(&second.imm))
        },
        theirs: |r, o| o.emitted > 0 && o.answer == answers::out_of_range(r.operands[1].span, r.operands[1].imm, 0, data_limits(r).1),
        ours: |r, _, _| {
            let (base, n) = (8 * digit(r), digit(r));
            data_immediate(r, |w, first, immediate| {
                if first.kind == REG && first.rm == 0 {
                    with_opcode(base + 4 + w, immediate)
                } else {
                    with_modrm(0x80 + w, n, first, immediate)
                }
            })
        },
    },
    Entry {
        id: "mov-register-range",
        kind: Kind::Request,
        operations: &[op::MOV],
        applies: |r, _| r.operands[0].kind == REG && r.operands[1].kind == IMM && is_outside(r, r.operands[1].imm),
        theirs: |r, o| o.answer == answers::out_of_range(r.operands[1].span, r.operands[1].imm, 0, data_limits(r).1),
        ours: |r, _, _| data_immediate(r, |w, first, immediate| with_opcode(0xB0 + 8 * w + first.rm, immediate)),
    },
];

/// The /n of an arithmetic operation.
fn digit(r: &Record) -> u8 {
    ARITHMETIC.iter().position(|operation| *operation == r.operation).unwrap() as u8
}

/// Is a data immediate outside 000's range for it?
fn is_outside(r: &Record, value: i32) -> bool {
    match r.common_size() {
        Some(BYTE) => !is_byte(value),
        Some(_) => !is_word(value),
        None => false,
    }
}

/// A form with the second operand's immediate in its limits, by the bit of its size; else 5.
fn data_immediate(r: &Record, form: impl Fn(u8, &Operand, &[u8]) -> Answer) -> Answer {
    let [first, second] = &r.operands;
    let (low, high) = data_limits(r);
    let w = (r.common_size() == Some(WORD)) as u8;
    if (low..=high).contains(&second.imm) {
        form(w, first, &second.imm.to_le_bytes()[..1 + w as usize])
    } else {
        answers::out_of_range(second.span, second.imm, low, high)
    }
}

fn with_opcode(opcode: u8, immediate: &[u8]) -> Answer {
    answers::bytes(&[&[opcode], immediate].concat())
}

fn adjust(r: &Record) -> u8 {
    if r.operation == op::AAM { 0xD4 } else { 0xD5 }
}

/// TEST AL with the immediate and the span of this operand, from this limit on.
fn test_al(operand: &Operand, low: i32) -> Answer {
    if (low..=255).contains(&operand.imm) {
        answers::bytes(&[0xA8, operand.imm as u8])
    } else {
        answers::out_of_range(operand.span, operand.imm, low, 255)
    }
}

fn is_byte(value: i32) -> bool {
    (0..=255).contains(&value)
}

fn is_word(value: i32) -> bool {
    (0..=65535).contains(&value)
}

fn data_limits(r: &Record) -> (i32, i32) {
    if r.common_size() == Some(BYTE) { (-128, 255) } else { (-32768, 65535) }
}

fn accumulator_and_port(r: &Record) -> (&Operand, &Operand) {
    let [first, second] = &r.operands;
    if r.operation == op::IN { (first, second) } else { (second, first) }
}

fn is_accumulator(operand: &Operand) -> bool {
    operand.kind == REG && operand.rm == 0
}

fn is_dx(operand: &Operand) -> bool {
    operand.kind == REG && operand.rm == 2
}

fn dx_of_size(r: &Record, size: u8) -> bool {
    let (accumulator, port) = accumulator_and_port(r);
    is_accumulator(accumulator) && accumulator.size != UNSTATED && is_dx(port) && port.size == size
}

/// 000 hands opcode, prefix or ModRM to the emitter before it asks the range of what follows.
fn fails_after_emitting(r: &Record, offset: u16) -> bool {
    let [first, second] = &r.operands;
    let operation = r.operation;
    if operation == op::MOV {
        let moffs = |register: &Operand, memory: &Operand| {
            register.kind == REG && register.rm == 0 && memory.is_direct() && !is_word(memory.displacement)
        };
        r.common_size().is_some() && (moffs(first, second) || moffs(second, first))
    } else if operation == op::INT {
        first.kind == IMM && !is_byte(first.imm)
    } else if CONDITIONAL.contains(&operation) || LOOPS.contains(&operation) {
        let distance = first.imm as i64 - (offset as i64 + 2);
        first.kind == IMM && matches!(first.jump, NONE | SHORT) && !(-128..=127).contains(&distance)
    } else {
        false
    }
}

/// Prefix, opcode, ModRM with /n, displacement, tail.
pub fn with_modrm(opcode: u8, n: u8, rm: &Operand, tail: &[u8]) -> Answer {
    let mut bytes = Vec::with_capacity(8);
    if rm.prefix != 0 {
        bytes.push(rm.prefix);
    }
    bytes.push(opcode);
    bytes.push(rm.mode * 64 + n * 8 + rm.rm);
    bytes.extend(&rm.displacement.to_le_bytes()[..rm.displacement_size as usize]);
    bytes.extend(tail);
    answers::bytes(&bytes)
}

