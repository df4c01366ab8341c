//! Where 000 ends in `todo!` and document 02, No. 1, gives an answer: what ours must answer there. The forms are the Intel SDM's, TEST's ranges No. 4's.

use super::answers::{self, Answer};
use super::bindings::{FSQ_IMMEDIATE_OUT_OF_RANGE, FSQ_INVALID_OPERANDS, FSQ_RELATIVE_JUMP_OUT_OF_RANGE};
use super::differences::with_modrm;
use super::records::{op, Operand, Record, BYTE, FAR, IMM, MEM, REG, SHORT, WORD};

/// The refusals that a run must meet: operation and number. That the forms are met is asked with all others.
pub const REFUSALS: [(u8, u8); 4] = [
    (op::TEST, FSQ_IMMEDIATE_OUT_OF_RANGE),
    (op::RET, FSQ_INVALID_OPERANDS),
    (op::RET, FSQ_IMMEDIATE_OUT_OF_RANGE),
    (op::JMP, FSQ_RELATIVE_JUMP_OUT_OF_RANGE),
];

/// Nothing where 000 does not end in `todo!`, and nothing where another entry has the record: INT1, ESC, CALL of kind Far through a Byte.
pub fn answer(r: &Record, offset: u16) -> Option<Answer> {
    let first = &r.operands[0];
    let memory = first.kind == MEM;
    match r.operation {
        op::TEST => test(r),
        op::PUSH if memory && first.size == WORD => Some(with_modrm(0xFF, 6, first, &[])),
        op::POP if memory && first.size == WORD => Some(with_modrm(0x8F, 0, first, &[])),
        op::RET if r.count != 0 && first.kind == IMM => {
            Some(with_immediate(first, WORD, 0, |iw| answers::bytes(&[0xC2, iw[0], iw[1]])))
        }
        op::RET if r.count != 0 => Some(answers::refused(FSQ_INVALID_OPERANDS, r.span)),
        op::CALL if memory && first.jump == FAR && first.size != BYTE => Some(with_modrm(0xFF, 3, first, &[])),
        // 000 asks the target's own range before it looks at the kind
        op::JMP if first.kind == IMM && first.jump == SHORT && (0..=65535).contains(&first.imm) => {
            let distance = first.imm - (offset as i32 + 2);
            Some(match i8::try_from(distance) {
                Ok(rel8) => answers::bytes(&[0xEB, rel8 as u8]),
                Err(_) => answers::too_far(first.span, distance),
            })
        }
        op::WAIT => Some(answers::bytes(&[0x9B])),
        _ => None,
    }
}

/// Memory stands in r/m wherever it is written; of two registers the second stands in reg.
fn test(r: &Record) -> Option<Answer> {
    let [first, second] = &r.operands;
    let size = r.common_size()?;
    let modrm = if size == BYTE { 0x84 } else { 0x85 };
    match (first.kind, second.kind) {
        (REG | MEM, REG) => Some(with_modrm(modrm, second.rm, first, &[])),
        (REG, MEM) => Some(with_modrm(modrm, first.rm, second, &[])),
        // 000 has this one, with the wrong immediate: test-immediate
        (REG, IMM) if size == BYTE && first.rm == 0 => None,
        (REG, IMM) if first.rm == 0 => Some(with_immediate(second, WORD, -32768, |iw| answers::bytes(&[0xA9, iw[0], iw[1]]))),
        (REG | MEM, IMM) if size == BYTE => Some(with_immediate(second, BYTE, -128, |ib| with_modrm(0xF6, 0, first, ib))),
        (REG | MEM, IMM) => Some(with_immediate(second, WORD, -32768, |iw| with_modrm(0xF7, 0, first, iw))),
        _ => None,
    }
}

/// The form with this operand's immediate, which is of this size and not below this limit; else 5 with its span.
fn with_immediate(operand: &Operand, size: u8, low: i32, form: impl Fn(&[u8]) -> Answer) -> Answer {
    let high = if size == BYTE { 255 } else { 65535 };
    if (low..=high).contains(&operand.imm) {
        form(&operand.imm.to_le_bytes()[..size as usize])
    } else {
        answers::out_of_range(operand.span, operand.imm, low, high)
    }
}
