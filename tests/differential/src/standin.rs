//! A STAND-IN for our encoder, only for `build --standin`: it tests the driver while there is no library, and proves nothing.
//! Written from document 01 with document 02, Nos. 1, 2 and 4, in the order of the questions, and not from 000.

use super::answers::{self, Answer, Span};
use super::bindings::*;
use super::groups::{ARITHMETIC, CONDITIONAL, LOOPS};
use super::records::*;

/// # Safety
/// As the C function: each pointer with its length is a valid slice.
pub unsafe extern "C" fn fsq_encode(
    rec: *const u8,
    rec_len: usize,
    offset: u16,
    out: *mut u8,
    out_len: usize,
    report: *mut u8,
    report_len: usize,
) -> u8 {
    let record = unpack(std::slice::from_raw_parts(rec, rec_len));
    let out = std::slice::from_raw_parts_mut(out, out_len);
    let report = std::slice::from_raw_parts_mut(report, report_len);
    let mut fields = [0; 6];
    let number = match answer(&record, offset) {
        Answer::Bytes(run) if run.len <= out.len() => {
            out[..run.len].copy_from_slice(&run.bytes[..run.len]);
            fields[FSQ_REPORT_LENGTH_AT / 4] = run.len as u32;
            FSQ_DONE
        }
        Answer::Bytes(_) => {
            fields = [0, record.span.0, record.span.1, 0, 0, 0];
            FSQ_SLICE_TOO_SHORT
        }
        Answer::Refused(r) => {
            fields = [0, r.span.0, r.span.1, r.value as u32, r.low as u32, r.high as u32];
            r.number
        }
    };
    // No record is named.
    for (i, field) in fields.iter().chain([&FSQ_NO_RECORD]).enumerate() {
        report[4 * i..4 * i + 4].copy_from_slice(&field.to_le_bytes());
    }
    number
}

fn unpack(packed: &[u8]) -> Record {
    let number = |at: usize| u32::from_le_bytes(packed[at..at + 4].try_into().unwrap());
    let operand = |at: usize| Operand {
        kind: packed[at + FSQ_KIND_AT],
        size: packed[at + FSQ_SIZE_AT],
        prefix: packed[at + FSQ_PREFIX_AT],
        displacement_size: packed[at + FSQ_DISPLACEMENT_SIZE_AT],
        jump: packed[at + FSQ_JUMP_AT],
        mode: packed[at + FSQ_MODE_AT],
        rm: packed[at + FSQ_RM_AT],
        imm: number(at + FSQ_IMMEDIATE_AT) as i32,
        displacement: number(at + FSQ_DISPLACEMENT_AT) as i32,
        span: (number(at + FSQ_OPERAND_SPAN_START_AT), number(at + FSQ_OPERAND_SPAN_END_AT)),
    };
    Record {
        operation: packed[FSQ_OPERATION_AT],
        count: packed[FSQ_COUNT_AT],
        span: (number(FSQ_SPAN_START_AT), number(FSQ_SPAN_END_AT)),
        operands: [operand(FSQ_FIRST_AT), operand(FSQ_SECOND_AT)],
    }
}

/// Single bytes.
const PLAIN: [(u8, u8); 38] = [
    (op::DAA, 0x27), (op::DAS, 0x2F), (op::AAA, 0x37), (op::AAS, 0x3F), (op::NOP, 0x90), (op::CBW, 0x98), (op::CWD, 0x99),
    (op::PUSHF, 0x9C), (op::POPF, 0x9D), (op::SAHF, 0x9E), (op::LAHF, 0x9F), (op::MOVSB, 0xA4), (op::MOVSW, 0xA5),
    (op::CMPSB, 0xA6), (op::CMPSW, 0xA7), (op::STOSB, 0xAA), (op::STOSW, 0xAB), (op::LODSB, 0xAC), (op::LODSW, 0xAD),
    (op::SCASB, 0xAE), (op::SCASW, 0xAF), (op::INT3, 0xCC), (op::INTO, 0xCE), (op::IRET, 0xCF), (op::SALC, 0xD6),
    (op::LOCK, 0xF0), (op::REPNE, 0xF2), (op::REP, 0xF3), (op::HLT, 0xF4), (op::CMC, 0xF5), (op::CLC, 0xF8), (op::STC, 0xF9),
    (op::CLI, 0xFA), (op::STI, 0xFB), (op::CLD, 0xFC), (op::STD, 0xFD), (op::RET, 0xC3),
    (op::WAIT, 0x9B),
];
/// /0 to /7; /6 has no operation.
const SHIFTS: [u8; 8] = [op::ROL, op::ROR, op::RCL, op::RCR, op::SHL, op::SHR, 255, op::SAR];
/// /2 to /7.
const UNARY: [u8; 6] = [op::NOT, op::NEG, op::MUL, op::IMUL, op::DIV, op::IDIV];

fn answer(r: &Record, offset: u16) -> Answer {
    if !r.codes_known() {
        return answers::refused(FSQ_UNKNOWN_CODE, (0, 0));
    }
    // 1
    if let Some(span) = r.ill_formed() {
        return answers::refused(FSQ_NOT_WELL_FORMED, span);
    }
    let o = r.operation;
    let [a, b] = &r.operands;
    let none = answers::refused(FSQ_INVALID_OPERANDS, r.span);
    let none_operand = answers::refused(FSQ_INVALID_OPERANDS, a.span);
    // 2
    if matches!(o, op::INT1 | op::ESC) {
        return answers::refused(FSQ_NOT_SUPPORTED, r.span);
    }
    // 3
    let in_pairs = ARITHMETIC.contains(&o) || matches!(o, op::MOV | op::TEST | op::XCHG);
    let (unary, shift) = (position(&UNARY, o), position(&SHIFTS, o));
    if in_pairs && a.size == UNSTATED && b.size == UNSTATED || unary.is_some() && a.size == UNSTATED {
        return answers::refused(FSQ_OPERAND_SIZE_NOT_SPECIFIED, r.span);
    }
    if shift.is_some() && a.size == UNSTATED {
        return answers::refused(FSQ_OPERAND_SIZE_NOT_SPECIFIED, a.span);
    }
    if matches!(o, op::INC | op::DEC) && a.size == UNSTATED || matches!(o, op::POP | op::XLATB) && a.size != WORD {
        return answers::refused(FSQ_INVALID_OPERAND_SIZE, a.span);
    }
    // 4
    if in_pairs && a.size != UNSTATED && b.size != UNSTATED && a.size != b.size {
        return answers::refused(FSQ_OPERAND_SIZES_DO_NOT_MATCH, r.span);
    }
    // 5 to 7
    let size = if a.size == UNSTATED { b.size } else { a.size };
    let w = (size == WORD) as u8;
    if let Some(i) = position(&ARITHMETIC, o) {
        return arithmetic(i, w, a, b, none);
    }
    if let Some(n) = unary {
        return if a.is_rm() { modrm(0xF6 + w, n + 2, a, &[]) } else { none };
    }
    if let Some(n) = shift {
        let w = (a.size == WORD) as u8;
        return match (a.is_rm(), b.kind) {
            (true, IMM) if b.imm == 1 => modrm(0xD0 + w, n, a, &[]),
            (true, REG) if b.size == BYTE && b.rm == 1 => modrm(0xD2 + w, n, a, &[]),
            _ => none,
        };
    }
    if let Some(n) = position(&CONDITIONAL, o) {
        return short(0x70 + n, a, offset, none_operand);
    }
    if let Some(n) = position(&LOOPS, o) {
        return short(0xE0 + n, a, offset, none);
    }
    match o {
        op::MOV => mov(w, a, b, none),
        op::XCHG => match (a.kind, b.kind) {
            (REG, REG) if w == 1 && (a.rm == 0 || b.rm == 0) => answers::bytes(&[0x90 + a.rm + b.rm]),
            (REG, REG | MEM) => modrm(0x86 + w, a.rm, b, &[]),
            (MEM, REG) => modrm(0x86 + w, b.rm, a, &[]),
            _ => none,
        },
        op::TEST => match (a.kind, b.kind) {
            (MEM, REG) | (REG, REG) => modrm(0x84 + w, b.rm, a, &[]),
            (REG, MEM) => modrm(0x84 + w, a.rm, b, &[]),
            (REG | MEM, IMM) => {
                let (width, low, high) = data(w);
                match ranged(&[0xA8 + w], width, b.imm, low, high, b.span) {
                    Answer::Bytes(_) if a.kind == MEM || a.rm != 0 => modrm(0xF6 + w, 0, a, &b.imm.to_le_bytes()[..width]),
                    accumulator_or_refused => accumulator_or_refused,
                }
            }
            _ => none,
        },
        op::INC | op::DEC => {
            let n = (o == op::DEC) as u8;
            match a.kind {
                REG if a.size == WORD => answers::bytes(&[0x40 + 8 * n + a.rm]),
                REG | MEM => modrm(0xFE + (a.size == WORD) as u8, n, a, &[]),
                _ => none,
            }
        }
        op::PUSH => match a.kind {
            REG if a.size == WORD => answers::bytes(&[0x50 + a.rm]),
            SEG => answers::bytes(&[0x06 + 8 * a.rm]),
            MEM if a.size == WORD => modrm(0xFF, 6, a, &[]),
            _ => none_operand,
        },
        op::POP => match a.kind {
            REG => answers::bytes(&[0x58 + a.rm]),
            SEG if a.rm != 1 => answers::bytes(&[0x07 + 8 * a.rm]),
            SEG => none,
            MEM => modrm(0x8F, 0, a, &[]),
            _ => answers::refused(FSQ_INVALID_OPERAND_SIZE, a.span),
        },
        op::LEA | op::LES | op::LDS if a.kind == REG && a.size == WORD && b.kind == MEM => {
            let opcode = [0x8D, 0xC5, 0xC4][(o - op::LEA) as usize];
            modrm(opcode, a.rm, b, &[])
        }
        op::CALL => match (a.kind, a.jump) {
            (IMM, NONE | NEAR) => near(0xE8, a, offset),
            (MEM, FAR) if a.size != BYTE => modrm(0xFF, 3, a, &[]),
            (REG | MEM, NONE | NEAR) if a.size != BYTE => modrm(0xFF, 2, a, &[]),
            _ => none,
        },
        op::JMP => match (a.kind, a.jump) {
            (IMM, _) if !(0..=65535).contains(&a.imm) => answers::out_of_range(a.span, a.imm, 0, 65535),
            (IMM, NONE | NEAR) => near(0xE9, a, offset),
            (IMM, FAR) => {
                let target = (a.imm as u16).to_le_bytes();
                ranged(&[0xEA, target[0], target[1]], 2, a.displacement, 0, 65535, a.span)
            }
            (IMM, _) => short(0xEB, a, offset, none),
            (REG | MEM, FAR | SHORT) => none_operand,
            (REG | MEM, _) if a.size != BYTE => modrm(0xFF, 4, a, &[]),
            _ => none,
        },
        op::INT if a.kind == IMM => ranged(&[0xCD], 1, a.imm, 0, 255, a.span),
        op::INT => none_operand,
        op::XLATB if a.kind == MEM && a.mode == 0 && a.rm == 7 => {
            if a.prefix == 0 { answers::bytes(&[0xD7]) } else { answers::bytes(&[a.prefix, 0xD7]) }
        }
        op::IN => port(0xE4, a, b, none),
        op::OUT => port(0xE6, b, a, none),
        op::AAM => answers::bytes(&[0xD4, 0x0A]),
        op::AAD => answers::bytes(&[0xD5, 0x0A]),
        op::RET if r.count != 0 && a.kind == IMM => ranged(&[0xC2], 2, a.imm, 0, 65535, a.span),
        op::RET if r.count != 0 => none,
        _ => PLAIN.iter().find(|(p, _)| *p == o).map_or(none, |(_, byte)| answers::bytes(&[*byte])),
    }
}

fn arithmetic(i: u8, w: u8, a: &Operand, b: &Operand, none: Answer) -> Answer {
    let base = 8 * i;
    match (a.kind, b.kind) {
        (REG | MEM, REG) => modrm(base + w, b.rm, a, &[]),
        (REG, MEM) => modrm(base + 2 + w, a.rm, b, &[]),
        (REG | MEM, IMM) => {
            if w == 1 && (-128..=127).contains(&b.imm) {
                return modrm(0x83, i, a, &b.imm.to_le_bytes()[..1]);
            }
            let (width, low, high) = data(w);
            if !(low..=high).contains(&b.imm) {
                answers::out_of_range(b.span, b.imm, low, high)
            } else if a.kind == REG && a.rm == 0 {
                ranged(&[base + 4 + w], width, b.imm, low, high, b.span)
            } else {
                modrm(0x80 + w, i, a, &b.imm.to_le_bytes()[..width])
            }
        }
        _ => none,
    }
}

/// Length and limits of a data immediate.
fn data(w: u8) -> (usize, i32, i32) {
    if w == 0 { (1, -128, 255) } else { (2, -32768, 65535) }
}

fn mov(w: u8, a: &Operand, b: &Operand, none: Answer) -> Answer {
    match (a.kind, b.kind) {
        (MEM, REG) if a.is_direct() && b.rm == 0 => moffs(0xA2 + w, a),
        (REG, MEM) if b.is_direct() && a.rm == 0 => moffs(0xA0 + w, b),
        (REG | MEM, REG) => modrm(0x88 + w, b.rm, a, &[]),
        (REG, MEM) => modrm(0x8A + w, a.rm, b, &[]),
        (REG, IMM) => {
            let (width, low, high) = data(w);
            ranged(&[0xB0 + 8 * w + a.rm], width, b.imm, low, high, b.span)
        }
        (MEM, IMM) => {
            let (width, low, high) = data(w);
            if (low..=high).contains(&b.imm) {
                modrm(0xC6 + w, 0, a, &b.imm.to_le_bytes()[..width])
            } else {
                answers::out_of_range(b.span, b.imm, low, high)
            }
        }
        (REG | MEM, SEG) => modrm(0x8C, b.rm, a, &[]),
        (SEG, REG | MEM) if a.rm != 1 => modrm(0x8E, a.rm, b, &[]),
        _ => none,
    }
}

fn moffs(opcode: u8, address: &Operand) -> Answer {
    let head = [address.prefix, opcode];
    let head = if address.prefix == 0 { &head[1..] } else { &head[..] };
    ranged(head, 2, address.displacement, 0, 65535, address.span)
}

fn port(base: u8, accumulator: &Operand, port: &Operand, none: Answer) -> Answer {
    if accumulator.kind != REG || accumulator.rm != 0 || accumulator.size == UNSTATED {
        return none;
    }
    let opcode = base + (accumulator.size == WORD) as u8;
    match port.kind {
        IMM => ranged(&[opcode], 1, port.imm, 0, 255, port.span),
        REG if port.rm == 2 && port.size == WORD => answers::bytes(&[opcode + 8]),
        _ => none,
    }
}

fn near(opcode: u8, target: &Operand, offset: u16) -> Answer {
    if !(0..=65535).contains(&target.imm) {
        return answers::out_of_range(target.span, target.imm, 0, 65535);
    }
    let distance = (target.imm - (offset as i32 + 3)).rem_euclid(65536) as u16;
    let [low, high] = distance.to_le_bytes();
    answers::bytes(&[opcode, low, high])
}

fn short(opcode: u8, target: &Operand, offset: u16, none: Answer) -> Answer {
    if target.kind != IMM || !matches!(target.jump, NONE | SHORT) {
        return none;
    }
    let distance = target.imm as i64 - (offset as i64 + 2);
    if (-128..=127).contains(&distance) {
        answers::bytes(&[opcode, distance as u8])
    } else {
        answers::too_far(target.span, distance as i32)
    }
}

/// The head, then the value in so many bytes where it is within the limits.
fn ranged(head: &[u8], width: usize, value: i32, low: i32, high: i32, span: Span) -> Answer {
    if (low..=high).contains(&value) {
        answers::bytes(&[head, &value.to_le_bytes()[..width]].concat())
    } else {
        answers::out_of_range(span, value, low, high)
    }
}

/// Prefix, opcode, ModRM, displacement, tail.
fn modrm(opcode: u8, reg: u8, rm: &Operand, tail: &[u8]) -> Answer {
    let mut bytes = Vec::with_capacity(8);
    if rm.prefix != 0 {
        bytes.push(rm.prefix);
    }
    bytes.extend([opcode, rm.mode << 6 | reg << 3 | rm.rm]);
    bytes.extend(&rm.displacement.to_le_bytes()[..rm.displacement_size as usize]);
    bytes.extend(tail);
    answers::bytes(&bytes)
}

fn position(list: &[u8], operation: u8) -> Option<u8> {
    list.iter().position(|o| *o == operation).map(|i| i as u8)
}
