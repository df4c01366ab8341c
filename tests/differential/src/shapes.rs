//! Well-formed operands: every shape, and the few that represent them beside another operand.

use super::records::{Operand, BYTE, FAR, IMM, MEM, NEAR, NONE, PREFIXES, REG, SEG, SHORT, UNSTATED, WORD};

pub const SIZES: [u8; 3] = [UNSTATED, BYTE, WORD];
const JUMPS: [u8; 4] = [NONE, FAR, NEAR, SHORT];

/// On and around every limit, and values that a truncation would turn into a small one (257, 65537 and 65792 into 1, 1 and 0).
pub const IMMEDIATES: [i32; 44] = [
    i32::MIN, i32::MIN + 1, -16777216, -65537, -65536, -65535, -32769, -32768, -32767, -257, -256, -255, -129, -128, -127,
    -2, -1, 0, 1, 2, 5, 16, 126, 127, 128, 129, 200, 254, 255, 256, 257, 300, 4660, 32766, 32767, 32768, 32769, 65534,
    65535, 65536, 65537, 65792, i32::MAX - 1, i32::MAX,
];
const SEGMENTS: [i32; 12] = [i32::MIN, -32769, -32768, -1, 0, 1, 255, 4660, 32768, 65535, 65536, i32::MAX];
pub const WORD_DISPLACEMENTS: [i32; 16] =
    [-32768, -32767, -129, -128, -1, 0, 1, 127, 128, 255, 256, 4660, 32767, 32768, 65534, 65535];
pub const BYTE_DISPLACEMENTS: [i32; 8] = [-128, -127, -2, -1, 0, 1, 126, 127];

/// TEST of 000 reads the immediate of a register; nobody should read that of any other register or of memory.
const UNREAD: [i32; 8] = [0, 1, 5, 255, 256, -1, -129, 65536];

pub fn immediate(size: u8, jump: u8, imm: i32, segment: i32) -> Operand {
    Operand {
        kind: IMM,
        size,
        prefix: 0,
        displacement_size: UNSTATED,
        jump,
        mode: 0,
        rm: 0,
        imm,
        displacement: segment,
        span: (0, 0),
    }
}

pub fn register(size: u8, jump: u8, rm: u8, imm: i32) -> Operand {
    Operand { kind: REG, mode: 3, rm, ..immediate(size, jump, imm, 0) }
}

pub fn segment(jump: u8, rm: u8, imm: i32) -> Operand {
    Operand { kind: SEG, mode: 3, rm, ..immediate(WORD, jump, imm, 0) }
}

/// The displacement is left out where mode and r/m have none.
pub fn memory(size: u8, jump: u8, prefix: u8, mode: u8, rm: u8, displacement: i32, imm: i32) -> Operand {
    let displacement_size = match (mode, rm) {
        (0, 6) | (2, _) => WORD,
        (1, _) => BYTE,
        _ => UNSTATED,
    };
    let displacement = if displacement_size == UNSTATED { 0 } else { displacement };
    Operand { kind: MEM, prefix, displacement_size, mode, rm, ..immediate(size, jump, imm, displacement) }
}

pub fn displacements(mode: u8, rm: u8) -> &'static [i32] {
    match (mode, rm) {
        (0, 6) | (2, _) => &WORD_DISPLACEMENTS,
        (1, _) => &BYTE_DISPLACEMENTS,
        _ => &[0],
    }
}

pub fn all() -> Vec<Operand> {
    let mut shapes = Vec::new();
    for size in SIZES {
        for jump in JUMPS {
            shapes.extend(IMMEDIATES.iter().map(|imm| immediate(size, jump, *imm, 0)));
            for imm in [0, 1, 65535, 65536] {
                shapes.extend(SEGMENTS.iter().map(|at| immediate(size, jump, imm, *at)));
            }
            for rm in 0..8 {
                shapes.extend(UNREAD.iter().map(|imm| register(size, jump, rm, *imm)));
            }
            add_memory(&mut shapes, size, jump);
        }
    }
    for jump in JUMPS {
        for rm in 0..4 {
            shapes.extend([0, 1, -1].iter().map(|imm| segment(jump, rm, *imm)));
        }
    }
    shapes
}

fn add_memory(shapes: &mut Vec<Operand>, size: u8, jump: u8) {
    for prefix in PREFIXES {
        for mode in 0..3 {
            for rm in 0..8 {
                for displacement in displacements(mode, rm) {
                    let imm = UNREAD[shapes.len() % UNREAD.len()];
                    shapes.push(memory(size, jump, prefix, mode, rm, *displacement, imm));
                }
            }
        }
    }
}

pub fn representative() -> Vec<Operand> {
    let mut shapes = Vec::new();
    shapes.extend([0, 1, 5, -1, 200, 300, 65535, 65536].iter().map(|imm| immediate(UNSTATED, NONE, *imm, 0)));
    shapes.extend([BYTE, WORD].iter().map(|size| immediate(*size, NONE, 1, 0)));
    shapes.extend([(BYTE, 200), (BYTE, 256), (WORD, -5), (WORD, 300)].iter().map(|(s, imm)| immediate(*s, NONE, *imm, 0)));
    for jump in [FAR, NEAR, SHORT] {
        shapes.push(immediate(UNSTATED, jump, 5, 4660));
        shapes.push(register(WORD, jump, 3, 0));
        shapes.push(memory(WORD, jump, 0, 0, 7, 0, 0));
    }
    for size in SIZES {
        shapes.extend([0, 1, 2, 7].iter().map(|rm| register(size, NONE, *rm, 5 * *rm as i32)));
        shapes.push(memory(size, NONE, 0, 0, 7, 0, 1));
        shapes.push(memory(size, NONE, 0x2E, 0, 6, 4660, 0));
        shapes.push(memory(size, NONE, 0, 0, 6, -1, 0));
        shapes.push(memory(size, NONE, 0x36, 1, 6, -128, 0));
        shapes.push(memory(size, NONE, 0x26, 2, 3, 65535, 0));
    }
    shapes.extend((0..4).map(|rm| segment(NONE, rm, 0)));
    shapes
}
