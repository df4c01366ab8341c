//! The systematic records: every operation with every shape, and every branch at every offset. Spans are given later.

use super::groups::{looks_at_both, looks_at_first, CONDITIONAL, LOOPS};
use super::records::{mix, op, Operand, Record, FAR, MEM, NEAR, NONE, OPERATIONS, SHORT, UNSTATED};
use super::shapes;

#[derive(Clone, Copy, PartialEq, Eq)]
pub enum Depth {
    Short,
    Full,
}

pub type Visit<'a> = dyn FnMut(Record, u16) + 'a;

/// Offsets for records whose answer does not hang on them, and some where a sum passes 65,535.
const OFFSETS: [u16; 8] = [0, 1, 0x100, 0x7FFF, 0xFFFC, 0xFFFD, 0xFFFE, 0xFFFF];

/// Around the limits of an unsigned immediate of either size, and values that a truncation would bring inside.
const LIMITS: [i32; 10] = [i32::MIN, -65536, -1, 0, 1, 255, 256, 65535, 65536, i32::MAX];

pub fn record(operation: u8, count: u8, first: Operand, second: Operand) -> Record {
    Record { operation, count, span: (0, 0), operands: [first, second] }
}

pub fn systematic(depth: Depth, visit: &mut Visit) {
    let all = shapes::all();
    let few = shapes::representative();
    for operation in 0..OPERATIONS {
        pairs(operation, &few, visit);
        if looks_at_both(operation) {
            let beside = if depth == Depth::Full { few.len() } else { 8 };
            every_shape(operation, &all, &few, beside, true, visit);
        } else if looks_at_first(operation) {
            let beside = if depth == Depth::Full { 8 } else { 1 };
            every_shape(operation, &all, &few, beside, false, visit);
        } else if depth == Depth::Full {
            every_shape(operation, &all, &few, 1, false, visit);
        }
    }
}

/// All pairs of the representative shapes; with every count, as only RET may look at it.
fn pairs(operation: u8, few: &[Operand], visit: &mut Visit) {
    for (i, first) in few.iter().enumerate() {
        for (j, second) in few.iter().enumerate() {
            visit(record(operation, ((i + j) % 3) as u8, *first, *second), OFFSETS[(i + 3 * j) % 8]);
        }
    }
}

/// Every shape as first operand, and as second where the operation looks at it, beside so many of the representative ones.
fn every_shape(operation: u8, all: &[Operand], few: &[Operand], beside: usize, both: bool, visit: &mut Visit) {
    for (i, shape) in all.iter().enumerate() {
        let start = mix(i as u64 + ((operation as u64) << 32)) as usize;
        for j in 0..beside {
            let other = few[(start + j) % few.len()];
            let count = ((start >> 8) + j) % 3;
            let offset = OFFSETS[((start >> 16) + j) % 8];
            visit(record(operation, count as u8, *shape, other), offset);
            if both {
                visit(record(operation, count as u8, other, *shape), offset);
            }
        }
    }
}

/// Every branch at all 65,536 offsets, with targets on and around the limits of the distance and of the address.
pub fn branches(depth: Depth, visit: &mut Visit) {
    let unread = shapes::register(UNSTATED, NONE, 0, 0);
    for offset in 0..=65535 {
        for operation in CONDITIONAL.into_iter().chain(LOOPS) {
            conditional(operation, offset, depth, &mut |jump, target| {
                visit(record(operation, 1, shapes::immediate(UNSTATED, jump, target, 0), unread), offset)
            });
        }
        for operation in [op::CALL, op::JMP] {
            near(offset, depth, &mut |jump, target| {
                visit(record(operation, 1, shapes::immediate(UNSTATED, jump, target, 4660), unread), offset)
            });
        }
    }
}

fn conditional(operation: u8, offset: u16, depth: Depth, target: &mut dyn FnMut(u8, i32)) {
    let next = offset as i32 + 2;
    let turn = offset as usize + operation as usize;
    let jump = [NONE, SHORT][turn % 2];
    for distance in [-129, -128, 127, 128] {
        target(jump, next + distance);
    }
    // A distance that is not wrapped tells these from the ones above.
    let wrapped = [next - 65536, next + 65536, next - 65536 + 127, next + 65536 - 128];
    let others = [0, 65535, 65536, -1, i32::MIN, i32::MAX, i32::MIN + next, i32::MIN + next - 1];
    if depth == Depth::Full {
        for distance in [-127, -2, -1, 0, 1, 126] {
            target(jump, next + distance);
        }
        for at in wrapped {
            target(jump, at);
        }
        target([FAR, NEAR][turn % 2], next);
        target(jump, others[turn % 8]);
    } else if turn % 3 == 0 {
        target(jump, wrapped[turn % 4]);
    }
}

fn near(offset: u16, depth: Depth, target: &mut dyn FnMut(u8, i32)) {
    let next = offset as i32 + 3;
    let turn = offset as usize;
    let around = [next, next - 1, next + 1, next % 65536, 0, 1, 32767, 32768, 65534, 65535, -1, 65536];
    let taken = if depth == Depth::Full { around.len() } else { 4 };
    for i in 0..taken {
        target([NONE, NEAR][(turn + i) % 2], around[(turn + i) % around.len()]);
    }
    let others = [i32::MIN, i32::MAX, offset as i32, (next + 32768) % 65536, (next + 32767) % 65536, -32768, 131072, 256];
    target([NONE, FAR, NEAR, SHORT][turn / 8 % 4], others[turn % 8]);
}

/// The forms that 000 leaves open, on and around their limits: RET with every shape at every count, TEST with every register and memory
/// beside every register and the limits of an immediate, JMP of kind Short at all 65,536 offsets. PUSH, POP and CALL meet every shape above.
/// Apart from the others, as the sample is drawn from those: 000 has no answers here.
pub fn left_open(depth: Depth, visit: &mut Visit) {
    let all = shapes::all();
    let unread = shapes::register(UNSTATED, NONE, 0, 0);
    for shape in &all {
        for count in 0..3 {
            visit(record(op::RET, count, *shape, unread), OFFSETS[count as usize]);
        }
    }

    let sized = |of: &dyn Fn(u8) -> Vec<Operand>| shapes::SIZES.into_iter().flat_map(of).collect::<Vec<_>>();
    let registers = sized(&|size| (0..8).map(|rm| shapes::register(size, NONE, rm, 5)).collect());
    let immediates = sized(&|size| LIMITS.iter().map(|imm| shapes::immediate(size, NONE, *imm, 0)).collect());
    let memory: Vec<Operand> = all.iter().filter(|shape| shape.kind == MEM && shape.jump == NONE).copied().collect();
    let mut test = |firsts: &[Operand], seconds: &[Operand]| {
        for first in firsts {
            for second in seconds {
                visit(record(op::TEST, 2, *first, *second), 0);
            }
        }
    };
    test(&registers, &registers);
    test(&registers, &memory);
    test(&memory, &registers);
    test(&registers, &immediates);
    test(&memory, &immediates);

    // The distances are those of Jcc; the kind is always Short.
    for offset in 0..=65535 {
        conditional(op::JMP, offset, depth, &mut |_, target| {
            visit(record(op::JMP, 1, shapes::immediate(UNSTATED, SHORT, target, 4660), unread), offset)
        });
    }
}
