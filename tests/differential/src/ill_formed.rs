//! Records that the Rust has no name for, or that its builders never make: counts over 2, operands that are not well formed,
//! unknown codes. Mutants that stay well formed are handed on all the same; the comparison asks the oracle about those.

use super::generate::{record, Visit};
use super::random::Random;
use super::records::{self, op, Operand, Record};
use super::shapes;

pub fn records(visit: &mut Visit) {
    let few = shapes::representative();
    for (i, first) in few.iter().enumerate() {
        let second = few[(i * 7 + 3) % few.len()];
        let base = record(OPERATIONS[i % OPERATIONS.len()], (i % 3) as u8, *first, second);
        for at in 0..2 {
            one_field(&base, at, visit);
        }
    }
    for count in 3..=255 {
        for operation in OPERATIONS {
            visit(record(operation, count, few[count as usize % few.len()], few[7]), 0);
        }
    }
    unknown_codes(&few, visit);
    several_fields(&few, visit);
}

/// Groups of each sort, INT1 and NOP among them: question 1 is asked of all, and before question 2.
const OPERATIONS: [u8; 13] = [
    op::MOV, op::ADD, op::NOP, op::INT1, op::RET, op::JE, op::CALL, op::PUSH, op::IN, op::SHL, op::AAM, op::LEA, op::JMP,
];

/// Each field of one operand through all its values.
fn one_field(base: &Record, at: usize, visit: &mut Visit) {
    let mut each = |change: &dyn Fn(&mut Operand)| {
        let mut mutant = *base;
        change(&mut mutant.operands[at]);
        visit(mutant, 0x100);
    };
    for value in 0..=255 {
        each(&|o| o.prefix = value);
        each(&|o| o.mode = value);
        each(&|o| o.rm = value);
    }
    for value in 0..4 {
        each(&|o| o.kind = value);
    }
    for size in 0..3 {
        each(&|o| o.size = size);
        for displacement in [i32::MIN, -32769, -32768, -129, -128, -1, 0, 1, 127, 128, 65535, 65536, i32::MAX] {
            each(&|o| {
                o.displacement_size = size;
                o.displacement = displacement;
            });
        }
    }
}

fn unknown_codes(few: &[Operand], visit: &mut Visit) {
    for operation in records::OPERATIONS..=255 {
        visit(record(operation, operation % 4, few[operation as usize % few.len()], few[1]), 0);
    }
    for code in 3..=255 {
        for at in 0..2 {
            let base = record(OPERATIONS[code as usize % OPERATIONS.len()], code % 4, few[code as usize % few.len()], few[5]);
            let mut each = |change: &dyn Fn(&mut Operand)| {
                let mut mutant = base;
                change(&mut mutant.operands[at]);
                visit(mutant, 0);
            };
            each(&|o| o.kind = code);
            each(&|o| o.size = code);
            each(&|o| o.displacement_size = code);
            each(&|o| o.jump = code);
        }
    }
}

/// Two and three fields at once, in both operands and the count: which refusal comes first?
fn several_fields(few: &[Operand], visit: &mut Visit) {
    let mut random = Random::new(8086);
    for _ in 0..200_000 {
        let mut mutant = record(random.of(&OPERATIONS), random.below(3) as u8, random.of(few), random.of(few));
        for _ in 0..2 + random.below(2) {
            let values = random.of(&[9, 9, 9, 256]);
            let value = random.below(values) as u8;
            let operand = &mut mutant.operands[random.below(2) as usize];
            match random.below(10) {
                0 => mutant.count = value,
                1 => operand.kind = value,
                2 => operand.size = value,
                3 => operand.prefix = value,
                4 => operand.displacement_size = value,
                5 => operand.jump = value,
                6 => operand.mode = value,
                7 => operand.rm = value,
                _ => operand.displacement = random.next() as i32,
            }
        }
        visit(mutant, random.next() as u16);
    }
}
