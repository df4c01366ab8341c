//! Random well-formed records: fixed seed, values near the limits preferred.

use super::generate::{record, Visit};
use super::groups::{looks_at_both, CONDITIONAL, LOOPS};
use super::records::{Operand, Record, NONE, OPERATIONS, PREFIXES};
use super::shapes;

/// xorshift64*
pub struct Random(u64);

impl Random {
    pub fn new(seed: u64) -> Random {
        Random(seed)
    }

    pub fn next(&mut self) -> u64 {
        self.0 ^= self.0 >> 12;
        self.0 ^= self.0 << 25;
        self.0 ^= self.0 >> 27;
        self.0.wrapping_mul(0x2545_F491_4F6C_DD1D) >> 11
    }

    pub fn below(&mut self, n: u64) -> u64 {
        self.next() % n
    }

    pub fn of<T: Copy>(&mut self, items: &[T]) -> T {
        items[self.below(items.len() as u64) as usize]
    }

    fn value(&mut self) -> i32 {
        match self.below(4) {
            0 => self.of(&shapes::IMMEDIATES),
            1 => self.below(512) as i32 - 256,
            2 => self.below(131072) as i32 - 32768,
            _ => self.next() as i32,
        }
    }

    fn operand(&mut self) -> Operand {
        let size = self.below(3) as u8;
        // most operands name no jump kind, so that most branches have a form
        let jump = if self.below(2) == 0 { NONE } else { self.below(4) as u8 };
        let rm = self.below(8) as u8;
        let imm = self.value();
        match self.below(8) {
            0..=1 => shapes::immediate(size, jump, imm, self.value()),
            2..=4 => shapes::register(size, jump, rm, imm),
            5 => shapes::segment(jump, rm % 4, imm),
            _ => {
                let mode = self.below(3) as u8;
                let displacement = match (self.below(2), mode) {
                    (0, _) => self.of(shapes::displacements(mode, rm)),
                    (_, 1) => self.below(256) as i32 - 128,
                    _ => self.below(98304) as i32 - 32768,
                };
                shapes::memory(size, jump, self.of(&PREFIXES), mode, rm, displacement, imm)
            }
        }
    }

    pub fn record(&mut self) -> (Record, u16) {
        let mut operation = self.below(OPERATIONS as u64) as u8;
        // half of the operations have one byte and no operand: ask again for some of them
        if !looks_at_both(operation) && self.below(2) == 0 {
            operation = self.below(OPERATIONS as u64) as u8;
        }
        let offset = self.next() as u16;
        let mut record = record(operation, self.below(3) as u8, self.operand(), self.operand());
        let branch = CONDITIONAL.contains(&operation) || LOOPS.contains(&operation);
        if branch && self.below(2) == 0 {
            record.operands[0].imm = offset as i32 + 2 + self.below(320) as i32 - 160;
        }
        (record, offset)
    }
}

pub fn records(count: u64, seed: u64, visit: &mut Visit) {
    let mut random = Random::new(seed);
    for _ in 0..count {
        let (record, offset) = random.record();
        visit(record, offset);
    }
}
