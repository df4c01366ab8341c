//! The records that the assembler is asked: of those that the differential run generates, so many of each form that the encoder accepts.

use crate::answers::{Answer, Run};
use crate::forms::{self, form_of};
use crate::generate::{self, Depth, Visit};
use crate::groups::ARITHMETIC;
use crate::ours;
use crate::random;
use crate::records::{mix, op, Record, BYTE, NONE, SHORT, UNSTATED, WORD};
use crate::shapes;
use std::collections::BTreeMap;

const SEED: u64 = 0x0086_3013_CB28_B600;

pub struct Accepted {
    pub record: Record,
    pub offset: u16,
    pub run: Run,
}

/// So many of each operation and form, drawn evenly from all that are generated.
pub fn sample(of_each: usize, random: u64) -> Vec<Accepted> {
    let mut kept: BTreeMap<(u8, forms::Form), (u64, Vec<Accepted>)> = BTreeMap::new();
    let mut n = 0;
    let mut visit = |record: Record, offset: u16| {
        n += 1;
        let Ok(Answer::Bytes(run)) = ours::ask(&record.pack(), offset, ours::LONGEST, n) else { return };
        let (seen, records) = kept.entry((record.operation, form_of(&run))).or_default();
        *seen += 1;
        if records.len() < of_each {
            records.push(Accepted { record, offset, run });
        } else {
            let place = mix(n ^ SEED) % *seen;
            if place < of_each as u64 {
                records[place as usize] = Accepted { record, offset, run };
            }
        }
    };
    generate::systematic(Depth::Short, &mut visit);
    branches(&mut visit);
    no_1(&mut visit);
    no_2(&mut visit);
    no_4(&mut visit);
    random::records(random, SEED, &mut visit);
    kept.into_values().flat_map(|(_, records)| records).collect()
}

/// Every 13th offset of the branches' records: enough for each of them.
fn branches(visit: &mut Visit) {
    generate::branches(Depth::Short, &mut |record, offset| {
        if offset % 13 == 0 || offset > 65520 {
            visit(record, offset)
        }
    });
}

/// What the differential run has few of: JMP around the limits of EB's distance and at every distance between, RET with many counts, TEST of the
/// accumulator with many immediates. Without a kind the encoder writes E9, and for plain text NASM has to change from EB to E9 where our lists do.
fn no_1(visit: &mut Visit) {
    let unread = shapes::register(UNSTATED, NONE, 0, 0);
    let immediate = |kind: u8, value: i32| shapes::immediate(UNSTATED, kind, value, 0);
    for (turn, offset) in (0..=65535u16).step_by(13).enumerate() {
        let mut jump = |kind: u8, distance: i32| {
            visit(generate::record(op::JMP, 1, immediate(kind, offset as i32 + 2 + distance), unread), offset)
        };
        for distance in [-129, -128, 127, 128] {
            jump(SHORT, distance);
            if turn % 4 == 0 {
                jump(NONE, distance);
            }
        }
        for part in 0..4 {
            jump(SHORT, ((turn + 64 * part) % 256) as i32 - 128);
        }
    }
    for value in (-3..=65539).step_by(3) {
        visit(generate::record(op::RET, 1, immediate(NONE, value), unread), 0);
        visit(generate::record(op::TEST, 2, shapes::register(WORD, NONE, 0, 0), immediate(NONE, value)), 0);
    }
    for value in -3..=259 {
        visit(generate::record(op::TEST, 2, shapes::register(BYTE, NONE, 0, 0), immediate(NONE, value)), 0);
    }
}

/// Every value that 83 takes, and those beside them, of a register and of memory, by each of its eight operations.
fn no_2(visit: &mut Visit) {
    for operation in ARITHMETIC {
        for value in -130..=129 {
            for first in [shapes::register(WORD, NONE, 3, 0), shapes::memory(WORD, NONE, 0, 1, 6, -2, 0)] {
                visit(generate::record(operation, 2, first, shapes::immediate(UNSTATED, NONE, value, 0)), 0);
            }
        }
    }
}

/// Data immediates around their limits and around 83's, by every operation that has one, of the accumulator, another register and memory.
fn no_4(visit: &mut Visit) {
    let around = [-32769, -32768, -32767, -256, -255, -130, -129, -128, -127, -2, -1, 0, 127, 128, 254, 255, 256, 32767, 32768, 65534, 65535, 65536];
    for operation in ARITHMETIC.into_iter().chain([op::MOV, op::TEST]) {
        for size in [BYTE, WORD] {
            for first in [shapes::register(size, NONE, 0, 0), shapes::register(size, NONE, 3, 0), shapes::memory(size, NONE, 0, 1, 6, -2, 0)] {
                for value in around {
                    visit(generate::record(operation, 2, first, shapes::immediate(UNSTATED, NONE, value, 0)), 0);
                }
            }
        }
    }
}
