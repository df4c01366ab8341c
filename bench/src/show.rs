//! The show that is measured: its file, its records and their offsets.

use super::answers::{self, Run};
use super::bindings::*;
use super::groups;
use super::records::{self, op::*, Packed, FAR, IMM};
use super::rust;
use crate::encoder::InstructionData;

pub struct Show {
    pub file: Vec<u8>,
    pub records: Vec<Packed>,
    pub offsets: Vec<u16>,
    /// the records in the Rust's own data
    pub instructions: Vec<InstructionData>,
    /// the bytes of each record, by the Rust
    pub strings: Vec<Run>,
    pub repeated: Repeated,
}

/// String operations with a repeat, in a file of version 3 (document 02, No. 11), as many as the show has records. The Rust has no repeat: the bytes are the SDM's.
#[derive(Clone, Default)]
pub struct Repeated {
    pub file: Vec<u8>,
    pub records: Vec<[u8; FSQ_REPEAT_RECORD_LENGTH]>,
    pub strings: Vec<Run>,
}

const STRING_OPERATIONS: [(u8, u8); 10] = [
    (MOVSB, 0xA4), (MOVSW, 0xA5), (CMPSB, 0xA6), (CMPSW, 0xA7), (STOSB, 0xAA), (STOSW, 0xAB), (LODSB, 0xAC), (LODSW, 0xAD), (SCASB, 0xAE), (SCASW, 0xAF),
];

impl Repeated {
    fn of(origin: u16, count: usize) -> Repeated {
        let mut repeated = Repeated::default();
        repeated.file.extend(b"FSQ");
        [FSQ_REPEAT_VERSION, origin, count as u16].iter().for_each(|field| repeated.file.extend(field.to_le_bytes()));
        for n in 0..count {
            let (operation, opcode) = STRING_OPERATIONS[n % 10];
            let repeat = [FSQ_REPEAT_REPNE, FSQ_REPEAT_REP][n / 10 % 2];
            let mut record = [0; FSQ_REPEAT_RECORD_LENGTH];
            record[FSQ_OPERATION_AT] = operation;
            record[FSQ_REPEAT_AT] = repeat;
            repeated.file.extend(record);
            repeated.records.push(record);
            repeated.strings.push(answers::run(&[repeat, opcode]));
        }
        repeated
    }
}

impl Show {
    pub fn read(path: &str) -> Result<Show, String> {
        let file = std::fs::read(path).map_err(|e| format!("{path}: {e}"))?;
        let head = |at: usize| u16::from_le_bytes([file[at], file[at + 1]]);
        if file.len() < FSQ_HEADER_LENGTH
            || !file.starts_with(b"FSQ")
            || head(FSQ_HEADER_VERSION_AT) != FSQ_FILE_VERSION
            || file.len() != FSQ_HEADER_LENGTH + FSQ_RECORD_LENGTH * head(FSQ_HEADER_COUNT_AT) as usize
        {
            return Err(format!("{path} is no show file"));
        }
        let mut offset = head(FSQ_HEADER_ORIGIN_AT);
        let mut show = Show { records: Vec::new(), offsets: Vec::new(), instructions: Vec::new(), strings: Vec::new(), repeated: Repeated::default(), file };
        for (n, record) in show.file[FSQ_HEADER_LENGTH..].chunks(FSQ_RECORD_LENGTH).enumerate() {
            let record: Packed = record.try_into().unwrap();
            let mut out = [0; 8];
            let length = rust::encode_record(&record, offset, &mut out).ok_or(format!("record {n}: the Rust refuses it"))?;
            show.records.push(record);
            show.offsets.push(offset);
            show.strings.push(answers::run(&out[..length]));
            offset = offset.wrapping_add(length as u16);
        }
        show.instructions = show.records.iter().filter_map(rust::instruction).collect();
        show.repeated = Repeated::of(show.origin(), show.records.len());
        show.branches_land()?;
        Ok(show)
    }

    pub fn origin(&self) -> u16 {
        u16::from_le_bytes([self.file[FSQ_HEADER_ORIGIN_AT], self.file[FSQ_HEADER_ORIGIN_AT + 1]])
    }

    /// Every near branch goes to the start of a record: the lengths that make.py counts with are the right ones.
    fn branches_land(&self) -> Result<(), String> {
        for (n, target) in self.records.iter().enumerate().filter_map(|(n, record)| Some((n, near_target(record)?))) {
            if !self.offsets.iter().any(|start| *start as i32 == target) {
                return Err(format!("record {n}: its target {target} is not the start of a record"));
            }
        }
        Ok(())
    }

    /// The Rust's bytes as fsqlist prints them: what a machine without the Rust compares with (records.txt).
    pub fn print_listing(&self) {
        println!("FSQ {FSQ_FILE_VERSION} {:04X} {}", self.origin(), self.records.len());
        for (offset, string) in self.offsets.iter().zip(&self.strings) {
            println!("{offset:04X} {} {}", string.len, records::hex(&string.bytes[..string.len]));
        }
    }

    /// The records so many times over, one time behind the other in one file, whose version is its count's. Near branches move with their records, so that every
    /// record keeps its bytes.
    pub fn times(&self, n: usize) -> Result<Show, String> {
        let length: usize = self.strings.iter().map(|string| string.len).sum();
        let mut records = Vec::new();
        let mut offsets = Vec::new();
        for behind in (0..n).map(|time| time * length) {
            records.extend(self.records.iter().map(|record| moved(record, behind as i32)));
            offsets.extend(self.offsets.iter().map(|offset| offset.wrapping_add(behind as u16)));
        }
        let count = records.len() as u16;
        let version = if count <= FSQ_SHORT_RECORDS { FSQ_FILE_VERSION } else { FSQ_LONG_VERSION };
        let mut file = b"FSQ".to_vec();
        [version, self.origin(), count].iter().for_each(|field| file.extend(field.to_le_bytes()));
        records.iter().for_each(|record| file.extend(record));
        let instructions = records.iter().filter_map(rust::instruction).collect();
        let show = Show { file, instructions, records, offsets, strings: self.strings.repeat(n), repeated: Repeated::of(self.origin(), n * self.records.len()) };
        show.branches_land()?;
        Ok(show)
    }
}

/// Where a near branch goes.
fn near_target(record: &Packed) -> Option<i32> {
    let first = &record[FSQ_FIRST_AT..];
    let is_near = groups::is_branch(record[FSQ_OPERATION_AT]) && first[FSQ_KIND_AT] == IMM && first[FSQ_JUMP_AT] != FAR;
    is_near.then(|| i32::from_le_bytes(first[FSQ_IMMEDIATE_AT..][..4].try_into().unwrap()))
}

/// A record so many bytes further behind, with its near target.
fn moved(record: &Packed, behind: i32) -> Packed {
    let mut moved = *record;
    if let Some(target) = near_target(record) {
        moved[FSQ_FIRST_AT + FSQ_IMMEDIATE_AT..][..4].copy_from_slice(&(target + behind).to_le_bytes());
    }
    moved
}
