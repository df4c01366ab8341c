//! The encoder, also by the shortest string, the reader and the lister behind their C functions.

use crate::bindings::*;
use crate::meaning::{Meaning, Operand};
use crate::records::Record;

/// What our table reads at the front of the bytes.
#[derive(Clone, Copy, PartialEq, Eq, Debug)]
pub enum Read {
    Whole(usize, Meaning),
    /// 10
    Nothing,
    /// 11
    More,
}

pub fn read(bytes: &[u8], offset: u16) -> Read {
    let mut out = [0; FSQ_READING_LENGTH];
    match unsafe { fsq_read(bytes.as_ptr(), bytes.len(), offset, out.as_mut_ptr(), out.len()) } {
        FSQ_DONE => {
            let operands = [operand(&out[FSQ_READ_FIRST_AT..]), operand(&out[FSQ_READ_SECOND_AT..])];
            let meaning = Meaning { operation: out[FSQ_READ_OPERATION_AT], repeat: out[FSQ_READ_REPEAT_AT], width: out[FSQ_READ_WIDTH_AT], operands };
            Read::Whole(out[FSQ_READ_LENGTH_AT] as usize, meaning)
        }
        FSQ_NOT_AN_INSTRUCTION => Read::Nothing,
        FSQ_NOT_COMPLETE => Read::More,
        other => panic!("the reader answers {other}"),
    }
}

fn operand(field: &[u8]) -> Operand {
    let (n, segment) = (field[FSQ_READ_NUMBER_AT], field[FSQ_READ_SEGMENT_AT]);
    let u16_at = |at: usize| u16::from_le_bytes([field[at], field[at + 1]]);
    let value = u16_at(FSQ_READ_VALUE_AT);
    match field[FSQ_READ_KIND_AT] {
        FSQ_READ_NONE => Operand::None,
        FSQ_READ_REGISTER => Operand::Register(n),
        FSQ_READ_SEGMENT_REGISTER => Operand::Segment(n),
        FSQ_READ_MEMORY => Operand::Memory(n, value, segment),
        FSQ_READ_IMMEDIATE => Operand::Immediate(value),
        FSQ_READ_NEAR => Operand::Near(value),
        FSQ_READ_FAR => Operand::Far(value, u16_at(FSQ_READ_FAR_SEGMENT_AT)),
        FSQ_READ_ONE => Operand::One,
        other => panic!("the reader answers an operand of kind {other}"),
    }
}

/// The record's 57 bytes with this repeat.
pub fn with_repeat(record: &Record, repeat: u8) -> Vec<u8> {
    let mut packed = record.pack().to_vec();
    packed.insert(FSQ_REPEAT_AT, repeat);
    packed
}

/// The record's 56 bytes, or where there is a repeat its 57.
pub fn packed(record: &Record, repeat: u8) -> Vec<u8> {
    if repeat == 0 { record.pack().to_vec() } else { with_repeat(record, repeat) }
}

/// A record's bytes, or the refusal.
pub fn encode(record: &[u8], offset: u16) -> Result<Vec<u8>, u8> {
    let mut out = [0; FSQ_STRING_LENGTH];
    let mut report = [0; FSQ_REPORT_LENGTH];
    let (n, m) = (out.len(), report.len());
    match unsafe { fsq_encode(record.as_ptr(), record.len(), offset, out.as_mut_ptr(), n, report.as_mut_ptr(), m) } {
        FSQ_DONE => Ok(out[..report[FSQ_REPORT_LENGTH_AT] as usize].to_vec()),
        number => Err(number),
    }
}

/// The shortest string of a record's instruction, or the refusal.
pub fn shortest(record: &[u8], offset: u16) -> Result<Vec<u8>, u8> {
    let mut out = [0; FSQ_STRING_LENGTH];
    let mut report = [0; FSQ_REPORT_LENGTH];
    let (n, m) = (out.len(), report.len());
    match unsafe { fsq_shortest(record.as_ptr(), record.len(), offset, out.as_mut_ptr(), n, report.as_mut_ptr(), m) } {
        FSQ_DONE => Ok(out[..report[FSQ_REPORT_LENGTH_AT] as usize].to_vec()),
        number => Err(number),
    }
}

/// The strings of a record's list, or the refusal.
pub fn list(record: &[u8], offset: u16) -> Result<Vec<Vec<u8>>, u8> {
    let mut out = [0; FSQ_LIST_LENGTH];
    let mut report = [0; FSQ_REPORT_LENGTH];
    let (n, m) = (out.len(), report.len());
    let number = unsafe { fsq_list(record.as_ptr(), record.len(), offset, out.as_mut_ptr(), n, report.as_mut_ptr(), m) };
    let field = |at: usize| u32::from_le_bytes(report[at..at + 4].try_into().unwrap());
    assert_eq!(field(FSQ_REPORT_RECORD_AT), FSQ_NO_RECORD, "the lister was asked one record and names one of a file");
    match number {
        FSQ_DONE => {
            let count = field(FSQ_REPORT_LENGTH_AT) as usize;
            Ok(out.chunks(FSQ_ENTRY_LENGTH).take(count).map(|entry| entry[1..1 + entry[0] as usize].to_vec()).collect())
        }
        _ => Err(number),
    }
}
