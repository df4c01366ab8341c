//! The Rust of docs/src on the same records: the 56 bytes read into its own data, then its `encode` into a slice.

use super::bindings::*;
use super::records::{self, Packed};
use crate::encoder::{encode, ByteEmitter, InstructionData, JumpKind, OperandData, OperandKind, OperandSize};
use crate::operations::Operation;

macro_rules! table {
    ($($name:ident)*) => { const OPERATIONS: [Operation; 99] = [$(Operation::$name),*]; };
}
records::operations!(table);

/// A lent slice, filled from its front. It panics past its end: the Rust has no refusal for it.
struct Slice<'a> {
    bytes: &'a mut [u8],
    len: usize,
}

impl ByteEmitter for Slice<'_> {
    #[inline]
    fn emit(&mut self, byte: u8) {
        self.bytes[self.len] = byte;
        self.len += 1;
    }
}

/// The length of the instruction's bytes, which stand at the front of out.
#[inline]
pub fn encode_alone(instruction: &InstructionData, offset: u16, out: &mut [u8]) -> Option<usize> {
    let mut slice = Slice { bytes: out, len: 0 };
    encode(instruction, offset, &mut slice).ok()?;
    Some(slice.len)
}

/// The same from the record's bytes: the work that our function does, without the question whether the record is well formed.
#[inline]
pub fn encode_record(record: &Packed, offset: u16, out: &mut [u8]) -> Option<usize> {
    encode_alone(&instruction(record)?, offset, out)
}

/// The record's instruction; nothing where a code is unknown.
#[inline]
pub fn instruction(record: &Packed) -> Option<InstructionData> {
    Some(InstructionData {
        operation: *OPERATIONS.get(record[FSQ_OPERATION_AT] as usize)?,
        num_opers: record[FSQ_COUNT_AT],
        opers: [operand(operand_bytes(record, FSQ_FIRST_AT))?, operand(operand_bytes(record, FSQ_SECOND_AT))?],
        opers_span: u32_at(record, FSQ_SPAN_START_AT) as usize..u32_at(record, FSQ_SPAN_END_AT) as usize,
    })
}

#[inline]
fn operand_bytes(record: &Packed, at: usize) -> &[u8; FSQ_OPERAND_LENGTH] {
    record[at..at + FSQ_OPERAND_LENGTH].try_into().unwrap()
}

#[inline]
fn operand(bytes: &[u8; FSQ_OPERAND_LENGTH]) -> Option<OperandData> {
    Some(OperandData {
        span: u32_at(bytes, FSQ_OPERAND_SPAN_START_AT) as usize..u32_at(bytes, FSQ_OPERAND_SPAN_END_AT) as usize,
        size: size(bytes[FSQ_SIZE_AT])?,
        kind: match bytes[FSQ_KIND_AT] {
            records::IMM => OperandKind::Imm,
            records::REG => OperandKind::Reg,
            records::SEG => OperandKind::Seg,
            records::MEM => OperandKind::Mem,
            _ => return None,
        },
        segment_prefix: bytes[FSQ_PREFIX_AT],
        imm: u32_at(bytes, FSQ_IMMEDIATE_AT) as i32,
        displacement: u32_at(bytes, FSQ_DISPLACEMENT_AT) as i32,
        displacement_size: size(bytes[FSQ_DISPLACEMENT_SIZE_AT])?,
        jmp_kind: match bytes[FSQ_JUMP_AT] {
            records::NONE => None,
            records::FAR => Some(JumpKind::Far),
            records::NEAR => Some(JumpKind::Near),
            records::SHORT => Some(JumpKind::Short),
            _ => return None,
        },
        mode: bytes[FSQ_MODE_AT],
        rm: bytes[FSQ_RM_AT],
    })
}

#[inline]
fn size(code: u8) -> Option<OperandSize> {
    match code {
        records::UNSTATED => Some(OperandSize::Unspecified),
        records::BYTE => Some(OperandSize::Byte),
        records::WORD => Some(OperandSize::Word),
        _ => None,
    }
}

#[inline]
fn u32_at(bytes: &[u8], at: usize) -> u32 {
    u32::from_le_bytes(bytes[at..at + 4].try_into().unwrap())
}
