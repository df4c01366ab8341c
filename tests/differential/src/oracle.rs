//! The Rust `encode` of docs/src, asked as it stands.

use super::answers::{self, Answer};
use super::bindings::*;
use super::records::{self, Operand, Record};
use crate::encoder::{
    encode, ByteEmitter, EncodeError, InstructionData, JumpKind, OperandData, OperandKind, OperandSize,
};
use crate::operations::Operation;
use std::panic::{self, AssertUnwindSafe};
use std::sync::atomic::{AtomicBool, Ordering::Relaxed};

macro_rules! table {
    ($($name:ident)*) => { const OPERATIONS: [Operation; 99] = [$(Operation::$name),*]; };
}
records::operations!(table);

/// Its answer, with what a caller of the Rust could see beside it.
pub struct Oracle {
    pub answer: Answer,
    /// bytes handed to the emitter, also where it then failed
    pub emitted: usize,
    /// it ended in `todo!`, which stands as 7 with the instruction's span
    pub panicked: bool,
}

struct Emitted {
    bytes: [u8; 16],
    len: usize,
}

impl ByteEmitter for Emitted {
    fn emit(&mut self, byte: u8) {
        self.bytes[self.len] = byte;
        self.len += 1;
    }
}

static ASKING: AtomicBool = AtomicBool::new(false);

/// Keeps the `todo!`s silent, and only those; and checks that our numbers are 002's.
pub fn prepare() {
    for (number, operation) in OPERATIONS.iter().enumerate() {
        assert_eq!(*operation as usize, number, "{operation:?} has another number in 002");
    }
    let loud = panic::take_hook();
    panic::set_hook(Box::new(move |info| {
        if !ASKING.load(Relaxed) {
            loud(info)
        }
    }));
}

pub fn ask(record: &Record, offset: u16) -> Oracle {
    let insn = instruction(record);
    let mut emitted = Emitted { bytes: [0; 16], len: 0 };
    ASKING.store(true, Relaxed);
    let result = panic::catch_unwind(AssertUnwindSafe(|| encode(&insn, offset, &mut emitted)));
    ASKING.store(false, Relaxed);

    let panicked = result.is_err();
    let answer = match result {
        Ok(Ok(())) => answers::bytes(&emitted.bytes[..emitted.len]),
        Ok(Err(error)) => refusal(error),
        Err(payload) => {
            assert!(is_todo(&*payload), "000 panics, and not by todo!: {}", records::hex(&record.pack()));
            answers::refused(FSQ_NOT_SUPPORTED, record.span)
        }
    };
    Oracle { answer, emitted: emitted.len, panicked }
}

fn is_todo(payload: &dyn std::any::Any) -> bool {
    let text = match (payload.downcast_ref::<&str>(), payload.downcast_ref::<String>()) {
        (Some(text), _) => text,
        (_, Some(text)) => text.as_str(),
        _ => "",
    };
    text.starts_with("not yet implemented")
}

fn refusal(error: EncodeError) -> Answer {
    let span = (error.span().start as u32, error.span().end as u32);
    match error {
        EncodeError::InvalidOperands(_) => answers::refused(FSQ_INVALID_OPERANDS, span),
        EncodeError::OperandSizeNotSpecified(_) => answers::refused(FSQ_OPERAND_SIZE_NOT_SPECIFIED, span),
        EncodeError::OperandSizesDoNotMatch(_) => answers::refused(FSQ_OPERAND_SIZES_DO_NOT_MATCH, span),
        EncodeError::InvalidOperandSize(_) => answers::refused(FSQ_INVALID_OPERAND_SIZE, span),
        EncodeError::ImmediateOutOfRange(_, value, low, high) => answers::out_of_range(span, value, low, high),
        EncodeError::RelativeJumpOutOfRange(_, _, _, distance) => answers::too_far(span, distance),
    }
}

fn instruction(record: &Record) -> InstructionData {
    InstructionData {
        operation: OPERATIONS[record.operation as usize],
        num_opers: record.count,
        opers: [operand(&record.operands[0]), operand(&record.operands[1])],
        opers_span: record.span.0 as usize..record.span.1 as usize,
    }
}

fn operand(operand: &Operand) -> OperandData {
    OperandData {
        span: operand.span.0 as usize..operand.span.1 as usize,
        size: size(operand.size),
        kind: match operand.kind {
            records::IMM => OperandKind::Imm,
            records::REG => OperandKind::Reg,
            records::SEG => OperandKind::Seg,
            _ => OperandKind::Mem,
        },
        segment_prefix: operand.prefix,
        imm: operand.imm,
        displacement: operand.displacement,
        displacement_size: size(operand.displacement_size),
        jmp_kind: match operand.jump {
            records::NONE => None,
            records::FAR => Some(JumpKind::Far),
            records::NEAR => Some(JumpKind::Near),
            _ => Some(JumpKind::Short),
        },
        mode: operand.mode,
        rm: operand.rm,
    }
}

fn size(code: u8) -> OperandSize {
    match code {
        records::UNSTATED => OperandSize::Unspecified,
        records::BYTE => OperandSize::Byte,
        _ => OperandSize::Word,
    }
}
