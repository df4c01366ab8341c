//! What either encoder answers: a byte run or a numbered refusal, in a shape that compares with `==`.

use super::bindings::{FSQ_IMMEDIATE_OUT_OF_RANGE, FSQ_RELATIVE_JUMP_OUT_OF_RANGE, FSQ_STRING_LENGTH};
use std::fmt;

pub type Span = (u32, u32);

/// 1 to 7 bytes. The bytes behind `len` are zero, so that equal runs are equal values.
#[derive(Clone, Copy, PartialEq, Eq, Debug)]
pub struct Run {
    pub bytes: [u8; FSQ_STRING_LENGTH],
    pub len: usize,
}

/// A refusal of document 01. Value and limits are zero where the number gives none; for 6 `value` is the distance.
#[derive(Clone, Copy, PartialEq, Eq, Debug)]
pub struct Refusal {
    pub number: u8,
    pub span: Span,
    pub value: i32,
    pub low: i32,
    pub high: i32,
}

#[derive(Clone, Copy, PartialEq, Eq, Debug)]
pub enum Answer {
    Bytes(Run),
    Refused(Refusal),
}

pub fn run(bytes: &[u8]) -> Run {
    let mut run = Run { bytes: [0; FSQ_STRING_LENGTH], len: bytes.len() };
    run.bytes[..bytes.len()].copy_from_slice(bytes);
    run
}

pub fn bytes(bytes: &[u8]) -> Answer {
    Answer::Bytes(run(bytes))
}

pub fn refused(number: u8, span: Span) -> Answer {
    Answer::Refused(Refusal { number, span, value: 0, low: 0, high: 0 })
}

pub fn out_of_range(span: Span, value: i32, low: i32, high: i32) -> Answer {
    Answer::Refused(Refusal { number: FSQ_IMMEDIATE_OUT_OF_RANGE, span, value, low, high })
}

pub fn too_far(span: Span, distance: i32) -> Answer {
    Answer::Refused(Refusal { number: FSQ_RELATIVE_JUMP_OUT_OF_RANGE, span, value: distance, low: 0, high: 0 })
}

impl fmt::Display for Answer {
    /// The answer as it stands in the sample: `= B83412`, `! 1 3 9`, `! 5 3 9 256 0 255`, `! 6 3 9 128`.
    fn fmt(&self, f: &mut fmt::Formatter<'_>) -> fmt::Result {
        match self {
            Answer::Bytes(run) => {
                write!(f, "= ")?;
                run.bytes[..run.len].iter().try_for_each(|b| write!(f, "{b:02X}"))
            }
            Answer::Refused(r) => {
                write!(f, "! {} {} {}", r.number, r.span.0, r.span.1)?;
                match r.number {
                    FSQ_IMMEDIATE_OUT_OF_RANGE => write!(f, " {} {} {}", r.value, r.low, r.high),
                    FSQ_RELATIVE_JUMP_OUT_OF_RANGE => write!(f, " {}", r.value),
                    _ => Ok(()),
                }
            }
        }
    }
}
