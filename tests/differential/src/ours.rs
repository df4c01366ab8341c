//! Our encoder behind its one C function, lent a slice that is fenced on both sides.

use super::answers::{self, Answer, Refusal};
use super::bindings::*;
use super::records::{mix, Packed};
// In the place of the library's.
#[cfg(standin)]
use super::standin::fsq_encode;

// In its place the plain encoder by itself.
#[cfg(plain)]
use self::fsq_plain as fsq_encode;
#[cfg(plain)]
extern "C" {
    fn fsq_plain(rec: *const u8, rec_len: usize, offset: u16, out: *mut u8, out_len: usize, report: *mut u8, report_len: usize) -> u8;
}

/// The longest slice that is lent. One byte more than the longest run.
pub const LONGEST: usize = FSQ_STRING_LENGTH + 1;

const FENCE: usize = 8;
const LENT: usize = FENCE + LONGEST + FENCE;

/// What our side answers with a slice of this length, or what it did that no answer allows.
/// `seed` varies the bytes that the slice holds before, so that a byte written over itself does not stay hidden.
pub fn ask(record: &Packed, offset: u16, slice: usize, seed: u64) -> Result<Answer, String> {
    let mut before = [0; LENT];
    for (i, part) in before.chunks_mut(8).enumerate() {
        part.copy_from_slice(&mix(seed.wrapping_mul(4) + i as u64).to_le_bytes());
    }
    let mut lent = before;
    let mut report = [0xA5; FSQ_REPORT_LENGTH + FENCE];
    let number = unsafe {
        fsq_encode(
            record.as_ptr(),
            record.len(),
            offset,
            lent[FENCE..].as_mut_ptr(),
            slice,
            report.as_mut_ptr(),
            FSQ_REPORT_LENGTH,
        )
    };
    if report[FSQ_REPORT_LENGTH..] != [0xA5; FENCE] {
        return Err("wrote behind the report".to_string());
    }
    let field = |at: usize| u32::from_le_bytes(report[at..at + 4].try_into().unwrap());
    let len = field(FSQ_REPORT_LENGTH_AT) as usize;
    let told = Refusal {
        number,
        span: (field(FSQ_REPORT_SPAN_START_AT), field(FSQ_REPORT_SPAN_END_AT)),
        value: field(FSQ_REPORT_VALUE_AT) as i32,
        low: field(FSQ_REPORT_LOW_AT) as i32,
        high: field(FSQ_REPORT_HIGH_AT) as i32,
    };

    // One record is asked, and no file.
    if field(FSQ_REPORT_RECORD_AT) != FSQ_NO_RECORD {
        return Err(format!("named the record {}", field(FSQ_REPORT_RECORD_AT)));
    }
    if number != FSQ_DONE {
        if lent != before {
            return Err(format!("refused {number} and changed a lent byte"));
        }
        if len != 0 {
            return Err(format!("refused {number} with a length of {len}"));
        }
        return Ok(Answer::Refused(told));
    }
    if told != (Refusal { number: FSQ_DONE, span: (0, 0), value: 0, low: 0, high: 0 }) {
        return Err("accepted with a span or a value".to_string());
    }
    if len == 0 || len > FSQ_STRING_LENGTH || len > slice {
        return Err(format!("accepted with a length of {len} in a slice of {slice}"));
    }
    if lent[..FENCE] != before[..FENCE] || lent[FENCE + len..] != before[FENCE + len..] {
        return Err(format!("changed a byte outside its run of {len}"));
    }
    Ok(answers::bytes(&lent[FENCE..FENCE + len]))
}
