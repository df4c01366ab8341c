//! The C functions of library/include/fsq.h, behind safe ones.
//!
//! Every slice that crosses is a Rust slice, so its address is not null and it is valid for its length; `&mut` slices overlap with no other. The
//! functions write nothing outside of them, and only what a call's contract says.

use crate::bindings::{
    fsq_check, fsq_convert, fsq_cue, fsq_encode, fsq_evaluate, fsq_form, fsq_list, fsq_load, fsq_read, fsq_run, fsq_shortest, FSQ_DONE,
    FSQ_FORM_LENGTH, FSQ_HEADER_LENGTH, FSQ_INVALID_REPEAT, FSQ_NO_RECORD, FSQ_NO_RECORD_AT_TARGET, FSQ_READING_LENGTH, FSQ_REPORT_HIGH_AT,
    FSQ_REPORT_LENGTH, FSQ_REPORT_LENGTH_AT, FSQ_REPORT_LOW_AT, FSQ_REPORT_RECORD_AT, FSQ_REPORT_SPAN_END_AT, FSQ_REPORT_SPAN_START_AT,
    FSQ_REPORT_VALUE_AT, FSQ_RUN_COUNT_AT, FSQ_RUN_LOG_LENGTH_AT, FSQ_RUN_RESULT_LENGTH, FSQ_SLICE_TOO_SHORT, FSQ_STRING_LENGTH,
};
use crate::refusal::{question_of, Found, Reason, Refusal};
use crate::show::record_length;

type Report = [u8; FSQ_REPORT_LENGTH];

/// The number of bytes at the front of out.
pub fn encode(record: &[u8], offset: u16, out: &mut [u8]) -> Result<usize, Refusal> {
    let mut report = [0; FSQ_REPORT_LENGTH];
    // SAFETY: live slices, of which the two that are written overlap with nothing.
    let number =
        unsafe { fsq_encode(record.as_ptr(), record.len(), offset, out.as_mut_ptr(), out.len(), report.as_mut_ptr(), report.len()) };
    answered(number, &report, |refusal| of_record(refusal, record))
}

/// The number of bytes at the front of out, those of the shortest string.
pub fn shortest(record: &[u8], offset: u16, out: &mut [u8]) -> Result<usize, Refusal> {
    let mut report = [0; FSQ_REPORT_LENGTH];
    // SAFETY: as in encode.
    let number =
        unsafe { fsq_shortest(record.as_ptr(), record.len(), offset, out.as_mut_ptr(), out.len(), report.as_mut_ptr(), report.len()) };
    answered(number, &report, |refusal| of_record(refusal, record))
}

/// The number of entries at the front of out.
pub fn list(record: &[u8], offset: u16, out: &mut [u8]) -> Result<usize, Refusal> {
    let mut report = [0; FSQ_REPORT_LENGTH];
    // SAFETY: as in encode.
    let number = unsafe { fsq_list(record.as_ptr(), record.len(), offset, out.as_mut_ptr(), out.len(), report.as_mut_ptr(), report.len()) };
    answered(number, &report, |refusal| of_record(refusal, record))
}

/// The length of the form's line at the front of out, without its line feed.
pub fn form(record: &[u8], offset: u16, out: &mut [u8; FSQ_FORM_LENGTH]) -> Result<u8, Refusal> {
    let mut report = [0; FSQ_REPORT_LENGTH];
    // SAFETY: as in encode.
    let number = unsafe { fsq_form(record.as_ptr(), record.len(), offset, out.as_mut_ptr(), out.len(), report.as_mut_ptr(), report.len()) };
    let length = answered(number, &report, |refusal| of_record(refusal, record))? - 1;
    match out[..length].strip_prefix(b"question ") {
        Some(question) => Err(refused_by(question, record, offset)),
        None => Ok(length as u8),
    }
}

/// The refusal of a record that a question refuses: span and values are the encoder's.
#[cold]
fn refused_by(question: &[u8], record: &[u8], offset: u16) -> Refusal {
    let refusal = encode(record, offset, &mut [0; FSQ_STRING_LENGTH]).expect_err("a record with a question is refused");
    Refusal { question: question.first().map(|digit| digit - b'0'), ..refusal }
}

/// The read instruction.
pub fn read(bytes: &[u8], offset: u16) -> Result<[u8; FSQ_READING_LENGTH], Refusal> {
    let mut out = [0; FSQ_READING_LENGTH];
    // SAFETY: live slices, of which the one that is written overlaps with nothing.
    let number = unsafe { fsq_read(bytes.as_ptr(), bytes.len(), offset, out.as_mut_ptr(), out.len()) };
    match number {
        FSQ_DONE => Ok(out),
        _ => Err(alone(number)),
    }
}

/// A refusal that has its number and nothing besides.
#[cold]
fn alone(number: u8) -> Refusal {
    Refusal { reason: Reason::of(number, 0, 0, 0), span: None, record: None, found: None, question: None }
}

/// The number of bytes at the front of the image.
pub fn load(file: &[u8], image: &mut [u8]) -> Result<usize, Refusal> {
    let mut report = [0; FSQ_REPORT_LENGTH];
    // SAFETY: as in encode.
    let number = unsafe { fsq_load(file.as_ptr(), file.len(), image.as_mut_ptr(), image.len(), report.as_mut_ptr(), report.len()) };
    answered(number, &report, |refusal| {
        let record = record_of(&refusal, file);
        Refusal { found: Found::in_file(number, record, file), question: record.and_then(|record| question_of(number, record)), ..refusal }
    })
}

/// The number of bytes of the image of a show whose near targets are right.
pub fn check(file: &[u8]) -> Result<usize, Refusal> {
    let mut report = [0; FSQ_REPORT_LENGTH];
    // SAFETY: as in read.
    let number = unsafe { fsq_check(file.as_ptr(), file.len(), report.as_mut_ptr(), report.len()) };
    answered(number, &report, |refusal| {
        let record = record_of(&refusal, file);
        let found = match number {
            FSQ_NO_RECORD_AT_TARGET => Some(Found::Target {
                target: field(&report, FSQ_REPORT_VALUE_AT) as u16,
                inside: Some(field(&report, FSQ_REPORT_LENGTH_AT)).filter(|&record| record != FSQ_NO_RECORD),
            }),
            _ => Found::in_file(number, record, file),
        };
        Refusal { found, question: record.and_then(|record| question_of(number, record)), ..refusal }
    })
}

/// The record that a refusal names, where the file has it.
#[cold]
fn record_of<'a>(refusal: &Refusal, file: &'a [u8]) -> Option<&'a [u8]> {
    let at = |record: usize| FSQ_HEADER_LENGTH + record_length(file) * record;
    refusal.record.and_then(|record| file.get(at(record as usize)..at(record as usize + 1)))
}

/// The number of bytes of the converted file at the front of out. Refusal 9 is no record's, and has no span.
pub fn convert(file: &[u8], out: &mut [u8]) -> Result<usize, Refusal> {
    let mut report = [0; FSQ_REPORT_LENGTH];
    // SAFETY: as in encode.
    let number = unsafe { fsq_convert(file.as_ptr(), file.len(), out.as_mut_ptr(), out.len(), report.as_mut_ptr(), report.len()) };
    answered(number, &report, |refusal| {
        if number == FSQ_SLICE_TOO_SHORT {
            return Refusal { span: None, ..refusal };
        }
        // Of the loader's refusals, 5 and 6, the record is the converted file's: their question needs none.
        let record = record_of(&refusal, file);
        Refusal { found: Found::in_converted(number, record, file), question: question_of(number, record.unwrap_or_default()), ..refusal }
    })
}

/// The value of a sum.
pub fn evaluate(text: &[u8]) -> Result<i32, Refusal> {
    let mut report = [0; FSQ_REPORT_LENGTH];
    // SAFETY: as in read.
    let number = unsafe { fsq_evaluate(text.as_ptr(), text.len(), report.as_mut_ptr(), report.len()) };
    match number {
        FSQ_DONE => Ok(field(&report, FSQ_REPORT_VALUE_AT) as i32),
        _ => Err(refused(number, &report)),
    }
}

/// The number of bytes at the front of the image of cues. A refusal has no span, also 9.
pub fn compile(cues: &[u8], image: &mut [u8]) -> Result<usize, Refusal> {
    let mut report = [0; FSQ_REPORT_LENGTH];
    // SAFETY: as in encode.
    let number = unsafe { fsq_cue(cues.as_ptr(), cues.len(), image.as_mut_ptr(), image.len(), report.as_mut_ptr(), report.len()) };
    answered(number, &report, |refusal| Refusal { span: None, ..refusal })
}

/// The instructions carried out, and the number of bytes at the front of the log.
pub fn run(image: &[u8], budget: u32, log: &mut [u8]) -> Result<(u64, usize), Refusal> {
    let mut result = [0; FSQ_RUN_RESULT_LENGTH];
    // SAFETY: as in encode.
    let number = unsafe { fsq_run(image.as_ptr(), image.len(), budget, log.as_mut_ptr(), log.len(), result.as_mut_ptr(), result.len()) };
    let field = |at: usize| result[at..at + 8].iter().rev().fold(0, |n, &byte| n << 8 | u64::from(byte));
    match number {
        FSQ_DONE => Ok((field(FSQ_RUN_COUNT_AT), field(FSQ_RUN_LOG_LENGTH_AT) as usize)),
        _ => Err(alone(number)),
    }
}

fn field(report: &Report, at: usize) -> u32 {
    u32::from_le_bytes([report[at], report[at + 1], report[at + 2], report[at + 3]])
}

/// The length, or the refusal with what its input says of it.
#[inline]
fn answered(number: u8, report: &Report, with_input: impl Fn(Refusal) -> Refusal) -> Result<usize, Refusal> {
    if number == FSQ_DONE {
        return Ok(field(report, FSQ_REPORT_LENGTH_AT) as usize);
    }
    Err(with_input(refused(number, report)))
}

/// The refusal with what its record says of it.
#[cold]
fn of_record(refusal: Refusal, record: &[u8]) -> Refusal {
    let number = refusal.number();
    Refusal { found: Found::in_record(number, record), question: question_of(number, record), ..refusal }
}

#[cold]
fn refused(number: u8, report: &Report) -> Refusal {
    let field = |at: usize| field(report, at);
    let signed = |at: usize| field(at) as i32;
    Refusal {
        reason: Reason::of(number, signed(FSQ_REPORT_VALUE_AT), signed(FSQ_REPORT_LOW_AT), signed(FSQ_REPORT_HIGH_AT)),
        span: (number <= FSQ_SLICE_TOO_SHORT || number == FSQ_INVALID_REPEAT)
            .then(|| field(FSQ_REPORT_SPAN_START_AT)..field(FSQ_REPORT_SPAN_END_AT)),
        record: Some(field(FSQ_REPORT_RECORD_AT)).filter(|&record| record != FSQ_NO_RECORD),
        found: None,
        question: None,
    }
}
