//! Our library behind its C functions.

use super::bindings::*;

pub type Report = [u8; FSQ_REPORT_LENGTH];
pub type Reading = [u8; FSQ_READING_LENGTH];

fn length(report: &Report) -> usize {
    u32::from_le_bytes(report[FSQ_REPORT_LENGTH_AT..][..4].try_into().unwrap()) as usize
}

/// The length of the record's bytes, which stand at the front of out; nothing where it is refused.
#[inline]
pub fn encode(record: &[u8], offset: u16, out: &mut [u8], report: &mut Report) -> Option<usize> {
    let number = unsafe { fsq_encode(record.as_ptr(), record.len(), offset, out.as_mut_ptr(), out.len(), report.as_mut_ptr(), report.len()) };
    (number == FSQ_DONE).then(|| length(report))
}

#[cfg(plain)]
extern "C" {
    fn fsq_plain(rec: *const u8, rec_len: usize, offset: u16, out: *mut u8, out_len: usize, report: *mut u8, report_len: usize) -> u8;
}

/// The same by the plain encoder alone.
#[cfg(plain)]
#[inline]
pub fn plain(record: &[u8], offset: u16, out: &mut [u8], report: &mut Report) -> Option<usize> {
    let number = unsafe { fsq_plain(record.as_ptr(), record.len(), offset, out.as_mut_ptr(), out.len(), report.as_mut_ptr(), report.len()) };
    (number == FSQ_DONE).then(|| length(report))
}

/// The same of the shortest string.
#[inline]
pub fn shortest(record: &[u8], offset: u16, out: &mut [u8], report: &mut Report) -> Option<usize> {
    let number = unsafe { fsq_shortest(record.as_ptr(), record.len(), offset, out.as_mut_ptr(), out.len(), report.as_mut_ptr(), report.len()) };
    (number == FSQ_DONE).then(|| length(report))
}

/// The number of entries of 8 bytes in out.
#[inline]
pub fn list(record: &[u8], offset: u16, out: &mut [u8], report: &mut Report) -> Option<usize> {
    let number = unsafe { fsq_list(record.as_ptr(), record.len(), offset, out.as_mut_ptr(), out.len(), report.as_mut_ptr(), report.len()) };
    (number == FSQ_DONE).then(|| length(report))
}

/// The length of the form's or question's line at the front of out.
#[inline]
pub fn form(record: &[u8; FSQ_RECORD_LENGTH], offset: u16, out: &mut [u8], report: &mut Report) -> Option<usize> {
    let number = unsafe { fsq_form(record.as_ptr(), record.len(), offset, out.as_mut_ptr(), out.len(), report.as_mut_ptr(), report.len()) };
    (number == FSQ_DONE).then(|| length(report))
}

/// The length of the instruction at the front of the bytes.
#[inline]
pub fn read(bytes: &[u8], offset: u16, out: &mut Reading) -> Option<usize> {
    let number = unsafe { fsq_read(bytes.as_ptr(), bytes.len(), offset, out.as_mut_ptr(), out.len()) };
    (number == FSQ_DONE).then(|| out[FSQ_READ_LENGTH_AT] as usize)
}

/// The length of the file's image, which stands at the front of image.
#[inline]
pub fn load(file: &[u8], image: &mut [u8], report: &mut Report) -> Option<usize> {
    let number = unsafe { fsq_load(file.as_ptr(), file.len(), image.as_mut_ptr(), image.len(), report.as_mut_ptr(), report.len()) };
    (number == FSQ_DONE).then(|| length(report))
}

/// The length of the image of cues, which stands at the front of image.
#[inline]
pub fn cue(cues: &[u8], image: &mut [u8], report: &mut Report) -> Option<usize> {
    let number = unsafe { fsq_cue(cues.as_ptr(), cues.len(), image.as_mut_ptr(), image.len(), report.as_mut_ptr(), report.len()) };
    (number == FSQ_DONE).then(|| length(report))
}

/// The length of the image of a show whose near targets are right.
#[inline]
pub fn check(file: &[u8], report: &mut Report) -> Option<usize> {
    let number = unsafe { fsq_check(file.as_ptr(), file.len(), report.as_mut_ptr(), report.len()) };
    (number == FSQ_DONE).then(|| length(report))
}

/// The length of the converted file, which stands at the front of out.
#[inline]
pub fn convert(file: &[u8], out: &mut [u8], report: &mut Report) -> Option<usize> {
    let number = unsafe { fsq_convert(file.as_ptr(), file.len(), out.as_mut_ptr(), out.len(), report.as_mut_ptr(), report.len()) };
    (number == FSQ_DONE).then(|| length(report))
}

/// The value of a sum.
#[inline]
pub fn evaluate(text: &[u8], report: &mut Report) -> Option<i32> {
    let number = unsafe { fsq_evaluate(text.as_ptr(), text.len(), report.as_mut_ptr(), report.len()) };
    (number == FSQ_DONE).then(|| i32::from_le_bytes(report[FSQ_REPORT_VALUE_AT..][..4].try_into().unwrap()))
}

/// The instructions that a run carries out, or 0 where it is refused; the pairs stand at the front of the log.
#[inline]
pub fn run(image: &[u8], budget: u32, log: &mut [u8]) -> u64 {
    let mut result = [0; FSQ_RUN_RESULT_LENGTH];
    unsafe { fsq_run(image.as_ptr(), image.len(), budget, log.as_mut_ptr(), log.len(), result.as_mut_ptr(), result.len()) };
    u64::from_le_bytes(result[FSQ_RUN_COUNT_AT..][..8].try_into().unwrap())
}
