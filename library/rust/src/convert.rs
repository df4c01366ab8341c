//! Shows from 186 modules.

use crate::library;
use crate::refusal::Refusal;

#[cfg(feature = "alloc")]
use {
    crate::bindings::FSQ_CONVERTED_LENGTH,
    alloc::{vec, vec::Vec},
};

/// Converts a show file from a 186 module, of version 1, to one that the 8086 runs: a shift or rotate by 2 to 31 becomes that many by 1, and each branch
/// goes to where its target then stands. All else is copied.
///
/// Refused are a shift count outside 1 to 31 (24), a branch to where no record stood (25), and what the loader refuses, of the file and of the converted
/// one. [`Refusal::record`] counts the records of `file`; but of a short branch that the copies make too long (6), or move over 65,535 (5), it counts
/// those of the converted file, each copy among them.
///
/// ```
/// use fsq::{convert, show_file, Instruction, Show};
///
/// // Document 02, No. 12: SHL AX,3 stood at 256 to 258 and becomes three; what it gains is before the target of JE.
/// let show: Vec<Instruction> = ["SHL AX,3", "JE 259", "HLT"].iter().map(|text| text.parse().unwrap()).collect();
/// let file = convert(&show_file(256, &show))?;
/// assert_eq!(Show::load(&file)?.to_string(), "FSQ 1 0100 5\n0100 2 D1E0\n0102 2 D1E0\n0104 2 D1E0\n0106 2 74FE\n0108 1 F4\n");
///
/// let refusal = convert(&show_file(256, &["SHL AX,40".parse().unwrap()])).unwrap_err();
/// assert_eq!(refusal.to_string(), "refusal 24 of record 0: the immediate count of a shift or rotate is outside 1..31");
/// # Ok::<(), fsq::Refusal>(())
/// ```
#[cfg(feature = "alloc")]
pub fn convert(file: &[u8]) -> Result<Vec<u8>, Refusal> {
    let mut out = vec![0; FSQ_CONVERTED_LENGTH];
    let length = library::convert(file, &mut out)?;
    out.truncate(length);
    Ok(out)
}

/// Converts a show file from a 186 module into a lent slice, and answers the length of what is written at its front; 56,009 bytes take every one. A
/// shorter slice is refused with 9 where the converted file is longer. Nothing is allocated, and a refusal changes no byte of the slice.
///
/// ```
/// use fsq::{convert_into, Reason};
///
/// // REFERENCE 8: a show without a record.
/// let file = b"FSQ\x01\x00\x00\x01\x00\x00";
/// let mut out = [0; 9];
/// assert_eq!(convert_into(file, &mut out)?, 9);
/// assert_eq!(out, *file);
/// assert_eq!(convert_into(file, &mut [0; 8]).unwrap_err().reason, Reason::SliceTooShort);
/// # Ok::<(), fsq::Refusal>(())
/// ```
pub fn convert_into(file: &[u8], out: &mut [u8]) -> Result<usize, Refusal> {
    library::convert(file, out)
}
