//! Listing.

use crate::bindings::{FSQ_ENTRY_LENGTH, FSQ_LIST_LENGTH, FSQ_MOST_ENTRIES};
use crate::encoding::Bytes;
use crate::instruction::Instruction;
use crate::library;
use crate::refusal::Refusal;
use core::array;
use core::fmt;
use core::iter::Take;
use core::ops::Deref;
use core::slice;

const MOST_ENTRIES: usize = FSQ_MOST_ENTRIES as usize;

/// All byte strings of an instruction, 1 to 12: shorter first, equal lengths by their first differing byte. It is a slice of them, and prints one a line.
#[derive(Clone, Copy, Debug, PartialEq, Eq, Hash)]
pub struct List {
    count: usize,
    strings: [Bytes; MOST_ENTRIES],
}

impl Deref for List {
    type Target = [Bytes];

    fn deref(&self) -> &[Bytes] {
        &self.strings[..self.count]
    }
}

impl AsRef<[Bytes]> for List {
    fn as_ref(&self) -> &[Bytes] {
        self
    }
}

impl IntoIterator for List {
    type Item = Bytes;
    type IntoIter = Take<array::IntoIter<Bytes, MOST_ENTRIES>>;

    fn into_iter(self) -> Self::IntoIter {
        self.strings.into_iter().take(self.count)
    }
}

impl<'a> IntoIterator for &'a List {
    type Item = &'a Bytes;
    type IntoIter = slice::Iter<'a, Bytes>;

    fn into_iter(self) -> Self::IntoIter {
        self.iter()
    }
}

impl fmt::Display for List {
    fn fmt(&self, f: &mut fmt::Formatter<'_>) -> fmt::Result {
        for string in self.iter() {
            writeln!(f, "{string}")?;
        }
        Ok(())
    }
}

/// Lists all byte strings that are, at an offset, the same instruction: none missing, and none beside them.
///
/// ```
/// use fsq::{list, Instruction, Operation, Register};
///
/// // Document 01's bench sheet: ADD AX,5.
/// let strings = list(&Instruction::two(Operation::ADD, Register::AX, 5), 0)?;
/// assert_eq!(strings.to_string(), "05 05 00\n83 C0 05\n81 C0 05 00\n");
/// # Ok::<(), fsq::Refusal>(())
/// ```
pub fn list(instruction: &Instruction, offset: u16) -> Result<List, Refusal> {
    list_record(&instruction.to_record(), offset)
}

/// Lists the byte strings of a record of a show file; any 56 or 57 bytes are safe. It is refused where [`encode_record`](crate::encode_record) refuses it.
///
/// ```
/// use fsq::{list_record, Instruction, Operation, Register};
///
/// // Document 01's bench sheet: XCHG CX,CX lists only 87 C9.
/// let record = Instruction::two(Operation::XCHG, Register::CX, Register::CX).to_record();
/// let strings = list_record(&record, 0)?;
/// assert_eq!(strings.len(), 1);
/// assert_eq!(strings[0], [0x87, 0xC9]);
/// # Ok::<(), fsq::Refusal>(())
/// ```
pub fn list_record(record: &[u8], offset: u16) -> Result<List, Refusal> {
    let mut out = [0; FSQ_LIST_LENGTH];
    let count = library::list(record, offset, &mut out)?;
    let mut strings = [Bytes::default(); MOST_ENTRIES];
    for (string, entry) in strings.iter_mut().zip(out.chunks_exact(FSQ_ENTRY_LENGTH)).take(count) {
        let (length, bytes) = (entry[0], entry[1..].try_into().expect("an entry is a length and a string"));
        *string = Bytes::new(length, bytes);
    }
    Ok(List { count, strings })
}
