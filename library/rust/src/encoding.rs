//! Encoding.

use crate::bindings::FSQ_STRING_LENGTH;
use crate::instruction::Instruction;
use crate::library;
use crate::refusal::Refusal;
use core::array;
use core::fmt;
use core::iter::Take;
use core::ops::Deref;
use core::slice;

/// The bytes of one instruction, 1 to 7. It is a slice of them, and prints as `83 07 05`.
///
/// ```
/// use fsq::{encode, Instruction, Operation};
///
/// // Document 01's bench sheet: AAM is D4 0A.
/// let bytes = encode(&Instruction::none(Operation::AAM), 0)?;
/// assert_eq!(bytes, [0xD4, 0x0A]);
/// assert_eq!(&bytes[1..], [0x0A]);
/// assert_eq!(bytes.into_iter().map(u32::from).sum::<u32>(), 0xDE);
/// # Ok::<(), fsq::Refusal>(())
/// ```
#[derive(Clone, Copy, Default, PartialEq, Eq, Hash)]
pub struct Bytes {
    length: u8,
    bytes: [u8; FSQ_STRING_LENGTH],
}

impl Bytes {
    /// So many of these bytes; the others are zeros.
    pub(crate) fn new(length: u8, bytes: [u8; FSQ_STRING_LENGTH]) -> Bytes {
        Bytes { length, bytes }
    }
}

impl Deref for Bytes {
    type Target = [u8];

    fn deref(&self) -> &[u8] {
        &self.bytes[..self.length as usize]
    }
}

impl AsRef<[u8]> for Bytes {
    fn as_ref(&self) -> &[u8] {
        self
    }
}

impl IntoIterator for Bytes {
    type Item = u8;
    type IntoIter = Take<array::IntoIter<u8, FSQ_STRING_LENGTH>>;

    fn into_iter(self) -> Self::IntoIter {
        self.bytes.into_iter().take(self.length as usize)
    }
}

impl<'a> IntoIterator for &'a Bytes {
    type Item = &'a u8;
    type IntoIter = slice::Iter<'a, u8>;

    fn into_iter(self) -> Self::IntoIter {
        self.iter()
    }
}

/// Equality of a type with what has bytes, in both orders.
macro_rules! equal_as_slices {
    ($type:ty: $([$($parameter:tt)*] $other:ty),* $(,)?) => {$(
        impl<$($parameter)*> PartialEq<$other> for $type {
            fn eq(&self, other: &$other) -> bool {
                self[..] == other[..]
            }
        }

        impl<$($parameter)*> PartialEq<$type> for $other {
            fn eq(&self, other: &$type) -> bool {
                self[..] == other[..]
            }
        }
    )*};
    ($type:ty) => {
        equal_as_slices!($type: [] [u8], [] &[u8], [const N: usize] [u8; N], [const N: usize] &[u8; N]);

        #[cfg(feature = "alloc")]
        equal_as_slices!($type: [] alloc::vec::Vec<u8>);
    };
}

pub(crate) use equal_as_slices;

equal_as_slices!(Bytes);

impl fmt::Display for Bytes {
    fn fmt(&self, f: &mut fmt::Formatter<'_>) -> fmt::Result {
        for (n, byte) in self.iter().enumerate() {
            let space = if n == 0 { "" } else { " " };
            write!(f, "{space}{byte:02X}")?;
        }
        Ok(())
    }
}

impl fmt::Debug for Bytes {
    fn fmt(&self, f: &mut fmt::Formatter<'_>) -> fmt::Result {
        write!(f, "{self}")
    }
}

/// Encodes an instruction at an offset of its segment. The offset counts for branches alone.
///
/// ```
/// use fsq::{encode, Instruction, Operation};
///
/// // Document 01's bench sheet: JE at 256 to 130 is 74 80, and to 129 refused with 6.
/// assert_eq!(encode(&Instruction::one(Operation::JE, 130), 256)?, [0x74, 0x80]);
/// let refusal = encode(&Instruction::one(Operation::JE, 129), 256).unwrap_err();
/// assert_eq!(refusal.to_string(), "refusal 6 (question 7): the target is -129 bytes away, outside -128..127");
/// # Ok::<(), fsq::Refusal>(())
/// ```
pub fn encode(instruction: &Instruction, offset: u16) -> Result<Bytes, Refusal> {
    encode_record(&instruction.to_record(), offset)
}

/// Encodes a record of a show file at an offset: any 56 bytes are safe, or 57 with a repeat. Another length is refused with 14.
///
/// ```
/// use fsq::{encode_record, Instruction, Operation, Reason};
///
/// // Document 01's bench sheet: AAM is D4 0A.
/// let record = Instruction::none(Operation::AAM).to_record();
/// assert_eq!(encode_record(&record, 0)?, [0xD4, 0x0A]);
/// assert_eq!(encode_record(&record[1..], 0).unwrap_err().reason, Reason::WrongLength);
/// # Ok::<(), fsq::Refusal>(())
/// ```
pub fn encode_record(record: &[u8], offset: u16) -> Result<Bytes, Refusal> {
    let mut out = [0; FSQ_STRING_LENGTH];
    let length = library::encode(record, offset, &mut out)?;
    Ok(Bytes::new(length as u8, out))
}

/// Encodes an instruction at an offset by the first string of its [`list`](crate::list): none of the same instruction is shorter there, and of the same
/// length none is lower. Two instructions that are the same get the same bytes. It is refused where [`encode`] refuses it, and with the same refusal.
///
/// ```
/// use fsq::{encode, encode_shortest, Base, Instruction, Operand, Operation, Register, Segment};
///
/// // Document 02, No. 8: a prefix that names the default segment is left out.
/// let mov = Instruction::two(Operation::MOV, Register::AX, Operand::memory(Base::BX, 0).in_segment(Segment::DS));
/// assert_eq!(encode(&mov, 0)?, [0x3E, 0x8B, 0x07]);
/// assert_eq!(encode_shortest(&mov, 0)?, [0x8B, 0x07]);
/// # Ok::<(), fsq::Refusal>(())
/// ```
pub fn encode_shortest(instruction: &Instruction, offset: u16) -> Result<Bytes, Refusal> {
    encode_shortest_record(&instruction.to_record(), offset)
}

/// Encodes a record of a show file at an offset by the shortest string of its instruction; any 56 or 57 bytes are safe. It is refused where
/// [`encode_record`] refuses it.
///
/// ```
/// use fsq::{encode_shortest_record, Instruction, Operation, Reason};
///
/// // Document 02, Nos. 1 and 8: E9 and EB to one target are the same instruction.
/// let record = Instruction::one(Operation::JMP, 5).to_record();
/// assert_eq!(encode_shortest_record(&record, 0)?, [0xEB, 0x03]);
/// assert_eq!(encode_shortest_record(&record[1..], 0).unwrap_err().reason, Reason::WrongLength);
/// # Ok::<(), fsq::Refusal>(())
/// ```
pub fn encode_shortest_record(record: &[u8], offset: u16) -> Result<Bytes, Refusal> {
    let mut out = [0; FSQ_STRING_LENGTH];
    let length = library::shortest(record, offset, &mut out)?;
    Ok(Bytes::new(length as u8, out))
}
