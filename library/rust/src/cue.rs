//! Cues, compiled to the image of a field module.

use crate::bindings::{FSQ_CUE_DELAY_AT, FSQ_CUE_LENGTH, FSQ_CUE_MASK_AT, FSQ_CUE_PORT_AT, FSQ_MOST_CUES};
use crate::library;
use crate::refusal::Refusal;

#[cfg(feature = "alloc")]
use {crate::bindings::FSQ_CUE_IMAGE_LENGTH, alloc::vec, alloc::vec::Vec};

/// A cue: switch a port to a mask after a delay.
///
/// ```
/// use fsq::Cue;
///
/// // Document 02, No. 9: delay u16 little-endian, port, mask.
/// let cue = Cue { delay: 0x1234, port: 0x61, mask: 0x80 };
/// assert_eq!(cue.to_bytes(), [0x34, 0x12, 0x61, 0x80]);
/// assert_eq!(Cue::from_bytes([0x34, 0x12, 0x61, 0x80]), cue);
/// assert_eq!(Cue::new(0x1234, 0x61, 0x80), cue);
/// ```
#[derive(Clone, Copy, Debug, PartialEq, Eq, Hash)]
pub struct Cue {
    /// how often LOOP is carried out, 1 to 65,535; 0 is refused with 20
    pub delay: u16,
    /// where the mask goes
    pub port: u8,
    /// what the port gets
    pub mask: u8,
}

impl Cue {
    /// The cue of a delay, a port and a mask.
    pub const fn new(delay: u16, port: u8, mask: u8) -> Cue {
        Cue { delay, port, mask }
    }

    /// Its four bytes.
    pub const fn to_bytes(self) -> [u8; FSQ_CUE_LENGTH] {
        let mut bytes = [0; FSQ_CUE_LENGTH];
        [bytes[FSQ_CUE_DELAY_AT], bytes[FSQ_CUE_DELAY_AT + 1]] = self.delay.to_le_bytes();
        bytes[FSQ_CUE_PORT_AT] = self.port;
        bytes[FSQ_CUE_MASK_AT] = self.mask;
        bytes
    }

    /// The cue of four bytes.
    pub const fn from_bytes(bytes: [u8; FSQ_CUE_LENGTH]) -> Cue {
        let delay = u16::from_le_bytes([bytes[FSQ_CUE_DELAY_AT], bytes[FSQ_CUE_DELAY_AT + 1]]);
        Cue { delay, port: bytes[FSQ_CUE_PORT_AT], mask: bytes[FSQ_CUE_MASK_AT] }
    }
}

/// Compiles cues to the image of a field module, from origin 0: for each `MOV CX,delay`, `LOOP` to itself, `MOV AL,mask`, `OUT port,AL`; `HLT` at the
/// end. There are 9 bytes a cue and 1.
///
/// ```
/// use fsq::{compile, Cue};
///
/// // Document 02, No. 9; NASM has these bytes.
/// let image = compile(&[Cue::new(0x1234, 0x61, 0x80)])?;
/// assert_eq!(image, [0xB9, 0x34, 0x12, 0xE2, 0xFE, 0xB0, 0x80, 0xE6, 0x61, 0xF4]);
/// assert_eq!(compile(&[])?, [0xF4]);
/// # Ok::<(), fsq::Refusal>(())
/// ```
///
/// More than 200 cues are refused with 19, then a delay of 0 with 20. A refusal has no span, and names no cue:
///
/// ```
/// use fsq::{compile, Cue, Reason};
///
/// // Document 02, No. 9.
/// assert_eq!(compile(&[Cue::new(1, 0x61, 0); 201]).unwrap_err().reason, Reason::NotACueList);
/// assert_eq!(compile(&[Cue::new(0, 0x61, 0)]).unwrap_err().to_string(), "refusal 20: a cue has a delay of 0");
/// ```
#[cfg(feature = "alloc")]
pub fn compile(cues: &[Cue]) -> Result<Vec<u8>, Refusal> {
    let mut image = vec![0; FSQ_CUE_IMAGE_LENGTH];
    let length = compile_into(cues, &mut image)?;
    image.truncate(length);
    Ok(image)
}

/// Compiles cues into a lent slice, and answers the length of the image; 1,801 bytes take every one. A shorter slice is refused with 9 where the image
/// is longer. Nothing is allocated, the bytes behind the image stay, and a refusal changes no byte of the slice.
///
/// ```
/// use fsq::{compile_into, Cue, Reason};
///
/// // Document 02, No. 9: no cues are HLT.
/// let mut image = [7; 2];
/// assert_eq!(compile_into(&[], &mut image)?, 1);
/// assert_eq!(image, [0xF4, 7]);
/// assert_eq!(compile_into(&[Cue::new(1, 2, 3)], &mut image).unwrap_err().reason, Reason::SliceTooShort);
/// # Ok::<(), fsq::Refusal>(())
/// ```
pub fn compile_into(cues: &[Cue], image: &mut [u8]) -> Result<usize, Refusal> {
    // One more than there may be, so that the library sees that there are too many.
    const MOST: usize = FSQ_MOST_CUES as usize + 1;
    let mut bytes = [0; FSQ_CUE_LENGTH * MOST];
    for (place, cue) in bytes.chunks_exact_mut(FSQ_CUE_LENGTH).zip(cues) {
        place.copy_from_slice(&cue.to_bytes());
    }
    compile_bytes(&bytes[..FSQ_CUE_LENGTH * cues.len().min(MOST)], image)
}

/// Compiles the bytes of cues, as they stand in a file, into a lent slice: as [`compile_into`]. A length that is no multiple of 4 is refused with 19.
///
/// ```
/// use fsq::{compile_bytes, Reason};
///
/// // Document 02, No. 9.
/// let mut image = [0; 10];
/// assert_eq!(compile_bytes(&[0x34, 0x12, 0x61, 0x80], &mut image)?, 10);
/// assert_eq!(image, [0xB9, 0x34, 0x12, 0xE2, 0xFE, 0xB0, 0x80, 0xE6, 0x61, 0xF4]);
/// assert_eq!(compile_bytes(&[0x34, 0x12, 0x61], &mut image).unwrap_err().reason, Reason::NotACueList);
/// # Ok::<(), fsq::Refusal>(())
/// ```
pub fn compile_bytes(cues: &[u8], image: &mut [u8]) -> Result<usize, Refusal> {
    library::compile(cues, image)
}
