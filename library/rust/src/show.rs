//! Show files.

use crate::bindings::{
    FSQ_HEADER_COUNT_AT, FSQ_HEADER_LENGTH, FSQ_HEADER_ORIGIN_AT, FSQ_HEADER_VERSION_AT, FSQ_READ_LENGTH_AT, FSQ_READ_REPEAT_AT,
    FSQ_RECORD_LENGTH, FSQ_REPEAT_RECORD_LENGTH, FSQ_REPEAT_VERSION,
};
use crate::instruction::repeat_in;
use crate::library;
use crate::refusal::Refusal;
use core::fmt;
use core::iter::FusedIterator;
use core::slice::ChunksExact;

#[cfg(feature = "alloc")]
use {
    crate::bindings::{FSQ_FILE_VERSION, FSQ_LONG_VERSION, FSQ_REPEAT_NONE, FSQ_SHORT_RECORDS, FSQ_STRING_LENGTH},
    crate::instruction::Instruction,
    alloc::{borrow::Cow, vec, vec::Vec},
};

#[cfg(feature = "alloc")]
type Image<'a> = Cow<'a, [u8]>;
#[cfg(not(feature = "alloc"))]
type Image<'a> = &'a [u8];

/// The bytes of each record in a file: those of its version, where it has one.
pub(crate) fn record_length(file: &[u8]) -> usize {
    match file.get(FSQ_HEADER_VERSION_AT..FSQ_HEADER_VERSION_AT + 2) {
        Some(version) if version == FSQ_REPEAT_VERSION.to_le_bytes() => FSQ_REPEAT_RECORD_LENGTH,
        _ => FSQ_RECORD_LENGTH,
    }
}

/// The show file of some instructions, from an origin on: of version 3 where one of them has a repeat, else of version 1 up to 1,000 of them and of
/// version 2 above. More than 8,000 make a file that is refused with 14.
///
/// ```
/// use fsq::{show_file, Instruction, Operation, Repeat};
///
/// // REFERENCE 8: the mark, version 1, origin 256, one record of 56 bytes.
/// let file = show_file(256, &[Instruction::none(Operation::AAM)]);
/// assert_eq!(file[..9], *b"FSQ\x01\x00\x00\x01\x01\x00");
/// assert_eq!(file.len(), 9 + 56);
///
/// // With a repeat version 3, and all records of 57 bytes.
/// let file = show_file(256, &[Instruction::none(Operation::AAM), Instruction::none(Operation::MOVSB).repeated(Repeat::Rep)]);
/// assert_eq!(file[..9], *b"FSQ\x03\x00\x00\x01\x02\x00");
/// assert_eq!(file.len(), 9 + 2 * 57);
/// ```
#[cfg(feature = "alloc")]
pub fn show_file(origin: u16, instructions: &[Instruction]) -> Vec<u8> {
    let count = u16::try_from(instructions.len()).unwrap_or(u16::MAX);
    let repeats = instructions.iter().any(|instruction| instruction.repeat != FSQ_REPEAT_NONE);
    let version = match repeats {
        true => FSQ_REPEAT_VERSION,
        false if count <= FSQ_SHORT_RECORDS => FSQ_FILE_VERSION,
        false => FSQ_LONG_VERSION,
    };
    let mut file = b"FSQ".to_vec();
    file.extend(version.to_le_bytes());
    file.extend(origin.to_le_bytes());
    file.extend(count.to_le_bytes());
    for instruction in instructions {
        match repeats {
            true => file.extend(instruction.to_repeat_record()),
            false => file.extend(instruction.to_record()),
        }
    }
    file
}

/// Loads a show file: the bytes of its records, one after the other from its origin on.
///
/// ```
/// use fsq::{load, show_file, Base, Instruction, Operand, Operation, Register};
///
/// // Document 01, 'Show file': MOV AX,4660; AAM; LOOP 256 at origin 256.
/// let mut show = vec![
///     Instruction::two(Operation::MOV, Register::AX, 4660),
///     Instruction::none(Operation::AAM),
///     Instruction::one(Operation::LOOP, 256),
/// ];
/// assert_eq!(load(&show_file(256, &show))?, [0xB8, 0x34, 0x12, 0xD4, 0x0A, 0xE2, 0xF9]);
///
/// // Its bench sheet: MOV byte [BX],300 is 5.
/// show.push(Instruction::two(Operation::MOV, Operand::memory(Base::BX, 0).byte(), 300));
/// let refusal = load(&show_file(256, &show)).unwrap_err();
/// assert_eq!(refusal.to_string(), "refusal 5 of record 3 (question 6): value 300 is outside -128..255");
/// # Ok::<(), fsq::Refusal>(())
/// ```
#[cfg(feature = "alloc")]
pub fn load(file: &[u8]) -> Result<Vec<u8>, Refusal> {
    // A record's string has at most seven bytes, and none of a file's records is shorter than 56.
    let mut image = vec![0; file.len() / FSQ_RECORD_LENGTH * FSQ_STRING_LENGTH];
    let length = library::load(file, &mut image)?;
    image.truncate(length);
    Ok(image)
}

/// A show file that is loaded, with its image. It prints as `fsqlist` does: a line of version, origin and count, and a line for each record; one of
/// more than 1,000 records too, which `fsqlist` refuses.
///
/// ```
/// # #[cfg(feature = "alloc")] {
/// use fsq::{show_file, Instruction, Operation, Register, Show};
///
/// // Document 01, 'Show file'; the text is REFERENCE 9's.
/// let file = show_file(
///     256,
///     &[
///         Instruction::two(Operation::MOV, Register::AX, 4660),
///         Instruction::none(Operation::AAM),
///         Instruction::one(Operation::LOOP, 256),
///     ],
/// );
/// let show = Show::load(&file)?;
/// assert_eq!((show.version(), show.origin(), show.len()), (1, 256, 3));
/// let offsets: Vec<u16> = show.records().map(|record| record.offset).collect();
/// assert_eq!(offsets, [0x0100, 0x0103, 0x0105]);
/// assert_eq!(show.to_string(), "FSQ 1 0100 3\n0100 3 B83412\n0103 2 D40A\n0105 2 E2F9\n");
/// # }
/// # Ok::<(), fsq::Refusal>(())
/// ```
#[derive(Clone, Debug, PartialEq, Eq, Hash)]
pub struct Show<'a> {
    file: &'a [u8],
    image: Image<'a>,
}

impl<'a> Show<'a> {
    /// Loads a show file.
    #[cfg(feature = "alloc")]
    pub fn load(file: &'a [u8]) -> Result<Show<'a>, Refusal> {
        Ok(Show { file, image: load(file)?.into() })
    }

    /// Loads a show file into a lent slice; 7 bytes a record take its image, and 56,000 every one. A shorter slice is refused with 9 where the image
    /// is longer. Nothing is allocated, and a refusal changes no byte of the slice.
    ///
    /// ```
    /// use fsq::{Instruction, Operation, Reason, Show};
    ///
    /// // REFERENCE 8: a header of version 1, origin 0 and count 1. Document 01's bench sheet: AAM is D4 0A.
    /// let mut file = [0; 9 + 56];
    /// file[..9].copy_from_slice(b"FSQ\x01\x00\x00\x00\x01\x00");
    /// file[9..].copy_from_slice(&Instruction::none(Operation::AAM).to_record());
    /// let mut image = [0; 7];
    /// assert_eq!(Show::load_into(&file, &mut image)?.image(), [0xD4, 0x0A]);
    /// assert_eq!(Show::load_into(&file, &mut [0]).unwrap_err().reason, Reason::SliceTooShort);
    /// # Ok::<(), fsq::Refusal>(())
    /// ```
    pub fn load_into(file: &'a [u8], image: &'a mut [u8]) -> Result<Show<'a>, Refusal> {
        let length = library::load(file, image)?;
        let image: &'a [u8] = &image[..length];
        #[allow(clippy::useless_conversion)] // without `alloc`
        Ok(Show { file, image: image.into() })
    }

    fn field(&self, at: usize) -> u16 {
        u16::from_le_bytes([self.file[at], self.file[at + 1]])
    }

    /// Its version: 1, 2 of more than 1,000 records, or 3 of records with a repeat.
    pub fn version(&self) -> u16 {
        self.field(FSQ_HEADER_VERSION_AT)
    }

    /// The offset of its first record.
    pub fn origin(&self) -> u16 {
        self.field(FSQ_HEADER_ORIGIN_AT)
    }

    /// The number of its records, 0 to 8,000.
    pub fn len(&self) -> usize {
        self.field(FSQ_HEADER_COUNT_AT).into()
    }

    /// Whether it has no record.
    pub fn is_empty(&self) -> bool {
        self.len() == 0
    }

    /// The bytes of its records, one after the other.
    #[allow(clippy::needless_borrow)] // without `alloc`
    pub fn image(&self) -> &[u8] {
        &self.image
    }

    /// Its records in order. None is encoded a second time: the image is cut by the reader, to which the bytes of an accepted record read whole; of REP
    /// and REPNE by themselves it is known that they have one byte, as the reader takes a string operation behind them for theirs.
    pub fn records(&self) -> Records<'_> {
        Records {
            records: self.file[FSQ_HEADER_LENGTH..].chunks_exact(record_length(self.file)),
            image: self.image(),
            offset: self.origin(),
        }
    }
}

impl<'a> IntoIterator for &'a Show<'_> {
    type Item = Record<'a>;
    type IntoIter = Records<'a>;

    fn into_iter(self) -> Records<'a> {
        self.records()
    }
}

impl fmt::Display for Show<'_> {
    fn fmt(&self, f: &mut fmt::Formatter<'_>) -> fmt::Result {
        writeln!(f, "FSQ {} {:04X} {}", self.version(), self.origin(), self.len())?;
        for record in self {
            write!(f, "{:04X} {} ", record.offset, record.bytes.len())?;
            for byte in record.bytes {
                write!(f, "{byte:02X}")?;
            }
            writeln!(f)?;
        }
        Ok(())
    }
}

/// A record of a loaded show file.
#[derive(Clone, Copy, Debug, PartialEq, Eq, Hash)]
#[non_exhaustive]
pub struct Record<'a> {
    /// where its bytes stand in the segment
    pub offset: u16,
    /// the record, which [`Instruction::from_record`](crate::Instruction::from_record) takes
    pub record: &'a [u8],
    /// its bytes in the image
    pub bytes: &'a [u8],
}

/// The records of a loaded show file, in order.
#[derive(Clone, Debug)]
pub struct Records<'a> {
    records: ChunksExact<'a, u8>,
    image: &'a [u8],
    offset: u16,
}

impl<'a> Iterator for Records<'a> {
    type Item = Record<'a>;

    fn next(&mut self) -> Option<Record<'a>> {
        let record = self.records.next()?;
        let offset = self.offset;
        let read = library::read(self.image, offset).expect("the bytes of an accepted record read");
        // A repeat that is not the record's belongs to REP or REPNE before a string operation.
        let length = if read[FSQ_READ_REPEAT_AT] == repeat_in(record) { read[FSQ_READ_LENGTH_AT] } else { 1 };
        let (bytes, image) = self.image.split_at(length.into());
        self.image = image;
        self.offset = offset.wrapping_add(length.into());
        Some(Record { offset, record, bytes })
    }

    fn size_hint(&self) -> (usize, Option<usize>) {
        self.records.size_hint()
    }
}

impl ExactSizeIterator for Records<'_> {}

impl FusedIterator for Records<'_> {}

/// Checks that every near target of a show file, those of Jcc, the loops, CALL and JMP, is the start of a record or the end of the show, and answers the
/// length of its image. Where this passes, every near branch in the image lands on the first byte of a record's part of it, or on its end: proved.
///
/// Refused are what the loader refuses, and with 25 the first record whose target is neither; [`Found`](crate::Found) has the target and the record that
/// it falls into.
///
/// ```
/// # #[cfg(feature = "alloc")] {
/// use fsq::{check, show_file, Found, Instruction, Reason};
///
/// let show = |target: i32| {
///     let parse = |text: &str| text.parse::<Instruction>().unwrap();
///     show_file(256, &[parse("MOV CX,10"), parse("NOP"), parse(&format!("LOOP {target}"))])
/// };
/// assert_eq!(check(&show(259))?, 6);
/// assert_eq!(check(&show(262))?, 6);
/// let refusal = check(&show(258)).unwrap_err();
/// assert_eq!((refusal.reason, refusal.record), (Reason::NoRecordAtTarget, Some(2)));
/// assert_eq!(refusal.found, Some(Found::Target { target: 258, inside: Some(0) }));
/// assert_eq!(refusal.to_string(), "refusal 25 of record 2: the target 258 is inside record 0, behind its start");
/// # }
/// # Ok::<(), fsq::Refusal>(())
/// ```
pub fn check(file: &[u8]) -> Result<usize, Refusal> {
    library::check(file)
}

/// The origin and the records of a show file, also of one that is refused for a record; [`Instruction::from_record`](crate::Instruction::from_record)
/// and [`encode_record`](crate::encode_record) take each. A file that is refused as a whole, with 12 to 14, has none.
///
/// ```
/// # #[cfg(feature = "alloc")] {
/// use fsq::{records, show_file, Instruction, Operation, Reason};
///
/// // Document 01's bench sheet: JE at 0 to 130 is refused.
/// let file = show_file(0, &[Instruction::one(Operation::JE, 130), Instruction::none(Operation::AAM)]);
/// let (origin, records) = records(&file)?;
/// assert_eq!((origin, records.len()), (0, 2));
/// assert_eq!(fsq::records(b"FSQ").unwrap_err().reason, Reason::WrongLength);
/// # }
/// # Ok::<(), fsq::Refusal>(())
/// ```
pub fn records(file: &[u8]) -> Result<(u16, ChunksExact<'_, u8>), Refusal> {
    match library::load(file, &mut []) {
        Err(refusal) if refusal.record.is_none() => Err(refusal),
        _ => {
            let origin = u16::from_le_bytes([file[FSQ_HEADER_ORIGIN_AT], file[FSQ_HEADER_ORIGIN_AT + 1]]);
            Ok((origin, file[FSQ_HEADER_LENGTH..].chunks_exact(record_length(file))))
        }
    }
}
