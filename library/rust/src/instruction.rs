//! The instruction, and its record in a show file.

use crate::bindings::{
    FSQ_COUNT_AT, FSQ_FIRST_AT, FSQ_OPERAND_LENGTH, FSQ_OPERATION_AT, FSQ_RECORD_LENGTH, FSQ_REPEAT_AT, FSQ_REPEAT_NONE,
    FSQ_REPEAT_RECORD_LENGTH, FSQ_REPEAT_REP, FSQ_REPEAT_REPNE, FSQ_SECOND_AT, FSQ_SPAN_END_AT, FSQ_SPAN_START_AT,
};
use crate::encoding::equal_as_slices;
use crate::operand::{Operand, Span};
use crate::operation::Operation;
use crate::refusal::{Found, Reason, Refusal};
use core::array;
use core::fmt;
use core::iter::Take;
use core::ops::{Deref, DerefMut};

/// The length of a record of a show file of version 1 or 2, which has no repeat.
pub const RECORD_LENGTH: usize = FSQ_RECORD_LENGTH;

/// The length of a record with a repeat: of a show file of version 3.
pub const REPEAT_RECORD_LENGTH: usize = FSQ_REPEAT_RECORD_LENGTH;

/// What is written before a string operation, MOVSB to STOSW.
///
/// ```
/// use fsq::{encode, Instruction, Operation, Repeat};
///
/// // The SDM: REP MOVSB is F3 A4, REPNE SCASB F2 AE. REPE is REP's byte.
/// assert_eq!(encode(&Instruction::none(Operation::MOVSB).repeated(Repeat::Rep), 0)?, [0xF3, 0xA4]);
/// assert_eq!(encode(&Instruction::none(Operation::SCASB).repeated(Repeat::Repne), 0)?, [0xF2, 0xAE]);
/// # Ok::<(), fsq::Refusal>(())
/// ```
#[allow(missing_docs)]
#[derive(Clone, Copy, Debug, PartialEq, Eq, Hash)]
#[repr(u8)]
pub enum Repeat {
    Repne = FSQ_REPEAT_REPNE,
    Rep = FSQ_REPEAT_REP,
}

impl Repeat {
    /// The byte that is written, F2 or F3.
    pub fn byte(self) -> u8 {
        self as u8
    }

    /// The repeat of a record's or a reading's byte; nothing for 0, and for what no repeat is.
    pub(crate) fn of(byte: u8) -> Option<Repeat> {
        match byte {
            FSQ_REPEAT_REPNE => Some(Repeat::Repne),
            FSQ_REPEAT_REP => Some(Repeat::Rep),
            _ => None,
        }
    }

    /// The name, which is also that of the operation of the same byte.
    pub(crate) fn name(self) -> &'static str {
        match self {
            Repeat::Repne => Operation::REPNE.name(),
            Repeat::Rep => Operation::REP.name(),
        }
    }
}

/// How much further the fields behind the repeat stand in a record of this length.
pub(crate) fn further(record: &[u8]) -> usize {
    usize::from(record.len() == REPEAT_RECORD_LENGTH)
}

/// The byte of a record's repeat, 0 in one of 56 bytes.
pub(crate) fn repeat_in(record: &[u8]) -> u8 {
    if further(record) == 0 {
        FSQ_REPEAT_NONE
    } else {
        record[FSQ_REPEAT_AT]
    }
}

/// The bytes of a record: 56, or 57 where it has a repeat. It is a slice of them, which may be changed.
#[derive(Clone, Copy, PartialEq, Eq, Hash)]
pub struct RecordBytes {
    length: u8,
    bytes: [u8; REPEAT_RECORD_LENGTH],
}

impl Deref for RecordBytes {
    type Target = [u8];

    fn deref(&self) -> &[u8] {
        &self.bytes[..self.length as usize]
    }
}

impl DerefMut for RecordBytes {
    fn deref_mut(&mut self) -> &mut [u8] {
        &mut self.bytes[..self.length as usize]
    }
}

impl AsRef<[u8]> for RecordBytes {
    fn as_ref(&self) -> &[u8] {
        self
    }
}

impl IntoIterator for RecordBytes {
    type Item = u8;
    type IntoIter = Take<array::IntoIter<u8, REPEAT_RECORD_LENGTH>>;

    fn into_iter(self) -> Self::IntoIter {
        self.bytes.into_iter().take(self.length as usize)
    }
}

impl fmt::Debug for RecordBytes {
    fn fmt(&self, f: &mut fmt::Formatter<'_>) -> fmt::Result {
        fmt::Debug::fmt(&self[..], f)
    }
}

equal_as_slices!(RecordBytes);

/// An operation with its operands, and before a string operation a repeat.
///
/// ```
/// use fsq::{Instruction, Operation, Register, Repeat};
///
/// let ret = Instruction::none(Operation::RET);
/// let push = Instruction::one(Operation::PUSH, Register::AX);
/// let mov = Instruction::two(Operation::MOV, Register::AX, 4660).at(10..21);
/// let copy = Instruction::none(Operation::MOVSB).repeated(Repeat::Rep);
/// assert_eq!(mov.to_record().len(), fsq::RECORD_LENGTH);
/// assert_eq!(copy.to_record().len(), fsq::REPEAT_RECORD_LENGTH);
/// ```
///
/// # Text
///
/// An instruction prints as NASM's 16-bit syntax has it, and is parsed from that text:
///
/// ```
/// use fsq::{Base, Instruction, Operand, Operation};
///
/// let add = Instruction::two(Operation::ADD, Operand::memory(Base::BX_SI, -2).word(), 5);
/// assert_eq!(add.to_string(), "ADD word [BX+SI-2],5");
/// assert_eq!("add word [ bx + si - 0x2 ] , 5".parse(), Ok(add));
/// ```
///
/// - Names are upper case and numbers decimal. Parsing takes either case, 0x before hexadecimal digits, blanks, and the manual's other names
///   of an operation, as JZ for JE.
/// - `byte` and `word` before an operand are the size that it states; registers state theirs by their names. `short`, `near` and `far` are the
///   jump kind, and 22136:4660 is a far target, its segment first.
/// - A segment prefix is written `ES:[4660]`; `[ES:4660]` is parsed too.
/// - XLATB's memory is a word without the text saying so, as of a [`Reading`](crate::Reading): `XLATB [BX]`. NASM's `XLATB` is parsed as that.
/// - `byte` or `word` within the brackets is the length of a displacement that another length would do for: `[word BX+0]`.
/// - A repeat stands before its operation: `REP MOVSB`, `REPNE SCASB`. REPE, REPZ and REPNZ are parsed too. `REP` alone is the operation REP.
///
/// **Parsing gives the same record back, but for the spans, wherever the text has no brace.** Spans are not in the text: parsed ones are 0..0. What
/// the syntax cannot say stands in braces, which are not parsed: an operand with its fields' names and values, as a register that states no size;
/// an operand beyond the count; a count above 2; XLATB without an operand; a repeat that is none.
///
/// Parsing asks nothing of the values: [`encode`](crate::encode) does. The text is not part of what is proved.
#[derive(Clone, Debug, PartialEq, Eq, Hash)]
pub struct Instruction {
    pub(crate) operation: Operation,
    pub(crate) count: u8,
    /// 0, the byte of a repeat, or in a record that is refused any other number
    pub(crate) repeat: u8,
    pub(crate) operands: [Operand; 2],
    pub(crate) span: Span,
}

impl Instruction {
    /// An instruction without operands.
    pub fn none(operation: Operation) -> Instruction {
        Instruction { operation, count: 0, repeat: FSQ_REPEAT_NONE, operands: [Operand::EMPTY, Operand::EMPTY], span: 0..0 }
    }

    /// An instruction with one operand.
    pub fn one(operation: Operation, first: impl Into<Operand>) -> Instruction {
        Instruction { operation, count: 1, repeat: FSQ_REPEAT_NONE, operands: [first.into(), Operand::EMPTY], span: 0..0 }
    }

    /// An instruction with two operands, in the order of the manual.
    pub fn two(operation: Operation, first: impl Into<Operand>, second: impl Into<Operand>) -> Instruction {
        Instruction { operation, count: 2, repeat: FSQ_REPEAT_NONE, operands: [first.into(), second.into()], span: 0..0 }
    }

    /// The same, with its place in the source.
    pub fn at(self, span: Span) -> Instruction {
        Instruction { span, ..self }
    }

    /// The same with a repeat, or with `None` without one. Before another operation than the ten of strings it is refused with 23.
    pub fn repeated(self, repeat: impl Into<Option<Repeat>>) -> Instruction {
        Instruction { repeat: repeat.into().map_or(FSQ_REPEAT_NONE, Repeat::byte), ..self }
    }

    /// Its operation.
    pub fn operation(&self) -> Operation {
        self.operation
    }

    /// Its operands, at most two.
    pub fn operands(&self) -> &[Operand] {
        &self.operands[..usize::from(self.count).min(2)]
    }

    /// Its repeat; nothing also for a record's that is no repeat, which is refused with 23.
    pub fn repeat(&self) -> Option<Repeat> {
        Repeat::of(self.repeat)
    }

    /// Its place in the source.
    pub fn span(&self) -> Span {
        self.span.clone()
    }

    /// The instruction of a record of a show file: 56 bytes, or 57 with a repeat. Refused are, as [`encode_record`](crate::encode_record) refuses
    /// them, another length with 14, and an unknown code with 15. Of any other record [`to_record`](Instruction::to_record) gives the same bytes back,
    /// but of 57 with the repeat 0 the 56 without it, and [`to_repeat_record`](Instruction::to_repeat_record) those of 57.
    ///
    /// ```
    /// use fsq::{Instruction, Operation, Register};
    ///
    /// let mov = Instruction::two(Operation::MOV, Register::AX, 4660).at(10..21);
    /// let mut record = mov.to_record();
    /// assert_eq!(Instruction::from_record(&record)?, mov);
    ///
    /// // REFERENCE 8: an operation's number is 0 to 98.
    /// record[0] = 99;
    /// let refusal = Instruction::from_record(&record).unwrap_err();
    /// assert_eq!(refusal.to_string(), "refusal 15: operation 99, at byte 0 of the record, is outside 0..98");
    /// # Ok::<(), fsq::Refusal>(())
    /// ```
    pub fn from_record(record: &[u8]) -> Result<Instruction, Refusal> {
        let refused = |reason, found| Err(Refusal { reason, span: None, record: None, found: Some(found), question: None });
        if !matches!(record.len(), RECORD_LENGTH | REPEAT_RECORD_LENGTH) {
            return refused(Reason::WrongLength, Found::RecordLength(record.len()));
        }
        if let Some(code) = Found::unknown_code(record) {
            return refused(Reason::UnknownCode, code);
        }
        let behind = &record[further(record)..];
        let field = |at: usize| u32::from_le_bytes([behind[at], behind[at + 1], behind[at + 2], behind[at + 3]]);
        Ok(Instruction {
            operation: Operation::ALL[record[FSQ_OPERATION_AT] as usize],
            count: record[FSQ_COUNT_AT],
            repeat: repeat_in(record),
            operands: [FSQ_FIRST_AT, FSQ_SECOND_AT].map(|at| Operand::unpack(&behind[at..at + FSQ_OPERAND_LENGTH])),
            span: field(FSQ_SPAN_START_AT)..field(FSQ_SPAN_END_AT),
        })
    }

    /// Its record: the 56 bytes of a show file of version 1 or 2, or the 57 of version 3 where it has a repeat. A file of version 3 has those of
    /// [`to_repeat_record`](Instruction::to_repeat_record) for all of its instructions.
    ///
    /// ```
    /// use fsq::{Instruction, Operation};
    ///
    /// // REFERENCE 8: AAM is operation 28; its count, span and operands are zeros.
    /// let record = Instruction::none(Operation::AAM).to_record();
    /// assert_eq!(record[0], 28);
    /// assert_eq!(record[1..], [0; 55]);
    /// ```
    pub fn to_record(&self) -> RecordBytes {
        let mut record = RecordBytes { length: RECORD_LENGTH as u8, bytes: [0; REPEAT_RECORD_LENGTH] };
        if self.repeat == FSQ_REPEAT_NONE {
            self.pack(&mut record, 0);
        } else {
            record = RecordBytes { length: REPEAT_RECORD_LENGTH as u8, bytes: self.to_repeat_record() };
        }
        record
    }

    /// Its record in a show file of version 3, whether it has a repeat or not.
    ///
    /// ```
    /// use fsq::{Instruction, Operation, Repeat};
    ///
    /// // REFERENCE 8: MOVSB is operation 48; behind the count stands the repeat; span and operands are zeros.
    /// let record = Instruction::none(Operation::MOVSB).repeated(Repeat::Rep).to_repeat_record();
    /// assert_eq!(record[..3], [48, 0, 0xF3]);
    /// assert_eq!(record[3..], [0; 54]);
    /// assert_eq!(Instruction::none(Operation::MOVSB).to_repeat_record()[..3], [48, 0, 0]);
    /// ```
    pub fn to_repeat_record(&self) -> [u8; REPEAT_RECORD_LENGTH] {
        let mut record = [0; REPEAT_RECORD_LENGTH];
        self.pack(&mut record, 1);
        record[FSQ_REPEAT_AT] = self.repeat;
        record
    }

    /// Writes all but the repeat, what stands behind it so much further.
    fn pack(&self, record: &mut [u8], further: usize) {
        record[FSQ_OPERATION_AT] = self.operation.number();
        record[FSQ_COUNT_AT] = self.count;
        let behind = &mut record[further..];
        behind[FSQ_SPAN_START_AT..FSQ_SPAN_START_AT + 4].copy_from_slice(&self.span.start.to_le_bytes());
        behind[FSQ_SPAN_END_AT..FSQ_SPAN_END_AT + 4].copy_from_slice(&self.span.end.to_le_bytes());
        for (at, operand) in [FSQ_FIRST_AT, FSQ_SECOND_AT].into_iter().zip(&self.operands) {
            behind[at..at + FSQ_OPERAND_LENGTH].copy_from_slice(&operand.pack());
        }
    }
}
