//! Refusals.

use crate::bindings::*;
use crate::instruction::further;
use crate::operand::Span;
use crate::operation::Operation;
use crate::show::record_length;
use core::fmt;

/// Why something is refused, with the values that belong to the reason.
#[derive(Clone, Copy, Debug, PartialEq, Eq, Hash)]
#[non_exhaustive]
pub enum Reason {
    /// 1: no form of the operation takes these operands.
    InvalidOperands,
    /// 2: no operand states whether a byte or a word is meant.
    OperandSizeNotSpecified,
    /// 3: one operand is a byte and the other a word.
    OperandSizesDoNotMatch,
    /// 4: the operation does not take an operand of this size.
    InvalidOperandSize,
    /// 5: an immediate, address, port or segment is outside its limits.
    ImmediateOutOfRange {
        /// what is given
        value: i32,
        /// the lowest value that is taken
        low: i32,
        /// the highest
        high: i32,
    },
    /// 6: the target is too far for a short jump.
    RelativeJumpOutOfRange {
        /// from the end of the instruction to the target; -128 to 127 can be reached
        distance: i32,
    },
    /// 7: the encoder does not have this instruction: INT1 or ESC.
    NotSupported,
    /// 8: the operand count is above 2, or an operand's fields contradict each other.
    NotWellFormed,
    /// 9: a lent slice is too short.
    SliceTooShort,
    /// 10: no instruction begins with these bytes, whatever follows them.
    NotAnInstruction,
    /// 11: the bytes are the front of an instruction, and more are needed.
    NotComplete,
    /// 12: the file does not begin with `FSQ`.
    NoMark,
    /// 13: the file's version is not 1, 2 or 3.
    WrongVersion,
    /// 14: the file or the record is shorter or longer than it says, or the file's version does not take its count.
    WrongLength,
    /// 15: a record has an operation, kind, size or jump kind that does not exist.
    UnknownCode,
    /// 16: the text is not a sum, as [`evaluate`](crate::evaluate) has it.
    NotASum,
    /// 17: the sum is more than 16 brackets deep.
    TooDeep,
    /// 18: a value on the way is no `i32`, or a divisor is 0.
    ValueOutOfRange,
    /// 19: the length of the cues is no multiple of 4, or there are more than 200.
    NotACueList,
    /// 20: a cue has a delay of 0.
    NoDelay,
    /// 21: the next bytes inside the image are no instruction, or one that a [`run`](crate::run) does not carry out.
    NotCarriedOut,
    /// 22: the whole budget is carried out, and HLT was not met.
    BudgetSpent,
    /// 23: the repeat is neither F2 nor F3, or the operation is no string operation and has one.
    InvalidRepeat,
    /// 24: a shift or rotate of a show to [`convert`](crate::convert_into) has an immediate count outside 1 to 31.
    ShiftCountOutOfRange,
    /// 25: a branch goes to where no record starts, or stood in a show to convert, and not to the end of the show.
    NoRecordAtTarget,
    /// Another number: one that the library has and this crate does not know.
    Other(u8),
}

/// What the input has where it is refused with 13 to 15, or with 25 by [`check`](crate::check). Of the first the library answers the number alone: this
/// crate looks into the refused input.
#[derive(Clone, Copy, Debug, PartialEq, Eq, Hash)]
#[non_exhaustive]
pub enum Found {
    /// 13: the file's version
    Version(u16),
    /// 13: the version of a file to convert, which is not 1
    ConvertedVersion(u16),
    /// 14: more than 1,000 records of the converted file
    ConvertedCount,
    /// 14: the length of a record that has neither 56 bytes nor, with a repeat, 57
    RecordLength(usize),
    /// 14: the length of a file without a whole header, which has 9 bytes
    HeaderLength(usize),
    /// 14: a count that the file's version does not take
    Count {
        /// the version of the file
        version: u16,
        /// its count
        count: u16,
        /// the fewest records of a file of this version
        low: u16,
        /// the most
        high: u16,
    },
    /// 14: a length that is not the one of the file's count
    FileLength {
        /// the length of the file
        length: usize,
        /// the length that its count asks for, 9 + 56 for each record, or 57 in version 3
        expected: usize,
    },
    /// 15: the first code of the record that does not exist
    Code {
        /// what it is a code of: `operation`, `kind`, `size`, `displacement size` or `jump kind`
        name: &'static str,
        /// the byte of the record
        at: usize,
        /// the code
        value: u8,
        /// the highest that exists; the lowest is 0
        high: u8,
    },
    /// 25: the target of a branch
    Target {
        /// its offset
        target: u16,
        /// the record that has a byte there, and not its first; nothing where no record has one
        inside: Option<u32>,
    },
}

impl Found {
    /// What a record has that is refused with this number.
    pub(crate) fn in_record(number: u8, record: &[u8]) -> Option<Found> {
        match number {
            FSQ_WRONG_LENGTH => Some(Found::RecordLength(record.len())),
            FSQ_UNKNOWN_CODE => Found::unknown_code(record),
            _ => None,
        }
    }

    /// What a file has that is refused with this number, at this record.
    pub(crate) fn in_file(number: u8, record: Option<&[u8]>, file: &[u8]) -> Option<Found> {
        let field = |at: usize| Some(u16::from_le_bytes([*file.get(at)?, *file.get(at + 1)?]));
        match (number, record) {
            (FSQ_WRONG_VERSION, _) => field(FSQ_HEADER_VERSION_AT).map(Found::Version),
            (FSQ_WRONG_LENGTH, _) if file.len() < FSQ_HEADER_LENGTH => Some(Found::HeaderLength(file.len())),
            (FSQ_WRONG_LENGTH, _) => {
                let (version, count) = (field(FSQ_HEADER_VERSION_AT)?, field(FSQ_HEADER_COUNT_AT)?);
                let (low, high) = counts_of(version)?;
                Some(if (low..=high).contains(&count) {
                    Found::FileLength { length: file.len(), expected: FSQ_HEADER_LENGTH + record_length(file) * usize::from(count) }
                } else {
                    Found::Count { version, count, low, high }
                })
            }
            (FSQ_UNKNOWN_CODE, Some(record)) => Found::unknown_code(record),
            _ => None,
        }
    }

    /// What a file has that is not converted for the refusal with this number, at this record of it.
    pub(crate) fn in_converted(number: u8, record: Option<&[u8]>, file: &[u8]) -> Option<Found> {
        match Found::in_file(number, record, file) {
            Some(Found::Version(version)) => Some(Found::ConvertedVersion(version)),
            Some(Found::FileLength { length, expected }) if length == expected => Some(Found::ConvertedCount),
            found => found,
        }
    }

    /// The first code of a record of 56 or 57 bytes that does not exist.
    pub(crate) fn unknown_code(record: &[u8]) -> Option<Found> {
        const OPERATION: (&str, usize, u8) = ("operation", FSQ_OPERATION_AT, Operation::ALL.len() as u8 - 1);
        const fn highest(operand: usize) -> [(&'static str, usize, u8); 4] {
            [
                ("kind", operand + FSQ_KIND_AT, FSQ_MEM),
                ("size", operand + FSQ_SIZE_AT, FSQ_WORD),
                ("displacement size", operand + FSQ_DISPLACEMENT_SIZE_AT, FSQ_WORD),
                ("jump kind", operand + FSQ_JUMP_AT, FSQ_SHORT),
            ]
        }
        let code = |(name, at, high)| record.get(at).map(|&value| Found::Code { name, at, value, high });
        let operands = [FSQ_FIRST_AT, FSQ_SECOND_AT].map(|operand| highest(operand + further(record)));
        let codes = [OPERATION].into_iter().chain(operands.into_iter().flatten());
        codes.filter_map(code).find(|found| matches!(found, Found::Code { value, high, .. } if value > high))
    }
}

/// The fewest and the most records of a version's files (REFERENCE 8); nothing for one that a later library may know.
fn counts_of(version: u16) -> Option<(u16, u16)> {
    match version {
        FSQ_FILE_VERSION => Some((0, FSQ_SHORT_RECORDS)),
        FSQ_LONG_VERSION => Some((FSQ_SHORT_RECORDS + 1, FSQ_MOST_RECORDS)),
        FSQ_REPEAT_VERSION => Some((0, FSQ_MOST_RECORDS)),
        _ => None,
    }
}

impl fmt::Display for Found {
    fn fmt(&self, f: &mut fmt::Formatter<'_>) -> fmt::Result {
        match *self {
            Found::Version(version) => {
                write!(f, "the version of the show file is {version}, not {FSQ_FILE_VERSION}, {FSQ_LONG_VERSION} or {FSQ_REPEAT_VERSION}")
            }
            Found::ConvertedVersion(version) => {
                write!(f, "the version of the show file is {version}, and {FSQ_FILE_VERSION} alone is converted")
            }
            Found::ConvertedCount => write!(f, "the converted show file would have more than {FSQ_SHORT_RECORDS} records"),
            Found::RecordLength(length) => {
                write!(f, "the record has {length} bytes, not {FSQ_RECORD_LENGTH} or {FSQ_REPEAT_RECORD_LENGTH}")
            }
            Found::HeaderLength(length) => write!(f, "the show file has {length} bytes, and its header alone {FSQ_HEADER_LENGTH}"),
            Found::Count { version, count, low, high } => {
                write!(f, "the count of the show file is {count}, outside {low}..{high} of version {version}")
            }
            Found::FileLength { length, expected } => write!(f, "the show file has {length} bytes, and by its count {expected}"),
            Found::Code { name, at, value, high } => write!(f, "{name} {value}, at byte {at} of the record, is outside 0..{high}"),
            Found::Target { target, inside: Some(record) } => write!(f, "the target {target} is inside record {record}, behind its start"),
            Found::Target { target, inside: None } => write!(f, "the target {target} is outside the show"),
        }
    }
}

/// A refusal whole: why, where in the source, and in a file of which record.
#[derive(Clone, Debug, PartialEq, Eq, Hash)]
#[non_exhaustive]
pub struct Refusal {
    /// Why, with the values that belong to it.
    pub reason: Reason,
    /// The place in the source of the operand or the instruction, for the reasons 1 to 9 and 23.
    pub span: Option<Span>,
    /// The record of the file, from 0; of a refused [`convert`](crate::convert_into) it may be one of the converted file.
    pub record: Option<u32>,
    /// What the input has, for the reasons 13 to 15, and 25 of [`check`](crate::check).
    pub found: Option<Found>,
    pub(crate) question: Option<u8>,
}

impl Refusal {
    /// The reason's number.
    pub fn number(&self) -> u8 {
        self.reason.number()
    }

    /// The question whose answer is no, 1 to 8 (REFERENCE 5), for the reasons 1 to 9 and 23. Its number is not the reason's.
    ///
    /// ```
    /// use fsq::{encode, Instruction, Operand, Operation};
    ///
    /// // Document 02, No. 3: POP of an immediate that states Word is question 5's, of another question 3's.
    /// let refusal = |operand: Operand| encode(&Instruction::one(Operation::POP, operand), 0).unwrap_err();
    /// let (word, unstated) = (refusal(Operand::from(5).word()), refusal(5.into()));
    /// assert_eq!((word.number(), word.question()), (4, Some(5)));
    /// assert_eq!((unstated.number(), unstated.question()), (4, Some(3)));
    /// ```
    pub fn question(&self) -> Option<u8> {
        self.question
    }
}

/// The question of a refusal by REFERENCE 5's table, so that it costs no call. The number says it but for 4, where the record does: question 3 asks
/// whether its first operand states Word, or any size, and 5 comes behind it.
pub(crate) fn question_of(number: u8, record: &[u8]) -> Option<u8> {
    Some(match number {
        FSQ_NOT_WELL_FORMED => 1,
        FSQ_INVALID_REPEAT => 1,
        FSQ_NOT_SUPPORTED => 2,
        FSQ_OPERAND_SIZE_NOT_SPECIFIED => 3,
        FSQ_INVALID_OPERAND_SIZE if record.get(FSQ_FIRST_AT + further(record) + FSQ_SIZE_AT) != Some(&FSQ_WORD) => 3,
        FSQ_OPERAND_SIZES_DO_NOT_MATCH => 4,
        FSQ_INVALID_OPERAND_SIZE | FSQ_INVALID_OPERANDS => 5,
        FSQ_IMMEDIATE_OUT_OF_RANGE => 6,
        FSQ_RELATIVE_JUMP_OUT_OF_RANGE => 7,
        FSQ_SLICE_TOO_SHORT => 8,
        _ => return None,
    })
}

impl Reason {
    /// The number: 1 to 25, or another of a later library.
    pub fn number(&self) -> u8 {
        match self {
            Reason::InvalidOperands => FSQ_INVALID_OPERANDS,
            Reason::OperandSizeNotSpecified => FSQ_OPERAND_SIZE_NOT_SPECIFIED,
            Reason::OperandSizesDoNotMatch => FSQ_OPERAND_SIZES_DO_NOT_MATCH,
            Reason::InvalidOperandSize => FSQ_INVALID_OPERAND_SIZE,
            Reason::ImmediateOutOfRange { .. } => FSQ_IMMEDIATE_OUT_OF_RANGE,
            Reason::RelativeJumpOutOfRange { .. } => FSQ_RELATIVE_JUMP_OUT_OF_RANGE,
            Reason::NotSupported => FSQ_NOT_SUPPORTED,
            Reason::NotWellFormed => FSQ_NOT_WELL_FORMED,
            Reason::SliceTooShort => FSQ_SLICE_TOO_SHORT,
            Reason::NotAnInstruction => FSQ_NOT_AN_INSTRUCTION,
            Reason::NotComplete => FSQ_NOT_COMPLETE,
            Reason::NoMark => FSQ_NO_MARK,
            Reason::WrongVersion => FSQ_WRONG_VERSION,
            Reason::WrongLength => FSQ_WRONG_LENGTH,
            Reason::UnknownCode => FSQ_UNKNOWN_CODE,
            Reason::NotASum => FSQ_NOT_A_SUM,
            Reason::TooDeep => FSQ_TOO_DEEP,
            Reason::ValueOutOfRange => FSQ_VALUE_OUT_OF_RANGE,
            Reason::NotACueList => FSQ_NOT_A_CUE_LIST,
            Reason::NoDelay => FSQ_NO_DELAY,
            Reason::NotCarriedOut => FSQ_NOT_CARRIED_OUT,
            Reason::BudgetSpent => FSQ_BUDGET_SPENT,
            Reason::InvalidRepeat => FSQ_INVALID_REPEAT,
            Reason::ShiftCountOutOfRange => FSQ_SHIFT_COUNT_OUT_OF_RANGE,
            Reason::NoRecordAtTarget => FSQ_NO_RECORD_AT_TARGET,
            Reason::Other(number) => *number,
        }
    }

    /// The reason of a number that is not 0.
    pub(crate) fn of(number: u8, value: i32, low: i32, high: i32) -> Reason {
        match number {
            FSQ_INVALID_OPERANDS => Reason::InvalidOperands,
            FSQ_OPERAND_SIZE_NOT_SPECIFIED => Reason::OperandSizeNotSpecified,
            FSQ_OPERAND_SIZES_DO_NOT_MATCH => Reason::OperandSizesDoNotMatch,
            FSQ_INVALID_OPERAND_SIZE => Reason::InvalidOperandSize,
            FSQ_IMMEDIATE_OUT_OF_RANGE => Reason::ImmediateOutOfRange { value, low, high },
            FSQ_RELATIVE_JUMP_OUT_OF_RANGE => Reason::RelativeJumpOutOfRange { distance: value },
            FSQ_NOT_SUPPORTED => Reason::NotSupported,
            FSQ_NOT_WELL_FORMED => Reason::NotWellFormed,
            FSQ_SLICE_TOO_SHORT => Reason::SliceTooShort,
            FSQ_NOT_AN_INSTRUCTION => Reason::NotAnInstruction,
            FSQ_NOT_COMPLETE => Reason::NotComplete,
            FSQ_NO_MARK => Reason::NoMark,
            FSQ_WRONG_VERSION => Reason::WrongVersion,
            FSQ_WRONG_LENGTH => Reason::WrongLength,
            FSQ_UNKNOWN_CODE => Reason::UnknownCode,
            FSQ_NOT_A_SUM => Reason::NotASum,
            FSQ_TOO_DEEP => Reason::TooDeep,
            FSQ_VALUE_OUT_OF_RANGE => Reason::ValueOutOfRange,
            FSQ_NOT_A_CUE_LIST => Reason::NotACueList,
            FSQ_NO_DELAY => Reason::NoDelay,
            FSQ_NOT_CARRIED_OUT => Reason::NotCarriedOut,
            FSQ_BUDGET_SPENT => Reason::BudgetSpent,
            FSQ_INVALID_REPEAT => Reason::InvalidRepeat,
            FSQ_SHIFT_COUNT_OUT_OF_RANGE => Reason::ShiftCountOutOfRange,
            FSQ_NO_RECORD_AT_TARGET => Reason::NoRecordAtTarget,
            other => Reason::Other(other),
        }
    }
}

impl fmt::Display for Reason {
    fn fmt(&self, f: &mut fmt::Formatter<'_>) -> fmt::Result {
        match self {
            Reason::InvalidOperands => f.write_str("the operation does not take these operands"),
            Reason::OperandSizeNotSpecified => f.write_str("byte or word is not said"),
            Reason::OperandSizesDoNotMatch => f.write_str("one operand is a byte and the other a word"),
            Reason::InvalidOperandSize => f.write_str("the operation does not take an operand of this size"),
            Reason::ImmediateOutOfRange { value, low, high } => write!(f, "value {value} is outside {low}..{high}"),
            Reason::RelativeJumpOutOfRange { distance } => write!(f, "the target is {distance} bytes away, outside -128..127"),
            Reason::NotSupported => f.write_str("the encoder does not have this instruction"),
            Reason::NotWellFormed => f.write_str("the fields of the record contradict each other"),
            Reason::SliceTooShort => f.write_str("there is no room for the bytes"),
            Reason::NotAnInstruction => f.write_str("no instruction begins with these bytes"),
            Reason::NotComplete => f.write_str("the instruction is not complete"),
            Reason::NoMark => f.write_str("this is no show file: it does not begin with FSQ"),
            Reason::WrongVersion => {
                write!(f, "the version of the show file is not {FSQ_FILE_VERSION}, {FSQ_LONG_VERSION} or {FSQ_REPEAT_VERSION}")
            }
            Reason::WrongLength => f.write_str("the length is not the one that the show file or record has to have"),
            Reason::UnknownCode => f.write_str("an operation, kind, size or jump kind does not exist"),
            Reason::NotASum => f.write_str("the text is not a sum of decimal numbers, + - * / and brackets, without blanks"),
            Reason::TooDeep => write!(f, "the sum is more than {FSQ_MOST_DEPTH} brackets deep"),
            Reason::ValueOutOfRange => write!(f, "a value on the way is outside {}..{}, or a divisor is 0", i32::MIN, i32::MAX),
            Reason::NotACueList => {
                write!(f, "the length is no multiple of {FSQ_CUE_LENGTH}, or there are more than {FSQ_MOST_CUES} cues")
            }
            Reason::NoDelay => f.write_str("a cue has a delay of 0"),
            Reason::NotCarriedOut => f.write_str("the next bytes inside the image are no instruction that a run carries out"),
            Reason::BudgetSpent => f.write_str("the whole budget is carried out, and HLT was not met"),
            Reason::InvalidRepeat => f.write_str("the repeat is neither REP nor REPNE, or the operation takes none"),
            Reason::ShiftCountOutOfRange => f.write_str("the immediate count of a shift or rotate is outside 1..31"),
            Reason::NoRecordAtTarget => f.write_str("the branch goes to where no record stood, and not to the end of the show"),
            Reason::Other(number) => write!(f, "the reason {number}, which this crate does not know"),
        }
    }
}

/// Its number, the record, the question, what is wrong, the value and its limits: `refusal 5 of record 3 (question 6): value 300 is outside -128..255`.
impl fmt::Display for Refusal {
    fn fmt(&self, f: &mut fmt::Formatter<'_>) -> fmt::Result {
        write!(f, "refusal {}", self.number())?;
        if let Some(record) = self.record {
            write!(f, " of record {record}")?;
        }
        if let Some(question) = self.question {
            write!(f, " (question {question})")?;
        }
        match &self.found {
            Some(found) => write!(f, ": {found}"),
            None => write!(f, ": {}", self.reason),
        }
    }
}

impl core::error::Error for Refusal {}
