//! Reading.

use crate::bindings::{
    FSQ_BYTE, FSQ_EXTENSION_0A, FSQ_EXTENSION_DIGIT, FSQ_EXTENSION_MODRM, FSQ_EXTENSION_PLUS_REGISTER, FSQ_EXTENSION_PLUS_SEGMENT,
    FSQ_READ_EXTENSION_AT, FSQ_READ_FAR, FSQ_READ_FAR_SEGMENT_AT, FSQ_READ_FIRST_AT, FSQ_READ_IMMEDIATE, FSQ_READ_KIND_AT,
    FSQ_READ_LENGTH_AT, FSQ_READ_MEMORY, FSQ_READ_NEAR, FSQ_READ_NUMBER_AT, FSQ_READ_ONE, FSQ_READ_OPCODE_AT, FSQ_READ_OPERATION_AT,
    FSQ_READ_REGISTER, FSQ_READ_REPEAT_AT, FSQ_READ_SECOND_AT, FSQ_READ_SEGMENT_AT, FSQ_READ_SEGMENT_REGISTER, FSQ_READ_VALUE_AT,
    FSQ_READ_WIDTH_AT, FSQ_WORD,
};
use crate::instruction::{Instruction, Repeat};
use crate::library;
use crate::operand::{Base, Jump, Operand, Register, Segment, Size};
use crate::operation::Operation;
use crate::refusal::Refusal;
use core::fmt;

/// What follows the opcode of a form, as the manual writes it.
#[derive(Clone, Copy, Debug, PartialEq, Eq, Hash)]
#[non_exhaustive]
pub enum Extension {
    /// nothing
    None,
    /// a register's number, added to the opcode
    PlusRegister,
    /// eight times a segment register's number, added to the opcode
    PlusSegment,
    /// `/r`: ModRM with a register in its reg field
    ModRm,
    /// `/n`: ModRM with this digit in its reg field
    Digit(u8),
    /// a second byte 0A
    Second0A,
}

/// An operand of a read instruction.
#[derive(Clone, Copy, Debug, PartialEq, Eq, Hash)]
#[non_exhaustive]
pub enum Part {
    /// a register
    Register(Register),
    /// a segment register
    Segment(Segment),
    /// memory
    Memory {
        /// the registers that address it; nothing for an address alone
        base: Option<Base>,
        /// the displacement or the address
        displacement: u16,
        /// the segment in effect, with or without a prefix
        segment: Segment,
    },
    /// an immediate
    Immediate(u16),
    /// the target of a near or short branch
    Near(u16),
    /// the target of a far jump
    Far {
        /// its segment
        segment: u16,
        /// its offset
        offset: u16,
    },
    /// the count of a shift by one
    One,
}

/// One instruction, read. It prints as a designer writes it: `ADD word [BX],5`. The text is not part of what is proved.
///
/// An [`Instruction`] is made of it, which encodes at the same offset to bytes that read as the same instruction:
///
/// ```
/// use fsq::{encode, read, Instruction};
///
/// // Document 01: the bytes of LOOP 256 at 261 are E2 F9.
/// let instruction = Instruction::from(read(&[0xE2, 0xF9], 261)?);
/// assert_eq!(encode(&instruction, 261)?, [0xE2, 0xF9]);
/// # Ok::<(), fsq::Refusal>(())
/// ```
#[derive(Clone, Copy, Debug, PartialEq, Eq, Hash)]
#[non_exhaustive]
pub struct Reading {
    /// where its bytes stand
    pub offset: u16,
    /// the number of its bytes
    pub length: usize,
    /// the repeat before a string operation
    pub repeat: Option<Repeat>,
    /// the operation
    pub operation: Operation,
    /// the width, where the form has one; a far CALL through memory has none
    pub width: Option<Size>,
    /// the form's opcode, without a register that is added to it; behind a repeat the string operation's
    pub opcode: u8,
    /// what follows the opcode
    pub extension: Extension,
    /// the operands that the form takes, in the manual's order
    pub operands: [Option<Part>; 2],
}

/// Reads the instruction at the front of some bytes; what follows it is not looked at, but for the byte behind F2 or F3. The offset is where the bytes
/// stand, and near targets are answered for it.
///
/// ```
/// use fsq::{read, Reason, Repeat};
///
/// // Document 01: LOOP 256 at 261 is E2 F9.
/// let reading = read(&[0xE2, 0xF9, 0x90], 261)?;
/// assert_eq!(reading.to_string(), "LOOP 256");
/// assert_eq!(reading.length, 2);
///
/// // Document 02, No. 11: F3 is a string operation's repeat, and else an instruction of one byte.
/// let reading = read(&[0xF3, 0xA4], 0)?;
/// assert_eq!((reading.to_string().as_str(), reading.length, reading.repeat), ("REP MOVSB", 2, Some(Repeat::Rep)));
/// let reading = read(&[0xF3, 0x90], 0)?;
/// assert_eq!((reading.to_string().as_str(), reading.length, reading.repeat), ("REP", 1, None));
///
/// // Document 01's bench sheet: no bytes are 11, and 26 8B C0 is 10.
/// assert_eq!(read(&[], 0).unwrap_err().reason, Reason::NotComplete);
/// assert_eq!(read(&[0x26, 0x8B, 0xC0], 0).unwrap_err().reason, Reason::NotAnInstruction);
/// # Ok::<(), fsq::Refusal>(())
/// ```
pub fn read(bytes: &[u8], offset: u16) -> Result<Reading, Refusal> {
    let out = library::read(bytes, offset)?;
    let operation = Operation::ALL[out[FSQ_READ_OPERATION_AT] as usize];
    let width = match out[FSQ_READ_WIDTH_AT] {
        FSQ_BYTE => Some(Size::Byte),
        FSQ_WORD => Some(Size::Word),
        _ => None,
    };
    let extension = match out[FSQ_READ_EXTENSION_AT] {
        FSQ_EXTENSION_PLUS_REGISTER => Extension::PlusRegister,
        FSQ_EXTENSION_PLUS_SEGMENT => Extension::PlusSegment,
        FSQ_EXTENSION_MODRM => Extension::ModRm,
        FSQ_EXTENSION_0A => Extension::Second0A,
        n @ FSQ_EXTENSION_DIGIT.. => Extension::Digit(n - FSQ_EXTENSION_DIGIT),
        _ => Extension::None,
    };
    let operands = [part(&out[FSQ_READ_FIRST_AT..], operation, width, 0), part(&out[FSQ_READ_SECOND_AT..], operation, width, 1)];
    let (length, opcode, repeat) = (out[FSQ_READ_LENGTH_AT] as usize, out[FSQ_READ_OPCODE_AT], Repeat::of(out[FSQ_READ_REPEAT_AT]));
    Ok(Reading { offset, length, repeat, operation, width, opcode, extension, operands })
}

fn part(field: &[u8], operation: Operation, width: Option<Size>, place: usize) -> Option<Part> {
    let number = field[FSQ_READ_NUMBER_AT] as usize;
    let u16_at = |at: usize| u16::from_le_bytes([field[at], field[at + 1]]);
    let value = u16_at(FSQ_READ_VALUE_AT);
    match field[FSQ_READ_KIND_AT] {
        FSQ_READ_REGISTER => {
            // The width is the data's; a shift's count is CL and a port is in DX all the same.
            let word = match (operation, place) {
                (
                    Operation::ROL | Operation::ROR | Operation::RCL | Operation::RCR | Operation::SHL | Operation::SHR | Operation::SAR,
                    1,
                ) => false,
                (Operation::IN, 1) | (Operation::OUT, 0) => true,
                _ => width == Some(Size::Word),
            };
            Some(Part::Register(Register::ALL[number + if word { 8 } else { 0 }]))
        }
        FSQ_READ_SEGMENT_REGISTER => Some(Part::Segment(Segment::ALL[number])),
        FSQ_READ_MEMORY => {
            let segment = Segment::ALL[field[FSQ_READ_SEGMENT_AT] as usize];
            Some(Part::Memory { base: Base::ALL.get(number).copied(), displacement: value, segment })
        }
        FSQ_READ_IMMEDIATE => Some(Part::Immediate(value)),
        FSQ_READ_NEAR => Some(Part::Near(value)),
        FSQ_READ_FAR => Some(Part::Far { segment: u16_at(FSQ_READ_FAR_SEGMENT_AT), offset: value }),
        FSQ_READ_ONE => Some(Part::One),
        _ => None,
    }
}

impl fmt::Display for Part {
    fn fmt(&self, f: &mut fmt::Formatter<'_>) -> fmt::Result {
        match self {
            Part::Register(register) => write!(f, "{register:?}"),
            Part::Segment(segment) => write!(f, "{segment:?}"),
            Part::Memory { base, displacement, segment } => {
                if *segment != default_segment(*base) {
                    write!(f, "{segment:?}:")?;
                }
                match (base, *displacement as i16) {
                    (None, _) => write!(f, "[{displacement}]"),
                    (Some(base), 0) => write!(f, "[{}]", base.text()),
                    (Some(base), signed) => write!(f, "[{}{signed:+}]", base.text()),
                }
            }
            Part::Immediate(value) | Part::Near(value) => write!(f, "{value}"),
            Part::Far { segment, offset } => write!(f, "{segment}:{offset}"),
            Part::One => f.write_str("1"),
        }
    }
}

fn default_segment(base: Option<Base>) -> Segment {
    base.map_or(Segment::DS, Base::segment)
}

impl Reading {
    /// Whether the text says the width: a register beside memory does already.
    fn says_width(&self) -> bool {
        let said = self.operands.iter().flatten().any(|part| matches!(part, Part::Register(_) | Part::Segment(_)));
        let count = matches!(self.operands[1], Some(Part::Register(_))) && matches!(self.extension, Extension::Digit(_));
        !said || count
    }

    /// The operand of a record.
    fn operand(&self, part: Part) -> Operand {
        match part {
            Part::Register(register) => register.into(),
            Part::Segment(segment) => segment.into(),
            Part::Memory { base, displacement, segment } => {
                let memory = match base {
                    None => Operand::address(displacement),
                    Some(base) => Operand::memory(base, (displacement as i16).into()),
                };
                let memory = if segment == default_segment(base) { memory } else { memory.in_segment(segment) };
                match self.width {
                    // Its width is the byte's in AL, and the record's memory states Word.
                    _ if self.operation == Operation::XLATB => memory.word(),
                    _ if !self.says_width() => memory,
                    Some(Size::Byte) => memory.byte(),
                    Some(Size::Word) => memory.word(),
                    None => memory.jump(Jump::Far),
                }
            }
            Part::Immediate(value) => value.into(),
            Part::Near(target) => self.target(target),
            Part::Far { segment, offset } => Operand::far(segment, offset),
            Part::One => 1.into(),
        }
    }

    /// The target of a near or short branch. A record's distance is not wrapped where it has one byte, so a target beyond an end of the segment
    /// is below 0 or above 65,535 in it. JMP takes no such target, and gets there without the kind Short.
    fn target(&self, target: u16) -> Operand {
        let end = i32::from(self.offset) + self.length as i32;
        let near = i32::from(target);
        let reached = [near, near - 65536, near + 65536].into_iter().find(|&target| (-128..=127).contains(&(target - end)));
        match (self.opcode, reached) {
            (0xEB, Some(reached)) if reached == near => Operand::from(near).jump(Jump::Short),
            (0x70..=0x7F | 0xE0..=0xE3, Some(reached)) => reached.into(),
            _ => near.into(),
        }
    }
}

/// The same instruction as a record has it. Its immediates are 0 to 65,535, as they were read, and its displacements the shortest; EB is the kind
/// Short. Its bytes are those of [`encode`](crate::encode), which may be others than those that were read.
impl From<&Reading> for Instruction {
    fn from(reading: &Reading) -> Instruction {
        let instruction = match reading.operands {
            [Some(first), Some(second)] => Instruction::two(reading.operation, reading.operand(first), reading.operand(second)),
            [Some(one), None] | [None, Some(one)] => Instruction::one(reading.operation, reading.operand(one)),
            [None, None] => Instruction::none(reading.operation),
        };
        instruction.repeated(reading.repeat)
    }
}

/// As of a reference.
impl From<Reading> for Instruction {
    fn from(reading: Reading) -> Instruction {
        Instruction::from(&reading)
    }
}

impl fmt::Display for Reading {
    fn fmt(&self, f: &mut fmt::Formatter<'_>) -> fmt::Result {
        if let Some(repeat) = self.repeat {
            write!(f, "{} ", repeat.name())?;
        }
        write!(f, "{}", self.operation)?;
        for (n, part) in self.operands.iter().flatten().enumerate() {
            f.write_str(if n == 0 { " " } else { "," })?;
            if matches!(part, Part::Memory { .. }) && self.says_width() && self.operation != Operation::XLATB {
                f.write_str(match self.width {
                    Some(Size::Byte) => "byte ",
                    Some(Size::Word) => "word ",
                    // CALL FF /3, the one form with memory and no width
                    None => "far ",
                })?;
            }
            write!(f, "{part}")?;
        }
        Ok(())
    }
}
