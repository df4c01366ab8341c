//! Operands, as a designer writes them.

use crate::bindings::{
    FSQ_BYTE, FSQ_DISPLACEMENT_AT, FSQ_DISPLACEMENT_SIZE_AT, FSQ_FAR, FSQ_IMM, FSQ_IMMEDIATE_AT, FSQ_JUMP_AT, FSQ_KIND_AT, FSQ_MEM,
    FSQ_MODE_AT, FSQ_NEAR, FSQ_NO_KIND, FSQ_OPERAND_LENGTH, FSQ_OPERAND_SPAN_END_AT, FSQ_OPERAND_SPAN_START_AT, FSQ_PREFIX_AT, FSQ_REG,
    FSQ_RM_AT, FSQ_SEG, FSQ_SHORT, FSQ_SIZE_AT, FSQ_UNSPECIFIED, FSQ_WORD,
};
use core::ops::Range;

/// Where something stands in the source: its first position and the one behind its last. A refusal gives it back.
pub type Span = Range<u32>;

/// A register of eight or sixteen bits.
///
/// ```
/// use fsq::{Register, Size};
///
/// // REFERENCE 2: BH and DI are both register 7.
/// assert_eq!((Register::BH.number(), Register::BH.size()), (7, Size::Byte));
/// assert_eq!((Register::DI.number(), Register::DI.size()), (7, Size::Word));
/// ```
#[allow(missing_docs, clippy::upper_case_acronyms)]
#[derive(Clone, Copy, Debug, PartialEq, Eq, Hash)]
pub enum Register {
    AL,
    CL,
    DL,
    BL,
    AH,
    CH,
    DH,
    BH,
    AX,
    CX,
    DX,
    BX,
    SP,
    BP,
    SI,
    DI,
}

impl Register {
    pub(crate) const ALL: [Register; 16] = {
        use Register::*;
        [AL, CL, DL, BL, AH, CH, DH, BH, AX, CX, DX, BX, SP, BP, SI, DI]
    };

    /// The number that ModRM gives it, 0 to 7.
    pub fn number(self) -> u8 {
        self as u8 % 8
    }

    /// Its size.
    pub fn size(self) -> Size {
        if (self as u8) < 8 {
            Size::Byte
        } else {
            Size::Word
        }
    }
}

/// A segment register.
#[allow(missing_docs)]
#[derive(Clone, Copy, Debug, PartialEq, Eq, Hash)]
pub enum Segment {
    ES,
    CS,
    SS,
    DS,
}

impl Segment {
    pub(crate) const ALL: [Segment; 4] = [Segment::ES, Segment::CS, Segment::SS, Segment::DS];

    /// The prefix that names it.
    pub(crate) fn prefix(self) -> u8 {
        0x26 + 8 * self as u8
    }
}

/// The registers that memory is addressed by, in the order of r/m.
#[allow(missing_docs, non_camel_case_types)]
#[derive(Clone, Copy, Debug, PartialEq, Eq, Hash)]
pub enum Base {
    BX_SI,
    BX_DI,
    BP_SI,
    BP_DI,
    SI,
    DI,
    BP,
    BX,
}

impl Base {
    pub(crate) const ALL: [Base; 8] = [Base::BX_SI, Base::BX_DI, Base::BP_SI, Base::BP_DI, Base::SI, Base::DI, Base::BP, Base::BX];

    /// The registers, as they are written in memory's brackets.
    pub(crate) fn text(self) -> &'static str {
        ["BX+SI", "BX+DI", "BP+SI", "BP+DI", "SI", "DI", "BP", "BX"][self as usize]
    }

    /// The segment of memory without a prefix.
    pub(crate) fn segment(self) -> Segment {
        match self {
            Base::BP_SI | Base::BP_DI | Base::BP => Segment::SS,
            _ => Segment::DS,
        }
    }
}

/// The size of a value.
#[allow(missing_docs)]
#[derive(Clone, Copy, Debug, PartialEq, Eq, Hash)]
#[repr(u8)]
pub enum Size {
    Byte = FSQ_BYTE,
    Word = FSQ_WORD,
}

/// How far a branch goes, where its text says so. JMP without a kind is written as a near one; a far CALL takes its target's offset and segment
/// from memory.
#[allow(missing_docs)]
#[derive(Clone, Copy, Debug, PartialEq, Eq, Hash)]
#[repr(u8)]
pub enum Jump {
    Far = FSQ_FAR,
    Near = FSQ_NEAR,
    Short = FSQ_SHORT,
}

#[derive(Clone, Copy, Debug, PartialEq, Eq, Hash)]
#[repr(u8)]
pub(crate) enum Kind {
    Immediate = FSQ_IMM,
    Register = FSQ_REG,
    Segment = FSQ_SEG,
    Memory = FSQ_MEM,
}

/// An operand: a register, a segment register, memory, an immediate or a target. It prints as here, and is parsed from that
/// text; [`Instruction`](crate::Instruction) has the syntax.
///
/// ```
/// use fsq::{Base, Jump, Operand, Register, Segment};
///
/// assert_eq!(Operand::from(Register::AX).to_string(), "AX");
/// assert_eq!(Operand::from(Segment::DS).to_string(), "DS");
/// assert_eq!(Operand::from(5).to_string(), "5");
/// assert_eq!(Operand::memory(Base::BX_SI, -2).word().to_string(), "word [BX+SI-2]");
/// assert_eq!(Operand::address(4660).byte().in_segment(Segment::ES).to_string(), "byte ES:[4660]");
/// assert_eq!(Operand::from(256).jump(Jump::Short).to_string(), "short 256");
/// assert_eq!(Operand::memory(Base::BX, 0).jump(Jump::Far).to_string(), "far [BX]");
/// assert_eq!(Operand::far(61440, 65520).to_string(), "61440:65520");
/// assert_eq!("61440:65520".parse(), Ok(Operand::far(61440, 65520)));
/// ```
#[derive(Clone, Debug, PartialEq, Eq, Hash)]
pub struct Operand {
    pub(crate) kind: Kind,
    pub(crate) size: Option<Size>,
    /// 0, a segment's prefix, or in a record that is refused any other number
    pub(crate) prefix: u8,
    pub(crate) displacement_size: Option<Size>,
    pub(crate) jump: Option<Jump>,
    pub(crate) mode: u8,
    pub(crate) rm: u8,
    pub(crate) immediate: i32,
    pub(crate) displacement: i32,
    pub(crate) span: Span,
}

impl Operand {
    pub(crate) const EMPTY: Operand = Operand {
        kind: Kind::Immediate,
        size: None,
        prefix: 0,
        displacement_size: None,
        jump: None,
        mode: 0,
        rm: 0,
        immediate: 0,
        displacement: 0,
        span: 0..0,
    };

    /// Memory at a base and a displacement from -32,768 to 65,535; any other is refused as not well formed. The shortest mode is taken, and BP
    /// alone, which has no mode without a displacement, gets a zero byte.
    pub fn memory(base: Base, displacement: i32) -> Operand {
        let (mode, displacement_size) = match displacement {
            0 if base != Base::BP => (0, None),
            -128..=127 => (1, Some(Size::Byte)),
            _ => (2, Some(Size::Word)),
        };
        Operand { kind: Kind::Memory, mode, rm: base as u8, displacement, displacement_size, ..Operand::EMPTY }
    }

    /// Memory at an address.
    pub fn address(address: u16) -> Operand {
        Operand { kind: Kind::Memory, rm: 6, displacement: address.into(), displacement_size: Some(Size::Word), ..Operand::EMPTY }
    }

    /// The target of a far jump.
    pub fn far(segment: u16, offset: u16) -> Operand {
        Operand { immediate: offset.into(), displacement: segment.into(), jump: Some(Jump::Far), ..Operand::EMPTY }
    }

    /// The same as a byte.
    pub fn byte(self) -> Operand {
        Operand { size: Some(Size::Byte), ..self }
    }

    /// The same as a word.
    pub fn word(self) -> Operand {
        Operand { size: Some(Size::Word), ..self }
    }

    /// The same with a segment prefix, which is written even where it names the default segment. Only memory has one.
    pub fn in_segment(self, segment: Segment) -> Operand {
        Operand { prefix: segment.prefix(), ..self }
    }

    /// The same as a target, or as memory that holds one, that says how far it is.
    pub fn jump(self, jump: Jump) -> Operand {
        Operand { jump: Some(jump), ..self }
    }

    /// The same, with its place in the source.
    pub fn at(self, span: Span) -> Operand {
        Operand { span, ..self }
    }

    /// Its place in the source.
    pub fn span(&self) -> Span {
        self.span.clone()
    }

    /// The operand of 23 bytes of a record whose codes are known.
    pub(crate) fn unpack(from: &[u8]) -> Operand {
        let field = |at: usize| u32::from_le_bytes([from[at], from[at + 1], from[at + 2], from[at + 3]]);
        let size = |at: usize| match from[at] {
            FSQ_BYTE => Some(Size::Byte),
            FSQ_WORD => Some(Size::Word),
            _ => None,
        };
        Operand {
            kind: match from[FSQ_KIND_AT] {
                FSQ_REG => Kind::Register,
                FSQ_SEG => Kind::Segment,
                FSQ_MEM => Kind::Memory,
                _ => Kind::Immediate,
            },
            size: size(FSQ_SIZE_AT),
            prefix: from[FSQ_PREFIX_AT],
            displacement_size: size(FSQ_DISPLACEMENT_SIZE_AT),
            jump: match from[FSQ_JUMP_AT] {
                FSQ_FAR => Some(Jump::Far),
                FSQ_NEAR => Some(Jump::Near),
                FSQ_SHORT => Some(Jump::Short),
                _ => None,
            },
            mode: from[FSQ_MODE_AT],
            rm: from[FSQ_RM_AT],
            immediate: field(FSQ_IMMEDIATE_AT) as i32,
            displacement: field(FSQ_DISPLACEMENT_AT) as i32,
            span: field(FSQ_OPERAND_SPAN_START_AT)..field(FSQ_OPERAND_SPAN_END_AT),
        }
    }

    /// Its 23 bytes in a record of a show file.
    #[inline]
    pub(crate) fn pack(&self) -> [u8; FSQ_OPERAND_LENGTH] {
        let mut into = [0; FSQ_OPERAND_LENGTH];
        let size = |size: Option<Size>| size.map_or(FSQ_UNSPECIFIED, |size| size as u8);
        into[FSQ_KIND_AT] = self.kind as u8;
        into[FSQ_SIZE_AT] = size(self.size);
        into[FSQ_PREFIX_AT] = self.prefix;
        into[FSQ_DISPLACEMENT_SIZE_AT] = size(self.displacement_size);
        into[FSQ_JUMP_AT] = self.jump.map_or(FSQ_NO_KIND, |jump| jump as u8);
        into[FSQ_MODE_AT] = self.mode;
        into[FSQ_RM_AT] = self.rm;
        into[FSQ_IMMEDIATE_AT..FSQ_IMMEDIATE_AT + 4].copy_from_slice(&self.immediate.to_le_bytes());
        into[FSQ_DISPLACEMENT_AT..FSQ_DISPLACEMENT_AT + 4].copy_from_slice(&self.displacement.to_le_bytes());
        into[FSQ_OPERAND_SPAN_START_AT..FSQ_OPERAND_SPAN_START_AT + 4].copy_from_slice(&self.span.start.to_le_bytes());
        into[FSQ_OPERAND_SPAN_END_AT..FSQ_OPERAND_SPAN_END_AT + 4].copy_from_slice(&self.span.end.to_le_bytes());
        into
    }
}

impl From<Register> for Operand {
    fn from(register: Register) -> Operand {
        Operand { kind: Kind::Register, size: Some(register.size()), mode: 3, rm: register.number(), ..Operand::EMPTY }
    }
}

impl From<Segment> for Operand {
    fn from(segment: Segment) -> Operand {
        Operand { kind: Kind::Segment, size: Some(Size::Word), mode: 3, rm: segment as u8, ..Operand::EMPTY }
    }
}

macro_rules! immediates {
    ($($integer:ty)*) => {$(
        /// An immediate, or the target of a near or short branch.
        impl From<$integer> for Operand {
            fn from(value: $integer) -> Operand {
                Operand { immediate: value.into(), ..Operand::EMPTY }
            }
        }
    )*};
}

immediates!(i8 u8 i16 u16 i32);
