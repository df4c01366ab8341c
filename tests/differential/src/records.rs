//! The instruction record as it stands in a show file (document 01): fields as codes, so that ill-formed and unknown ones can be said too.

use super::answers::Span;
use super::bindings::*;

/// The operations in their order, handed to the macro named. oracle.rs checks it against 002 itself.
pub(super) use super::bindings::operations;
// Kinds, sizes and jump kinds.
pub use super::bindings::{
    FSQ_BYTE as BYTE, FSQ_FAR as FAR, FSQ_IMM as IMM, FSQ_MEM as MEM, FSQ_NEAR as NEAR, FSQ_NO_KIND as NONE, FSQ_REG as REG, FSQ_SEG as SEG,
    FSQ_SHORT as SHORT, FSQ_UNSPECIFIED as UNSTATED, FSQ_WORD as WORD,
};

macro_rules! numbers {
    ($($name:ident)*) => {
        enum Number { $($name),* }
        /// The number of each operation.
        #[allow(dead_code)]
        pub mod op {
            $(pub const $name: u8 = super::Number::$name as u8;)*
        }
        pub const NAMES: [&str; 99] = [$(stringify!($name)),*];
    };
}
operations!(numbers);

pub const OPERATIONS: u8 = NAMES.len() as u8;

pub const PREFIXES: [u8; 5] = [0, 0x26, 0x2E, 0x36, 0x3E];

#[derive(Clone, Copy, Debug, PartialEq, Eq)]
pub struct Operand {
    pub kind: u8,
    pub size: u8,
    pub prefix: u8,
    pub displacement_size: u8,
    pub jump: u8,
    pub mode: u8,
    pub rm: u8,
    pub imm: i32,
    pub displacement: i32,
    pub span: Span,
}

#[derive(Clone, Copy, Debug, PartialEq, Eq)]
pub struct Record {
    pub operation: u8,
    pub count: u8,
    pub span: Span,
    pub operands: [Operand; 2],
}

pub type Packed = [u8; FSQ_RECORD_LENGTH];

impl Operand {
    pub fn is_rm(&self) -> bool {
        self.kind == REG || self.kind == MEM
    }

    /// A direct address: mode 0 with r/m 6.
    pub fn is_direct(&self) -> bool {
        self.kind == MEM && self.mode == 0 && self.rm == 6
    }

    fn codes_known(&self) -> bool {
        self.kind <= MEM && self.size <= WORD && self.displacement_size <= WORD && self.jump <= SHORT
    }

    /// Document 01, 'Operand'.
    pub fn well_formed(&self) -> bool {
        let no_displacement = self.displacement_size == UNSTATED && self.displacement == 0;
        match self.kind {
            IMM => self.prefix == 0 && self.mode == 0 && self.rm == 0 && self.displacement_size == UNSTATED,
            REG => self.prefix == 0 && self.mode == 3 && self.rm < 8 && no_displacement,
            SEG => self.prefix == 0 && self.mode == 3 && self.rm < 4 && no_displacement && self.size == WORD,
            _ => {
                let word = self.displacement_size == WORD && (-32768..=65535).contains(&self.displacement);
                let displaced = match self.mode {
                    0 if self.rm == 6 => word,
                    0 => no_displacement,
                    1 => self.displacement_size == BYTE && (-128..=127).contains(&self.displacement),
                    2 => word,
                    _ => false,
                };
                PREFIXES.contains(&self.prefix) && self.rm < 8 && displaced
            }
        }
    }

    fn pack(&self, into: &mut [u8]) {
        into[FSQ_KIND_AT] = self.kind;
        into[FSQ_SIZE_AT] = self.size;
        into[FSQ_PREFIX_AT] = self.prefix;
        into[FSQ_DISPLACEMENT_SIZE_AT] = self.displacement_size;
        into[FSQ_JUMP_AT] = self.jump;
        into[FSQ_MODE_AT] = self.mode;
        into[FSQ_RM_AT] = self.rm;
        put(into, FSQ_IMMEDIATE_AT, self.imm as u32);
        put(into, FSQ_DISPLACEMENT_AT, self.displacement as u32);
        put(into, FSQ_OPERAND_SPAN_START_AT, self.span.0);
        put(into, FSQ_OPERAND_SPAN_END_AT, self.span.1);
    }
}

impl Record {
    pub fn codes_known(&self) -> bool {
        self.operation < OPERATIONS && self.operands.iter().all(Operand::codes_known)
    }

    /// The span that question 1 refuses with, or nothing where the record is well formed.
    pub fn ill_formed(&self) -> Option<Span> {
        if self.count > 2 {
            return Some(self.span);
        }
        self.operands.iter().find(|operand| !operand.well_formed()).map(|operand| operand.span)
    }

    /// The size that two operands share, where they state one and do not contradict each other.
    pub fn common_size(&self) -> Option<u8> {
        match (self.operands[0].size, self.operands[1].size) {
            (UNSTATED, UNSTATED) => None,
            (UNSTATED, size) | (size, UNSTATED) => Some(size),
            (first, second) if first == second => Some(first),
            _ => None,
        }
    }

    pub fn pack(&self) -> Packed {
        let mut packed = [0; FSQ_RECORD_LENGTH];
        packed[FSQ_OPERATION_AT] = self.operation;
        packed[FSQ_COUNT_AT] = self.count;
        put(&mut packed, FSQ_SPAN_START_AT, self.span.0);
        put(&mut packed, FSQ_SPAN_END_AT, self.span.1);
        self.operands[0].pack(&mut packed[FSQ_FIRST_AT..]);
        self.operands[1].pack(&mut packed[FSQ_SECOND_AT..]);
        packed
    }

    /// With three different spans, so that an answer shows which one it names. Most use all 32 bits; start may lie behind end.
    pub fn with_spans(mut self, n: u64) -> Record {
        let mut seed = n;
        let mut next = || {
            seed = seed.wrapping_add(1);
            let mixed = mix(seed.wrapping_mul(8)) as u32;
            if n % 4 == 0 { mixed % 65536 } else { mixed }
        };
        self.span = (next(), next());
        self.operands[0].span = (next(), next());
        self.operands[1].span = (next(), next());
        self
    }
}

fn put(into: &mut [u8], at: usize, value: u32) {
    into[at..at + 4].copy_from_slice(&value.to_le_bytes());
}

pub fn hex(bytes: &[u8]) -> String {
    bytes.iter().map(|b| format!("{b:02X}")).collect()
}

/// A fixed scatter of numbers (the finisher of splitmix64), where a counter would fall into step with the nested loops.
pub fn mix(n: u64) -> u64 {
    let n = (n ^ (n >> 30)).wrapping_mul(0xBF58_476D_1CE4_E5B9);
    let n = (n ^ (n >> 27)).wrapping_mul(0x94D0_49BB_1331_11EB);
    n ^ (n >> 31)
}
