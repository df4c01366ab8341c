//! The text of instructions and operands, printed and parsed. It stands outside the proofs; [`Instruction`] has its syntax.

use crate::instruction::{Instruction, Repeat};
use crate::operand::{Base, Jump, Kind, Operand, Register, Segment, Size};
use crate::operation::Operation;
use core::fmt;
use core::str::FromStr;

/// Where a text is not an instruction, operand or operation.
///
/// ```
/// use fsq::Instruction;
///
/// let error = "MOV AX 5".parse::<Instruction>().unwrap_err();
/// assert_eq!(error.to_string(), "at byte 7 of the text: a comma or the end is expected");
/// ```
#[derive(Clone, Debug, PartialEq, Eq, Hash)]
#[non_exhaustive]
pub struct ParseError {
    /// the byte of the text, from 0
    pub at: usize,
    /// what may stand there
    pub expected: &'static str,
}

impl fmt::Display for ParseError {
    fn fmt(&self, f: &mut fmt::Formatter<'_>) -> fmt::Result {
        write!(f, "at byte {} of the text: {} is expected", self.at, self.expected)
    }
}

impl core::error::Error for ParseError {}

/// What an operand's text says beside size and jump kind.
enum Said {
    Register(Register),
    Segment(Segment),
    Immediate(i32),
    Far { segment: i32, offset: i32 },
    Memory { segment: Option<Segment>, length: Option<Size>, base: Option<Base>, displacement: i32 },
}

impl Said {
    /// What the text of an operand would say, if it can be said.
    fn of(operand: &Operand) -> Option<Said> {
        let place = operand.rm as usize;
        Some(match operand.kind {
            Kind::Register => Said::Register(*Register::ALL.get(place + if operand.size? == Size::Word { 8 } else { 0 })?),
            Kind::Segment => Said::Segment(*Segment::ALL.get(place)?),
            Kind::Immediate if operand.jump == Some(Jump::Far) => Said::Far { segment: operand.displacement, offset: operand.immediate },
            Kind::Immediate => Said::Immediate(operand.immediate),
            Kind::Memory => {
                let displacement = operand.displacement;
                let base = if (operand.mode, operand.rm) == (0, 6) { None } else { Some(*Base::ALL.get(place)?) };
                let length = match base {
                    Some(base) if operand.mode != Operand::memory(base, displacement).mode => operand.displacement_size,
                    _ => None,
                };
                let segment = Segment::ALL.into_iter().find(|segment| segment.prefix() == operand.prefix);
                Said::Memory { segment, length, base, displacement }
            }
        })
    }

    /// What the text of an operand says, with size and jump kind, where they are all that the operand has.
    fn whole(operand: &Operand) -> Option<(Said, Option<Size>, Option<Jump>)> {
        let said = Said::of(operand)?;
        let size = operand.size.filter(|_| matches!(said, Said::Immediate(_) | Said::Far { .. } | Said::Memory { .. }));
        let jump = operand.jump.filter(|_| !matches!(said, Said::Far { .. }));
        (said.operand(size, jump) == Operand { span: 0..0, ..operand.clone() }).then_some((said, size, jump))
    }

    /// The operand of a text.
    fn operand(&self, size: Option<Size>, jump: Option<Jump>) -> Operand {
        let operand = match *self {
            Said::Register(register) => register.into(),
            Said::Segment(segment) => segment.into(),
            Said::Immediate(value) => value.into(),
            Said::Far { segment, offset } => Operand { immediate: offset, displacement: segment, jump: Some(Jump::Far), ..Operand::EMPTY },
            Said::Memory { segment, length, base, displacement } => {
                let memory = match base {
                    None => Operand { displacement, ..Operand::address(0) },
                    Some(base) => Operand::memory(base, displacement),
                };
                let memory = match length {
                    None => memory,
                    Some(length) => Operand { mode: length as u8, displacement_size: Some(length), ..memory },
                };
                segment.map_or(memory.clone(), |segment| memory.in_segment(segment))
            }
        };
        Operand { size: size.or(operand.size), jump: jump.or(operand.jump), ..operand }
    }
}

fn keyword(size: Size) -> &'static str {
    match size {
        Size::Byte => "byte",
        Size::Word => "word",
    }
}

fn jump_keyword(jump: Jump) -> &'static str {
    match jump {
        Jump::Far => "far",
        Jump::Near => "near",
        Jump::Short => "short",
    }
}

/// As [`Instruction`] has it: `word [BX+SI-2]`. The text is not part of what is proved.
impl fmt::Display for Operand {
    fn fmt(&self, f: &mut fmt::Formatter<'_>) -> fmt::Result {
        let Some((said, size, jump)) = Said::whole(self) else { return self.fields(f) };
        if let Some(jump) = jump {
            write!(f, "{} ", jump_keyword(jump))?;
        }
        if let Some(size) = size {
            write!(f, "{} ", keyword(size))?;
        }
        match said {
            Said::Register(register) => write!(f, "{register:?}"),
            Said::Segment(segment) => write!(f, "{segment:?}"),
            Said::Immediate(value) => write!(f, "{value}"),
            Said::Far { segment, offset } => write!(f, "{segment}:{offset}"),
            Said::Memory { segment, length, base, displacement } => {
                if let Some(segment) = segment {
                    write!(f, "{segment:?}:")?;
                }
                f.write_str("[")?;
                if let Some(length) = length {
                    write!(f, "{} ", keyword(length))?;
                }
                match base {
                    None => write!(f, "{displacement}]"),
                    Some(base) if displacement == 0 && length.is_none() => write!(f, "{}]", base.text()),
                    Some(base) => write!(f, "{}{displacement:+}]", base.text()),
                }
            }
        }
    }
}

impl Operand {
    /// All fields that are not 0, in braces.
    fn fields(&self, f: &mut fmt::Formatter<'_>) -> fmt::Result {
        let kind = match self.kind {
            Kind::Immediate => "immediate",
            Kind::Register => "register",
            Kind::Segment => "segment register",
            Kind::Memory => "memory",
        };
        write!(f, "{{{kind}, mode {}, r/m {}", self.mode, self.rm)?;
        if let Some(size) = self.size {
            write!(f, ", size {}", keyword(size))?;
        }
        if self.prefix != 0 {
            write!(f, ", prefix {:02X}", self.prefix)?;
        }
        if let Some(jump) = self.jump {
            write!(f, ", jump {}", jump_keyword(jump))?;
        }
        if self.immediate != 0 {
            write!(f, ", immediate {}", self.immediate)?;
        }
        if let Some(size) = self.displacement_size {
            write!(f, ", displacement size {}", keyword(size))?;
        }
        if self.displacement != 0 {
            write!(f, ", displacement {}", self.displacement)?;
        }
        f.write_str("}")
    }
}

/// As its section on the text has it. The text is not part of what is proved.
impl fmt::Display for Instruction {
    fn fmt(&self, f: &mut fmt::Formatter<'_>) -> fmt::Result {
        if let Some(repeat) = self.repeat() {
            write!(f, "{} ", repeat.name())?;
        }
        write!(f, "{}", self.operation)?;
        for (n, operand) in self.operands.iter().enumerate() {
            if n < self.operands().len() {
                f.write_str(if n == 0 { " " } else { "," })?;
                match (self.operation, operand.kind, operand.size) {
                    (Operation::XLATB, Kind::Memory, Some(Size::Word)) if Said::whole(operand).is_some() => {
                        write!(f, "{}", Operand { size: None, ..operand.clone() })?;
                    }
                    (Operation::XLATB, Kind::Memory, None) => operand.fields(f)?,
                    _ => write!(f, "{operand}")?,
                }
            } else if (Operand { span: 0..0, ..operand.clone() }) != Operand::EMPTY {
                write!(f, " {{operand {n} beyond the count: {operand}}}")?;
            }
        }
        if self.count > 2 || (self.operation, self.count) == (Operation::XLATB, 0) {
            write!(f, " {{count {}}}", self.count)?;
        }
        if self.repeat != 0 && self.repeat().is_none() {
            write!(f, " {{repeat {:02X}}}", self.repeat)?;
        }
        Ok(())
    }
}

/// By its name, or another that the manual has for it, in either case.
impl FromStr for Operation {
    type Err = ParseError;

    fn from_str(text: &str) -> Result<Operation, ParseError> {
        let mut cursor = Cursor { text, at: 0 };
        let operation = cursor.operation()?;
        cursor.end("the end")?;
        Ok(operation)
    }
}

/// As [`Instruction`] has it: `word [BX+SI-2]`. The text is not part of what is proved.
impl FromStr for Operand {
    type Err = ParseError;

    fn from_str(text: &str) -> Result<Operand, ParseError> {
        let mut cursor = Cursor { text, at: 0 };
        let operand = cursor.operand()?;
        cursor.end("the end")?;
        Ok(operand)
    }
}

/// As its section on the text has it. The text is not part of what is proved.
impl FromStr for Instruction {
    type Err = ParseError;

    fn from_str(text: &str) -> Result<Instruction, ParseError> {
        let mut cursor = Cursor { text, at: 0 };
        let operation = cursor.operation()?;
        // REP and REPNE belong to an operation that follows them.
        let repeat = match operation {
            Operation::REP => Some(Repeat::Rep),
            Operation::REPNE => Some(Repeat::Repne),
            _ => None,
        };
        match repeat.and_then(|_| cursor.operation().ok()) {
            Some(repeated) => Ok(cursor.instruction(repeated)?.repeated(repeat)),
            None => cursor.instruction(operation),
        }
    }
}

/// A text and a place in it.
struct Cursor<'a> {
    text: &'a str,
    at: usize,
}

impl<'a> Cursor<'a> {
    /// The instruction of an operation, with the operands to the end of the text.
    fn instruction(&mut self, operation: Operation) -> Result<Instruction, ParseError> {
        if self.end("").is_ok() {
            return Ok(match operation {
                Operation::XLATB => Instruction::one(operation, Operand::memory(Base::BX, 0).word()),
                _ => Instruction::none(operation),
            });
        }
        let sized = |operand: Operand| match (operation, operand.kind, operand.size) {
            (Operation::XLATB, Kind::Memory, None) => operand.word(),
            _ => operand,
        };
        let first = sized(self.operand()?);
        if !self.take(b',') {
            self.end("a comma or the end")?;
            return Ok(Instruction::one(operation, first));
        }
        let second = sized(self.operand()?);
        self.end("the end")?;
        Ok(Instruction::two(operation, first, second))
    }

    fn expected<T>(&self, expected: &'static str) -> Result<T, ParseError> {
        Err(ParseError { at: self.at, expected })
    }

    fn blanks(&mut self) {
        self.at += self.text.as_bytes()[self.at..].iter().take_while(|byte| matches!(byte, b' ' | b'\t')).count();
    }

    fn end(&mut self, expected: &'static str) -> Result<(), ParseError> {
        self.blanks();
        if self.at == self.text.len() {
            Ok(())
        } else {
            self.expected(expected)
        }
    }

    /// Steps over a byte, if it is the next that is not blank.
    fn take(&mut self, byte: u8) -> bool {
        self.blanks();
        let is_next = self.text.as_bytes().get(self.at) == Some(&byte);
        self.at += usize::from(is_next);
        is_next
    }

    /// The letters and digits that come next.
    fn word(&mut self) -> &'a str {
        self.blanks();
        let rest = &self.text[self.at..];
        &rest[..rest.bytes().take_while(u8::is_ascii_alphanumeric).count()]
    }

    /// Steps over the next word, if it is one of these names.
    fn one_of<T: Copy>(&mut self, names: &[(&str, T)]) -> Option<T> {
        let word = self.word();
        let &(_, named) = names.iter().find(|(name, _)| name.eq_ignore_ascii_case(word))?;
        self.at += word.len();
        Some(named)
    }

    fn operation(&mut self) -> Result<Operation, ParseError> {
        use Operation::*;
        const OTHER_NAMES: [(&str, Operation); 20] = [
            ("SAL", SHL),
            ("JZ", JE),
            ("JNGE", JL),
            ("JNG", JLE),
            ("JNAE", JB),
            ("JC", JB),
            ("JNA", JBE),
            ("JPE", JP),
            ("JNZ", JNE),
            ("JGE", JNL),
            ("JG", JNLE),
            ("JAE", JNB),
            ("JNC", JNB),
            ("JA", JNBE),
            ("JPO", JNP),
            ("LOOPE", LOOPZ),
            ("LOOPNE", LOOPNZ),
            ("REPE", REP),
            ("REPZ", REP),
            ("REPNZ", REPNE),
        ];
        if let Some(operation) = self.one_of(&OTHER_NAMES).or_else(|| self.one_of(&Operation::ALL.map(|o| (o.name(), o)))) {
            return Ok(operation);
        }
        self.expected("the name of an operation")
    }

    fn size(&mut self) -> Option<Size> {
        self.one_of(&[("byte", Size::Byte), ("word", Size::Word)])
    }

    fn segment(&mut self) -> Option<Segment> {
        self.one_of(&[("ES", Segment::ES), ("CS", Segment::CS), ("SS", Segment::SS), ("DS", Segment::DS)])
    }

    fn register(&mut self) -> Option<Register> {
        use Register::*;
        let bytes = self.one_of(&[("AL", AL), ("CL", CL), ("DL", DL), ("BL", BL), ("AH", AH), ("CH", CH), ("DH", DH), ("BH", BH)]);
        bytes.or_else(|| self.one_of(&[("AX", AX), ("CX", CX), ("DX", DX), ("BX", BX), ("SP", SP), ("BP", BP), ("SI", SI), ("DI", DI)]))
    }

    /// The digits that come next, under a sign that stood before them.
    fn number(&mut self, negative: bool, expected: &'static str) -> Result<i32, ParseError> {
        let word = self.word();
        let (digits, radix) = match word.strip_prefix("0x").or(word.strip_prefix("0X")) {
            Some(digits) => (digits, 16),
            None => (word, 10),
        };
        if !word.starts_with(|first: char| first.is_ascii_digit()) {
            return self.expected(expected);
        }
        let value = i64::from_str_radix(digits, radix).ok().and_then(|value| i32::try_from(if negative { -value } else { value }).ok());
        match value {
            Some(value) => {
                self.at += word.len();
                Ok(value)
            }
            None => self.expected("a number of 32 bits, decimal, or hexadecimal behind 0x"),
        }
    }

    /// Steps over a sign: whether it is a minus.
    fn sign(&mut self) -> Option<bool> {
        if self.take(b'-') {
            Some(true)
        } else {
            self.take(b'+').then_some(false)
        }
    }

    fn operand(&mut self) -> Result<Operand, ParseError> {
        const JUMPS: [(&str, Jump); 3] = [("far", Jump::Far), ("near", Jump::Near), ("short", Jump::Short)];
        let (mut size, mut jump) = (None, None);
        loop {
            let before = self.at;
            if size.is_none() {
                size = self.size();
            }
            if jump.is_none() {
                jump = self.one_of(&JUMPS);
            }
            if self.at == before {
                break;
            }
        }
        self.blanks();
        let at = self.at;
        let said = if let Some(register) = self.register() {
            Said::Register(register)
        } else if let Some(segment) = self.segment() {
            if self.take(b':') {
                if !self.take(b'[') {
                    return self.expected("[");
                }
                self.memory(Some(segment))?
            } else {
                Said::Segment(segment)
            }
        } else if self.take(b'[') {
            self.memory(None)?
        } else {
            let negative = self.sign().unwrap_or(false);
            let value = self.number(negative, "a register, a segment register, [ or a number")?;
            if self.take(b':') {
                let negative = self.sign().unwrap_or(false);
                Said::Far { segment: value, offset: self.number(negative, "the offset of a far target")? }
            } else {
                Said::Immediate(value)
            }
        };
        let error = |expected| Err(ParseError { at, expected });
        match (&said, size, jump) {
            (Said::Register(register), Some(size), _) if size != register.size() => error("a register of the size"),
            (Said::Segment(_), Some(Size::Byte), _) => error("an operand that can be a byte"),
            (Said::Immediate(_), _, Some(Jump::Far)) => error("segment:offset of a far target"),
            (Said::Far { .. }, _, Some(Jump::Near | Jump::Short)) => error("a target without a segment"),
            _ => Ok(said.operand(size, jump)),
        }
    }

    /// Memory, behind its opening bracket.
    fn memory(&mut self, mut segment: Option<Segment>) -> Result<Said, ParseError> {
        let mut length = self.size();
        if segment.is_none() {
            segment = self.segment();
            if segment.is_some() {
                if !self.take(b':') {
                    return self.expected(":");
                }
                length = length.or_else(|| self.size());
            }
        }
        let (mut registers, mut displacement) = (0, None);
        let mut sign = self.sign();
        loop {
            self.blanks();
            let at = self.at;
            // A bit for each register; none stands twice or is subtracted.
            match self.one_of(&[("BX", 1), ("BP", 2), ("SI", 4), ("DI", 8)]) {
                Some(register) if registers & register == 0 && sign != Some(true) => registers |= register,
                None if displacement.is_none() => {
                    displacement = Some(self.number(sign == Some(true), "BX, BP, SI, DI or a number")?);
                }
                _ => return Err(ParseError { at, expected: "another part of the address" }),
            }
            if self.take(b']') {
                break;
            }
            sign = self.sign();
            if sign.is_none() {
                return self.expected("+, - or ]");
            }
        }
        let base = match registers {
            0 => None,
            1 => Some(Base::BX),
            2 => Some(Base::BP),
            4 => Some(Base::SI),
            8 => Some(Base::DI),
            5 => Some(Base::BX_SI),
            9 => Some(Base::BX_DI),
            6 => Some(Base::BP_SI),
            10 => Some(Base::BP_DI),
            _ => return self.expected("BX or BP, and SI or DI, before ]"),
        };
        match (base, length) {
            (None, Some(Size::Byte)) => self.expected("an address of a word before ]"),
            (None, _) => Ok(Said::Memory { segment, length: None, base, displacement: displacement.unwrap_or(0) }),
            _ => Ok(Said::Memory { segment, length, base, displacement: displacement.unwrap_or(0) }),
        }
    }
}
