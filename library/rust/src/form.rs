//! Forms.

use crate::bindings::FSQ_FORM_LENGTH;
use crate::instruction::Instruction;
use crate::library;
use crate::refusal::Refusal;
use core::fmt;
use core::ops::RangeInclusive;
use core::str::{self, Split};

/// The form by which an instruction is written. It prints as `fsqform` does, without the line feed: the opcode as written, its digit where it has one,
/// kind and stated size of each operand that the form uses, and the limits of the immediate, or `-`.
///
/// ```
/// use fsq::{form, Instruction, Operation, Register};
///
/// // Document 02, No. 3.
/// let add = form(&Instruction::two(Operation::ADD, Register::BX, 5), 0)?;
/// assert_eq!(add.as_str(), "form 83 /0 Reg:Word Imm:Unspecified -128..127");
/// assert_eq!((add.opcode(), add.digit(), add.limits()), (0x83, Some(0), Some(-128..=127)));
/// assert!(add.operands().eq(["Reg:Word", "Imm:Unspecified"]));
///
/// let push = form(&Instruction::one(Operation::PUSH, Register::BX), 0)?;
/// assert_eq!(push.as_str(), "form 53 Reg:Word -");
/// assert_eq!((push.opcode(), push.digit(), push.limits()), (0x53, None, None));
/// # Ok::<(), fsq::Refusal>(())
/// ```
#[derive(Clone, Copy, PartialEq, Eq, Hash)]
pub struct Form {
    length: u8,
    text: [u8; FSQ_FORM_LENGTH],
}

impl Form {
    /// The line, without its line feed.
    pub fn as_str(&self) -> &str {
        str::from_utf8(&self.text[..self.length as usize]).expect("a line is ASCII")
    }

    /// What stands behind the word `form`.
    fn parts(&self) -> Split<'_, char> {
        let mut parts = self.as_str().split(' ');
        parts.next();
        parts
    }

    /// The opcode as written, with the register of a +r or +s; never the prefix nor the repeat.
    pub fn opcode(&self) -> u8 {
        self.parts().next().and_then(|opcode| u8::from_str_radix(opcode, 16).ok()).expect("an opcode stands first")
    }

    /// The n of /n, where it belongs to the opcode: not the reg field of /r.
    pub fn digit(&self) -> Option<u8> {
        self.parts().nth(1)?.strip_prefix('/')?.parse().ok()
    }

    /// Kind and stated size of each operand that the form uses, in the instruction's order: `Reg:Word`.
    pub fn operands(&self) -> impl Iterator<Item = &str> {
        self.parts().filter(|part| part.contains(':'))
    }

    /// The limits of question 6 on the immediate.
    pub fn limits(&self) -> Option<RangeInclusive<i32>> {
        let (low, high) = self.parts().next_back()?.split_once("..")?;
        Some(low.parse().ok()?..=high.parse().ok()?)
    }
}

impl AsRef<str> for Form {
    fn as_ref(&self) -> &str {
        self.as_str()
    }
}

impl fmt::Display for Form {
    fn fmt(&self, f: &mut fmt::Formatter<'_>) -> fmt::Result {
        f.pad(self.as_str())
    }
}

impl fmt::Debug for Form {
    fn fmt(&self, f: &mut fmt::Formatter<'_>) -> fmt::Result {
        f.write_str(self.as_str())
    }
}

/// Tells by which form an instruction is written at an offset. One that is not is refused as [`encode`](crate::encode) refuses it, and
/// [`Refusal::question`] is the question that `fsqform` prints.
///
/// ```
/// use fsq::{form, Instruction, Operation, Register};
///
/// // Document 02, No. 3: NOP and XCHG AX,AX are 90, and JMP 65536 is question 6's.
/// assert_eq!(form(&Instruction::none(Operation::NOP), 0)?.as_str(), "form 90 -");
/// let exchange = Instruction::two(Operation::XCHG, Register::AX, Register::AX);
/// assert_eq!(form(&exchange, 0)?.as_str(), "form 90 Reg:Word Reg:Word -");
/// let refusal = form(&Instruction::one(Operation::JMP, 65536), 0).unwrap_err();
/// assert_eq!((refusal.number(), refusal.question()), (5, Some(6)));
/// # Ok::<(), fsq::Refusal>(())
/// ```
pub fn form(instruction: &Instruction, offset: u16) -> Result<Form, Refusal> {
    form_record(&instruction.to_record(), offset)
}

/// Tells by which form a record of a show file is written; any 56 or 57 bytes are safe. It is refused where [`encode_record`](crate::encode_record) refuses it.
///
/// ```
/// use fsq::{form_record, Instruction, Operation, Reason};
///
/// // Document 02, No. 3: AAM.
/// let record = Instruction::none(Operation::AAM).to_record();
/// assert_eq!(form_record(&record, 0)?.as_str(), "form D4 -");
/// assert_eq!(form_record(&record[1..], 0).unwrap_err().reason, Reason::WrongLength);
/// # Ok::<(), fsq::Refusal>(())
/// ```
pub fn form_record(record: &[u8], offset: u16) -> Result<Form, Refusal> {
    let mut text = [0; FSQ_FORM_LENGTH];
    let length = library::form(record, offset, &mut text)?;
    Ok(Form { length, text })
}
