//! What the form of an instruction uses of it.

use crate::encoding::encode;
use crate::form::form;
use crate::instruction::Instruction;
use crate::operand::{Jump, Kind, Operand};
use crate::operation::Operation;
use crate::reading::{read, Part};
use crate::refusal::Refusal;

impl Instruction {
    /// The same without what its form does not use at an offset: further operands, the jump kind of what is no branch, and fields of an operand that
    /// belong to another kind. A register that states no size states the form's. [`encode`](crate::encode) gives the same bytes, and the text has no
    /// brace. It is refused where [`encode`](crate::encode) refuses it.
    ///
    /// ```
    /// use fsq::{encode, Instruction, Operation, Register};
    ///
    /// // Document 01's bench sheet: AAM is D4 0A, whatever its operands are.
    /// let aam = Instruction::two(Operation::AAM, Register::AX, 5);
    /// assert_eq!(aam.to_string(), "AAM AX,5");
    /// assert_eq!(aam.plain(0)?.to_string(), "AAM");
    /// assert_eq!(encode(&aam.plain(0)?, 0)?, [0xD4, 0x0A]);
    /// # Ok::<(), fsq::Refusal>(())
    /// ```
    pub fn plain(&self, offset: u16) -> Result<Instruction, Refusal> {
        let used = form(self, offset)?.operands().count();
        let reading = read(&encode(self, offset)?, offset)?;
        let branches = matches!(self.operation, Operation::CALL | Operation::JMP) || matches!(reading.operands[0], Some(Part::Near(_)));
        // 90 reads as NOP, which has no width: of XCHG's registers one states it.
        let width = reading.width.or(self.operands.iter().find_map(|operand| operand.size));
        let plain = |operand: &Operand| {
            let jump = operand.jump.filter(|_| branches);
            match operand.kind {
                Kind::Immediate if jump == Some(Jump::Far) => operand.clone(),
                Kind::Immediate => Operand { displacement: 0, jump, ..operand.clone() },
                Kind::Register => Operand { immediate: 0, jump, size: operand.size.or(width), ..operand.clone() },
                Kind::Segment | Kind::Memory => Operand { immediate: 0, jump, ..operand.clone() },
            }
        };
        let operands = [0, 1].map(|n| if n < used { plain(&self.operands[n]) } else { Operand::EMPTY });
        Ok(Instruction { count: used as u8, operands, ..self.clone() })
    }
}
