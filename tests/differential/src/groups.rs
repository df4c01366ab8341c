//! Operations by what they look at (000's group functions), for the generator and the differences.

use super::records::op::*;

/// In the order of their /n.
pub const ARITHMETIC: [u8; 8] = [ADD, OR, ADC, SBB, AND, SUB, XOR, CMP];

/// Jcc in the order of their opcodes, 70 to 7F.
pub const CONDITIONAL: [u8; 16] = [JO, JNO, JB, JNB, JE, JNE, JBE, JNBE, JS, JNS, JP, JNP, JL, JNL, JLE, JNLE];

/// In the order of their opcodes, E0 to E3.
pub const LOOPS: [u8; 4] = [LOOPNZ, LOOPZ, LOOP, JCXZ];

const BOTH: [u8; 15] = [MOV, TEST, XCHG, LEA, LES, LDS, IN, OUT, ROL, ROR, RCL, RCR, SHL, SHR, SAR];
const FIRST: [u8; 14] = [NOT, NEG, MUL, IMUL, DIV, IDIV, INC, DEC, PUSH, POP, CALL, JMP, INT, XLATB];

pub fn looks_at_both(operation: u8) -> bool {
    ARITHMETIC.contains(&operation) || BOTH.contains(&operation)
}

pub fn looks_at_first(operation: u8) -> bool {
    FIRST.contains(&operation) || CONDITIONAL.contains(&operation) || LOOPS.contains(&operation)
}
