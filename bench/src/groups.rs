//! The groups of document 01, in its order, and how many records of each a show has.

use super::bindings::FSQ_OPERATION_AT;
use super::records::op::*;
use super::show::Show;

const GROUPS: [(&str, &[u8]); 14] = [
    ("arithmetic", &[ADD, OR, ADC, SBB, AND, SUB, XOR, CMP]),
    ("NOT to IDIV", &[NOT, NEG, MUL, IMUL, DIV, IDIV]),
    ("INC DEC", &[INC, DEC]),
    ("MOV", &[MOV]),
    ("XCHG", &[XCHG]),
    ("TEST", &[TEST]),
    ("PUSH POP", &[PUSH, POP]),
    ("LEA LES LDS", &[LEA, LES, LDS]),
    ("shifts", &[ROL, ROR, RCL, RCR, SHL, SHR, SAR]),
    ("CALL JMP", &[CALL, JMP]),
    ("Jcc LOOP", &[JO, JNO, JB, JNB, JE, JNE, JBE, JNBE, JS, JNS, JP, JNP, JL, JNL, JLE, JNLE, LOOPNZ, LOOPZ, LOOP, JCXZ]),
    ("INT", &[INT]),
    ("XLATB", &[XLATB]),
    ("IN OUT", &[IN, OUT]),
];

pub fn is_branch(operation: u8) -> bool {
    GROUPS.iter().any(|(name, group)| matches!(*name, "CALL JMP" | "Jcc LOOP") && group.contains(&operation))
}

/// The counts as text. What stands in no group is an instruction of a single byte.
pub fn counts(show: &Show) -> String {
    let of = |group: &[u8]| show.records.iter().filter(|record| group.contains(&record[FSQ_OPERATION_AT])).count();
    let mut left = show.records.len();
    let mut text = left.to_string();
    for (name, group) in GROUPS {
        left -= of(group);
        text += &format!(", {name} {}", of(group));
    }
    format!("{text}, single bytes {left}").replacen(", ", ": ", 1)
}
