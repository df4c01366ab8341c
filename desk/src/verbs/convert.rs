//! `fsq convert`: a show from a 186 module as one for the 8086.

use crate::answer::Answer;
use crate::explain;
use fsq::{encode, records, Instruction, Refusal};

/// The converted show file. A refusal of the converted show is said with the record of the file too, since that is where it is mended.
pub fn convert(file: &[u8], name: &str) -> Answer {
    match fsq::convert(file) {
        Ok(converted) => Answer::done(converted),
        Err(refusal) => {
            let stands_for = stood(file, &refusal).map_or(String::new(), |record| {
                format!("    the record is one of the converted show, each copy of a shift among them; it stands for record {record} of {name}\n")
            });
            Answer::fault(format!("{name}: {}{stands_for}", explain::refusal(&refusal)))
        }
    }
}

/// The record of the file that a refused record of the converted show stands for; none where the refusal is of the file itself.
fn stood(file: &[u8], refusal: &Refusal) -> Option<usize> {
    if !matches!(refusal.number(), 5 | 6) {
        return None;
    }
    let refused = refusal.record? as usize;
    let (mut offset, records) = records(file).ok()?;
    let mut first = 0;
    for (number, record) in records.enumerate() {
        let instruction = Instruction::from_record(record).ok()?;
        let times = times(&instruction);
        // One of the file that is refused where it stood is the refusal's own.
        let length = encode(&by_one(&instruction), offset).ok()?.len();
        if refused < first + times {
            return Some(number);
        }
        offset = offset.wrapping_add((length + usize::from(times > 1)) as u16);
        first += times;
    }
    None
}

/// How many records it becomes: the count of a shift or rotate.
fn times(instruction: &Instruction) -> usize {
    let is_shift = matches!(instruction.operation().to_string().as_str(), "SHL" | "SHR" | "SAR" | "ROL" | "ROR" | "RCL" | "RCR");
    match instruction.operands() {
        [_, count] if is_shift => count.to_string().parse().unwrap_or(1),
        _ => 1,
    }
}

/// The instruction with its count read as 1.
fn by_one(instruction: &Instruction) -> Instruction {
    match (times(instruction), instruction.operands()) {
        (2.., [first, _]) => Instruction::two(instruction.operation(), first.clone(), 1),
        _ => instruction.clone(),
    }
}
