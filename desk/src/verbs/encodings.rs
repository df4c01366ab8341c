//! `fsq encodings`: all byte strings of an instruction.

use crate::answer::Answer;
use crate::assembly::assemble_at;
use crate::place;
use fsq::{encode, encode_shortest, form, list, read, Extension, Instruction, Refusal};

/// All strings of one instruction's text at an offset, each with its form: the opcode, and what the manual writes behind it.
pub fn encodings(text: &str, offset: u16) -> Answer {
    let assembly = match assemble_at(text.as_bytes(), offset) {
        Ok(assembly) => assembly,
        Err(mistakes) => return Answer::fault(place::all(mistakes, "instruction", text.as_bytes())),
    };
    let [instruction] = assembly.instructions.as_slice() else {
        return Answer::fault(format!("{} instructions, and one is expected\n", assembly.instructions.len()));
    };
    match strings(instruction, assembly.origin) {
        Ok(strings) => Answer::done(strings),
        Err(refusal) => Answer::fault(format!("{instruction}: {refusal}\n")),
    }
}

fn strings(instruction: &Instruction, offset: u16) -> Result<String, Refusal> {
    let (own, shortest) = (encode(instruction, offset)?, encode_shortest(instruction, offset)?);
    let mut out = format!("{instruction} at {offset:04X}: {}\n", form(instruction, offset)?);
    for string in &list(instruction, offset)? {
        let reading = read(string, offset)?;
        let notes = [(own, "as in a show"), (shortest, "shortest")];
        let notes: Vec<&str> = notes.into_iter().filter(|(one, _)| one == string).map(|(_, note)| note).collect();
        let line = format!("{:<20}  {:<6}  {}", string.to_string(), form_of(reading.opcode, reading.extension), notes.join(", "));
        out.push_str(line.trim_end());
        out.push('\n');
    }
    Ok(out)
}

/// A form as the manual writes it: `83 /0`, `8B /r`, `50+r`.
fn form_of(opcode: u8, extension: Extension) -> String {
    match extension {
        Extension::PlusRegister => format!("{opcode:02X}+r"),
        Extension::PlusSegment => format!("{opcode:02X}+s"),
        Extension::ModRm => format!("{opcode:02X} /r"),
        Extension::Digit(digit) => format!("{opcode:02X} /{digit}"),
        Extension::Second0A => format!("{opcode:02X} 0A"),
        _ => format!("{opcode:02X}"),
    }
}
