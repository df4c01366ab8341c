//! Refusals in words: what a question asks, and what to do (REFERENCE 5 and 11).

use fsq::Refusal;

/// What a question asks.
pub fn question(number: u8) -> &'static str {
    match number {
        1 => "are the count, the operands and the repeat well formed?",
        2 => "is it another operation than INT1 and ESC?",
        3 => "is byte or word stated where the operation needs it?",
        4 => "are no two stated sizes unequal?",
        5 => "does a form of the operation take these operands?",
        6 => "is each value that the form holds in its range?",
        7 => "is the target -128 to 127 bytes from the end of the branch?",
        _ => "do the bytes have room?",
    }
}

/// What to do about a refusal.
pub fn advice(number: u8) -> &'static str {
    match number {
        1 => "choose other operands, sizes or another jump kind",
        2 => "write byte or word before the first operand",
        3 => "make the sizes equal, or leave one out",
        4 => "INC and DEC: write the size; POP and XLATB: a word, and for POP a register or memory",
        5 => "bring the value within the limits",
        6 => "JMP: leave out short; a conditional jump or loop: let it go over a JMP without a kind",
        7 => "leave the instruction out; there is no form for it",
        8 => "the record is damaged, or its writer is wrong: make the file again",
        12 => "it is no show file, or its front is lost",
        13 => "the file is of another time, or its front is damaged: make it again",
        14 => "the file is cut, or something is added to it: copy or make it again",
        15 => "the record is damaged, or its writer is wrong: make the file again",
        19 => "a list of cues has four bytes a cue, and at most 200 cues",
        20 => "give each cue a delay of 1 to 65535",
        21 => "the desk runs MOV of a number, LOOP, JMP, OUT of AL and HLT alone",
        22 => "give the run more steps; where none are enough, HLT is never reached",
        24 => "give the shift a count of 1 to 31, or shift by CL",
        25 => "let the branch go to the start of a record, or to the end of the show",
        23 => "REP and REPNE stand before the ten string operations alone",
        _ => "see docs/REFERENCE.md, 11",
    }
}

/// The refusal, its question and what to do, a line each.
pub fn refusal(refusal: &Refusal) -> String {
    let mut text = format!("{refusal}\n");
    if let Some(number) = refusal.question() {
        text.push_str(&format!("    question {number}: {} No.\n", question(number)));
    }
    text.push_str(&format!("    do: {}\n", advice(refusal.number())));
    text
}
