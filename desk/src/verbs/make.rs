//! `fsq make`: the show file of a text.

use crate::answer::Answer;
use crate::assembly::assemble;
use crate::place;
use fsq::{show_file, Show};

/// The show file of a text, whose name is for the messages.
pub fn make(text: &[u8], name: &str) -> Answer {
    let assembly = match assemble(text) {
        Ok(assembly) => assembly,
        Err(mistakes) => return Answer::fault(place::all(mistakes, name, text)),
    };
    let file = show_file(assembly.origin, &assembly.instructions);
    // What is written is what the loader takes.
    match Show::load(&file) {
        Ok(_) => Answer::done(file),
        Err(refusal) => Answer::fault(format!("{name}: {refusal}\n")),
    }
}
