//! `fsq check`: whether a show may be fired.

use crate::answer::{counted, Answer};
use crate::assembly::assemble;
use crate::explain;
use crate::landing::{astray, targets, Astray};
use crate::place;
use crate::sheet::{refusals, rows};
use fsq::{show_file, Instruction, Record, Show, Span};
use std::iter::once;

/// The text that a show is made of, and its name.
#[derive(Clone, Copy)]
pub struct Quoted<'a> {
    pub name: &'a str,
    pub text: &'a [u8],
}

impl Quoted<'_> {
    /// Whether making the text gives this very file: then it is its source, and no later or earlier one.
    pub fn makes(&self, file: &[u8]) -> bool {
        assemble(self.text).is_ok_and(|made| show_file(made.origin, &made.instructions) == file)
    }

    fn quote(&self, span: &Span) -> String {
        let at = place::place(self.text, span.start as usize);
        let quote = place::quote(self.text, &(span.start as usize..span.end as usize));
        format!("    {}:{}:{}:\n{}", self.name, at.line, at.column, quote)
    }
}

/// Says that a show loads and that every near branch lands on a record or the end, or what is wrong: every record that is refused, and every branch that
/// goes astray.
pub fn check(file: &[u8], name: &str, source: Option<Quoted>) -> Answer {
    let source_of = |span: Option<&Span>| match (span, source) {
        (Some(span), _) if span.is_empty() => String::new(),
        (Some(span), Some(source)) if (span.end as usize) <= source.text.len() => source.quote(span),
        (Some(span), _) => format!("    source: bytes {} to {}\n", span.start, span.end),
        (None, _) => String::new(),
    };
    let rows = match rows(file) {
        Ok(rows) => rows,
        Err(refusal) => return Answer::fault(format!("{name}: {}", explain::refusal(&refusal))),
    };
    let mut said = String::new();
    for (row, refusal) in refusals(&rows) {
        said.push_str(&format!("{name}: {}", explain::refusal(refusal)));
        let offset = row.offset.map_or(String::new(), |offset| format!(" at {offset:04X}"));
        if let Some(instruction) = &row.instruction {
            said.push_str(&format!("    record{offset}: {instruction}\n"));
        }
        said.push_str(&source_of(refusal.span.as_ref()));
    }
    if !said.is_empty() {
        return Answer::fault(said);
    }
    let show = match Show::load(file) {
        Ok(show) => show,
        Err(refusal) => return Answer::fault(format!("{name}: {}", explain::refusal(&refusal))),
    };
    let targets = targets(&show);
    // Whether all land, and which is the first that does not, the library says; the others are told as well.
    if let Err(refusal) = fsq::check(file) {
        let Some(first) = Astray::of(&refusal) else {
            return Answer::fault(format!("{name}: {}", explain::refusal(&refusal)));
        };
        let records: Vec<Record> = show.records().collect();
        for astray in once(first).chain(astray(&targets).filter(|astray| astray.record > first.record)) {
            said.push_str(&format!("{name}: {}\n", said_of(&records, &astray)));
            let span = instruction_of(&records[astray.record]).map(|instruction| instruction.span());
            said.push_str(&source_of(span.as_ref()));
        }
        return Answer::fault(said);
    }
    let end = show.origin().wrapping_add(show.image().len() as u16);
    let (records, bytes) = (counted(show.len() as u64, "record"), counted(show.image().len() as u64, "byte"));
    let targets = counted(targets.iter().flatten().count() as u64, "near target");
    let origin = show.origin();
    Answer::done(format!(
        "{name}: loads. {records}, {bytes}, from {origin:04X} to {end:04X}. {targets}, each the start of a record or the end.\n"
    ))
}

fn instruction_of(record: &Record) -> Option<Instruction> {
    Instruction::from_record(record.record).ok()
}

/// A branch that goes astray, in words.
fn said_of(records: &[Record], astray: &Astray) -> String {
    let record = |number: usize| {
        let instruction = instruction_of(&records[number]).map_or(String::new(), |instruction| instruction.to_string());
        format!("record {number} at {:04X}, {instruction}", records[number].offset)
    };
    let place = astray.into.map_or("outside the show".into(), |into| format!("inside {}", record(into)));
    format!("refusal 25 of {}: the target {:04X} is no record's start: it is {place}", record(astray.record), astray.target)
}
