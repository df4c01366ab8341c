//! `fsq text`: the text of a show file.

use crate::answer::Answer;
use crate::assembly::assemble;
use crate::explain;
use crate::landing::{targets, with_target, Landing};
use fsq::{load, show_file, Instruction, Show};
use std::collections::BTreeMap;

/// The text of a show file. Making it gives the same origin, the same number of records and the same image.
pub fn text(file: &[u8], name: &str) -> Answer {
    let show = match Show::load(file) {
        Ok(show) => show,
        Err(refusal) => return Answer::fault(format!("{name}: {}", explain::refusal(&refusal))),
    };
    match text_of(&show) {
        Some(text) if is_made_of(&show, &text) => Answer::done(text),
        _ => Answer::fault(format!("{name}: this show has no text that makes it again\n")),
    }
}

fn is_made_of(show: &Show, text: &str) -> bool {
    let Ok(assembly) = assemble(text.as_bytes()) else { return false };
    assembly.origin == show.origin()
        && assembly.instructions.len() == show.len()
        && load(&show_file(assembly.origin, &assembly.instructions)).is_ok_and(|image| image == show.image())
}

fn text_of(show: &Show) -> Option<String> {
    let targets = targets(show);
    // A label for each record, or the end, that a branch goes to, numbered in their order.
    let mut labels: BTreeMap<usize, String> = BTreeMap::new();
    for target in targets.iter().flatten() {
        if let Some(record) = labelled(target.landing, show.len()) {
            labels.insert(record, String::new());
        }
    }
    for (number, label) in labels.values_mut().enumerate() {
        *label = format!("L{}", number + 1);
    }
    let mut text = format!("        ORG {}\n", show.origin());
    for (number, record) in show.records().enumerate() {
        let instruction = Instruction::from_record(record.record).ok()?.plain(record.offset).ok()?;
        let label = labels.get(&number).map_or(String::new(), |label| format!("{label}:"));
        let target = targets[number].and_then(|target| labels.get(&labelled(target.landing, show.len())?));
        let said = target.map_or_else(|| instruction.to_string(), |label| with_target(&instruction, label));
        text.push_str(&format!("{label:<7} {said}\n"));
    }
    if let Some(end) = labels.get(&show.len()) {
        text.push_str(&format!("{end}:\n"));
    }
    Some(text)
}

/// The record whose label a target has; that of the end is one more.
fn labelled(landing: Landing, end: usize) -> Option<usize> {
    match landing {
        Landing::Record(record) => Some(record),
        Landing::End => Some(end),
        _ => None,
    }
}
