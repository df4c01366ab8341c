//! `fsq diff`: what has changed between two shows.

use crate::alignment::{align, Likeness, Step};
use crate::answer::Answer;
use crate::explain;
use crate::landing::{targets, with_target, Landing, Target};
use fsq::{Instruction, Operation, Show};
use std::collections::HashMap;

/// A record as it is compared.
struct Item {
    offset: u16,
    bytes: Vec<u8>,
    operation: Operation,
    /// the plain instruction
    text: String,
    /// the numbers of two texts: with all but a near target, and without all numbers
    same: usize,
    alike: usize,
    target: Option<Target>,
}

/// Texts by numbers.
#[derive(Default)]
struct Numbers(HashMap<String, usize>);

impl Numbers {
    fn of(&mut self, text: String) -> usize {
        let next = self.0.len();
        *self.0.entry(text).or_insert(next)
    }
}

fn items(show: &Show, numbers: &mut Numbers) -> Vec<Item> {
    let item = |(record, target): (fsq::Record, Option<Target>)| {
        let plain = Instruction::from_record(record.record).and_then(|instruction| instruction.plain(record.offset));
        let instruction = plain.expect("a record of a show that loads is accepted");
        let without_target = if target.is_some() { with_target(&instruction, "?") } else { instruction.to_string() };
        let alike = numbers.of(format!("alike {}", without_numbers(&without_target)));
        let same = numbers.of(without_target);
        Item {
            offset: record.offset,
            bytes: record.bytes.to_vec(),
            operation: instruction.operation(),
            text: instruction.to_string(),
            same,
            alike,
            target,
        }
    };
    show.records().zip(targets(show)).map(item).collect()
}

/// A text with # in the place of each number and its sign.
fn without_numbers(text: &str) -> String {
    let mut without = String::new();
    for character in text.chars() {
        let is_number = character.is_ascii_digit();
        if is_number && without.ends_with(['+', '-']) {
            without.pop();
        }
        if !is_number {
            without.push(character);
        } else if !without.ends_with('#') {
            without.push('#');
        }
    }
    without
}

impl Item {
    fn at(&self, number: usize) -> String {
        format!("record {number} at {:04X}", self.offset)
    }
}

/// A target in words.
fn place(target: &Target, items: &[Item]) -> String {
    match target.landing {
        Landing::Record(record) => format!("{} ({})", items[record].at(record), items[record].text),
        Landing::End => "the end of the show".into(),
        Landing::Inside { record, .. } => format!("{:04X}, inside {} ({})", target.target, items[record].at(record), items[record].text),
        Landing::Outside => format!("{:04X}, outside the show", target.target),
    }
}

/// What has changed from one show to another, a line each: records that are added, removed or have other numbers, and branches that land elsewhere.
/// Branches that have other bytes and land on the same record are counted in one line. A branch of the new show that goes astray is a fault.
pub fn diff(old: (&[u8], &str), new: (&[u8], &str)) -> Answer {
    let mut shows = Vec::new();
    for (file, name) in [old, new] {
        match Show::load(file) {
            Ok(show) => shows.push(show),
            Err(refusal) => return Answer::fault(format!("{name}: {}", explain::refusal(&refusal))),
        }
    }
    let mut numbers = Numbers::default();
    let (before, after) = (items(&shows[0], &mut numbers), items(&shows[1], &mut numbers));
    let mut out = String::new();
    if shows[0].origin() != shows[1].origin() {
        out.push_str(&format!("origin   {:04X} is now {:04X}\n", shows[0].origin(), shows[1].origin()));
    }
    out.push_str(&changes(&before, &after));
    if out.is_empty() {
        out.push_str("no change\n");
    }
    let astray = after.iter().flat_map(|item| item.target).filter(|target| !target.landing.is_right()).count();
    let targets = if astray == 1 { "1 near target is".into() } else { format!("{astray} near targets are") };
    match astray {
        0 => Answer::done(out),
        _ => Answer::fault(format!("{}: {targets} no record's start: see fsq check\n", new.1)).with(out),
    }
}

/// The lines of the records.
fn changes(before: &[Item], after: &[Item]) -> String {
    let steps = align(before.len(), after.len(), |o, n| match (&before[o], &after[n]) {
        (old, new) if old.same == new.same => Likeness::Same,
        (old, new) if old.alike == new.alike => Likeness::Alike,
        _ => Likeness::Other,
    });
    // For each old record the new one that stands beside it.
    let mut now = vec![None; before.len()];
    for step in &steps {
        if let Step::Both(o, n) = *step {
            now[o] = Some(n);
        }
    }
    let (mut out, mut followed) = (String::new(), 0);
    for step in &steps {
        match *step {
            Step::Old(o) => out.push_str(&format!("removed  {}: {}\n", before[o].at(o), before[o].text)),
            Step::New(n) => out.push_str(&format!("added    {}: {}\n", after[n].at(n), after[n].text)),
            Step::Both(o, n) => {
                let (old, new) = (&before[o], &after[n]);
                if old.same != new.same {
                    let place = if old.at(o) == new.at(n) { String::new() } else { format!(", {}", new.at(n)) };
                    out.push_str(&format!("changed  {}: {} is now {}{place}\n", old.at(o), old.text, new.text));
                }
                match (&old.target, &new.target) {
                    (Some(from), Some(to)) if !lands_as_before(from, to, &now) => {
                        let (from, to) = (place(from, before), place(to, after));
                        out.push_str(&format!("jump     {}: {} lands on {to}; before on {from}\n", new.at(n), new.operation));
                    }
                    (Some(_), Some(_)) if old.same == new.same && old.bytes != new.bytes => followed += 1,
                    _ => {}
                }
            }
        }
    }
    match followed {
        0 => {}
        1 => out.push_str("1 jump has other bytes and lands on the same record\n"),
        _ => out.push_str(&format!("{followed} jumps have other bytes and land on the same record\n")),
    }
    out
}

/// Whether two targets are the same record, or the same byte of it, given for each old record the new one beside it.
fn lands_as_before(old: &Target, new: &Target, now: &[Option<usize>]) -> bool {
    match (old.landing, new.landing) {
        (Landing::Record(old), Landing::Record(new)) => now[old] == Some(new),
        (Landing::Inside { record: old, byte }, Landing::Inside { record: new, byte: same }) => now[old] == Some(new) && byte == same,
        (Landing::Outside, Landing::Outside) => old.target == new.target,
        (old, new) => (old, new) == (Landing::End, Landing::End),
    }
}
