//! NASM beside our encoder: forced text gives equal bytes; what NASM writes for plain text stands in our list and is not shorter than our shortest string. Records
//! without a repeat, then those with one.

use crate::accepted::{self, Accepted};
use crate::assembly::{text, Manner};
use crate::forms::{self, Tally};
use crate::generate;
use crate::library;
use crate::nasm;
use crate::records::{hex, op, NAMES, NONE, UNSTATED};
use crate::shapes;
use crate::{Depth, Failures};

pub fn run(depth: Depth) -> bool {
    let (of_each, random) = if depth == Depth::Full { (3_000, 3_000_000) } else { (200, 200_000) };
    let sample = accepted::sample(of_each, random);
    let mut failures = Failures::default();
    let mut met = Tally::new();
    for accepted in &sample {
        met.add(&accepted.run);
    }
    let all = forms::all();
    for form in all.iter().filter(|form| met.count(form) == 0) {
        failures.add(&format!("no record of the form {}", forms::name(form)));
    }

    let lines: Vec<String> = sample.iter().map(|a| text(&a.record, a.offset, Manner::Forced)).collect();
    for ((accepted, line), theirs) in sample.iter().zip(&lines).zip(nasm::assemble(&lines)) {
        let ours = &accepted.run.bytes[..accepted.run.len];
        if theirs.as_deref() != Ok(ours) {
            failures.add(&format!("{line}: ours {}, NASM {}, {}", hex(ours), told(&theirs), shown(accepted)));
        }
    }
    println!("assembler: forced text, {} records of {} forms, {} unexplained", sample.len(), all.len(), failures.count());
    plain(&sample, &mut failures);
    without_repeat(&sample, &mut failures);
    repeats(&mut failures);
    failures.count() == 0
}

fn plain(sample: &[Accepted], failures: &mut Failures) {
    let lines: Vec<String> = sample.iter().map(|a| text(&a.record, a.offset, Manner::Plain)).collect();
    let mut other = 0;
    let before = failures.count();
    for ((accepted, line), theirs) in sample.iter().zip(&lines).zip(nasm::assemble(&lines)) {
        let list = library::list(&accepted.record.pack(), accepted.offset);
        let shortest = library::shortest(&accepted.record.pack(), accepted.offset);
        let stands = match (&theirs, &list, &shortest) {
            (Ok(theirs), Ok(list), Ok(shortest)) => list.contains(theirs) && shortest.len() <= theirs.len(),
            _ => false,
        };
        if stands {
            other += (theirs.as_deref() != Ok(&accepted.run.bytes[..accepted.run.len])) as u64;
        } else {
            let list: Vec<String> = list.unwrap_or_default().iter().map(|entry| hex(entry)).collect();
            failures.add(&format!("{line}: NASM {}, list [{}], shortest {shortest:X?}, {}", told(&theirs), list.join(" "), shown(accepted)));
        }
    }
    println!(
        "assembler: plain text, {} records, {} with another string of the list, none shorter than the shortest string, {} unexplained",
        lines.len(),
        other,
        failures.count() - before
    );
}

/// By its 57 bytes with repeat 0 a record is what it is by 56.
fn without_repeat(sample: &[Accepted], failures: &mut Failures) {
    let before = failures.count();
    for accepted in sample {
        let ours = library::encode(&library::with_repeat(&accepted.record, 0), accepted.offset);
        if ours.as_deref() != Ok(&accepted.run.bytes[..accepted.run.len]) {
            failures.add(&format!("with repeat 0 {ours:?}, {}", shown(accepted)));
        }
    }
    println!("assembler: the same records with repeat 0, {} unexplained", failures.count() - before);
}

/// The string operations behind F2 and F3 (document 02, No. 11), each prefix by all of NASM's names: equal bytes, and they stand in the list.
fn repeats(failures: &mut Failures) {
    let before = failures.count();
    let mut asked = Vec::new();
    for operation in op::MOVSB..=op::STOSW {
        let none = shapes::immediate(UNSTATED, NONE, 0, 0);
        for (repeat, names) in [(0xF2, &["repne", "repnz"][..]), (0xF3, &["rep", "repe", "repz"][..])] {
            let packed = library::with_repeat(&generate::record(operation, 0, none, none), repeat);
            asked.extend(names.iter().map(|name| (packed.clone(), format!("{name} {}", NAMES[operation as usize].to_ascii_lowercase()))));
        }
    }
    let lines: Vec<String> = asked.iter().map(|(_, line)| line.clone()).collect();
    for ((packed, line), theirs) in asked.iter().zip(nasm::assemble(&lines)) {
        for offset in [0, 0x8000, 0xFFFF] {
            let (ours, list) = (library::encode(packed, offset), library::list(packed, offset));
            let stands = matches!((&theirs, &list), (Ok(theirs), Ok(list)) if list.contains(theirs));
            if ours.is_err() || ours.as_ref().ok() != theirs.as_ref().ok() || !stands {
                failures.add(&format!("{line}: ours {ours:?}, list {list:?}, NASM {}, record {} at {offset:04X}", told(&theirs), hex(packed)));
            }
        }
    }
    println!("assembler: string operations with a repeat, 20 records by {} lines, {} unexplained", lines.len(), failures.count() - before);
}

fn told(theirs: &Result<Vec<u8>, String>) -> String {
    theirs.as_ref().map_or_else(|error| error.clone(), |bytes| hex(bytes))
}

fn shown(accepted: &Accepted) -> String {
    format!("record {} at {:04X}", hex(&accepted.record.pack()), accepted.offset)
}
