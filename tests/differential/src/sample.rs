//! A fixed sample of 000's answers as text, one record a row, for the program `test_vectors`, which has no Rust beside it. A row is record, offset, refusal number
//! (0: accepted), length, span start and end, value, low, high, bytes, each in hexadecimal; `todo!` stands as 7. `tools/bench_sheet.py sample` puts the instruction
//! in words before it, and the answer of a request of document 02 where that is another.

use super::answers::{self, Answer, Refusal};
use super::differences::{Kind, ENTRIES};
use super::forms::{self, Form};
use super::generate::{self, Depth};
use super::oracle;
use super::random::{self, Random};
use super::records::{hex, Record};
use std::collections::BTreeMap;

/// Lines kept of each form and of each refusal of an operation.
const OF_A_FORM: usize = 6;
const OF_A_REFUSAL: usize = 5;

/// Accepted: 0, the operation, opcode, /n. Refused: 1, the operation, the number, the limits.
type Key = (u8, u8, i32, i32);

struct Kept {
    seen: u64,
    lines: Vec<String>,
}

pub fn write(out: &mut dyn std::io::Write) -> std::io::Result<()> {
    let mut kept: BTreeMap<Key, Kept> = BTreeMap::new();
    let mut random = Random::new(3013);
    let mut n = 0;
    let mut visit = |record: Record, offset: u16| {
        n += 1;
        let record = record.with_spans(n);
        if !differs(&record, offset) {
            keep(&mut kept, &mut random, &record, offset, &oracle::ask(&record, offset).answer);
        }
    };
    generate::systematic(Depth::Short, &mut visit);
    generate::branches(Depth::Short, &mut visit);
    random::records(1_000_000, 90, &mut visit);

    complete(&kept)?;
    for line in kept.values().flat_map(|kept| &kept.lines) {
        writeln!(out, "{line}")?;
    }
    Ok(())
}

/// Every form that 000 writes as document 01 does, and each of its refusals.
fn complete(kept: &BTreeMap<Key, Kept>) -> std::io::Result<()> {
    let form = |(opcode, n): &Form| {
        kept.keys().any(|key| key.0 == 0 && (key.2, key.3) == (*opcode as i32, n.map_or(-1, i32::from)))
    };
    // AAM and AAD end otherwise in 000, always
    let written = |form: &Form| !matches!(form.0, 0xD4 | 0xD5) && !forms::LEFT_OPEN.contains(form);
    let missing = forms::all().into_iter().find(|listed| written(listed) && !form(listed));
    let refused = (1..=7).all(|number| kept.keys().any(|key| key.0 == 1 && key.2 == number));
    if missing.is_some() || !refused {
        eprintln!("differential: the sample lacks {missing:02X?} or a refusal");
        return Err(std::io::ErrorKind::Other.into());
    }
    Ok(())
}

/// Does an entry put another answer in the place of 000's?
fn differs(record: &Record, offset: u16) -> bool {
    let mut listed = ENTRIES.iter().filter(|entry| entry.kind == Kind::Answer && entry.operations.contains(&record.operation));
    listed.any(|entry| (entry.applies)(record, offset))
}

/// A reservoir for each key: every record of the stream is as likely to stay as any other.
fn keep(kept: &mut BTreeMap<Key, Kept>, random: &mut Random, record: &Record, offset: u16, answer: &Answer) {
    let (key, room) = match answer {
        Answer::Bytes(run) => {
            let (opcode, n) = forms::form_of(run);
            ((0, record.operation, opcode as i32, n.map_or(-1, i32::from)), OF_A_FORM)
        }
        Answer::Refused(r) => ((1, record.operation, r.number as i32, r.low.wrapping_add(r.high)), OF_A_REFUSAL),
    };
    let kept = kept.entry(key).or_insert(Kept { seen: 0, lines: Vec::new() });
    kept.seen += 1;
    let line = || row(record, offset, answer);
    if kept.lines.len() < room {
        kept.lines.push(line());
    } else {
        let at = random.below(kept.seen) as usize;
        if at < room {
            kept.lines[at] = line();
        }
    }
}

fn row(record: &Record, offset: u16, answer: &Answer) -> String {
    let none = Refusal { number: 0, span: (0, 0), value: 0, low: 0, high: 0 };
    let (refusal, run) = match answer {
        Answer::Bytes(run) => (none, *run),
        Answer::Refused(refusal) => (*refusal, answers::run(&[])),
    };
    let Refusal { number, span, value, low, high } = refusal;
    format!(
        "{} {offset:04X} {number:02X} {:08X} {:08X} {:08X} {value:08X} {low:08X} {high:08X} {}",
        hex(&record.pack()),
        run.len,
        span.0,
        span.1,
        hex(&run.bytes),
    )
}
