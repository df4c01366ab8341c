//! One record, both encoders, and the account of it.

use super::answers::{self, Answer, Run};
use super::bindings::*;
use super::digests::{Block, Digests, Stage, STORED};
use super::differences::{Kind, EMITS, ENTRIES, LEFT_OPEN, PANICS, WIDER};
use super::forms::{self, Tally};
use super::left_open;
use super::oracle::{self, Oracle};
use super::ours;
use super::records::{hex, Packed, Record, NAMES, OPERATIONS};

/// Failures printed in full; the rest are counted.
const PRINTED: u64 = 20;

pub struct Comparison {
    records: u64,
    alone: u64,
    calls: u64,
    failures: u64,
    last_failed: u64,
    accepted: Tally,
    refused: [u64; 256],
    /// for each entry, how often ours accepts there and how often it refuses
    met: Vec<[u64; 2]>,
    /// by the order of left_open::REFUSALS
    open_refused: [u64; left_open::REFUSALS.len()],
    /// for each operation the entries that may apply to it
    entries: Vec<Vec<usize>>,
    digests: Digests,
}

impl Comparison {
    pub fn new() -> Comparison {
        let of = |operation| (0..ENTRIES.len()).filter(|i| ENTRIES[*i].operations.contains(&operation)).collect();
        Comparison {
            records: 0,
            alone: 0,
            calls: 0,
            failures: 0,
            last_failed: 0,
            accepted: Tally::new(),
            refused: [0; 256],
            met: vec![[0; 2]; ENTRIES.len()],
            open_refused: [0; left_open::REFUSALS.len()],
            entries: (0..OPERATIONS).map(of).collect(),
            digests: Digests::new(),
        }
    }

    /// Compares where the record is well formed; where not, ours is asked alone: document 01 says what it must answer.
    pub fn visit(&mut self, stage: Stage, record: Record, offset: u16) {
        let (record, expected, theirs) = self.answered(stage, record, offset);
        self.ask_ours(&record, offset, expected, theirs.as_ref());
    }

    /// The same where the record is one of a block; the others are only counted, as their number gives the spans.
    pub fn visit_of(&mut self, block: &str, stage: Stage, record: Record, offset: u16) {
        let own = Block { stage, operation: record.operation };
        if own.to_string() == block {
            self.visit(stage, record, offset);
        } else {
            self.alone += 1;
        }
    }

    /// Only what is expected: ours is not asked.
    pub fn expect(&mut self, stage: Stage, record: Record, offset: u16) {
        self.answered(stage, record, offset);
    }

    /// The record with its spans, what ours has to answer to it, and what 000 answers.
    fn answered(&mut self, stage: Stage, record: Record, offset: u16) -> (Record, Answer, Option<Oracle>) {
        let record = record.with_spans(self.records + self.alone);
        let mut theirs = None;
        let expected = if !record.codes_known() {
            self.alone += 1;
            answers::refused(FSQ_UNKNOWN_CODE, (0, 0))
        } else if let Some(span) = record.ill_formed() {
            self.alone += 1;
            answers::refused(FSQ_NOT_WELL_FORMED, span)
        } else {
            self.records += 1;
            let asked = oracle::ask(&record, offset);
            let expected = self.expected(&record, offset, &asked);
            theirs = Some(asked);
            expected
        };
        self.digests.add(Block { stage, operation: record.operation }, &record.pack(), offset, &expected);
        (record, expected, theirs)
    }

    pub fn digests(&self) -> &Digests {
        &self.digests
    }

    pub fn failures(&self) -> u64 {
        self.failures
    }

    /// Are the digests of what was expected the stored ones?
    pub fn report_digests(&self) -> bool {
        let differing = self.digests.differing(STORED);
        for block in &differing {
            println!("DIGEST: block {block} is not the one of digests.txt");
        }
        println!("digests: {} blocks, {} differ", self.digests.blocks(), differing.len());
        differing.is_empty()
    }

    /// The account of one block.
    pub fn report_of(&self, block: &str) -> bool {
        println!("differential: block {block}: {} records, {} unexplained", self.records, self.failures);
        self.records > 0 && self.failures == 0
    }

    /// The oracle's answer, or what the entry that applies puts in its place.
    fn expected(&mut self, record: &Record, offset: u16, theirs: &Oracle) -> Answer {
        let mut stated = None;
        let mut explained_todo = 0;
        let mut explained_emitted = false;
        for i in 0..self.entries[record.operation as usize].len() {
            let at = self.entries[record.operation as usize][i];
            let entry = &ENTRIES[at];
            if !(entry.applies)(record, offset) {
                continue;
            }
            explained_todo += PANICS.contains(&entry.id) as u32;
            explained_emitted |= EMITS.contains(&entry.id);
            let ours = (entry.ours)(record, offset, theirs);
            self.met[at][matches!(ours, Answer::Refused(_)) as usize] += 1;
            let otherwise = matches!(entry.kind, Kind::Answer | Kind::Request);
            if !(entry.theirs)(record, theirs) || (ours != theirs.answer) != otherwise {
                let text = format!("{}: 000 does {} there, ours is stated as {}", entry.id, told(&theirs.answer), told(&ours));
                self.fail(record, offset, &text);
            }
            if stated.is_some_and(|other| other != ours) {
                self.fail(record, offset, &format!("{}: another entry states another answer", entry.id));
            }
            stated = Some(ours);
            if entry.id == LEFT_OPEN {
                self.count_open(record, offset, &ours);
            }
        }
        let emitted = theirs.emitted > 0 && matches!(theirs.answer, Answer::Refused(_));
        // one entry, and no more, has each record on which 000 panics
        if theirs.panicked as u32 != explained_todo || emitted != explained_emitted {
            self.fail(record, offset, "a panic at todo!, or bytes emitted before a refusal, not where they are listed");
        }
        stated.unwrap_or(theirs.answer)
    }

    fn count_open(&mut self, record: &Record, offset: u16, ours: &Answer) {
        let Answer::Refused(refusal) = ours else { return };
        match left_open::REFUSALS.iter().position(|listed| *listed == (record.operation, refusal.number)) {
            Some(at) => self.open_refused[at] += 1,
            None => self.fail(record, offset, "left-open: a refusal that is not listed"),
        }
    }

    fn ask_ours(&mut self, record: &Record, offset: u16, expected: Answer, theirs: Option<&Oracle>) {
        match &expected {
            Answer::Bytes(run) => self.accepted.add(run),
            Answer::Refused(refusal) => self.refused[refusal.number as usize] += 1,
        }
        let packed = record.pack();
        let n = self.records + self.alone;
        // The longest slice shows the run; the others in turn, and all of them on every 64th record.
        let turn = (n % ours::LONGEST as u64) as usize;
        self.at_length(record, &packed, offset, ours::LONGEST, expected, theirs);
        if n % 64 == 0 {
            for slice in 0..ours::LONGEST {
                self.at_length(record, &packed, offset, slice, expected, theirs);
            }
        } else {
            self.at_length(record, &packed, offset, turn, expected, theirs);
        }
    }

    fn at_length(
        &mut self,
        record: &Record,
        packed: &Packed,
        offset: u16,
        slice: usize,
        expected: Answer,
        theirs: Option<&Oracle>,
    ) {
        let expected = match expected {
            Answer::Bytes(Run { len, .. }) if len > slice => {
                self.refused[FSQ_SLICE_TOO_SHORT as usize] += 1;
                answers::refused(FSQ_SLICE_TOO_SHORT, record.span)
            }
            other => other,
        };
        self.calls += 1;
        let answer = ours::ask(packed, offset, slice, self.calls);
        if answer == Ok(expected) {
            return;
        }
        let ours = answer.map_or_else(|wrong| wrong, |answer| told(&answer));
        let theirs = theirs.map_or("not asked".to_string(), |theirs| told(&theirs.answer));
        let text = format!("slice {slice}: ours {ours}, expected {}, 000 {theirs}", told(&expected));
        self.fail(record, offset, &text);
    }

    fn fail(&mut self, record: &Record, offset: u16, text: &str) {
        // one record may fail at several slice lengths
        if self.last_failed != self.records + self.alone {
            self.last_failed = self.records + self.alone;
            self.failures += 1;
        }
        if self.failures <= PRINTED {
            let name = NAMES.get(record.operation as usize).unwrap_or(&"?");
            println!("UNEXPLAINED {name} {} {offset:04X} {text}", hex(&record.pack()));
        }
    }

    /// Prints the account. True where nothing failed and everything that must be met was met.
    pub fn report(&self) -> bool {
        println!("records compared: {}", self.records);
        println!("records asked of ours alone: {}", self.alone);
        println!("calls of ours: {}", self.calls);

        let forms = forms::all();
        println!("accepted by opcode and /n ({} forms):", forms.len());
        for line in forms.chunks(8) {
            let cells: Vec<String> =
                line.iter().map(|form| format!("{:>5} {:<8}", forms::name(form), self.accepted.count(form))).collect();
            println!("  {}", cells.join(" ").trim_end());
        }
        let mut met = true;
        for form in forms.iter().filter(|form| self.accepted.count(form) == 0) {
            println!("NOT MET: form {}", forms::name(form));
            met = false;
        }
        let listed: u64 = forms.iter().map(|form| self.accepted.count(form)).sum();
        if listed != self.accepted.total() {
            println!("NOT LISTED: {} accepted runs have no form of document 01", self.accepted.total() - listed);
            met = false;
        }
        let least = forms.iter().min_by_key(|form| self.accepted.count(form)).unwrap();
        println!("accepted: {}, least {} of {}", listed, self.accepted.count(least), forms::name(least));

        let numbers = [1, 2, 3, 4, 5, 6, 7, 8, 9, 15];
        let refused: Vec<String> = numbers.iter().map(|n| format!("{n}: {}", self.refused[*n])).collect();
        println!("refused by number: {}", refused.join(", "));
        for n in numbers.iter().filter(|n| self.refused[**n] == 0) {
            println!("NOT MET: refusal {n}");
            met = false;
        }

        let open: Vec<(String, u64)> = left_open::REFUSALS
            .iter()
            .zip(self.open_refused)
            .map(|((operation, number), count)| (format!("{} {number}", NAMES[*operation as usize]), count))
            .collect();
        let counts: Vec<String> = open.iter().map(|(name, count)| format!("{name}: {count}")).collect();
        println!("refused of left-open: {}", counts.join(", "));
        for (name, _) in open.iter().filter(|(_, count)| *count == 0) {
            println!("NOT MET: refusal {name} of left-open");
            met = false;
        }

        println!("docs/DIFFERENCES.md by entry:");
        for (entry, [accepted, refused]) in ENTRIES.iter().zip(&self.met) {
            let kind = match entry.kind {
                Kind::Answer | Kind::Request | Kind::Manner => "difference",
                Kind::Agrees => "agrees",
            };
            println!("  {:<28} {:<10} {}", entry.id, kind, accepted + refused);
            let one_side = WIDER.contains(&entry.id) && (*accepted == 0 || *refused == 0);
            if accepted + refused == 0 || one_side {
                println!("NOT MET: entry {}", entry.id);
                met = false;
            }
        }
        if self.failures > 0 || !met {
            let unmet = if met { "" } else { ", and something that must be met was not" };
            println!("differential: FAILED, {} records, {} unexplained{unmet}", self.records, self.failures);
            return false;
        }
        println!("differential: {} records, 0 unexplained", self.records);
        true
    }
}

/// An answer with all that is compared: a value or limit that its number does not give is shown too.
fn told(answer: &Answer) -> String {
    match answer {
        Answer::Refused(r)
            if r.number != FSQ_IMMEDIATE_OUT_OF_RANGE && (r.low, r.high) != (0, 0)
                || !matches!(r.number, FSQ_IMMEDIATE_OUT_OF_RANGE | FSQ_RELATIVE_JUMP_OUT_OF_RANGE) && r.value != 0 =>
        {
            format!("({answer}, and value {} limits {} {})", r.value, r.low, r.high)
        }
        _ => format!("({answer})"),
    }
}
