//! Without the Rust: our answers beside the digests of the expected ones. Each record is also asked with a shorter slice, where a run that does not fit must give 9.

use super::answers::{self, Answer, Run};
use super::bindings::FSQ_SLICE_TOO_SHORT;
use super::digests::{Block, Digests, Stage, STORED};
use super::ours;
use super::records::{hex, Record, NAMES};

const PRINTED: u64 = 20;

pub struct Alone {
    digests: Digests,
    records: u64,
    failures: u64,
}

impl Alone {
    pub fn new() -> Alone {
        Alone { digests: Digests::new(), records: 0, failures: 0 }
    }

    pub fn visit(&mut self, stage: Stage, record: Record, offset: u16) {
        let record = record.with_spans(self.records);
        let packed = record.pack();
        self.records += 1;
        match ours::ask(&packed, offset, ours::LONGEST, self.records) {
            Ok(answer) => {
                self.digests.add(Block { stage, operation: record.operation }, &packed, offset, &answer);
                let slice = (self.records % ours::LONGEST as u64) as usize;
                let shorter = match answer {
                    Answer::Bytes(Run { len, .. }) if len > slice => answers::refused(FSQ_SLICE_TOO_SHORT, record.span),
                    other => other,
                };
                let given = ours::ask(&packed, offset, slice, self.records);
                if given != Ok(shorter) {
                    self.fail(&record, offset, &format!("slice {slice}: {}", given.map_or_else(|wrong| wrong, |answer| answer.to_string())));
                }
            }
            Err(wrong) => self.fail(&record, offset, &wrong),
        }
    }

    fn fail(&mut self, record: &Record, offset: u16, text: &str) {
        self.failures += 1;
        if self.failures <= PRINTED {
            let name = NAMES.get(record.operation as usize).unwrap_or(&"?");
            println!("WRONG {name} {} {offset:04X} {text}", hex(&record.pack()));
        }
    }

    pub fn report(&self) -> bool {
        let differing = self.digests.differing(STORED);
        for block in &differing {
            println!("DIFFERS: block {block}; with the Rust at hand: tests/differential/run block {block}");
        }
        println!(
            "differential: without the Rust, {} records beside the digests of their expected answers: {} of {} blocks differ, {} records are wrong at a shorter slice",
            self.records,
            differing.len(),
            self.digests.blocks(),
            self.failures,
        );
        differing.is_empty() && self.failures == 0
    }
}
