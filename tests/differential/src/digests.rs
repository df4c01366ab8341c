//! The expected answers as digests, one a block: what a run compares, in a few kilobytes, for a machine that does not have the Rust.
//! A block is the records of one stage of the generator with one operation. Its digest is over each record, its offset and its expected answer, in their order.

use super::answers::Answer;
use super::records::{mix, Packed, NAMES};
use std::collections::BTreeMap;
use std::fmt;

/// The stages in the order in which they are run.
#[derive(Clone, Copy, PartialEq, Eq, PartialOrd, Ord, Debug)]
pub enum Stage {
    Systematic,
    Branches,
    LeftOpen,
    Random,
    IllFormed,
}

#[derive(Clone, Copy, PartialEq, Eq, PartialOrd, Ord, Debug)]
pub struct Block {
    pub stage: Stage,
    pub operation: u8,
}

#[derive(Clone, Copy, PartialEq, Eq, Debug)]
struct Digest {
    records: u64,
    digest: u64,
}

pub struct Digests {
    blocks: BTreeMap<Block, Digest>,
}

/// The short run's, which `differential digests` writes.
pub const STORED: &str = include_str!("../digests.txt");

impl Digests {
    pub fn new() -> Digests {
        Digests { blocks: BTreeMap::new() }
    }

    pub fn add(&mut self, block: Block, record: &Packed, offset: u16, answer: &Answer) {
        let digest = self.blocks.entry(block).or_insert(Digest { records: 0, digest: 0 });
        digest.records += 1;
        let mut state = digest.digest;
        for part in record.chunks(8) {
            let mut word = [0; 8];
            word[..part.len()].copy_from_slice(part);
            state = mix(state ^ u64::from_le_bytes(word));
        }
        for word in words(answer) {
            state = mix(state ^ word);
        }
        digest.digest = mix(state ^ offset as u64);
    }

    /// The blocks whose line is not the stored one, and those that only one side has.
    pub fn differing(&self, stored: &str) -> Vec<String> {
        let ours: Vec<String> = self.blocks.iter().map(line).collect();
        let theirs: Vec<&str> = stored.lines().collect();
        let name = |line: &str| line.split(' ').take(2).collect::<Vec<_>>().join(" ");
        let mut names: Vec<String> = ours.iter().filter(|l| !theirs.contains(&l.as_str())).map(|l| name(l)).collect();
        names.extend(theirs.iter().filter(|l| !ours.iter().any(|o| o == *l)).map(|l| name(l)));
        names.sort();
        names.dedup();
        names
    }

    pub fn blocks(&self) -> usize {
        self.blocks.len()
    }
}

impl fmt::Display for Digests {
    fn fmt(&self, f: &mut fmt::Formatter<'_>) -> fmt::Result {
        self.blocks.iter().try_for_each(|block| writeln!(f, "{}", line(block)))
    }
}

impl fmt::Display for Block {
    fn fmt(&self, f: &mut fmt::Formatter<'_>) -> fmt::Result {
        let stage = match self.stage {
            Stage::Systematic => "systematic",
            Stage::Branches => "branches",
            Stage::LeftOpen => "left-open",
            Stage::Random => "random",
            Stage::IllFormed => "ill-formed",
        };
        match NAMES.get(self.operation as usize) {
            Some(name) => write!(f, "{stage} {name}"),
            None => write!(f, "{stage} {}", self.operation),
        }
    }
}

fn line((block, digest): (&Block, &Digest)) -> String {
    format!("{block} {} {:016X}", digest.records, digest.digest)
}

fn words(answer: &Answer) -> [u64; 4] {
    match answer {
        Answer::Bytes(run) => {
            let mut word = [0; 8];
            word[..7].copy_from_slice(&run.bytes);
            [0, u64::from_le_bytes(word), run.len as u64, 0]
        }
        Answer::Refused(r) => {
            let pair = |a: u32, b: u32| a as u64 | (b as u64) << 32;
            [r.number as u64, pair(r.span.0, r.span.1), pair(r.value as u32, r.low as u32), r.high as u32 as u64]
        }
    }
}
