//! Where near branches land: on the start of a record, on the end of the show, or astray.

use fsq::{read, Found, Instruction, Part, Refusal, Show};

/// What a target is to a show.
#[derive(Clone, Copy, Debug, PartialEq, Eq)]
pub enum Landing {
    /// the first byte of this record
    Record(usize),
    /// the first byte behind the show
    End,
    /// a later byte of this record
    Inside { record: usize, byte: usize },
    /// neither in the show nor its end
    Outside,
}

impl Landing {
    /// Whether a branch may go there.
    pub fn is_right(self) -> bool {
        matches!(self, Landing::Record(_) | Landing::End)
    }
}

/// A near branch whose target is neither the start of a record nor the end of the show.
#[derive(Clone, Copy, Debug, PartialEq, Eq)]
pub struct Astray {
    /// the branch
    pub record: usize,
    /// its target, modulo 65,536
    pub target: u16,
    /// the record that the target falls into, if it falls into one
    pub into: Option<usize>,
}

impl Astray {
    /// The one that `fsq::check` refuses, the first of a show.
    pub fn of(refusal: &Refusal) -> Option<Astray> {
        match (refusal.record, refusal.found) {
            (Some(record), Some(Found::Target { target, inside })) => {
                Some(Astray { record: record as usize, target, into: inside.map(|record| record as usize) })
            }
            _ => None,
        }
    }
}

/// All branches that go astray.
pub fn astray(targets: &[Option<Target>]) -> impl Iterator<Item = Astray> + '_ {
    targets.iter().enumerate().filter_map(|(record, target)| {
        let Target { target, landing } = (*target)?;
        let into = match landing {
            Landing::Record(_) | Landing::End => return None,
            Landing::Inside { record, .. } => Some(record),
            Landing::Outside => None,
        };
        Some(Astray { record, target, into })
    })
}

/// The target of a near branch, modulo 65,536, and what is there.
#[derive(Clone, Copy, Debug, PartialEq, Eq)]
pub struct Target {
    pub target: u16,
    pub landing: Landing,
}

/// For each record of a show its near target, if it has one.
pub fn targets(show: &Show) -> Vec<Option<Target>> {
    // How far each record's first byte is from the origin; the image is shorter than a segment.
    let starts: Vec<usize> = show.records().map(|record| record.offset.wrapping_sub(show.origin()).into()).collect();
    let landing = |target: u16| {
        let distance = usize::from(target.wrapping_sub(show.origin()));
        match starts.binary_search(&distance) {
            Ok(record) => Landing::Record(record),
            Err(_) if distance == show.image().len() => Landing::End,
            Err(_) if distance > show.image().len() => Landing::Outside,
            Err(next) => Landing::Inside { record: next - 1, byte: distance - starts[next - 1] },
        }
    };
    let near = |bytes: &[u8], offset| match read(bytes, offset).ok()?.operands[0] {
        Some(Part::Near(target)) => Some(Target { target, landing: landing(target) }),
        _ => None,
    };
    show.records().map(|record| near(record.bytes, record.offset)).collect()
}

/// The text of a plain near branch with a word in the place of its target.
pub fn with_target(branch: &Instruction, word: &str) -> String {
    let operand = branch.operands().first().map(ToString::to_string).unwrap_or_default();
    let kind = operand.trim_end_matches(|last: char| last.is_ascii_digit() || last == '-');
    format!("{} {kind}{word}", branch.operation())
}
