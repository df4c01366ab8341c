//! A show to convert, or to check, that asks for the most: 1,000 records, each a branch to one of them.

use super::bindings::{FSQ_CONVERTED_LENGTH, FSQ_FIRST_AT, FSQ_HEADER_LENGTH, FSQ_IMMEDIATE_AT, FSQ_RECORD_LENGTH, FSQ_REPORT_LENGTH};
use super::clock::Turn;
use super::rattle::{self, Report};
use super::records::op::CALL;

/// The records of a show of version 1.
pub const RECORDS: usize = 1000;

/// Converts the show once.
pub fn agree() -> Result<String, String> {
    let mut branches = Branches::new();
    branches.round();
    branches.answers()?;
    Ok(format!("{RECORDS} branches, {} bytes", branches.file.len()))
}

/// A show, and what a round answers. Without a count of 2 and more it is converted to itself.
pub struct Branches {
    file: Vec<u8>,
    out: Vec<u8>,
    length: Option<usize>,
}

impl Branches {
    /// CALL, three bytes each from offset 0 on, to records all over the show.
    pub fn new() -> Branches {
        let mut file = b"FSQ\x01\x00\x00\x00".to_vec();
        file.extend((RECORDS as u16).to_le_bytes());
        for k in 0..RECORDS {
            let at = file.len();
            file.resize(at + FSQ_RECORD_LENGTH, 0);
            let target = 3 * (k * 377 % RECORDS) as u32;
            file[at..at + 2].copy_from_slice(&[CALL, 1]);
            file[at + FSQ_FIRST_AT + FSQ_IMMEDIATE_AT..][..4].copy_from_slice(&target.to_le_bytes());
        }
        assert_eq!(file.len(), FSQ_HEADER_LENGTH + FSQ_RECORD_LENGTH * RECORDS);
        Branches { file, out: vec![0; FSQ_CONVERTED_LENGTH], length: None }
    }

    /// The file, for fsq186.
    pub fn print(&self) -> Result<(), String> {
        std::io::Write::write_all(&mut std::io::stdout(), &self.file).map_err(|e| e.to_string())
    }
}

/// The same show, whose targets are checked.
pub struct Targets(Branches);

impl Targets {
    /// The targets of the show.
    pub fn new() -> Targets {
        Targets(Branches::new())
    }
}

impl Turn for Targets {
    fn count(&self) -> usize {
        RECORDS
    }

    fn clear(&mut self) {
        self.0.length = None;
    }

    #[inline(never)]
    fn round(&mut self) {
        let mut report: Report = [0; FSQ_REPORT_LENGTH];
        self.0.length = rattle::check(&self.0.file, &mut report);
    }

    fn answers(&self) -> Result<(), String> {
        match self.0.length == Some(3 * RECORDS) {
            true => Ok(()),
            false => Err(format!("check-rattle: another length, {:?}", self.0.length)),
        }
    }
}

impl Turn for Branches {
    fn count(&self) -> usize {
        RECORDS
    }

    fn clear(&mut self) {
        self.out.fill(0);
        self.length = None;
    }

    #[inline(never)]
    fn round(&mut self) {
        let mut report: Report = [0; FSQ_REPORT_LENGTH];
        self.length = rattle::convert(&self.file, &mut self.out, &mut report);
    }

    fn answers(&self) -> Result<(), String> {
        match self.length == Some(self.file.len()) && self.out == self.file {
            true => Ok(()),
            false => Err(format!("convert-rattle: another file, of {:?} bytes", self.length)),
        }
    }
}
