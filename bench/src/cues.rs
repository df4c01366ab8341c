//! A sheet of cues, with its image by the SDM's forms.

use super::bindings::{FSQ_CUE_IMAGE_LENGTH, FSQ_REPORT_LENGTH};
use super::clock::Turn;
use super::rattle::{self, Report};

/// The cues of a sheet: document 02, No. 9, has at most 200.
pub const CUES: usize = 200;

/// Compiles the sheet once.
pub fn agree() -> Result<String, String> {
    let mut sheet = Sheet::new();
    sheet.round();
    sheet.answers()?;
    Ok(format!("{CUES} cues, {} bytes", sheet.expected.len()))
}

/// A sheet, the image that it has to give, and what a round answers.
pub struct Sheet {
    cues: Vec<u8>,
    expected: Vec<u8>,
    image: Vec<u8>,
    length: Option<usize>,
}

impl Sheet {
    /// Delays, ports and masks that go through their range. MOV CX,delay; LOOP to itself; MOV AL,mask; OUT port,AL; HLT.
    pub fn new() -> Sheet {
        let (mut cues, mut expected) = (Vec::new(), Vec::new());
        for k in 0..CUES {
            let ([low, high], port, mask) = ((1 + 327 * k as u16).to_le_bytes(), 0x60 + k as u8 % 8, (k * 37) as u8);
            cues.extend([low, high, port, mask]);
            expected.extend([0xB9, low, high, 0xE2, 0xFE, 0xB0, mask, 0xE6, port]);
        }
        expected.push(0xF4);
        Sheet { cues, expected, image: vec![0; FSQ_CUE_IMAGE_LENGTH], length: None }
    }

    /// The cues, for fsqcue.
    pub fn print(&self) -> Result<(), String> {
        std::io::Write::write_all(&mut std::io::stdout(), &self.cues).map_err(|e| e.to_string())
    }
}

impl Turn for Sheet {
    fn count(&self) -> usize {
        CUES
    }

    fn clear(&mut self) {
        self.image.fill(0);
        self.length = None;
    }

    #[inline(never)]
    fn round(&mut self) {
        let mut report: Report = [0; FSQ_REPORT_LENGTH];
        self.length = rattle::cue(&self.cues, &mut self.image, &mut report);
    }

    fn answers(&self) -> Result<(), String> {
        match self.length.and_then(|length| self.image.get(..length)) == Some(&self.expected[..]) {
            true => Ok(()),
            false => Err(format!("cue-rattle: another image, of {:?} bytes", self.length)),
        }
    }
}
