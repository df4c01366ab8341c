//! Images of sheets of cues, run on the desk, with what they put out by document 02, Nos. 9 and 10.

use super::clock::Turn;
use super::rattle;

/// The cues of a sheet.
const CUES: usize = 200;

/// Runs the sheet once, to its end and with one step less.
pub fn agree() -> Result<String, String> {
    let mut desk = Desk::new(true);
    desk.round();
    desk.answers()?;
    let mut refused = Desk::new(false);
    refused.round();
    refused.answers()?;
    Ok(format!("{} steps, {CUES} pairs", desk.budget))
}

/// An image with its budget, the pairs that it has to put out, and what a round answers.
pub struct Desk {
    image: Vec<u8>,
    budget: u32,
    expected: Vec<u8>,
    log: Vec<u8>,
    /// 0 where the budget is one step short.
    count: u64,
    answer: Option<u64>,
}

impl Desk {
    /// MOV CX,delay; LOOP to itself; MOV AL,mask; OUT port,AL for each cue, and HLT: delay + 3 steps each, and 1.
    fn of(delay: impl Fn(u16) -> u16, halts: bool) -> Desk {
        let (mut image, mut expected, mut steps) = (Vec::new(), Vec::new(), 1);
        for k in 0..CUES as u16 {
            let ([low, high], port, mask) = (delay(k).to_le_bytes(), 0x60 + k as u8 % 8, (k * 37) as u8);
            image.extend([0xB9, low, high, 0xE2, 0xFE, 0xB0, mask, 0xE6, port]);
            expected.extend([port, mask]);
            steps += u32::from(delay(k)) + 3;
        }
        image.push(0xF4);
        let (budget, count) = if halts { (steps, steps.into()) } else { (steps - 1, 0) };
        Desk { image, budget, expected: if halts { expected } else { vec![0; 2 * CUES] }, log: vec![0; 2 * CUES], count, answer: None }
    }

    /// Delays of 100 to 299.
    pub fn new(halts: bool) -> Desk {
        Desk::of(|k| 100 + k, halts)
    }

    /// The longest delays.
    pub fn longest() -> Desk {
        Desk::of(|_| 65535, true)
    }

    /// The image, for fsqrun.
    pub fn print(&self) -> Result<(), String> {
        std::io::Write::write_all(&mut std::io::stdout(), &self.image).map_err(|e| e.to_string())
    }
}

impl Turn for Desk {
    fn count(&self) -> usize {
        self.budget as usize
    }

    fn clear(&mut self) {
        self.log.fill(0);
        self.answer = None;
    }

    #[inline(never)]
    fn round(&mut self) {
        self.answer = Some(rattle::run(&self.image, self.budget, &mut self.log));
    }

    fn answers(&self) -> Result<(), String> {
        match self.answer == Some(self.count) && self.log == self.expected {
            true => Ok(()),
            false => Err(format!("run-rattle: {:?} instructions and not {}, or other pairs", self.answer, self.count)),
        }
    }
}
