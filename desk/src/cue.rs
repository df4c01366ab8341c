//! Cues: a sheet of them in text, and those of an image.

use crate::assembly::number;
use crate::place::{characters_of, lines, Mistake};
use crate::timeline::Mark;
use fsq::Cue;
use std::ops::Range;

/// The most cues of an image (document 02, No. 9).
const MOST_CUES: usize = 200;

/// The instructions that are carried out for a cue: MOV CX, LOOP as often as the delay says, MOV AL, OUT.
fn steps_of(cue: &Cue) -> u64 {
    u64::from(cue.delay) + 3
}

/// The cues of a sheet.
pub fn sheet(text: &[u8]) -> Result<Vec<Cue>, Vec<Mistake>> {
    let (mut cues, mut mistakes) = (Vec::new(), Vec::new());
    for line in lines(text) {
        match cue(text, line.clone()) {
            Ok(Some(_)) if cues.len() == MOST_CUES => {
                mistakes.push(Mistake::new(line, format!("a sheet has at most {MOST_CUES} cues (refusal 19)")));
                break;
            }
            Ok(cue) => cues.extend(cue),
            Err(mistake) => mistakes.push(mistake),
        }
    }
    if mistakes.is_empty() {
        Ok(cues)
    } else {
        Err(mistakes)
    }
}

/// The cue of a line, if there is one in it.
fn cue(text: &[u8], code: Range<usize>) -> Result<Option<Cue>, Mistake> {
    let line = characters_of(text, code.clone())?;
    let fields: Vec<&str> = line.split_ascii_whitespace().collect();
    // A field is a part of the line, so its place is known.
    let place = |field: &str| code.start + field.as_ptr() as usize - line.as_ptr() as usize;
    let value = |field: &str, name: &str, low: i32, high: i32| {
        let (at, value) = (place(field), number(field, place(field))?);
        let wrong = || Mistake::new(at..at + field.len(), format!("{name} {value} is outside {low}..{high}"));
        (low..=high).contains(&value).then_some(value).ok_or_else(wrong)
    };
    match fields.as_slice() {
        [] => Ok(None),
        [delay, port, mask] => Ok(Some(Cue {
            delay: value(delay, "the delay", 1, 65535)? as u16,
            port: value(port, "the port", 0, 255)? as u8,
            mask: value(mask, "the mask", 0, 255)? as u8,
        })),
        [first, ..] => {
            let what = format!("delay, port and mask are expected, and {} stand here", fields.len());
            Err(Mistake::new(place(first)..place(first) + line.trim().len(), what))
        }
    }
}

/// The cues of which an image is the compiled one: for each MOV CX,delay; LOOP to itself; MOV AL,mask; OUT port,AL, and HLT at the end.
pub fn cues_in(image: &[u8]) -> Option<Vec<Cue>> {
    let (&last, cues) = image.split_last()?;
    if last != 0xF4 || cues.len() % 9 != 0 || cues.len() > 9 * MOST_CUES {
        return None;
    }
    let cue = |bytes: &[u8]| match *bytes {
        [0xB9, low, high, 0xE2, 0xFE, 0xB0, mask, 0xE6, port] if (low, high) != (0, 0) => {
            Some(Cue { delay: u16::from_le_bytes([low, high]), port, mask })
        }
        _ => None,
    };
    cues.chunks(9).map(cue).collect()
}

/// The steps of a run of cues, HLT among them (document 02, No. 10).
pub fn steps(cues: &[Cue]) -> u64 {
    cues.iter().map(steps_of).sum::<u64>() + 1
}

/// The marks of cues: each at the step of its OUT.
pub fn marks(cues: &[Cue]) -> Vec<Mark> {
    let mut step = 0;
    let mark = |cue: &Cue| {
        step += steps_of(cue);
        Mark { step, port: cue.port, mask: cue.mask }
    };
    cues.iter().map(mark).collect()
}
