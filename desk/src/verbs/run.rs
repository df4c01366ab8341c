//! `fsq run`: a run of an image on the desk.

use crate::answer::{counted, Answer};
use crate::cue::{cues_in, marks};
use crate::timeline;

/// The most pairs that a run puts out here.
const MOST_PAIRS: usize = 1 << 20;

/// What an image puts out, a line each, and the number of steps. Of an image of cues the steps of each are known, and it has a picture.
pub fn run(image: &[u8], budget: u32, name: &str) -> Answer {
    let mut log = vec![0; 2 * MOST_PAIRS.min(budget as usize)];
    let ran = match fsq::run(image, budget, &mut log) {
        Ok(ran) => ran,
        Err(refusal) => return Answer::fault(format!("{name}: {refusal}\n")),
    };
    let marks = cues_in(image).map(|cues| marks(&cues));
    let mut out = String::new();
    for (number, pair) in ran.pairs().enumerate() {
        let step = marks.as_ref().and_then(|marks| marks.get(number)).map_or(String::new(), |mark| format!("step {:<10}", mark.step));
        out.push_str(&format!("{step}port {:<4}mask {:02X}\n", pair.port, pair.mask));
    }
    out.push_str(&format!("{}, {}\n", counted(ran.count(), "step"), counted(ran.pairs().count() as u64, "cue")));
    Answer { picture: marks.map(|marks| timeline::svg(&marks, ran.count(), name)), ..Answer::done(out) }
}
