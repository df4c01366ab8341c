//! `fsq cues`: the image of a sheet of cues.

use crate::answer::Answer;
use crate::cue::{marks, sheet, steps};
use crate::place;
use crate::timeline;

/// The image of a sheet's cues. It is given out where a run on the desk halts on its last step and puts out the cues' ports and masks in their order.
pub fn cues(text: &[u8], name: &str) -> Answer {
    let cues = match sheet(text) {
        Ok(cues) => cues,
        Err(mistakes) => return Answer::fault(place::all(mistakes, name, text)),
    };
    let image = match fsq::compile(&cues) {
        Ok(image) => image,
        Err(refusal) => return Answer::fault(format!("{name}: {refusal}\n")),
    };
    let steps = steps(&cues);
    let mut log = vec![0; 2 * cues.len()];
    let expected: Vec<u8> = cues.iter().flat_map(|cue| [cue.port, cue.mask]).collect();
    match fsq::run(&image, steps as u32, &mut log) {
        Ok(ran) if ran.count() == steps && ran.log() == expected => {}
        Ok(_) => return Answer::fault(format!("{name}: the run on the desk does not put out these cues\n")),
        Err(refusal) => return Answer::fault(format!("{name}: the run on the desk: {refusal}\n")),
    }
    Answer { picture: Some(timeline::svg(&marks(&cues), steps, name)), ..Answer::done(image) }
}
