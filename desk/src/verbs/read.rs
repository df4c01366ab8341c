//! `fsq read`: the instructions of an image.

use crate::answer::Answer;
use fsq::read as read_one;

/// The instructions of an image from an origin on, a line each: offset, bytes, text. Where no instruction begins (10) the next byte is tried; where one is
/// not complete (11) the image ends.
pub fn read(image: &[u8], origin: u16, name: &str) -> Answer {
    let (mut out, mut said) = (String::new(), String::new());
    let mut at = 0;
    while at < image.len() {
        let offset = origin.wrapping_add(at as u16);
        let (length, text) = match read_one(&image[at..], offset) {
            Ok(reading) => (reading.length, reading.to_string()),
            Err(refusal) => {
                let length = if refusal.number() == 11 { image.len() - at } else { 1 };
                said.push_str(&format!("{name}: byte {at}, offset {offset:04X}: {refusal}\n"));
                (length, format!("refused {}: {}", refusal.number(), refusal.reason))
            }
        };
        let bytes: String = image[at..at + length].iter().map(|byte| format!("{byte:02X}")).collect();
        out.push_str(&format!("{offset:04X} {bytes:<14} {text}\n"));
        at += length;
    }
    Answer { fault: !said.is_empty(), said, ..Answer::done(out) }
}
