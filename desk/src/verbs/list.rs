//! `fsq list`: the text of fsqlist, for shows of any length.

use crate::answer::Answer;
use fsq::Show;

/// What `fsqlist` prints (REFERENCE 9), without its limit of 1,000 records.
pub fn list(file: &[u8], name: &str) -> Answer {
    match Show::load(file) {
        Ok(show) => Answer::done(show.to_string()),
        Err(refusal) => {
            let record = refusal.record.map_or("-".into(), |record| record.to_string());
            Answer::fault(format!("{name}: {refusal}\n")).with(format!("refused {} {record}\n", refusal.number()))
        }
    }
}
