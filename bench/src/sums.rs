//! Texts of sums, as delays are written, with their values by hand.

use super::bindings::FSQ_REPORT_LENGTH;
use super::clock::Turn;
use super::rattle::{self, Report};

/// The first is document 02's.
const DELAYS: [(&str, i32); 20] = [
    ("3*(40+2)-1", 125),
    ("250", 250),
    ("40+2", 42),
    ("3*40", 120),
    ("1000/3", 333),
    ("60*60", 3600),
    ("2*(250+125)", 750),
    ("(40+2)*3-1", 125),
    ("4*(60-15)+7", 187),
    ("12*(3+4)-(8-5)", 81),
    ("65535-1", 65534),
    ("1500-250*2", 1000),
    ("(1500-250)*2", 2500),
    ("-5+45", 40),
    ("3*(40+2)-1+3*(40+2)-1", 250),
    ("100*(2+3*(4-1))/11", 100),
    ("7*24*60", 10080),
    ("(((40+2)))", 42),
    ("2*(3*(4*(5+1)))", 144),
    ("18200/182*55-5", 5495),
];

/// Evaluates every text once.
pub fn agree() -> Result<String, String> {
    let mut delays = Texts::delays();
    delays.round();
    delays.answers()?;
    Ok(format!("{} texts, each with its value", delays.count()))
}

/// Some texts with their values, and what a round answers.
pub struct Texts {
    texts: Vec<(String, i32)>,
    /// the texts, or the terms of one
    count: usize,
    answers: Vec<Option<i32>>,
}

impl Texts {
    pub fn delays() -> Texts {
        Texts { texts: DELAYS.map(|(text, value)| (text.to_string(), value)).into(), count: DELAYS.len(), answers: vec![None; DELAYS.len()] }
    }

    /// One text of so many terms: 3*(40+2) and 1, taken from it, in turn; two of them are worth 125.
    pub fn of_terms(terms: usize) -> Texts {
        let text = vec![DELAYS[0].0; terms / 2].join("+");
        Texts { texts: vec![(text, DELAYS[0].1 * (terms / 2) as i32)], count: terms, answers: vec![None] }
    }

    pub fn print(&self) {
        self.texts.iter().for_each(|(text, _)| println!("{text}"));
    }
}

impl Turn for Texts {
    fn count(&self) -> usize {
        self.count
    }

    fn clear(&mut self) {
        self.answers.fill(None);
    }

    #[inline(never)]
    fn round(&mut self) {
        let mut report: Report = [0; FSQ_REPORT_LENGTH];
        for ((text, _), answer) in self.texts.iter().zip(&mut self.answers) {
            *answer = rattle::evaluate(text.as_bytes(), &mut report);
        }
    }

    fn answers(&self) -> Result<(), String> {
        match self.texts.iter().zip(&self.answers).find(|((_, value), answer)| **answer != Some(*value)) {
            Some(((text, value), answer)) => Err(format!("sum-rattle: {text:.40}: expected {value}, answered {answer:?}")),
            None => Ok(()),
        }
    }
}
