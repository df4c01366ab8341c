//! What a verb answers.

/// The output of a verb, what it says on standard error, and whether something is refused or a fault is found.
#[derive(Debug, Default, PartialEq, Eq)]
pub struct Answer {
    /// what is written to standard output or to the file behind -o; nothing where there is none to write
    pub output: Option<Vec<u8>>,
    /// what is written to the file behind --svg
    pub picture: Option<String>,
    /// lines for standard error
    pub said: String,
    /// whether the status is 1
    pub fault: bool,
}

impl Answer {
    /// An output, without a fault.
    pub fn done(output: impl Into<Vec<u8>>) -> Answer {
        Answer { output: Some(output.into()), ..Answer::default() }
    }

    /// No output: something is refused, or a fault is found.
    pub fn fault(said: impl Into<String>) -> Answer {
        Answer { said: said.into(), fault: true, ..Answer::default() }
    }

    /// The same with an output all the same.
    pub fn with(self, output: impl Into<Vec<u8>>) -> Answer {
        Answer { output: Some(output.into()), ..self }
    }
}

/// Why a call is not carried out. The status is 2.
#[derive(Debug, PartialEq, Eq)]
pub enum NotCarriedOut {
    /// it is called wrongly
    WrongCall(String),
    /// a file cannot be read or written
    File(String),
}

/// `1 record`, `2 records`.
pub fn counted(number: u64, what: &str) -> String {
    format!("{number} {what}{}", if number == 1 { "" } else { "s" })
}
