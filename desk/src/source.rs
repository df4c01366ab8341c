//! The text of a show, taken apart: lines become labels and statements, and a statement the parts that are instructions' syntax and the sums between them.
//!
//! A line has labels, each with a colon behind it, then an instruction or nothing, then a comment behind a semicolon. `ORG` and a sum before the first of
//! them is the origin. The syntax of an instruction is that of [`fsq::Instruction`]; where it has a number, a sum may stand, with labels in it.

use crate::place::{characters_of, lines, Mistake};
use fsq::Operation;
use std::collections::HashMap;
use std::ops::Range;

/// A part of a sum, and its place in the text.
#[derive(Clone, Debug, PartialEq, Eq)]
pub struct Term<'a> {
    pub at: usize,
    pub kind: TermKind<'a>,
}

#[derive(Clone, Debug, PartialEq, Eq)]
pub enum TermKind<'a> {
    /// `+ - * / ( )`
    Sign(char),
    Number(&'a str),
    Label(&'a str),
}

/// A part of a statement.
#[derive(Clone, Debug, PartialEq, Eq)]
pub enum Piece<'a> {
    /// text for the crate's parser
    Plain { at: usize, text: &'a str },
    /// a sum; behind it a register or a keyword may stand, of which its last sign is
    Sum { terms: Vec<Term<'a>>, before_word: bool },
}

/// An instruction of the text.
#[derive(Clone, Debug, PartialEq, Eq)]
pub struct Statement<'a> {
    pub span: Range<usize>,
    /// the first word
    pub operation: Operation,
    pub pieces: Vec<Piece<'a>>,
    /// where its operands stand
    pub operands: Vec<Range<usize>>,
}

/// A show's text.
#[derive(Debug, Default)]
pub struct Source<'a> {
    /// the sum of ORG, and its place
    pub origin: Option<(Vec<Term<'a>>, Range<usize>)>,
    /// the number of the statement that each label stands before
    pub labels: HashMap<&'a str, usize>,
    pub statements: Vec<Statement<'a>>,
}

/// Names that are the syntax's own, beside those of operations.
const WORDS: [&str; 26] = [
    "AL", "CL", "DL", "BL", "AH", "CH", "DH", "BH", "AX", "CX", "DX", "BX", "SP", "BP", "SI", "DI", "ES", "CS", "SS", "DS", "BYTE", "WORD",
    "FAR", "NEAR", "SHORT", "ORG",
];

fn is_word(name: &str) -> bool {
    WORDS.iter().any(|word| word.eq_ignore_ascii_case(name)) || name.parse::<Operation>().is_ok()
}

/// Takes a text apart. All lines with a mistake are told, not the first alone.
pub fn take_apart(text: &[u8]) -> (Source<'_>, Vec<Mistake>) {
    let (mut source, mut mistakes) = (Source::default(), Vec::new());
    for line in lines(text) {
        mistakes.extend(source.line(text, line).err());
    }
    (source, mistakes)
}

impl<'a> Source<'a> {
    fn line(&mut self, text: &'a [u8], code: Range<usize>) -> Result<(), Mistake> {
        let mut at = code.start;
        let mut rest = characters_of(text, code)?;
        loop {
            let trimmed = rest.trim_start_matches([' ', '\t', '\r']);
            at += rest.len() - trimmed.len();
            rest = trimmed;
            let name = name_at(rest);
            let behind = rest[name.len()..].trim_start_matches([' ', '\t']);
            if name.is_empty() || !behind.starts_with(':') {
                break;
            }
            self.label(name, at)?;
            at += rest.len() - behind.len() + 1;
            rest = &behind[1..];
        }
        let rest = rest.trim_end_matches([' ', '\t', '\r']);
        if rest.is_empty() {
            return Ok(());
        }
        let span = at..at + rest.len();
        if name_at(rest).eq_ignore_ascii_case("ORG") {
            return self.org(rest, span);
        }
        let word = name_at(rest);
        let operation = word.parse().map_err(|_| Mistake::new(at..at + word.len().max(1), "the name of an operation is expected"))?;
        self.statements.push(Statement { span, operation, pieces: pieces(rest, at), operands: operands(rest, at) });
        Ok(())
    }

    fn label(&mut self, name: &'a str, at: usize) -> Result<(), Mistake> {
        let span = at..at + name.len();
        if is_word(name) {
            return Err(Mistake::new(span, format!("{name} is a word of the syntax and no name for a label")));
        }
        if self.labels.contains_key(name) {
            return Err(Mistake::new(span, format!("there is a label {name} before")));
        }
        self.labels.insert(name, self.statements.len());
        Ok(())
    }

    fn org(&mut self, rest: &'a str, span: Range<usize>) -> Result<(), Mistake> {
        if self.origin.is_some() || !self.statements.is_empty() || !self.labels.is_empty() {
            return Err(Mistake::new(span, "ORG stands once, before all labels and instructions"));
        }
        match pieces(rest, span.start).as_slice() {
            [Piece::Plain { .. }, Piece::Sum { terms, before_word: false }] => self.origin = Some((terms.clone(), span)),
            _ => return Err(Mistake::new(span, "a number is expected behind ORG, 0 to 65535")),
        }
        Ok(())
    }
}

/// The name at the front of a text: letters, digits, underscores and dots, no digit first.
fn name_at(text: &str) -> &str {
    let length = text.bytes().take_while(|&byte| byte.is_ascii_alphanumeric() || byte == b'_' || byte == b'.').count();
    if text.starts_with(|first: char| first.is_ascii_digit()) {
        return "";
    }
    &text[..length]
}

/// The number at the front of a text: what begins with a digit.
fn number_at(text: &str) -> &str {
    let length = text.bytes().take_while(u8::is_ascii_alphanumeric).count();
    if text.starts_with(|first: char| first.is_ascii_digit()) {
        &text[..length]
    } else {
        ""
    }
}

/// The sums and the other parts of an instruction's text, which begins at this byte of the show's text.
pub fn pieces(text: &str, start: usize) -> Vec<Piece<'_>> {
    let mut pieces: Vec<Piece> = Vec::new();
    let mut at = 0;
    while let Some(next) = text[at..].chars().next() {
        let rest = &text[at..];
        let (name, number) = (name_at(rest), number_at(rest));
        // Of the names, those of operations, registers and keywords are the parser's; the first is the operation, whatever it is.
        let kind = if !number.is_empty() {
            Some((TermKind::Number(number), number.len()))
        } else if !name.is_empty() && at > 0 && !is_word(name) {
            Some((TermKind::Label(name), name.len()))
        } else if matches!(next, '+' | '-' | '*' | '/' | '(' | ')') {
            Some((TermKind::Sign(next), 1))
        } else {
            None
        };
        let length = match kind {
            Some((kind, length)) => {
                let term = Term { at: start + at, kind };
                match pieces.last_mut() {
                    Some(Piece::Sum { terms, .. }) => terms.push(term),
                    _ => pieces.push(Piece::Sum { terms: vec![term], before_word: false }),
                }
                length
            }
            // Blanks within a sum are left out.
            None if matches!(next, ' ' | '\t') && matches!(pieces.last(), Some(Piece::Sum { .. })) => 1,
            None => {
                if let Some(Piece::Sum { before_word, .. }) = pieces.last_mut() {
                    *before_word = !name.is_empty();
                }
                let length = name.len().max(next.len_utf8());
                match pieces.last_mut() {
                    Some(Piece::Plain { at: from, text: plain }) => *plain = &text[*from - start..at + length],
                    _ => pieces.push(Piece::Plain { at: start + at, text: &text[at..at + length] }),
                }
                length
            }
        };
        at += length;
    }
    pieces
}

/// The places of an instruction's operands: behind the names of operations, between commas.
fn operands(text: &str, start: usize) -> Vec<Range<usize>> {
    let mut at = 0;
    loop {
        let name = name_at(&text[at..]);
        if at > 0 && name.parse::<Operation>().is_err() {
            break;
        }
        at += name.len();
        let behind = text[at..].trim_start_matches([' ', '\t']);
        at = text.len() - behind.len();
        if name.is_empty() || behind.is_empty() {
            break;
        }
    }
    let mut operands = Vec::new();
    if at == text.len() {
        return operands;
    }
    for operand in text[at..].split(',') {
        let blanks = operand.len() - operand.trim_start_matches([' ', '\t']).len();
        operands.push(start + at + blanks..start + at + blanks + operand.trim_matches([' ', '\t']).len());
        at += operand.len() + 1;
    }
    operands
}
