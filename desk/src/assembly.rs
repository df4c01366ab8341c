//! A show's text becomes instructions: labels get their values, sums are evaluated, and the crate's parser and encoder do the rest.

use crate::place::Mistake;
use crate::source::{pieces, take_apart, Piece, Source, Statement, Term, TermKind};
use fsq::{encode, evaluate, form, Instruction, Operation, Refusal};
use std::ops::Range;

/// The most records of a show file (REFERENCE 8).
const MOST_RECORDS: usize = 8000;

/// The length of an instruction can go by a label, as that of `ADD BX,label`, and the label by the length. So often all are encoded before it is said that
/// they do not settle.
const MOST_PASSES: usize = 64;

/// An origin and the instructions from there on, each with its place in the text as its span.
#[derive(Clone, Debug, PartialEq, Eq)]
pub struct Assembly {
    pub origin: u16,
    pub instructions: Vec<Instruction>,
}

/// Assembles a text. Its instructions are accepted, each at its own offset, and state no operand that its form does not use.
pub fn assemble(text: &[u8]) -> Result<Assembly, Vec<Mistake>> {
    assemble_at(text, 0)
}

/// The same, from an origin on where the text has no ORG.
pub fn assemble_at(text: &[u8], origin: u16) -> Result<Assembly, Vec<Mistake>> {
    let (source, mut mistakes) = take_apart(text);
    let origin = source.origin(origin).unwrap_or_else(|mistake| {
        mistakes.push(mistake);
        0
    });
    if let Some(statement) = source.statements.get(MOST_RECORDS) {
        mistakes.push(Mistake::new(statement.span.clone(), format!("a show has at most {MOST_RECORDS} instructions")));
        return Err(mistakes);
    }
    let mut lengths = vec![0; source.statements.len()];
    for _ in 0..MOST_PASSES {
        let pass = source.pass(origin, &lengths);
        if pass.lengths == lengths {
            mistakes.extend(pass.mistakes);
            return if mistakes.is_empty() { Ok(Assembly { origin, instructions: pass.instructions }) } else { Err(mistakes) };
        }
        lengths = pass.lengths;
    }
    mistakes.push(Mistake::new(0..0, "the lengths of instructions go by labels, and the labels by the lengths, without an end"));
    Err(mistakes)
}

/// What comes of the statements with labels by the lengths of the pass before.
#[derive(Default)]
struct Pass {
    lengths: Vec<usize>,
    instructions: Vec<Instruction>,
    mistakes: Vec<Mistake>,
}

/// The value of a number or a sum without labels, which stands at a byte of a text.
pub fn number(text: &str, at: usize) -> Result<i32, Mistake> {
    match pieces(text, at).as_slice() {
        [Piece::Sum { terms, .. }] => Source::default().value(terms, None),
        _ => Err(Mistake::new(at..at + text.len().max(1), "a number is expected")),
    }
}

/// The offset of each record, and of the end.
fn offsets(origin: u16, lengths: &[usize]) -> Vec<u16> {
    let mut offsets = vec![origin];
    for &length in lengths {
        offsets.push(offsets[offsets.len() - 1].wrapping_add(length as u16));
    }
    offsets
}

/// The length of an instruction that is accepted. An operand more or less than its form uses would be left out or taken for 0.
fn length_of(statement: &Statement, instruction: &Instruction, offset: u16) -> Result<usize, Mistake> {
    let refused = |refusal: Refusal| {
        let span = refusal.span.as_ref().filter(|span| !span.is_empty()).map(|span| span.start as usize..span.end as usize);
        Mistake::new(span.unwrap_or(statement.span.clone()), refusal.to_string())
    };
    let length = encode(instruction, offset).map_err(refused)?.len();
    let (used, written) = (form(instruction, offset).map_err(refused)?.operands().count(), instruction.operands().len());
    if used == written {
        return Ok(length);
    }
    let operands = |count: usize| match count {
        0 => "no operand".into(),
        1 => "1 operand".into(),
        _ => format!("{count} operands"),
    };
    let what = format!("{} has {} here, and its form {}", instruction.operation(), operands(written), operands(used));
    Err(Mistake::new(statement.span.clone(), what))
}

/// The branches whose distance is one byte, which is not wrapped at the segment's end.
fn has_distance_byte(operation: Operation) -> bool {
    use Operation::*;
    matches!(
        operation,
        JE | JL | JLE | JB | JBE | JP | JO | JS | JNE | JNL | JNLE | JNB | JNBE | JNP | JNO | JNS | LOOP | LOOPZ | LOOPNZ | JCXZ
    )
}

/// The target of a branch that goes to a label across the segment's end is below 0 or above 65,535.
fn within_reach(label: i32, offset: u16) -> i32 {
    let end = i32::from(offset) + 2;
    [label, label - 65536, label + 65536].into_iter().find(|target| (-128..=127).contains(&(target - end))).unwrap_or(label)
}

impl<'a> Source<'a> {
    /// The value of ORG, or another where there is none.
    fn origin(&self, without: u16) -> Result<u16, Mistake> {
        let Some((terms, span)) = &self.origin else { return Ok(without) };
        let value = self.value(terms, None)?;
        u16::try_from(value).map_err(|_| Mistake::new(span.clone(), format!("the origin {value} is outside 0..65535")))
    }

    /// Encodes all statements. One with a mistake keeps its length: it may be right once the labels are.
    fn pass(&self, origin: u16, lengths: &[usize]) -> Pass {
        let offsets = offsets(origin, lengths);
        let mut pass = Pass::default();
        for ((statement, &offset), &length) in self.statements.iter().zip(&offsets).zip(lengths) {
            let instruction = self.instruction(statement, &offsets, offset);
            match instruction.and_then(|instruction| Ok((length_of(statement, &instruction, offset)?, instruction))) {
                Ok((length, instruction)) => {
                    pass.lengths.push(length);
                    pass.instructions.push(instruction);
                }
                Err(mistake) => {
                    pass.lengths.push(length);
                    pass.mistakes.push(mistake);
                }
            }
        }
        pass
    }

    /// The instruction of a statement that stands at an offset.
    fn instruction(&self, statement: &Statement<'a>, offsets: &[u16], offset: u16) -> Result<Instruction, Mistake> {
        // The text for the crate's parser, and for the front of each part its place in the show's text.
        let (mut text, mut places) = (String::new(), Vec::new());
        let branches = has_distance_byte(statement.operation);
        for piece in &statement.pieces {
            match piece {
                Piece::Plain { at, text: plain } => {
                    places.push((text.len(), *at, true));
                    text.push_str(plain);
                }
                Piece::Sum { terms, before_word } => {
                    places.push((text.len(), terms[0].at, false));
                    match terms.as_slice() {
                        [Term { kind: TermKind::Label(_), .. }] if branches => {
                            let label = self.value(terms, Some(offsets))?;
                            text.push_str(&within_reach(label, offset).to_string());
                        }
                        _ => self.write_sum(terms, *before_word, offsets, &mut text)?,
                    }
                }
            }
        }
        let instruction: Instruction = text.parse().map_err(|error: fsq::ParseError| {
            let &(from, at, plain) = places.iter().rev().find(|(from, ..)| *from <= error.at).unwrap_or(&(0, statement.span.start, true));
            let at = if plain { (at + error.at - from).min(statement.span.end) } else { at };
            Mistake::new(at..at + 1, format!("{} is expected", error.expected))
        })?;
        Ok(with_places(&instruction, statement))
    }

    /// Writes the value of a sum between two parts of an instruction, with its sign where the sum begins with one.
    fn write_sum(&self, terms: &[Term], before_word: bool, offsets: &[u16], text: &mut String) -> Result<(), Mistake> {
        // In `4+BX` and `BX+SI` the last sign is that of the register behind.
        let (terms, last) = match terms {
            [terms @ .., Term { kind: TermKind::Sign(sign @ ('+' | '-')), .. }] if before_word => (terms, Some(*sign)),
            _ => (terms, None),
        };
        match terms {
            [] => {}
            // `+4` is `4` to the evaluator.
            [Term { kind: TermKind::Sign('+'), .. }, summands @ ..] if !summands.is_empty() => {
                text.push_str(&format!("{:+}", self.value(summands, Some(offsets))?))
            }
            [Term { kind: TermKind::Sign('-'), .. }, ..] => text.push_str(&format!("{:+}", self.value(terms, Some(offsets))?)),
            _ => text.push_str(&format!(" {}", self.value(terms, Some(offsets))?)),
        }
        text.extend(last);
        Ok(())
    }

    /// The value of a sum, with the labels' offsets where they are known.
    fn value(&self, terms: &[Term], offsets: Option<&[u16]>) -> Result<i32, Mistake> {
        let mut sum = String::new();
        let mut last_is_number = false;
        for term in terms {
            let mistake = |length: usize, what: String| Err(Mistake::new(term.at..term.at + length, what));
            let is_number = !matches!(term.kind, TermKind::Sign(_));
            match term.kind {
                TermKind::Sign(sign) => sum.push(sign),
                TermKind::Number(text) | TermKind::Label(text) if last_is_number => {
                    return mistake(text.len(), "one of + - * / or the end of the number is expected".into());
                }
                TermKind::Number(text) => match decimal(text) {
                    Some(digits) => sum.push_str(&digits),
                    None => return mistake(text.len(), format!("{text} is no number, decimal, or hexadecimal behind 0x")),
                },
                TermKind::Label(name) => match (self.labels.get(name), offsets) {
                    (Some(&statement), Some(offsets)) => sum.push_str(&offsets[statement].to_string()),
                    (Some(_), None) => return mistake(name.len(), format!("the label {name} has no value here")),
                    (None, _) => return mistake(name.len(), format!("there is no label {name}")),
                },
            }
            last_is_number = is_number;
        }
        evaluate(&sum).map_err(|refusal| Mistake::new(span_of(terms), refusal.to_string()))
    }
}

fn span_of(terms: &[Term]) -> Range<usize> {
    let length = |term: &Term| match term.kind {
        TermKind::Sign(_) => 1,
        TermKind::Number(text) | TermKind::Label(text) => text.len(),
    };
    let (start, end) = (terms.first().map_or(0, |term| term.at), terms.last().map_or(0, |term| term.at + length(term)));
    start..end
}

/// The decimal digits of a number, which the evaluator takes. One that is too long is left to its refusal.
fn decimal(text: &str) -> Option<String> {
    match text.strip_prefix("0x").or(text.strip_prefix("0X")) {
        Some(digits) if !digits.is_empty() && digits.bytes().all(|digit| digit.is_ascii_hexdigit()) => {
            Some(u64::from_str_radix(digits, 16).unwrap_or(u64::MAX).to_string())
        }
        None if text.bytes().all(|digit| digit.is_ascii_digit()) => Some(text.into()),
        _ => None,
    }
}

/// The same instruction with the places of itself and its operands.
fn with_places(instruction: &Instruction, statement: &Statement) -> Instruction {
    let span = |range: &Range<usize>| range.start as u32..range.end as u32;
    let operand = |n: usize| instruction.operands()[n].clone().at(span(statement.operands.get(n).unwrap_or(&statement.span)));
    let operation = instruction.operation();
    let placed = match instruction.operands().len() {
        0 => Instruction::none(operation),
        1 => Instruction::one(operation, operand(0)),
        _ => Instruction::two(operation, operand(0), operand(1)),
    };
    placed.repeated(instruction.repeat()).at(span(&statement.span))
}
