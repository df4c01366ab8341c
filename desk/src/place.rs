//! Places in a text: line, column, and the line quoted.

use std::ops::Range;

/// Something to say of a place in a text.
#[derive(Clone, Debug, PartialEq, Eq)]
pub struct Mistake {
    /// the bytes of the text
    pub span: Range<usize>,
    /// what is wrong
    pub what: String,
}

impl Mistake {
    pub fn new(span: Range<usize>, what: impl Into<String>) -> Mistake {
        Mistake { span, what: what.into() }
    }

    /// `NAME:LINE:COLUMN: WHAT`, and the line with the place marked under it.
    pub fn to_text(&self, name: &str, text: &[u8]) -> String {
        let place = place(text, self.span.start);
        format!("{name}:{}:{}: {}\n{}", place.line, place.column, self.what, quote(text, &self.span))
    }
}

/// All of them, in the order of their places.
pub fn all(mut mistakes: Vec<Mistake>, name: &str, text: &[u8]) -> String {
    mistakes.sort_by_key(|mistake| mistake.span.start);
    mistakes.iter().map(|mistake| mistake.to_text(name, text)).collect()
}

/// The lines of a text without the comments behind semicolons.
pub fn lines(text: &[u8]) -> impl Iterator<Item = Range<usize>> + '_ {
    // Some editors begin a text with this mark.
    let mut next = if text.starts_with(b"\xEF\xBB\xBF") { 3 } else { 0 };
    std::iter::from_fn(move || {
        let start = next;
        let line = text.get(start..).filter(|rest| !rest.is_empty())?.split(|&byte| byte == b'\n').next()?;
        next = start + line.len() + 1;
        Some(start..start + line.iter().position(|&byte| byte == b';').unwrap_or(line.len()))
    })
}

/// The characters of a part of a text.
pub fn characters_of(text: &[u8], part: Range<usize>) -> Result<&str, Mistake> {
    std::str::from_utf8(&text[part.clone()]).map_err(|error| {
        let at = part.start + error.valid_up_to();
        Mistake::new(at..at + 1, "this is no character of UTF-8")
    })
}

/// A place, both numbers from 1; a column is a character.
#[derive(Clone, Copy, Debug, PartialEq, Eq)]
pub struct Place {
    pub line: usize,
    pub column: usize,
}

/// The place of a byte of a text.
pub fn place(text: &[u8], at: usize) -> Place {
    let at = at.min(text.len());
    let line = text[..at].iter().filter(|&&byte| byte == b'\n').count() + 1;
    Place { line, column: characters(&text[line_of(text, at).start..at]) + 1 }
}

fn characters(bytes: &[u8]) -> usize {
    String::from_utf8_lossy(bytes).chars().count()
}

/// The bytes of the line that a byte stands in, without its end.
fn line_of(text: &[u8], at: usize) -> Range<usize> {
    let start = text[..at].iter().rposition(|&byte| byte == b'\n').map_or(0, |end| end + 1);
    let end = text[at..].iter().position(|&byte| byte == b'\n').map_or(text.len(), |end| at + end);
    let end = if end > start && text[end - 1] == b'\r' { end - 1 } else { end };
    start..end.max(start)
}

/// So much of a line is quoted, from before the place on.
const QUOTED: usize = 160;

/// The line of a place with the place marked under it, both indented.
pub fn quote(text: &[u8], span: &Range<usize>) -> String {
    let at = span.start.min(text.len());
    let line = line_of(text, at);
    let at = at.min(line.end);
    let (column, marked) = (characters(&text[line.start..at]), characters(&text[at..span.end.clamp(at, line.end)]));
    let first = column.saturating_sub(QUOTED / 2);
    // A tab stays one, so that the mark stands below its place; what does not print is replaced.
    let shown = |c: char| if c.is_control() && c != '\t' { '\u{fffd}' } else { c };
    let shown: String = String::from_utf8_lossy(&text[line]).chars().map(shown).skip(first).take(QUOTED).collect();
    let before: String = shown.chars().take(column - first).map(|c| if c == '\t' { c } else { ' ' }).collect();
    format!("    {shown}\n    {before}{}\n", "^".repeat(marked.clamp(1, QUOTED - (column - first))))
}
