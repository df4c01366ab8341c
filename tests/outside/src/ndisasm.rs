//! ndisasm, through its text.

use crate::meaning::{self, Said, Taken, POINTER, SIGN_EXTENDED};
use crate::records::{op, BYTE, UNSTATED, WORD};
use std::io::{BufRead, BufReader, Write};
use std::process::{Command, Stdio};

/// What it reads at the front of a string that has NOPs behind it.
#[derive(Clone, PartialEq, Eq, Debug)]
pub struct Reading {
    pub length: usize,
    /// where it stood
    pub offset: u16,
    pub text: String,
}

/// Behind the last string: the longest instruction ends in it.
const TAIL: usize = 32;

/// The first instruction of each string, in the strings' order. A string stands at the front of a slot of so many bytes, filled with NOPs. Where the
/// string before reaches into the slot, it is asked again in a slot of 32 bytes. `None`: ndisasm says `db`,
/// or writes a segment prefix alone, as it has nothing to join it to.
pub fn read(strings: &[&[u8]], visit: &mut dyn FnMut(usize, Option<Reading>)) {
    let longest = strings.iter().map(|s| s.len()).max().unwrap_or(0);
    let missed = slots(strings, &(0..strings.len()).collect::<Vec<_>>(), if longest <= 3 { 8 } else { 16 }, visit);
    let still = slots(strings, &missed, 32, visit);
    assert!(still.is_empty(), "ndisasm reads an instruction of more than 29 bytes");
}

fn slots(strings: &[&[u8]], which: &[usize], slot: usize, visit: &mut dyn FnMut(usize, Option<Reading>)) -> Vec<usize> {
    let mut missed = Vec::new();
    // Addresses are printed in eight digits and near targets in four, so that a file may be longer than 65,536 bytes.
    for part in which.chunks(1 << 20) {
        let mut file = Vec::with_capacity(part.len() * slot + TAIL);
        for i in part {
            let from = file.len();
            file.extend_from_slice(strings[*i]);
            file.resize(from + slot, 0x90);
        }
        let end = file.len();
        file.resize(end + TAIL, 0x90);
        let path = std::env::temp_dir().join(format!("outside-{}.bin", std::process::id()));
        std::fs::File::create(&path).and_then(|mut f| f.write_all(&file)).expect("a temporary file");
        let mut child = Command::new("ndisasm").args(["-b", "16"]).arg(&path).stdout(Stdio::piped()).spawn().expect("ndisasm");
        let mut lines = BufReader::with_capacity(1 << 20, child.stdout.take().unwrap());
        let mut next = 0;
        let mut line = String::new();
        while lines.read_line(&mut line).expect("ndisasm's text") > 0 {
            // `00000010  26D7              es xlatb`; a line that goes on with more bytes begins with blanks
            if line.as_bytes()[0] != b' ' {
                let at = usize::from_str_radix(&line[..8], 16).expect("an address");
                if at % slot == 0 && at < end {
                    let now = at / slot;
                    missed.extend_from_slice(&part[next..now]);
                    next = now + 1;
                    let (bytes, text) = line[10..].trim_end().split_once(' ').unwrap_or((line[10..].trim_end(), ""));
                    // ndisasm breaks the bytes of an instruction of more than eight into lines of eight
                    let mut length = bytes.trim_end_matches('-').len() / 2;
                    let text = text.trim_start().to_string();
                    let mut more = bytes.ends_with('-');
                    while more {
                        line.clear();
                        lines.read_line(&mut line).expect("ndisasm's text");
                        let rest = line.trim().trim_start_matches('-');
                        length += rest.trim_end_matches('-').len() / 2;
                        more = rest.ends_with('-');
                    }
                    let nothing = text.starts_with("db ") || SEGMENTS.contains(&text.as_str());
                    let reading = if nothing { None } else { Some(Reading { length, offset: at as u16, text }) };
                    visit(part[now], reading);
                }
            }
            line.clear();
        }
        missed.extend_from_slice(&part[next..]);
        assert!(child.wait().expect("ndisasm").success(), "ndisasm failed");
        let _ = std::fs::remove_file(&path);
    }
    missed
}

/// Does the text of an instruction name a memory operand in document 01's sense?
pub fn has_memory(text: &str) -> bool {
    text.contains('[') || text.ends_with("xlatb")
}

const REGISTERS_8: [&str; 8] = ["al", "cl", "dl", "bl", "ah", "ch", "dh", "bh"];
const REGISTERS_16: [&str; 8] = ["ax", "cx", "dx", "bx", "sp", "bp", "si", "di"];
const SEGMENTS: [&str; 4] = ["es", "cs", "ss", "ds"];
const BASES: [&str; 8] = ["bx+si", "bx+di", "bp+si", "bp+di", "si", "di", "bp", "bx"];

fn place(names: &[&str], name: &str) -> Option<u8> {
    names.iter().position(|n| *n == name).map(|n| n as u8)
}

fn number(text: &str) -> Option<u16> {
    let (negative, digits) = match text.strip_prefix('-') {
        Some(rest) => (true, rest),
        None => (false, text.strip_prefix('+').unwrap_or(text)),
    };
    let value = match digits.strip_prefix("0x") {
        Some(hex) => u32::from_str_radix(hex, 16).ok()?,
        None => digits.parse().ok()?,
    };
    if value > 65535 {
        return None;
    }
    Some(if negative { (value as u16).wrapping_neg() } else { value as u16 })
}

/// `es:bx+si-0x12`, `0x1234`, `bp+0x0`
fn memory(inside: &str, size: u8) -> Option<Said> {
    let (segment, inside) = match inside.split_once(':') {
        Some((segment, rest)) => (Some(place(&SEGMENTS, segment)?), rest),
        None => (None, inside),
    };
    if let Some(address) = number(inside) {
        return Some(Said::Memory(8, address, segment, size));
    }
    let at = inside.find("+0x").or_else(|| inside.find("-0x")).unwrap_or(inside.len());
    let base = place(&BASES, &inside[..at])?;
    let displacement = if at < inside.len() { number(&inside[at..])? } else { 0 };
    Some(Said::Memory(base, displacement, segment, size))
}

/// The meaning of a line of text, or nothing where it has none in document 01's terms.
pub fn meaning(text: &str) -> Option<Taken> {
    match text.split_once(' ') {
        Some(("rep" | "repe", rest)) => meaning::repeated(plain(rest)?, 0xF3),
        Some(("repne", rest)) => meaning::repeated(plain(rest)?, 0xF2),
        _ => plain(text),
    }
}

/// The same of a line without a repeat.
fn plain(text: &str) -> Option<Taken> {
    let (prefix, text) = match text.split_once(' ') {
        // only D7 has its prefix before it: the others show it at the memory operand
        Some((segment, "xlatb")) => (Some(place(&SEGMENTS, segment)?), "xlatb"),
        _ => (None, text),
    };
    let (name, rest) = text.split_once(' ').unwrap_or((text, ""));
    let operation = meaning::operation(name)?;
    if operation == op::XLATB {
        return meaning::meaning(operation, &[Said::Memory(7, 0, prefix, BYTE)]);
    }
    let mut said = Vec::with_capacity(2);
    let mut used = 0;
    for operand in rest.split(',').filter(|o| !o.is_empty()) {
        let mut operand = operand;
        let mut size = UNSTATED;
        loop {
            operand = match operand.split_once(' ') {
                Some(("byte", rest)) => {
                    size = BYTE;
                    rest
                }
                Some(("word", rest)) => {
                    size = WORD;
                    rest
                }
                Some(("far", rest)) => {
                    size = POINTER;
                    rest
                }
                Some(("short" | "near", rest)) => rest,
                Some(_) => return None,
                None => break,
            }
        }
        said.push(if let Some(n) = place(&REGISTERS_8, operand) {
            Said::Register8(n)
        } else if let Some(n) = place(&REGISTERS_16, operand) {
            Said::Register16(n)
        } else if let Some(n) = place(&SEGMENTS, operand) {
            Said::Segment(n)
        } else if let Some(inside) = operand.strip_prefix('[') {
            memory(inside.strip_suffix(']')?, size)?
        } else if let Some((segment, offset)) = operand.split_once(':') {
            Said::Far(number(offset)?, number(segment)?)
        } else {
            let value = number(operand)?;
            let branch = matches!(operation, op::CALL..=op::JMP | op::JE..=op::JCXZ);
            if size == BYTE && !branch {
                used |= SIGN_EXTENDED;
            }
            if branch { Said::Target(value) } else { Said::Immediate(value) }
        });
    }
    meaning::meaning(operation, &said).map(|(meaning, also)| (meaning, used | also))
}
