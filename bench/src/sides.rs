//! The sides that are timed. Each does a round: all records of the show once, into slots that stand ready.

use super::answers::Run;
use super::bindings::*;
use super::clock::Turn;
use super::rattle::{self, Report};
use super::rust;
use super::show::Show;
#[cfg(zydis)]
use super::zydis;

/// What a round writes for each record, beside a length or count.
#[derive(Clone, Copy, PartialEq, Eq)]
pub enum Writes {
    Bytes,
    Lengths,
    Lists,
    Forms,
    Image,
}

/// Only what a side writes is there, so that clearing it does not fill the processor's caches with the rest.
pub struct Slots {
    bytes: Vec<[u8; 8]>,
    lengths: Vec<usize>,
    lists: Vec<[u8; FSQ_LIST_LENGTH]>,
    forms: Vec<[u8; FSQ_FORM_LENGTH]>,
    image: Vec<u8>,
}

impl Slots {
    fn new(side: &Side, records: usize) -> Slots {
        let of = |writes| if side.writes == writes { records } else { 0 };
        Slots {
            bytes: vec![[0; 8]; of(Writes::Bytes)],
            lengths: vec![0; records],
            lists: vec![[0; FSQ_LIST_LENGTH]; of(Writes::Lists)],
            forms: vec![[0; FSQ_FORM_LENGTH]; of(Writes::Forms)],
            image: vec![0; FSQ_STRING_LENGTH * of(Writes::Image)],
        }
    }

    fn clear(&mut self) {
        self.bytes.fill([0; 8]);
        self.lengths.fill(0);
        self.lists.fill([0; FSQ_LIST_LENGTH]);
        self.forms.fill([0; FSQ_FORM_LENGTH]);
        self.image.fill(0);
    }
}

pub struct Side {
    name: &'static str,
    writes: Writes,
    round: fn(&Show, &mut Slots),
    /// Are these the answers of a round? Else what is wrong.
    answers: fn(&Show, &Slots) -> Result<(), String>,
}

/// A side on a show.
pub struct OnShow<'a> {
    show: &'a Show,
    side: &'static Side,
    slots: Slots,
}

impl<'a> OnShow<'a> {
    pub fn new(show: &'a Show, side: &'static Side) -> OnShow<'a> {
        OnShow { show, side, slots: Slots::new(side, show.records.len()) }
    }
}

impl Turn for OnShow<'_> {
    fn count(&self) -> usize {
        self.show.records.len()
    }

    fn clear(&mut self) {
        self.slots.clear();
    }

    fn round(&mut self) {
        (self.side.round)(self.show, &mut self.slots);
    }

    fn answers(&self) -> Result<(), String> {
        (self.side.answers)(self.show, &self.slots).map_err(|why| format!("{}: {why}", self.side.name))
    }
}

const SIDES: &[Side] = &[
    Side { name: "encode-rattle", writes: Writes::Bytes, round: encode_rattle, answers: bytes },
    #[cfg(plain)]
    Side { name: "encode-plain", writes: Writes::Bytes, round: encode_plain, answers: bytes },
    Side { name: "encode-rust", writes: Writes::Bytes, round: encode_rust, answers: bytes },
    Side { name: "encode-rust-alone", writes: Writes::Bytes, round: encode_rust_alone, answers: bytes },
    Side { name: "read-rattle", writes: Writes::Lengths, round: read_rattle, answers: lengths },
    #[cfg(zydis)]
    Side { name: "read-zydis", writes: Writes::Lengths, round: read_zydis, answers: lengths_but_for_prefixes },
    Side { name: "list-rattle", writes: Writes::Lists, round: list_rattle, answers: lists },
    Side { name: "shortest-rattle", writes: Writes::Bytes, round: shortest_rattle, answers: firsts },
    Side { name: "form-rattle", writes: Writes::Forms, round: form_rattle, answers: forms },
    Side { name: "load-rattle", writes: Writes::Image, round: load_rattle, answers: image },
    Side { name: "load-rust", writes: Writes::Image, round: load_rust, answers: image },
    Side { name: "encode-repeat", writes: Writes::Bytes, round: encode_repeat, answers: repeat_bytes },
    Side { name: "read-repeat", writes: Writes::Lengths, round: read_repeat, answers: repeat_lengths },
    Side { name: "list-repeat", writes: Writes::Lists, round: list_repeat, answers: repeat_lists },
    Side { name: "load-repeat", writes: Writes::Image, round: load_repeat, answers: repeat_image },
];

pub fn named(name: &str) -> Option<&'static Side> {
    SIDES.iter().find(|side| side.name == name)
}

/// Runs every side once and compares its answers with those of the Rust.
pub fn agree(show: &Show) -> Result<String, String> {
    for side in SIDES {
        let mut turn = OnShow::new(show, side);
        turn.round();
        turn.answers()?;
    }
    let total = |strings: &[Run]| -> usize { strings.iter().map(|string| string.len).sum() };
    let names: Vec<&str> = SIDES.iter().map(|side| side.name).collect();
    let (plain, repeated) = (total(&show.strings), total(&show.repeated.strings));
    Ok(format!("{plain} in {} records, {repeated} in as many with a repeat, equal on all sides: {}", show.records.len(), names.join(", ")))
}

#[inline(never)]
fn encode_rattle(show: &Show, slots: &mut Slots) {
    let mut report: Report = [0; FSQ_REPORT_LENGTH];
    for (n, record) in show.records.iter().enumerate() {
        slots.lengths[n] = rattle::encode(record, show.offsets[n], &mut slots.bytes[n], &mut report).unwrap_or(0);
    }
}

#[cfg(plain)]
#[inline(never)]
fn encode_plain(show: &Show, slots: &mut Slots) {
    let mut report: Report = [0; FSQ_REPORT_LENGTH];
    for (n, record) in show.records.iter().enumerate() {
        slots.lengths[n] = rattle::plain(record, show.offsets[n], &mut slots.bytes[n], &mut report).unwrap_or(0);
    }
}

#[inline(never)]
fn encode_rust(show: &Show, slots: &mut Slots) {
    for (n, record) in show.records.iter().enumerate() {
        slots.lengths[n] = rust::encode_record(record, show.offsets[n], &mut slots.bytes[n]).unwrap_or(0);
    }
}

#[inline(never)]
fn encode_rust_alone(show: &Show, slots: &mut Slots) {
    for (n, instruction) in show.instructions.iter().enumerate() {
        slots.lengths[n] = rust::encode_alone(instruction, show.offsets[n], &mut slots.bytes[n]).unwrap_or(0);
    }
}

#[inline(never)]
fn read_rattle(show: &Show, slots: &mut Slots) {
    let mut out = [0; FSQ_READING_LENGTH];
    for (n, string) in show.strings.iter().enumerate() {
        slots.lengths[n] = rattle::read(&string.bytes[..string.len], show.offsets[n], &mut out).unwrap_or(0);
    }
}

#[cfg(zydis)]
#[inline(never)]
fn read_zydis(show: &Show, slots: &mut Slots) {
    for (n, string) in show.strings.iter().enumerate() {
        slots.lengths[n] = zydis::read(&string.bytes[..string.len]);
    }
}

#[inline(never)]
fn list_rattle(show: &Show, slots: &mut Slots) {
    let mut report: Report = [0; FSQ_REPORT_LENGTH];
    for (n, record) in show.records.iter().enumerate() {
        slots.lengths[n] = rattle::list(record, show.offsets[n], &mut slots.lists[n], &mut report).unwrap_or(0);
    }
}

#[inline(never)]
fn shortest_rattle(show: &Show, slots: &mut Slots) {
    let mut report: Report = [0; FSQ_REPORT_LENGTH];
    for (n, record) in show.records.iter().enumerate() {
        slots.lengths[n] = rattle::shortest(record, show.offsets[n], &mut slots.bytes[n], &mut report).unwrap_or(0);
    }
}

#[inline(never)]
fn form_rattle(show: &Show, slots: &mut Slots) {
    let mut report: Report = [0; FSQ_REPORT_LENGTH];
    for (n, record) in show.records.iter().enumerate() {
        slots.lengths[n] = rattle::form(record, show.offsets[n], &mut slots.forms[n], &mut report).unwrap_or(0);
    }
}

#[inline(never)]
fn load_rattle(show: &Show, slots: &mut Slots) {
    let mut report: Report = [0; FSQ_REPORT_LENGTH];
    slots.lengths[0] = rattle::load(&show.file, &mut slots.image, &mut report).unwrap_or(0);
}

/// The Rust has no loader: each record of the file read and encoded, behind the one before it.
#[inline(never)]
fn load_rust(show: &Show, slots: &mut Slots) {
    let mut offset = show.origin();
    let mut at = 0;
    for record in show.file[FSQ_HEADER_LENGTH..].chunks_exact(FSQ_RECORD_LENGTH) {
        let length = rust::encode_record(record.try_into().unwrap(), offset, &mut slots.image[at..]).unwrap_or(0);
        offset = offset.wrapping_add(length as u16);
        at += length;
    }
    slots.lengths[0] = at;
}

#[inline(never)]
fn encode_repeat(show: &Show, slots: &mut Slots) {
    let mut report: Report = [0; FSQ_REPORT_LENGTH];
    for (n, record) in show.repeated.records.iter().enumerate() {
        slots.lengths[n] = rattle::encode(record, 0, &mut slots.bytes[n], &mut report).unwrap_or(0);
    }
}

#[inline(never)]
fn read_repeat(show: &Show, slots: &mut Slots) {
    let mut out = [0; FSQ_READING_LENGTH];
    for (n, string) in show.repeated.strings.iter().enumerate() {
        slots.lengths[n] = rattle::read(&string.bytes[..string.len], 0, &mut out).unwrap_or(0);
    }
}

#[inline(never)]
fn list_repeat(show: &Show, slots: &mut Slots) {
    let mut report: Report = [0; FSQ_REPORT_LENGTH];
    for (n, record) in show.repeated.records.iter().enumerate() {
        slots.lengths[n] = rattle::list(record, 0, &mut slots.lists[n], &mut report).unwrap_or(0);
    }
}

#[inline(never)]
fn load_repeat(show: &Show, slots: &mut Slots) {
    let mut report: Report = [0; FSQ_REPORT_LENGTH];
    slots.lengths[0] = rattle::load(&show.repeated.file, &mut slots.image, &mut report).unwrap_or(0);
}

fn each(strings: &[Run], fine: impl Fn(usize, &Run) -> bool) -> Result<(), String> {
    match strings.iter().enumerate().find(|(n, string)| !fine(*n, string)) {
        Some((n, _)) => Err(format!("record {n} has another answer")),
        None => Ok(()),
    }
}

fn bytes(show: &Show, slots: &Slots) -> Result<(), String> {
    bytes_of(&show.strings, slots)
}

fn repeat_bytes(show: &Show, slots: &Slots) -> Result<(), String> {
    bytes_of(&show.repeated.strings, slots)
}

fn bytes_of(strings: &[Run], slots: &Slots) -> Result<(), String> {
    each(strings, |n, string| slots.lengths[n] == string.len && slots.bytes[n][..7] == string.bytes && slots.bytes[n][7] == 0)
}

fn lengths(show: &Show, slots: &Slots) -> Result<(), String> {
    each(&show.strings, |n, string| slots.lengths[n] == string.len)
}

fn repeat_lengths(show: &Show, slots: &Slots) -> Result<(), String> {
    each(&show.repeated.strings, |n, string| slots.lengths[n] == string.len)
}

/// The record's own string is the one entry.
fn repeat_lists(show: &Show, slots: &Slots) -> Result<(), String> {
    each(&show.repeated.strings, |n, string| slots.lengths[n] == 1 && slots.lists[n][0] as usize == string.len && slots.lists[n][1..FSQ_ENTRY_LENGTH] == string.bytes)
}

/// LOCK, REPNE and REP alone are no instruction to Zydis.
#[cfg(zydis)]
fn lengths_but_for_prefixes(show: &Show, slots: &Slots) -> Result<(), String> {
    each(&show.strings, |n, string| slots.lengths[n] == if matches!(string.bytes[0], 0xF0 | 0xF2 | 0xF3) { 0 } else { string.len })
}

/// The record's own string is among the entries.
fn lists(show: &Show, slots: &Slots) -> Result<(), String> {
    each(&show.strings, |n, string| slots.lists[n].chunks(FSQ_ENTRY_LENGTH).take(slots.lengths[n]).any(|entry| entry[0] as usize == string.len && entry[1..] == string.bytes))
}

/// The first entry of the record's list, not longer than its own string.
fn firsts(show: &Show, slots: &Slots) -> Result<(), String> {
    each(&show.strings, |n, string| {
        let (mut list, mut report) = ([0; FSQ_LIST_LENGTH], [0; FSQ_REPORT_LENGTH]);
        let listed = rattle::list(&show.records[n], show.offsets[n], &mut list, &mut report).is_some();
        listed && slots.lengths[n] == list[0] as usize && slots.bytes[n][..7] == list[1..FSQ_ENTRY_LENGTH] && slots.bytes[n][7] == 0 && slots.lengths[n] <= string.len
    })
}

/// A form's line, whose opcode is the first byte of the record's own string that is no segment prefix.
fn forms(show: &Show, slots: &Slots) -> Result<(), String> {
    each(&show.strings, |n, string| {
        let opcode = string.bytes.iter().find(|byte| !matches!(byte, 0x26 | 0x2E | 0x36 | 0x3E)).map_or(0, |opcode| *opcode);
        let (line, behind) = slots.forms[n].split_at(slots.lengths[n]);
        line.starts_with(format!("form {opcode:02X} ").as_bytes()) && line.ends_with(b"\n") && behind.iter().all(|byte| *byte == 0)
    })
}

fn image(show: &Show, slots: &Slots) -> Result<(), String> {
    image_of(&show.strings, slots)
}

fn repeat_image(show: &Show, slots: &Slots) -> Result<(), String> {
    image_of(&show.repeated.strings, slots)
}

fn image_of(strings: &[Run], slots: &Slots) -> Result<(), String> {
    let whole: Vec<u8> = strings.iter().flat_map(|string| &string.bytes[..string.len]).copied().collect();
    let (front, behind) = slots.image.split_at(whole.len());
    if slots.lengths[0] == whole.len() && front == whole && behind.iter().all(|byte| *byte == 0) {
        Ok(())
    } else {
        Err("another image".to_string())
    }
}
