//! None missing, from outside: all strings of 1 to 3 bytes that our table reads, grouped by what a disassembler says that they mean, are our lists, and the first
//! of a group is the shortest string of its instruction.

use crate::classes::{JOINED_BY_NDISASM, JOINED_BY_ZYDIS};
use crate::groups::{ARITHMETIC, CONDITIONAL, LOOPS};
use crate::library::{self, Read};
use crate::meaning::{is_shift, Meaning, Operand, CONVENTIONS};
use crate::records::{self, hex, op, Record, BYTE, FAR, NEAR, NONE, SHORT, UNSTATED, WORD};
use crate::reads::told;
use crate::shapes;
use crate::strings;
use crate::zydis::Zydis;
use crate::{generate, ndisasm, Depth, Failures};

/// Where all strings stand.
const OFFSET: u16 = 0x8000;

/// 1 to 3 bytes with their length in front, so that they sort as the lists do.
type Short = [u8; 4];

fn short(string: &[u8]) -> Short {
    let mut short = [string.len() as u8, 0, 0, 0];
    short[1..1 + string.len()].copy_from_slice(string);
    short
}

/// A record of this meaning, written from document 01's 'Instruction' and 'Operand'.
pub fn record_of(meaning: &Meaning) -> Record {
    let operation = meaning.operation;
    let branch = CONDITIONAL.contains(&operation) || LOOPS.contains(&operation);
    let operand = |i: usize| {
        // LES and LDS read a double word, the port and the count have sizes of their own
        let size = match (operation, i) {
            (op::LEA | op::LES | op::LDS, 1) => UNSTATED,
            (op::XLATB, _) | (op::IN, 1) | (op::OUT, 0) => WORD,
            _ if is_shift(operation) && i == 1 => BYTE,
            _ => meaning.width,
        };
        match meaning.operands[i] {
            Operand::None => shapes::immediate(UNSTATED, NONE, 0, 0),
            Operand::Register(n) => shapes::register(size, NONE, n, 0),
            Operand::Segment(n) => shapes::segment(NONE, n, 0),
            Operand::Memory(base, displacement, segment) => {
                let prefix = strings::PREFIXES[segment as usize];
                let (mode, rm) = match base {
                    8 => (0, 6),
                    7 if operation == op::XLATB => (0, 7),
                    base => (2, base),
                };
                // CALL through memory is near with the width of a word and far without one
                let jump = if operation == op::CALL && meaning.width == UNSTATED { FAR } else { NONE };
                shapes::memory(size, jump, prefix, mode, rm, displacement as i32, 0)
            }
            Operand::Immediate(v) => shapes::immediate(UNSTATED, NONE, v as i32, 0),
            Operand::Near(target) => shapes::immediate(UNSTATED, if branch { NONE } else { NEAR }, target as i32, 0),
            Operand::Far(offset, segment) => shapes::immediate(UNSTATED, FAR, offset as i32, segment as i32),
            Operand::One => shapes::immediate(UNSTATED, NONE, 1, 0),
        }
    };
    let count = meaning.operands.iter().filter(|o| **o != Operand::None).count();
    generate::record(operation, count as u8, operand(0), operand(1))
}

/// Another record of this meaning, where there is one: the operands the other way round, another kind of JMP, or a negative data immediate.
fn also(meaning: &Meaning, record: &Record) -> Option<Record> {
    let mut other = *record;
    match (meaning.operation, meaning.operands) {
        (op::XCHG, _) | (op::TEST, [_, Operand::Memory(..)]) => other.operands.swap(0, 1),
        (op::JMP, [Operand::Near(target), _]) => {
            let near = (-128..=127).contains(&(target as i32 - (OFFSET as i32 + 2)));
            other.operands[0].jump = if near { SHORT } else { NONE };
        }
        (operation, [_, Operand::Immediate(value)]) if ARITHMETIC.contains(&operation) || matches!(operation, op::MOV | op::TEST) => {
            let modulus = if meaning.width == BYTE { 256 } else { 65536 };
            if (value as i32) < modulus / 2 {
                return None;
            }
            other.operands[1].imm -= modulus;
        }
        _ => return None,
    }
    Some(other)
}

/// Groups the strings by meaning and lays each group beside the list of a record of that meaning.
fn compare(name: &str, mut read: Vec<(Meaning, Short)>, used: [u64; CONVENTIONS.len()], entries: &mut dyn FnMut(&Meaning, &[u8], &mut Failures)) -> bool {
    let mut failures = Failures::default();
    read.sort_unstable();
    let (mut groups, mut alone, mut longer) = (0u64, 0u64, 0u64);
    for group in read.chunk_by(|a, b| a.0 == b.0) {
        groups += 1;
        alone += (group.len() == 1) as u64;
        let meaning = &group[0].0;
        let record = record_of(meaning);
        let packed = library::packed(&record, meaning.repeat);
        let list = match library::list(&packed, OFFSET) {
            Ok(list) => list,
            Err(number) => {
                failures.add(&format!("{meaning:?}: {} reads, and its record {} is refused {number}", hex(&group[0].1), hex(&packed)));
                continue;
            }
        };
        let first = &group[0].1[1..1 + group[0].1[0] as usize];
        let mut shortest = |record: &[u8]| match library::shortest(record, OFFSET) {
            Ok(string) if string == first => (),
            other => failures.add(&format!("{meaning:?}: the shortest string of record {} is {other:X?}, by {name} {}", hex(record), hex(first))),
        };
        shortest(&packed);
        if let Some(other) = also(meaning, &record).map(|record| record.pack()) {
            shortest(&other);
            let second = library::list(&other, OFFSET);
            if second.as_ref() != Ok(&list) {
                failures.add(&format!("{meaning:?}: record {} lists {list:?}, record {} {second:?}", hex(&packed), hex(&other)));
            }
        }
        let ours: Vec<Short> = list.iter().filter(|entry| entry.len() <= 3).map(|entry| short(entry)).collect();
        if !ours.iter().eq(group.iter().map(|(_, string)| string)) {
            let theirs: Vec<String> = group.iter().map(|(_, s)| hex(&s[1..1 + s[0] as usize])).collect();
            let ours: Vec<String> = ours.iter().map(|s| hex(&s[1..1 + s[0] as usize])).collect();
            failures.add(&format!("{meaning:?}: list {}, {name} groups {}", ours.join(" "), theirs.join(" ")));
        }
        for entry in list.iter().filter(|entry| entry.len() > 3) {
            longer += 1;
            entries(meaning, entry, &mut failures);
        }
    }
    println!(
        "lists: by {name}, {} strings of 1 to 3 bytes in {groups} groups ({alone} of one string), the first of each the shortest string, {longer} longer entries, {} unexplained",
        read.len(),
        failures.count()
    );
    println!("  by convention: {}", told(&used));
    failures.count() == 0 && groups > 0
}

fn count(used: &mut [u64; CONVENTIONS.len()], bits: u8) {
    for (i, count) in used.iter_mut().enumerate() {
        *count += (bits >> i & 1) as u64;
    }
}

/// The strings that our table reads whole, without the bytes that the disassembler joins to what follows.
fn read_whole(length: usize, joins: &[u8], visit: &mut dyn FnMut(&[u8])) {
    strings::all(length, &mut |string| {
        let joined = length == 1 && joins.contains(&string[0]);
        if matches!(library::read(string, OFFSET), Read::Whole(l, _) if l == length) && !joined {
            visit(string)
        }
    });
}

fn by_zydis() -> bool {
    let zydis = Zydis::new();
    let mut read = Vec::new();
    let mut used = [0; CONVENTIONS.len()];
    let mut unread = Failures::default();
    for length in 1..=3 {
        read_whole(length, JOINED_BY_ZYDIS, &mut |string| {
            match zydis.read(string).ok().filter(|d| d.length as usize == length).and_then(|d| zydis.meaning(&d, OFFSET)) {
                Some((meaning, bits)) => {
                    count(&mut used, bits);
                    read.push((meaning, short(string)));
                }
                None => unread.add(&format!("{}: not read by Zydis", hex(string))),
            }
        });
    }
    let mut entry = |meaning: &Meaning, entry: &[u8], failures: &mut Failures| {
        let theirs = zydis.read(entry).ok().filter(|d| d.length as usize == entry.len()).and_then(|d| zydis.meaning(&d, OFFSET));
        if theirs.map(|(m, _)| m) != Some(*meaning) {
            failures.add(&format!("{meaning:?}: entry {} is {theirs:?}", hex(entry)));
        }
    };
    compare("Zydis", read, used, &mut entry) & (unread.count() == 0)
}

fn by_ndisasm() -> bool {
    let mut all: Vec<Short> = Vec::new();
    for length in 1..=3 {
        read_whole(length, JOINED_BY_NDISASM, &mut |string| all.push(short(string)));
    }
    let mut read = Vec::new();
    let mut used = [0; CONVENTIONS.len()];
    let mut unread = Failures::default();
    for part in all.chunks(1 << 20) {
        let slices: Vec<&[u8]> = part.iter().map(|s| &s[1..1 + s[0] as usize]).collect();
        ndisasm::read(&slices, &mut |i, reading| {
            let taken = reading.filter(|r| r.length == slices[i].len()).and_then(|r| ndisasm::meaning(&r.text).map(|m| (r.offset, m)));
            match taken {
                Some((offset, (mut meaning, bits))) => {
                    // moved from where it stood to where all stand
                    if let Operand::Near(target) = &mut meaning.operands[0] {
                        *target = target.wrapping_sub(offset).wrapping_add(OFFSET);
                    }
                    count(&mut used, bits);
                    read.push((meaning, part[i]));
                }
                None => unread.add(&format!("{}: not read by ndisasm", hex(slices[i]))),
            }
        });
    }
    compare("ndisasm", read, used, &mut |_, _, _| {}) & (unread.count() == 0)
}

/// A longer string that reads stands in the list of a record of the meaning that Zydis gives it, and the shortest string of that record, which Zydis reads as the same,
/// does not stand behind it.
fn longer(of_each: u64) -> bool {
    let zydis = Zydis::new();
    let mut failures = Failures::default();
    let mut asked = 0;
    strings::longer(of_each, 1003, &mut |string| {
        let Read::Whole(length, _) = library::read(&string, OFFSET) else { return };
        if length < 4 {
            return;
        }
        asked += 1;
        let string = &string[..length];
        let meaning = zydis.read(string).ok().and_then(|d| zydis.meaning(&d, OFFSET)).map(|(m, _)| m);
        let record = meaning.map(|m| record_of(&m).pack());
        let list = record.map(|record| library::list(&record, OFFSET));
        if !matches!(&list, Some(Ok(list)) if list.iter().any(|entry| entry == string)) {
            failures.add(&format!("{} is {meaning:?}, list {list:?}", hex(string)));
        }
        let shortest = record.and_then(|record| library::shortest(&record, OFFSET).ok()).unwrap_or_default();
        let same = zydis.read(&shortest).ok().filter(|d| d.length as usize == shortest.len()).and_then(|d| zydis.meaning(&d, OFFSET)).map(|(m, _)| m);
        if same != meaning || (shortest.len(), &shortest[..]) > (length, string) {
            failures.add(&format!("{} is {meaning:?}, its shortest string {} is {same:?}", hex(string), hex(&shortest)));
        }
    });
    println!("lists: {asked} strings of 4 to 7 bytes, each in the list of what Zydis says it means, and the shortest of it read as the same, {} unexplained", failures.count());
    failures.count() == 0 && asked > 0
}

/// LOCK, REP and REPNE, which no disassembler reads alone.
fn alone() -> bool {
    let mut failures = Failures::default();
    for (operation, byte) in [(op::LOCK, 0xF0), (op::REPNE, 0xF2), (op::REP, 0xF3)] {
        let record = without_operands(operation);
        for packed in [record.pack().to_vec(), library::with_repeat(&record, 0)] {
            let (list, shortest) = (library::list(&packed, OFFSET), library::shortest(&packed, OFFSET));
            if list != Ok(vec![vec![byte]]) || shortest != Ok(vec![byte]) {
                failures.add(&format!("{}: list {list:?}, shortest {shortest:?}", records::NAMES[operation as usize]));
            }
        }
    }
    println!("lists: F0, F2 and F3 are left out above, as the disassemblers join them to what follows; each list is that byte alone, {} unexplained", failures.count());
    failures.count() == 0
}

/// A string operation's list is its one byte, and behind a repeat those two: the string that Zydis reads so.
fn repeated() -> bool {
    let zydis = Zydis::new();
    let mut failures = Failures::default();
    let mut lists = 0;
    for operation in op::MOVSB..=op::STOSW {
        let record = without_operands(operation);
        let string = match library::list(&record.pack(), OFFSET) {
            Ok(list) if list.len() == 1 => list[0].clone(),
            other => {
                failures.add(&format!("{}: list {other:?}", records::NAMES[operation as usize]));
                continue;
            }
        };
        for repeat in [0, 0xF2, 0xF3] {
            lists += 1;
            let expected: Vec<u8> = [repeat].into_iter().filter(|b| *b != 0).chain(string.iter().copied()).collect();
            let packed = library::with_repeat(&record, repeat);
            let (list, shortest) = (library::list(&packed, OFFSET), library::shortest(&packed, OFFSET));
            let theirs = zydis.read(&expected).ok().filter(|d| d.length as usize == expected.len()).and_then(|d| zydis.meaning(&d, OFFSET)).map(|(m, _)| m);
            let same = theirs.is_some_and(|m| (m.operation, m.repeat) == (operation, repeat));
            if list.as_deref() != Ok(&[expected.clone()]) || shortest.as_ref() != Ok(&expected) || !same {
                let name = records::NAMES[operation as usize];
                failures.add(&format!("{name} behind {repeat:02X}: list {list:?}, shortest {shortest:?}, {} is {theirs:?}", hex(&expected)));
            }
        }
    }
    println!("lists: {lists} of string operations, by 57 bytes with repeat 0, F2 and F3; each is the one string that Zydis reads so, {} unexplained", failures.count());
    failures.count() == 0 && lists == 3 * 10
}

fn without_operands(operation: u8) -> Record {
    let none = shapes::immediate(UNSTATED, NONE, 0, 0);
    generate::record(operation, 0, none, none)
}

pub fn run(depth: Depth) -> bool {
    let mut fine = by_zydis() & alone() & repeated() & longer(if depth == Depth::Full { 8 } else { 1 });
    if depth == Depth::Full {
        fine &= by_ndisasm();
    }
    fine
}
