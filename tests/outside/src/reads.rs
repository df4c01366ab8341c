//! Our table beside ndisasm and Zydis: what it reads, they read with the same length and meaning; what they read and it does not has a class.

use crate::classes::{self, CLASSES, JOINED_BY_NDISASM, JOINED_BY_ZYDIS};
use crate::library::{self, Read};
use crate::meaning::{is_string, Meaning, Operand, Taken, CONVENTIONS};
use crate::records::{hex, op, UNSTATED};
use crate::strings;
use crate::zydis::Zydis;
use crate::{ndisasm, Depth, Failures};

/// What a disassembler reads at the front of a string: length, meaning in our terms, whether it names a memory operand, its words.
struct Theirs {
    length: usize,
    taken: Option<Taken>,
    memory: bool,
    words: String,
}

struct Account {
    name: &'static str,
    /// first bytes that are instructions by themselves here and joined with what follows there
    joins: &'static [u8],
    /// count only what is read to the last byte of a string, as each is asked with all bytes behind it
    whole: bool,
    strings: u64,
    same: u64,
    joined: u64,
    classes: [u64; CLASSES.len()],
    conventions: [u64; CONVENTIONS.len()],
    failures: Failures,
}

impl Account {
    fn new(name: &'static str, joins: &'static [u8], whole: bool) -> Account {
        Account {
            name,
            joins,
            whole,
            strings: 0,
            same: 0,
            joined: 0,
            classes: [0; CLASSES.len()],
            conventions: [0; CONVENTIONS.len()],
            failures: Failures::default(),
        }
    }

    fn fail(&mut self, string: &[u8], offset: u16, text: String) {
        self.failures.add(&format!("{} at {offset:04X}, {}: {text}", hex(string), self.name));
    }

    fn compare(&mut self, string: &[u8], offset: u16, ours: Read, theirs: Option<Theirs>) {
        self.strings += 1;
        let whole = self.whole;
        let counted = |length: usize| (!whole || length == string.len()) as u64;
        match (ours, theirs) {
            (Read::Whole(1, meaning), theirs) if self.joins.contains(&string[0]) => {
                let expected = match string[0] {
                    0xF0 => op::LOCK,
                    0xF2 => op::REPNE,
                    0xF3 => op::REP,
                    _ => op::WAIT,
                };
                // F2 or F3 right before a string operation belongs to it here too
                let repeats = theirs.filter(|t| t.length == 2 && t.taken.is_some_and(|(m, _)| m.repeat != 0));
                if meaning.operation != expected || meaning.repeat != 0 || repeats.is_some() {
                    self.fail(string, offset, format!("ours {meaning:?}; theirs {}", repeats.map_or("joined", |_| "a string operation and its repeat")));
                }
                self.joined += counted(1);
            }
            (Read::Whole(length, meaning), theirs) => {
                let equal = theirs.as_ref().is_some_and(|t| t.length == length && t.taken.map(|(m, _)| m) == Some(meaning));
                if !equal {
                    let words = theirs.map_or("nothing".to_string(), |t| format!("{} bytes, {}, {:?}", t.length, t.words, t.taken));
                    return self.fail(string, offset, format!("ours {length} bytes, {meaning:?}; theirs {words}"));
                }
                let theirs = theirs.unwrap();
                if let Some(class) = classes::of(&string[..length], theirs.memory) {
                    self.fail(string, offset, format!("ours reads what {} excludes", CLASSES[class].name));
                }
                // F3 F3 A4 and F3 26 A4 are joined there too
                if meaning.repeat != 0 && length != 2 {
                    self.fail(string, offset, "ours reads a repeat that does not stand right before its operation".to_string());
                }
                let n = counted(length);
                self.same += n;
                let used = theirs.taken.map_or(0, |(_, used)| used);
                for (i, count) in self.conventions.iter_mut().enumerate() {
                    *count += (used >> i & 1) as u64 * n;
                }
            }
            (Read::More, Some(theirs)) => {
                self.fail(string, offset, format!("ours asks for more; theirs {} bytes, {}", theirs.length, theirs.words))
            }
            (Read::Nothing, Some(theirs)) => match classes::of(&string[..theirs.length], theirs.memory) {
                Some(class) => self.classes[class] += counted(theirs.length),
                None => self.fail(string, offset, format!("ours nothing; theirs {} bytes, {}", theirs.length, theirs.words)),
            },
            (Read::Nothing | Read::More, None) => {}
        }
    }

    fn report(&self, what: &str, met: &mut [u64; CLASSES.len()]) -> bool {
        met.iter_mut().zip(&self.classes).for_each(|(sum, count)| *sum += count);
        println!(
            "{}: {what}, {} strings, {} read the same, {} of {}, {} unexplained",
            self.name,
            self.strings,
            self.same,
            self.joined,
            self.joins.iter().map(|b| format!("{b:02X}")).collect::<Vec<_>>().join(" "),
            self.failures.count()
        );
        let classes: Vec<String> = CLASSES.iter().zip(&self.classes).map(|(class, count)| format!("{} {count}", class.name)).collect();
        println!("  read by {} alone, by class: {}", self.name, classes.join(", "));
        println!("  by convention: {}", told(&self.conventions));
        self.failures.count() == 0 && self.same > 0
    }
}

pub fn told(conventions: &[u64; CONVENTIONS.len()]) -> String {
    let each: Vec<String> = CONVENTIONS.iter().zip(conventions).map(|(name, count)| format!("{name} {count}")).collect();
    each.join(", ")
}

/// Offsets where sums pass 65,535, and others.
fn offset_of(n: u64) -> u16 {
    (n.wrapping_mul(0x9E37_79B9_7F4A_7C15) >> 48) as u16
}

fn by_zydis(depth: Depth, met: &mut [u64; CLASSES.len()]) -> bool {
    let zydis = Zydis::new();
    let mut account = Account::new("Zydis", JOINED_BY_ZYDIS, true);
    let mut asked = 0;
    let mut n = 0;
    let mut visit = |string: &[u8], account: &mut Account| {
        n += 1;
        let offset = offset_of(n);
        let ours = library::read(string, offset);
        let theirs = zydis.read(string);
        if ours == Read::More {
            asked += 1;
            if theirs == Err(false) {
                account.fail(string, offset, "ours asks for more; to theirs no continuation helps".to_string());
            }
        }
        let theirs = theirs.ok().map(|d| Theirs {
            length: d.length as usize,
            taken: zydis.meaning(&d, offset),
            memory: zydis.has_memory(&d),
            words: zydis.name(&d).to_string(),
        });
        account.compare(string, offset, ours, theirs);
    };
    for length in 1..=3 {
        strings::all(length, &mut |string| visit(string, &mut account));
    }
    let mut fine = account.report("all strings of 1 to 3 bytes", met);
    let mut account = Account::new("Zydis", JOINED_BY_ZYDIS, false);
    strings::longer(if depth == Depth::Full { 32 } else { 4 }, 8086, &mut |string| visit(&string, &mut account));
    fine &= account.report("each prefix, first and second byte, random bytes behind", met);
    println!("Zydis: {asked} of the strings are answered 11 here, and Zydis has to ask for more of each; where it does not, that is unexplained above");
    fine
}

/// F2 and F3, alone and before each byte: one with a string operation, else by itself. What is a string operation Zydis says of that byte.
fn repeats() -> bool {
    let zydis = Zydis::new();
    let mut failures = Failures::default();
    let (mut whole, mut alone) = (0, 0);
    for (repeat, operation) in [(0xF2, op::REPNE), (0xF3, op::REP)] {
        let own = Meaning { operation, repeat: 0, width: UNSTATED, operands: [Operand::None; 2] };
        for behind in [None].into_iter().chain((0..=255u8).map(Some)) {
            let string: Vec<u8> = [repeat].into_iter().chain(behind).collect();
            let operation = zydis.read(&string[1..]).ok().and_then(|d| zydis.meaning(&d, 0)).map(|(m, _)| m).filter(|m| is_string(m.operation));
            let (expected, count) = match operation {
                Some(meaning) => (Read::Whole(2, Meaning { repeat, ..meaning }), &mut whole),
                None => (Read::Whole(1, own), &mut alone),
            };
            *count += 1;
            let ours = library::read(&string, 0);
            if ours != expected {
                failures.add(&format!("{}: ours {ours:?}, expected {expected:?}", hex(&string)));
            }
        }
    }
    println!("repeats: F2 and F3 alone and before each byte, {whole} read with a string operation, {alone} by themselves, {} unexplained", failures.count());
    failures.count() == 0 && (whole, alone) == (2 * 10, 2 * (1 + 256 - 10))
}

fn by_ndisasm(depth: Depth, met: &mut [u64; CLASSES.len()]) -> bool {
    let mut account = Account::new("ndisasm", JOINED_BY_NDISASM, true);
    // The heads of two bytes that ndisasm reads no instruction in: only behind them a third byte belongs to the first instruction.
    let mut open = vec![true; 65536];
    for length in 1..=2 {
        let mut all = Vec::new();
        strings::all(length, &mut |string| all.push([string[0], string.get(1).copied().unwrap_or(0)]));
        let slices: Vec<&[u8]> = all.iter().map(|s| &s[..length]).collect();
        ask(&slices, &mut account, &mut |string, read| {
            if length == 2 && read.is_some_and(|length| length <= 2) {
                open[u16::from_be_bytes([string[0], string[1]]) as usize] = false;
            }
        });
    }
    let heads: Vec<u16> = (0..=65535).filter(|head| open[*head as usize]).collect();
    for heads in heads.chunks(4096) {
        let mut all: Vec<[u8; 3]> = Vec::new();
        for head in heads {
            let [a, b] = head.to_be_bytes();
            let step = if depth == Depth::Full { 1 } else { 61 };
            all.extend((0..=255u8).filter(|c| (*c as u16).wrapping_add(*head) % step == 0).map(|c| [a, b, c]));
        }
        let slices: Vec<&[u8]> = all.iter().map(|s| &s[..]).collect();
        ask(&slices, &mut account, &mut |_, _| {});
    }
    let third = if depth == Depth::Full { "all" } else { "every 61st of the" };
    let what = format!("all strings of 1 and 2 bytes, {third} third bytes behind the {} heads that hold no instruction to it", heads.len());
    let mut fine = account.report(&what, met);

    let mut account = Account::new("ndisasm", JOINED_BY_NDISASM, false);
    let mut all = Vec::new();
    strings::longer(if depth == Depth::Full { 4 } else { 1 }, 3013, &mut |string| all.push(string));
    for part in all.chunks(1 << 19) {
        let slices: Vec<&[u8]> = part.iter().map(|s| &s[..]).collect();
        ask(&slices, &mut account, &mut |_, _| {});
    }
    fine &= account.report("each prefix, first and second byte, random bytes behind", met);
    fine
}

fn ask(strings: &[&[u8]], account: &mut Account, told: &mut dyn FnMut(&[u8], Option<usize>)) {
    let mut answered = 0;
    ndisasm::read(strings, &mut |i, reading| {
        answered += 1;
        let string = strings[i];
        told(string, reading.as_ref().map(|r| r.length));
        let offset = reading.as_ref().map_or(0, |r| r.offset);
        // longer than the string: it took NOPs from behind
        let theirs = reading.filter(|r| r.length <= string.len()).map(|r| Theirs {
            length: r.length,
            taken: ndisasm::meaning(&r.text),
            memory: ndisasm::has_memory(&r.text),
            words: r.text,
        });
        account.compare(string, offset, library::read(string, offset), theirs);
    });
    assert_eq!(answered, strings.len());
}

pub fn run(depth: Depth) -> bool {
    let mut met = [0; CLASSES.len()];
    let mut fine = by_zydis(depth, &mut met) & by_ndisasm(depth, &mut met) & repeats();
    for (class, _) in CLASSES.iter().zip(met).filter(|(_, count)| *count == 0) {
        println!("NOT MET: class {}", class.name);
        fine = false;
    }
    fine
}
