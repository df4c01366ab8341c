//! The check of targets, through the crate. The answers are by hand, from the lengths of document 01's forms: MOV AX,imm has 3 bytes, Jcc, the loops and
//! JMP SHORT 2, CALL and JMP 3, HLT and NOP 1. The long and the random shows are beside the targets that the reader finds in the image.

use fsq::{check, read, show_file, Found, Instruction, Operation, Part, Reason, Show};

fn show(text: &str) -> Vec<Instruction> {
    text.split("; ").filter(|part| !part.is_empty()).map(|part| part.parse::<Instruction>().unwrap()).collect()
}

#[track_caller]
fn lands(origin: u16, text: &str, length: usize) {
    assert_eq!(check(&show_file(origin, &show(text))), Ok(length));
}

#[track_caller]
fn strays(origin: u16, text: &str, record: u32, target: u16, inside: Option<u32>) {
    let refusal = check(&show_file(origin, &show(text))).unwrap_err();
    assert_eq!((refusal.reason, refusal.number(), refusal.record), (Reason::NoRecordAtTarget, 25, Some(record)));
    assert_eq!((refusal.found, refusal.span.clone(), refusal.question()), (Some(Found::Target { target, inside }), None, None));
    let place = inside.map_or("outside the show".into(), |record| format!("inside record {record}, behind its start"));
    assert_eq!(refusal.to_string(), format!("refusal 25 of record {record}: the target {target} is {place}"));
}

#[test]
fn starts_and_the_end() {
    lands(256, "", 0);
    for target in [256, 259, 260, 262] {
        lands(256, &format!("MOV AX,4660; HLT; LOOP {target}"), 6);
    }
    // both sides of the branch, and a target of the first record
    lands(100, "JE 105; MOV AX,7; HLT; JMP SHORT 102; CALL 100", 11);
    // EA and an immediate are no near targets
    lands(100, "JMP FAR 0:101; MOV AX,101", 8);
}

#[test]
fn astray() {
    for branch in ["JE", "JNS", "LOOP", "LOOPZ", "LOOPNZ", "JCXZ", "JMP SHORT"] {
        strays(100, &format!("{branch} 101"), 0, 101, Some(0));
        strays(100, &format!("HLT; {branch} 104"), 1, 104, None);
        strays(100, &format!("HLT; {branch} 99; HLT"), 1, 99, None);
    }
    for branch in ["JMP", "CALL"] {
        strays(100, &format!("{branch} 101"), 0, 101, Some(0));
        strays(100, &format!("{branch} 102"), 0, 102, Some(0));
        strays(100, &format!("{branch} 104"), 0, 104, None);
        strays(100, &format!("{branch} 50000"), 0, 50000, None);
    }
    // the first of several, into an earlier, its own and a later record
    strays(100, "MOV AX,7; JE 101; JE 104; JE 111", 1, 101, Some(0));
    strays(100, "JE 104; MOV AX,7; JE 103", 0, 104, Some(1));
}

#[test]
fn offsets_wrap() {
    // the end at 65,536; the first record at 65,535, reached as -1; MOV at 65,535, 0 and 1
    lands(65534, "JE 65536", 2);
    lands(65535, "HLT; HLT; JE -1", 4);
    strays(65535, "HLT; JE -2", 1, 65534, None);
    strays(65535, "MOV AX,7; JE 0", 1, 0, Some(0));
    strays(65535, "MOV AX,7; JE 1", 1, 1, Some(0));
    lands(65535, "MOV AX,7; JE 2", 5);
}

#[test]
fn a_repeat() {
    // F3 A4: a branch between the two would carry out MOVSB once
    let with = |target: i32| show_file(100, &["REP MOVSB".parse().unwrap(), Instruction::one(Operation::JE, target)]);
    assert_eq!(check(&with(100)), Ok(4));
    assert_eq!(check(&with(102)), Ok(4));
    assert_eq!(check(&with(101)).unwrap_err().found, Some(Found::Target { target: 101, inside: Some(0) }));
}

#[test]
fn the_loader_refuses_first() {
    let refusal = |file: &[u8]| check(file).unwrap_err();
    assert_eq!(refusal(b"").reason, Reason::NoMark);
    assert_eq!((refusal(b"FSQ").reason, refusal(b"FSQ").found), (Reason::WrongLength, Some(Found::HeaderLength(3))));
    let file = show_file(100, &show("JE 101; INT1"));
    assert_eq!(refusal(&file), Show::load(&file).unwrap_err());
    assert_eq!((refusal(&file).number(), refusal(&file).record, refusal(&file).question()), (7, Some(1), Some(2)));
    let mut unknown = show_file(100, &show("JE 101; HLT"));
    unknown[9 + 56] = 99;
    assert_eq!(refusal(&unknown), Show::load(&unknown).unwrap_err());
    unknown[3] = 4;
    assert_eq!(refusal(&unknown).found, Some(Found::Version(4)));
}

/// The first near target of an image that is no record's start and not the end, with the record that it falls into.
fn first_astray(show: &Show) -> Option<(u32, u16, Option<u32>)> {
    // each byte of the image: its record, and its place there
    let bytes = |(k, record): (usize, fsq::Record)| (0..record.bytes.len()).map(move |byte| (k as u32, byte)).collect::<Vec<_>>();
    let spots: Vec<(u32, usize)> = show.records().enumerate().flat_map(bytes).collect();
    let end = spots.len();
    show.records().enumerate().find_map(|(k, record)| match read(record.bytes, record.offset).unwrap().operands[0] {
        Some(Part::Near(target)) => match usize::from(target.wrapping_sub(show.origin())) {
            at if at == end => None,
            at => match spots.get(at) {
                Some((_, 0)) => None,
                inside => Some((k as u32, target, inside.map(|&(record, _)| record))),
            },
        },
        _ => None,
    })
}

#[track_caller]
fn as_the_image_says(file: &[u8]) -> bool {
    let show = Show::load(file).unwrap();
    match (check(file), first_astray(&show)) {
        (Ok(length), None) => {
            assert_eq!(length, show.image().len());
            true
        }
        (Err(refusal), Some((record, target, inside))) => {
            assert_eq!((refusal.record, refusal.found), (Some(record), Some(Found::Target { target, inside })));
            false
        }
        (checked, expected) => panic!("{checked:?} and {expected:?}"),
    }
}

struct Random(u64);

impl Random {
    fn below(&mut self, n: usize) -> usize {
        self.0 = self.0.wrapping_mul(6364136223846793005).wrapping_add(1442695040888963407);
        (self.0 >> 33) as usize % n
    }
}

#[test]
fn random_shows() {
    let mut random = Random(8086);
    let (mut right, mut wrong) = (0, 0);
    for _ in 0..20_000 {
        let origin = [0, 256, 65530, 65535][random.below(4)];
        let count = 1 + random.below(9);
        let lengths: Vec<usize> = (0..count).map(|_| 1 + random.below(3)).collect();
        let mut starts = vec![0];
        for length in &lengths {
            starts.push(starts.last().unwrap() + length);
        }
        let text: Vec<String> = lengths
            .iter()
            .zip(&starts)
            .map(|(length, start)| {
                // mostly a start or the end; now and then a byte beside
                let mut to = starts[random.below(count + 1)] as i32;
                if random.below(5) == 0 {
                    to += random.below(5) as i32 - 2;
                }
                // A short branch goes by the numbers as they are, so its target is where the offset has wrapped to.
                let wrapped = i32::from(origin) + *start as i32 > 65535;
                let short = i32::from(origin) + to - if wrapped { 65536 } else { 0 };
                match (length, random.below(3)) {
                    (1, _) => "HLT".into(),
                    (2, 0) => "AAM".into(),
                    (2, _) => format!("{} {short}", ["JE", "LOOP", "JCXZ", "JNE"][random.below(4)]),
                    (_, 0) => "MOV AX,258".into(),
                    _ => format!("{} {}", ["CALL", "JMP"][random.below(2)], (i32::from(origin) + to).rem_euclid(65536)),
                }
            })
            .collect();
        let file = show_file(origin, &show(&text.join("; ")));
        if as_the_image_says(&file) {
            right += 1;
        } else {
            wrong += 1;
        }
    }
    assert!(right > 5_000 && wrong > 3_000, "{right} and {wrong}");
}

#[test]
fn all_counts() {
    // of versions 1, 2 and, with a repeat, 3; the last branch goes to the end, and then a byte beside it
    for count in [999, 1000, 1001, 8000] {
        for repeated in [false, true] {
            let mut all: Vec<Instruction> = (0..count as i32).map(|k| Instruction::one(Operation::JE, 2 * (k / 2))).collect();
            if repeated {
                all[0] = "REPNE MOVSB".parse().unwrap();
            }
            // JMP to the end, where the next to last record was: two bytes and three
            let end = 2 * count as i32 + 1;
            all[count - 1] = Instruction::one(Operation::CALL, end);
            let far = |k: usize| (k as i32 / 2) * 2 - (2 * k as i32 + 2) < -128;
            for (k, instruction) in all.iter_mut().enumerate().take(count - 1).skip(1) {
                if far(k) {
                    *instruction = Instruction::one(Operation::JE, 2 * (k as i32 - 60));
                }
            }
            assert!(as_the_image_says(&show_file(0, &all)));
            for beside in [end - 1, end - 2, end + 1] {
                all[count - 1] = Instruction::one(Operation::CALL, beside);
                assert!(!as_the_image_says(&show_file(0, &all)));
            }
        }
    }
}
