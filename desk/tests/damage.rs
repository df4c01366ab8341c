//! Damaged texts and files: every verb answers, and none panics.

mod common;

use common::{shows, Random};
use fsq::Show;
use fsq_desk::landing::{astray, targets, Astray};
use fsq_desk::verbs;
use fsq_desk::verbs::check::Quoted;

/// What a damaged input is not to do is to panic or to be answered without a word.
fn answered(answer: fsq_desk::answer::Answer) -> bool {
    assert!(!answer.fault || !answer.said.is_empty());
    assert!(answer.fault || answer.output.is_some());
    answer.fault
}

/// The same with one to four of its bytes changed, left out, doubled, or with a piece of another put in.
fn damaged(random: &mut Random, from: &[u8], other: &[u8], bytes: &[u8]) -> Vec<u8> {
    let mut damaged = from.to_vec();
    for _ in 0..1 + random.below(4) {
        let at = random.below(damaged.len() + 1);
        let length = random.below(12).min(damaged.len() - at);
        match random.below(5) {
            0 if at < damaged.len() => damaged[at] = random.next() as u8,
            1 if at < damaged.len() => damaged[at] ^= 1 << random.below(8),
            2 => drop(damaged.drain(at..at + length)),
            3 => {
                let start = random.below(other.len());
                let piece = &other[start..(start + 1 + random.below(12)).min(other.len())];
                damaged.splice(at..at + length, piece.iter().copied());
            }
            _ => damaged.insert(at, random.of(bytes)),
        }
    }
    if random.below(50) == 0 {
        damaged.truncate(random.below(damaged.len() + 1));
    }
    damaged
}

/// The bytes that the syntax has.
const SYNTAX: &[u8] = b"  \t\r\n\n;:,[]()+-*/0123456789xABCDEFHIJKLMNOPRSTWX_.{}";

#[test]
fn damaged_texts() {
    let mut random = Random(0x0F50_0001);
    let mut texts = vec![include_str!("plain.txt").as_bytes().to_vec()];
    for (name, file) in shows().into_iter().filter(|(name, _)| !matches!(name.as_str(), "late" | "bench")) {
        texts.push(verbs::text::text(&file, &name).output.unwrap());
    }
    // Long texts are cut to some lines, so that a damage is not lost among them.
    let pieces: Vec<Vec<u8>> = texts
        .iter()
        .flat_map(|text| {
            text.split(|&byte| byte == b'\n').collect::<Vec<_>>().chunks(6).map(|lines| lines.join(&b'\n')).collect::<Vec<_>>()
        })
        .collect();
    let mut faults = 0;
    for _ in 0..60_000 {
        let (text, other) = (random.below(pieces.len()), random.below(pieces.len()));
        let text = damaged(&mut random, &pieces[text], &pieces[other], SYNTAX);
        let answer = verbs::make::make(&text, "text");
        if let Some(file) = &answer.output {
            assert!(!answered(verbs::text::text(file, "file")));
        }
        faults += usize::from(answered(answer));
        if let Ok(text) = std::str::from_utf8(&text) {
            answered(verbs::encodings::encodings(text, random.next() as u16));
        }
    }
    assert!((10_000..59_000).contains(&faults), "{faults}");
}

#[test]
fn damaged_files() {
    let mut random = Random(0x0F50_0002);
    let files: Vec<Vec<u8>> = shows().into_iter().filter(|(name, _)| name != "bench").map(|(_, file)| file).collect();
    let text = include_bytes!("plain.txt");
    let (mut loaded, mut wrong) = (0, 0);
    for _ in 0..40_000 {
        let (file, other) = (random.below(files.len()), random.below(files.len()));
        let mut file = files[file].clone();
        // Half of them keep their length, so that their records are looked at.
        if random.below(2) == 0 {
            for _ in 0..1 + random.below(3) {
                let at = random.below(file.len());
                let any = random.next() as u8;
                file[at] = random.of(&[0, 1, 2, 3, 5, 0xF3, 0xFF, any]);
            }
        } else {
            file = damaged(&mut random, &file, &files[other], b"FSQ\0\x01\x02\x03\xFF");
        }
        let source = Some(Quoted { name: "source", text }).filter(|_| random.below(2) == 0);
        answered(verbs::check::check(&file, "file", source));
        match random.below(4) {
            0 => answered(verbs::list::list(&file, "file")),
            1 => answered(verbs::report::report(&file, "file", source)),
            2 => answered(verbs::diff::diff((&files[other], "old"), (&file, "new"))),
            _ => answered(verbs::read::read(&file, random.next() as u16, "image")),
        };
        let refused = answered(verbs::text::text(&file, "file"));
        // A show that loads has a text.
        assert_eq!(refused, fsq::load(&file).is_err());
        loaded += usize::from(!refused);
        // Where branches land is what the library's check says.
        if let Ok(show) = Show::load(&file) {
            let checked = fsq::check(&file);
            assert_eq!(checked.as_ref().err().and_then(Astray::of), astray(&targets(&show)).next());
            wrong += usize::from(checked.is_err());
        }
    }
    assert!(loaded > 5_000 && wrong > 100, "{loaded} and {wrong}");
}
