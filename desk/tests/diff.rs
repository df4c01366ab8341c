//! `fsq diff`: one line a real change.

mod common;

use common::{shows, Folder};
use fsq_desk::verbs::diff::diff;
use fsq_desk::verbs::make::make;

fn changes(old: &str, new: &str) -> (String, bool) {
    let made = |text: &str| make(text.as_bytes(), "text").output.unwrap();
    let answer = diff((&made(old), "old.fsq"), (&made(new), "new.fsq"));
    (String::from_utf8(answer.output.unwrap()).unwrap(), answer.fault)
}

/// A cue: wait, then switch a port.
fn cue(name: &str, delay: u32, mask: u32) -> String {
    format!("        MOV CX,{delay}\n{name}: LOOP {name}\n        MOV AL,{mask}\n        OUT 64,AL\n")
}

#[test]
fn nothing() {
    for (name, file) in shows().into_iter().filter(|(name, _)| name != "late") {
        let answer = diff((&file, &name), (&file, &name));
        assert_eq!((answer.output.unwrap(), answer.fault), (b"no change\n".to_vec(), false), "{name}");
    }
}

/// Four delays move on Friday.
#[test]
fn delays() {
    let show =
        |delays: [u32; 5]| -> String { delays.iter().enumerate().map(|(n, &delay)| cue(&format!("w{n}"), delay, n as u32)).collect() };
    let (said, fault) = changes(&show([100, 200, 300, 400, 500]), &show([100, 210, 310, 410, 510]));
    assert_eq!(
        said,
        "changed  record 4 at 0009: MOV CX,200 is now MOV CX,210\n\
         changed  record 8 at 0012: MOV CX,300 is now MOV CX,310\n\
         changed  record 12 at 001B: MOV CX,400 is now MOV CX,410\n\
         changed  record 16 at 0024: MOV CX,500 is now MOV CX,510\n"
    );
    assert!(!fault);
    // Each delay becomes the next one's: no cue is taken for its neighbour.
    let (said, _) = changes(&show([100, 200, 300, 400, 500]), &show([200, 300, 400, 500, 600]));
    assert_eq!(said.lines().filter(|line| line.starts_with("changed")).count(), 5, "{said}");
    assert_eq!(said.lines().count(), 5, "{said}");
}

/// A record is added, and 34 jumps go over it. The labels follow; one jump is forgotten.
#[test]
fn a_forgotten_jump() {
    let text = |added: &str, last: &str| {
        let jumps = "        JMP end\n".repeat(33);
        format!("        ORG 256\n{jumps}        JMP {last}\n        MOV AX,5\n{added}        OUT 64,AL\nend:    HLT\n")
    };
    // 34 jumps of 3 bytes, MOV AX,5 and OUT have 107 bytes: HLT is at 363.
    let (said, fault) = changes(&text("", "363"), &text("        MOV BX,7\n", "end"));
    assert_eq!(said, "added    record 35 at 0169: MOV BX,7\n34 jumps have other bytes and land on the same record\n");
    assert!(!fault);
    let (said, fault) = changes(&text("", "end"), &text("        MOV BX,7\n", "363"));
    assert_eq!(
        said,
        "jump     record 33 at 0163: JMP lands on 016B, inside record 35 at 0169 (MOV BX,7); before on record 36 at 016B (HLT)\n\
         added    record 35 at 0169: MOV BX,7\n33 jumps have other bytes and land on the same record\n"
    );
    assert!(fault);
    let (said, fault) = changes(&text("", "end"), &text("        NOP\n        NOP\n", "363"));
    assert!(
        said.starts_with("jump     record 33 at 0163: JMP lands on record 37 at 016B (OUT 64,AL); before on record 36 at 016B (HLT)\n"),
        "{said}"
    );
    assert!(!fault);
}

#[test]
fn records_that_come_and_go() {
    let (said, _) = changes("ORG 256\nNOP\nHLT\nMOV AX,1\n", "ORG 512\nHLT\nMOV AX,1\nMOV [5],AX\n");
    assert_eq!(said, "origin   0100 is now 0200\nremoved  record 0 at 0100: NOP\nadded    record 2 at 0204: MOV [5],AX\n");
    let (said, _) = changes("", "NOP\n");
    assert_eq!(said, "added    record 0 at 0000: NOP\n");
    let (said, _) = changes("NOP\n", "");
    assert_eq!(said, "removed  record 0 at 0000: NOP\n");
    let (said, _) = changes("MOV AX,[BX+2]\nMOV AX,5\n", "MOV AX,[BX-2]\nMOV AX,-5\n");
    assert_eq!(
        said,
        "changed  record 0 at 0000: MOV AX,[BX+2] is now MOV AX,[BX-2]\nchanged  record 1 at 0003: MOV AX,5 is now MOV AX,-5\n"
    );
    // A delay that moves beside a record that comes.
    let (said, _) = changes("MOV CX,100\nHLT\n", "NOP\nMOV CX,120\nHLT\n");
    assert_eq!(said, "added    record 0 at 0000: NOP\nchanged  record 0 at 0000: MOV CX,100 is now MOV CX,120, record 1 at 0001\n");
    // A whole cue in front: one line for each of its records.
    let (said, _) = changes(&cue("a", 100, 1), &(cue("b", 90, 7) + &cue("a", 100, 1)));
    assert_eq!(said.lines().filter(|line| line.starts_with("added")).count(), 4, "{said}");
    assert_eq!(said.lines().count(), 4, "{said}");
}

/// A record in the place of another is one line, and what jumps there lands on the same place.
#[test]
fn records_in_the_place_of_others() {
    let (said, fault) = changes("NOP\nx: MOV AL,1\nLOOP x\nJE x\n", "NOP\nCLD\nx: MOV AH,1\nLOOP x\nJNE x\n");
    assert_eq!(
        said,
        "removed  record 1 at 0001: MOV AL,1\nadded    record 1 at 0001: CLD\nadded    record 2 at 0002: MOV AH,1\n\
         jump     record 3 at 0004: LOOP lands on record 2 at 0002 (MOV AH,1); before on record 1 at 0001 (MOV AL,1)\n\
         changed  record 3 at 0005: JE 1 is now JNE 2, record 4 at 0006\n\
         jump     record 4 at 0006: JNE lands on record 2 at 0002 (MOV AH,1); before on record 1 at 0001 (MOV AL,1)\n"
    );
    assert!(!fault);
    let (said, _) = changes("NOP\nx: MOV AL,1\nLOOP x\nJE x\n", "NOP\nx: MOV AH,1\nLOOP x\nJNE x\n");
    assert_eq!(said, "changed  record 1 at 0001: MOV AL,1 is now MOV AH,1\nchanged  record 3 at 0005: JE 1 is now JNE 1\n");
}

/// Two shows of 8,000 records that have nothing alike at the same place.
#[test]
fn long_shows() {
    let text = |first: usize| -> String { (0..8000).map(|n| format!("MOV AX,{}\n", (first + n) % 65536)).collect() };
    let (said, _) = changes(&text(0), &text(3));
    assert_eq!(said.lines().count(), 6, "{}", said.lines().count());
}

#[test]
fn statuses() {
    let folder = Folder::new();
    for (name, text) in [("a", "NOP\n"), ("b", "HLT\n"), ("c", "JMP 1\n")] {
        folder.write(&format!("{name}.fsq"), make(text.as_bytes(), "-").output.unwrap());
    }
    assert_eq!(folder.fsq(&["diff", "a.fsq", "a.fsq"]).status, 0);
    assert_eq!(folder.fsq(&["diff", "a.fsq", "b.fsq"]).status, 0);
    let ran = folder.fsq(&["diff", "a.fsq", "c.fsq"]);
    assert_eq!((ran.status, ran.said.as_str()), (1, "c.fsq: 1 near target is no record's start: see fsq check\n"));
    assert_eq!(folder.fsq(&["diff", "a.fsq", "d.fsq"]).status, 2);
}
