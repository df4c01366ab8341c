//! Every verb on good and bad files: output, what is said, status.

mod common;

use common::{repository, shows, Folder};
use fsq::Instruction;
use fsq_desk::verbs::make::make;
use std::fs;

fn folder() -> Folder {
    let folder = Folder::new();
    for (name, file) in shows() {
        folder.write(&format!("{name}.fsq"), file);
    }
    folder
}

fn made(text: &str) -> Vec<u8> {
    let answer = make(text.as_bytes(), "text");
    assert!(!answer.fault, "{}", answer.said);
    answer.output.unwrap()
}

/// REFERENCE 9's text, of the bytes that stand beside the instructions in tests/shows.
#[test]
fn list() {
    let folder = folder();
    for (name, origin) in [("document", 0), ("fountain", 256), ("ready", 256), ("countdown", 256), ("refill", 256)] {
        let text = fs::read_to_string(repository().join(format!("tests/shows/{name}.txt"))).unwrap();
        let value = |word: &str| text.lines().find_map(|line| line.strip_prefix(word)?.trim().parse::<u16>().ok());
        let mut offset = value("origin ").unwrap_or(origin);
        let mut lines = Vec::new();
        for line in text.lines().filter(|line| line.contains('|') && !line.starts_with('#')) {
            let bytes = common::bytes(line.split('|').nth(1).unwrap().split('#').next().unwrap());
            let hex: String = bytes.iter().map(|byte| format!("{byte:02X}")).collect();
            lines.push(format!("{offset:04X} {} {hex}\n", bytes.len()));
            offset += bytes.len() as u16;
        }
        let first = format!("FSQ {} {:04X} {}\n", value("version ").unwrap_or(1), value("origin ").unwrap_or(origin), lines.len());
        let ran = folder.fsq(&["list", &format!("{name}.fsq")]);
        assert_eq!((ran.status, ran.said.as_str()), (0, ""), "{name}");
        assert_eq!(ran.text(), first + &lines.concat(), "{name}");
    }
    let ran = folder.fsq(&["list", "bench.fsq"]);
    assert_eq!(ran.text(), fs::read_to_string(repository().join("bench/records.txt")).unwrap());
}

/// Refusals of a file, by number, record and status.
#[test]
fn refused_files() {
    let folder = folder();
    let good = made("ORG 256\nMOV AX,4660\nAAM\nLOOP 256\n");
    let mut unknown = good.clone();
    unknown[9 + 2 * 56] = 99;
    let mut version = good.clone();
    version[3] = 9;
    for (file, text, said) in [
        (b"FS".to_vec(), "refused 12 -\n", "refusal 12: this is no show file: it does not begin with FSQ"),
        (b"FSQ".to_vec(), "refused 14 -\n", "refusal 14: the show file has 3 bytes, and its header alone 9"),
        (good[..100].to_vec(), "refused 14 -\n", "refusal 14: the show file has 100 bytes, and by its count 177"),
        (version, "refused 13 -\n", "refusal 13: the version of the show file is 9, not 1, 2 or 3"),
        (unknown, "refused 15 2\n", "refusal 15 of record 2: operation 99, at byte 0 of the record, is outside 0..98"),
        (
            shows().into_iter().find(|(name, _)| name == "late").unwrap().1,
            "refused 6 0\n",
            "refusal 6 of record 0 (question 7): the target is 128 bytes away, outside -128..127",
        ),
    ] {
        folder.write("bad.fsq", &file);
        let list = folder.fsq(&["list", "bad.fsq"]);
        assert_eq!((list.status, list.text(), list.said.as_str()), (1, text, format!("bad.fsq: {said}\n").as_str()));
        for verb in ["check", "text"] {
            let ran = folder.fsq(&[verb, "bad.fsq"]);
            assert_eq!((ran.status, ran.text()), (1, ""), "{verb} {said}");
            assert_eq!(ran.said.lines().next(), Some(format!("bad.fsq: {said}").as_str()));
            assert!(ran.said.contains("\n    do: "), "{}", ran.said);
        }
        for arguments in [["diff", "bad.fsq", "document.fsq"], ["diff", "document.fsq", "bad.fsq"]] {
            let ran = folder.fsq(&arguments);
            assert_eq!((ran.status, ran.text()), (1, ""));
            assert_eq!(ran.said.lines().next(), Some(format!("bad.fsq: {said}").as_str()));
        }
        let ran = folder.fsq(&["report", "bad.fsq", "-o", "bad.html"]);
        assert_eq!((ran.status, ran.text()), (1, ""));
        let page = String::from_utf8(folder.read("bad.html")).unwrap();
        assert!(page.contains(&format!("<pre class=\"refused\">bad.fsq: {said}")), "{page}");
        assert_eq!(folder.read("bad.fsq"), file);
    }
}

/// Several records are refused: all are told, but for a branch behind one whose length is not known.
#[test]
fn check_tells_all() {
    let mut file = made("MOV byte [BX],30\nJE 5\nADD AX,BX\nJE 5\n");
    // MOV byte [BX],300, and ADD AX,BL: record 0 at 9, its second operand's immediate at 33 + 7; record 2's second operand's size.
    file[9 + 40..9 + 42].copy_from_slice(&300u16.to_le_bytes());
    file[9 + 2 * 56 + 34] = 1;
    // JE 500, twice: behind record 0 its offset is not known.
    for record in [1, 3] {
        file[9 + record * 56 + 17..][..2].copy_from_slice(&500u16.to_le_bytes());
    }
    let folder = Folder::new();
    folder.write("bad.fsq", &file);
    folder.write("source.txt", "MOV byte [BX],30\nJE 5\nADD AX,BX\nJE 5\n");
    let ran = folder.fsq(&["check", "bad.fsq"]);
    assert_eq!((ran.status, ran.text()), (1, ""));
    assert_eq!(
        ran.said,
        "bad.fsq: refusal 5 of record 0 (question 6): value 300 is outside -128..255\n    question 6: is each value that the form holds in its range? No.\n    \
         do: bring the value within the limits\n    record at 0000: MOV byte [BX],300\n    source: bytes 14 to 16\n\
         bad.fsq: refusal 3 of record 2 (question 4): one operand is a byte and the other a word\n    question 4: are no two stated sizes unequal? No.\n    \
         do: make the sizes equal, or leave one out\n    record: ADD AX,BL\n    source: bytes 22 to 31\n"
    );
    let ran = folder.fsq(&["check", "bad.fsq", "--source", "source.txt"]);
    assert!(ran.said.contains("    source.txt:1:15:\n    MOV byte [BX],30\n                  ^^\n"), "{}", ran.said);
    // A branch that is too far has two bytes, so the next one's offset is known.
    let mut file = made("JE 5\nJE 5\n");
    file[9 + 17..][..2].copy_from_slice(&130u16.to_le_bytes());
    file[9 + 56 + 17..][..2].copy_from_slice(&132u16.to_le_bytes());
    folder.write("bad.fsq", &file);
    let said = folder.fsq(&["check", "bad.fsq"]).said;
    assert_eq!(said.lines().filter(|line| line.contains("(question 7): the target is 128 bytes away")).count(), 2, "{said}");
}

/// The story of the issue: a LOOP that lands inside an instruction.
#[test]
fn check_targets() {
    let folder = Folder::new();
    folder.write("show.txt", "ORG 256\nMOV AX,4660\nAAM\nLOOP 257\nJMP 0x200\n");
    assert_eq!(folder.fsq(&["make", "show.txt", "-o", "show.fsq"]).status, 0);
    let ran = folder.fsq(&["check", "show.fsq"]);
    assert_eq!((ran.status, ran.text()), (1, ""));
    assert_eq!(
        ran.said,
        "show.fsq: refusal 25 of record 2 at 0105, LOOP 257: the target 0101 is no record's start: it is inside record 0 at 0100, MOV AX,4660\n    \
         show.txt:4:1:\n    LOOP 257\n    ^^^^^^^^\n\
         show.fsq: refusal 25 of record 3 at 0107, JMP 512: the target 0200 is no record's start: it is outside the show\n    show.txt:5:1:\n    JMP 0x200\n    ^^^^^^^^^\n"
    );
    // Another text beside the file is not its source, and is not quoted.
    folder.write("show.txt", "ORG 256\nMOV AX,4660\nAAM\nLOOP  257\nJMP 0x200\n");
    assert!(folder.fsq(&["check", "show.fsq"]).said.contains("    source: bytes 24 to 32\n"));
    folder.write("good.fsq", made("ORG 256\nMOV AX,4660\nAAM\nLOOP 256\nJMP 266\n"));
    let ran = folder.fsq(&["check", "good.fsq"]);
    let said = "good.fsq: loads. 4 records, 10 bytes, from 0100 to 010A. 2 near targets, each the start of a record or the end.\n";
    assert_eq!((ran.status, ran.text(), ran.said.as_str()), (0, said, ""));
}

/// Document 01's bench sheet has the twelve strings.
#[test]
fn encodings() {
    let folder = Folder::new();
    let ran = folder.fsq(&["encodings", "ADD AX,5"]);
    let said = "ADD AX,5 at 0000: form 83 /0 Reg:Word Imm:Unspecified -128..127\n05 05 00              05      shortest\n83 C0 05              83 /0   as in a show\n81 C0 05 00           81 /0\n";
    assert_eq!((ran.status, ran.text(), ran.said.as_str()), (0, said, ""));
    assert_eq!(folder.fsq(&["encodings", "ADD word [BX],4+1"]).text().lines().count(), 13);
    // REFERENCE 7: JMP to 0 at 65,534.
    let ran = folder.fsq(&["encodings", "JMP 0", "--at", "65536-2"]);
    assert_eq!(ran.text(), "JMP 0 at FFFE: form E9 Imm:Unspecified 0..65535\nEB 00                 EB      shortest\nE9 FF FF              E9      as in a show\n");
    let ran = folder.fsq(&["encodings", "MOV AX,"]);
    assert_eq!((ran.status, ran.text()), (1, ""));
    assert!(ran.said.starts_with("instruction:1:8: a register"), "{}", ran.said);
    let ran = folder.fsq(&["encodings", "NOP\nNOP"]);
    assert_eq!((ran.status, ran.said.as_str()), (1, "2 instructions, and one is expected\n"));
    assert_eq!(folder.fsq(&["encodings", "NOP", "--at", "65536"]).status, 2);
    assert_eq!(folder.fsq(&["encodings", "MOV byte [BX],300"]).status, 1);
}

/// Document 01's image, and its bytes that are none.
#[test]
fn read() {
    let folder = Folder::new();
    let ran = folder.fsq_with(&["read", "-", "--origin", "256"], &[0xB8, 0x34, 0x12, 0xD4, 0x0A, 0xE2, 0xF9]);
    assert_eq!((ran.status, ran.said.as_str()), (0, ""));
    assert_eq!(ran.text(), "0100 B83412         MOV AX,4660\n0103 D40A           AAM\n0105 E2F9           LOOP 256\n");
    // REFERENCE 6: 26 8B C0 is 10; its later bytes are MOV AX,AX. 83 C0 is 11.
    let ran = folder.fsq_with(&["read", "-"], &[0x26, 0x8B, 0xC0, 0x83, 0xC0]);
    assert_eq!(ran.status, 1);
    assert_eq!(
        ran.text(),
        "0000 26             refused 10: no instruction begins with these bytes\n0001 8BC0           MOV AX,AX\n0003 83C0           refused 11: the instruction is not complete\n"
    );
    assert_eq!(
        ran.said,
        "standard input: byte 0, offset 0000: refusal 10: no instruction begins with these bytes\nstandard input: byte 3, offset 0003: refusal 11: the instruction is not complete\n"
    );
    let ran = folder.fsq(&["read", "-"]);
    assert_eq!((ran.status, ran.text()), (0, ""));
}

#[test]
fn report() {
    let folder = folder();
    let ran = folder.fsq(&["report", "ready.fsq", "-o", "ready.html"]);
    assert_eq!((ran.status, ran.text(), ran.said.as_str()), (0, "", ""));
    let page = String::from_utf8(folder.read("ready.html")).unwrap();
    assert_eq!(page.matches("<tr id=").count(), 27);
    assert!(page.contains("<td>0123</td><td>74 E1</td><td>JE 262</td><td><a href=\"#r2\">record 2</a></td>"), "{page}");
    assert!(!page.contains("class=\"refused\"") && !page.contains("http"));
    folder.write("astray.fsq", made("ORG 256\nMOV AX,4660\nLOOP 257\n"));
    let ran = folder.fsq(&["report", "astray.fsq", "-o", "-"]);
    assert_eq!(ran.status, 1);
    assert!(ran.text().contains("<tr id=\"r1\" class=\"refused\">") && ran.text().contains("class=\"astray\""), "{}", ran.text());
    folder.write("<&>.fsq", made("NOP\n"));
    let ran = folder.fsq(&["report", "<&>.fsq", "-o", "-"]);
    assert!(ran.text().contains("<title>&lt;&amp;&gt;.fsq</title>"));
}

/// Wrong calls, and files that cannot be read or written.
#[test]
fn calls() {
    let folder = folder();
    for (arguments, said) in [
        (&[][..], "usage: fsq VERB"),
        (&["fire"], "fsq: fire is no verb"),
        (&["make"], "fsq make: 0 arguments, and 1 expected\nusage: fsq make SHOW.txt"),
        (&["make", "a.txt"], "fsq make: -o and a file are expected"),
        (&["make", "a.txt", "-o"], "fsq make: -o has no value"),
        (&["make", "a.txt", "-o", "x", "-o", "y"], "fsq make: -o stands twice"),
        (&["make", "a.txt", "-o", "a.fsq"], "fsq make: a.txt: No such file or directory"),
        (&["list", "document.fsq", "x"], "fsq list: 2 arguments, and 1 expected"),
        (&["list", "--at", "5", "document.fsq"], "fsq list: --at is no option"),
        (&["read", "document.fsq", "--origin", "x"], "fsq read: --origin x: a number is expected, 0 to 65535"),
        (&["list", "."], "fsq list: .: Is a directory"),
        (&["text", "document.fsq", "-o", "document.fsq"], "fsq text: document.fsq: is the input, which is not changed"),
        (&["text", "document.fsq", "-o", "./../nowhere/x"], "fsq text: ./../nowhere/x: No such file or directory"),
        (&["report", "document.fsq", "-o", "."], "fsq report: .: Is a directory"),
        (&["diff", "-", "-"], "fsq diff: standard input stands twice"),
        (&["cues", "document.fsq", "-o", "x", "--svg", "x"], "fsq cues: image and picture are one file"),
        (&["check", "document.fsq", "--source", "none.txt"], "fsq check: none.txt: No such file or directory"),
    ] {
        let names = folder.names();
        let ran = folder.fsq(arguments);
        assert_eq!((ran.status, ran.text()), (2, ""), "{arguments:?}");
        assert!(ran.said.starts_with(said), "{arguments:?}: {}", ran.said);
        assert_eq!(folder.names(), names);
    }
    let help = folder.fsq(&["--help"]);
    assert_eq!((help.status, help.said.as_str()), (0, ""));
    for verb in ["make", "text", "check", "list", "encodings", "read", "diff", "cues", "run", "report"] {
        assert!(help.text().contains(&format!("    fsq {verb} ")));
        let ran = folder.fsq(&[verb, "--help"]);
        assert_eq!((ran.status, ran.said.as_str()), (0, ""));
        assert!(ran.text().starts_with(&format!("usage: fsq {verb} ")), "{}", ran.text());
    }
}

/// The text that the help shows is one, and its bytes are NASM's.
#[test]
fn the_example_of_the_help() {
    let folder = Folder::new();
    let help = folder.fsq(&["make", "--help"]);
    let text: String = help.text().lines().filter(|line| line.starts_with("    ")).map(|line| format!("{line}\n")).collect();
    assert_eq!(fsq::load(&made(&text)).unwrap(), common::bytes("B9 7D 00 E2 FE B0 80 E6 40 F3 A4 EB 05 26 83 40 FE 05 F4"));
}

/// - is standard input and standard output; a file is written whole, through a link, and nothing else stays.
#[cfg(unix)]
#[test]
fn outputs() {
    use std::io::Read;
    use std::os::unix::fs::FileTypeExt;
    let folder = Folder::new();
    let ran = folder.fsq_with(&["make", "-", "-o", "-"], b"NOP\n");
    assert_eq!((ran.status, ran.output), (0, made("NOP\n")));
    folder.write("old.fsq", b"old");
    std::os::unix::fs::symlink("old.fsq", folder.path("link.fsq")).unwrap();
    assert_eq!(folder.fsq_with(&["make", "-", "-o", "link.fsq"], b"NOP\n").status, 0);
    assert_eq!(folder.read("old.fsq"), made("NOP\n"));
    assert!(fs::symlink_metadata(folder.path("link.fsq")).unwrap().file_type().is_symlink());
    // Through a link it is the input all the same.
    assert_eq!(folder.fsq(&["text", "old.fsq", "-o", "link.fsq"]).status, 2);
    // A pipe is written to. It is one of this folder, so that a wrong program replaces nothing else; being open for both, it blocks no one.
    assert!(std::process::Command::new("mkfifo").arg(folder.path("pipe")).status().unwrap().success());
    let mut pipe = fs::OpenOptions::new().read(true).write(true).open(folder.path("pipe")).unwrap();
    assert_eq!(folder.fsq(&["text", "old.fsq", "-o", "pipe"]).status, 0);
    assert!(fs::metadata(folder.path("pipe")).unwrap().file_type().is_fifo());
    let mut written = [0; 24];
    pipe.read_exact(&mut written).unwrap();
    assert_eq!(&written, b"        ORG 0\n        NO");
    fs::remove_file(folder.path("pipe")).unwrap();
    // A mistake leaves an older file as it is.
    assert_eq!(folder.fsq_with(&["make", "-", "-o", "old.fsq"], b"NO\n").status, 1);
    assert_eq!(folder.read("old.fsq"), made("NOP\n"));
    assert_eq!(folder.names(), ["link.fsq", "old.fsq"]);
    // Writes that fail: no file may grow, and the device that is always full.
    for (call, said) in [
        ("trap '' XFSZ; ulimit -f 0; exec \"$0\" text old.fsq -o new.txt", "fsq text: new.txt: File too large"),
        ("exec \"$0\" text old.fsq > /dev/full", "fsq text: standard output: No space left on device"),
    ] {
        let ran =
            std::process::Command::new("sh").args(["-c", call, env!("CARGO_BIN_EXE_fsq")]).current_dir(folder.path(".")).output().unwrap();
        assert_eq!(ran.status.code(), Some(2), "{call}");
        assert!(String::from_utf8(ran.stderr).unwrap().starts_with(said), "{call}");
        assert_eq!(folder.names(), ["link.fsq", "old.fsq"]);
    }
}

/// A show file of 186 instructions, which `make` refuses: they are no form of the 8086.
fn of_186(origin: u16, texts: &[&str]) -> Vec<u8> {
    let show: Vec<Instruction> = texts.iter().map(|text| text.parse().unwrap()).collect();
    fsq::show_file(origin, &show)
}

/// Document 02, No. 12: copies, and the refusals with the record to look at.
#[test]
fn convert() {
    let folder = folder();
    folder.write("old.fsq", of_186(256, &["SHL AX,3", "JE 259", "HLT"]));
    let ran = folder.fsq(&["convert", "old.fsq", "-o", "new.fsq"]);
    assert_eq!((ran.status, ran.said.as_str(), ran.text()), (0, "", ""));
    let ran = folder.fsq(&["list", "new.fsq"]);
    assert_eq!(ran.text(), "FSQ 1 0100 5\n0100 2 D1E0\n0102 2 D1E0\n0104 2 D1E0\n0106 2 74FE\n0108 1 F4\n");
    for (origin, texts, said) in [
        (256, &["HLT", "SHL AX,40"][..], "refusal 24 of record 1: "),
        (256, &["SHL AX,3", "JE 257"], "refusal 25 of record 1: "),
        // of the file itself, at its old start
        (256, &["SHL AX,3", "JE 600"], "refusal 6 of record 1 "),
        // of the converted show
        (65531, &["SHL AX,3", "JE 65536"], "refusal 6 of record 3 "),
        (65529, &["SHL AX,2", "JMP short 65535", "HLT", "HLT"], "refusal 5 of record 2 "),
    ] {
        folder.write("old.fsq", of_186(origin, texts));
        let ran = folder.fsq(&["convert", "old.fsq", "-o", "none.fsq"]);
        assert_eq!(ran.status, 1, "{}", ran.said);
        assert!(ran.said.starts_with(&format!("old.fsq: {said}")), "{}", ran.said);
        assert_eq!(ran.said.contains("it stands for record 1 of old.fsq"), origin > 256, "{}", ran.said);
        assert!(!folder.path("none.fsq").exists());
    }
    let ran = folder.fsq(&["convert", "new.fsq", "-o", "again.fsq"]);
    assert_eq!(ran.status, 0);
    assert_eq!(folder.read("again.fsq"), folder.read("new.fsq"));
}
