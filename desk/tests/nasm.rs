//! `fsq make` beside NASM: the same text, the same bytes. They need NASM, and tests/checks/desk runs them.

mod common;

use common::{shows, Folder};
use fsq_desk::verbs::make::make;
use std::process::Command;

/// Both assemble the text, and the images are equal.
fn same(name: &str, text: &str, for_nasm: &str) {
    let answer = make(text.as_bytes(), name);
    assert!(!answer.fault, "{}", answer.said);
    let image = fsq::load(&answer.output.unwrap()).unwrap();
    let folder = Folder::new();
    folder.write("show.asm", for_nasm);
    let nasm = Command::new("nasm")
        .args(["-f", "bin", "-o"])
        .arg(folder.path("show.bin"))
        .arg(folder.path("show.asm"))
        .output()
        .expect("NASM is here");
    assert!(nasm.status.success(), "{name}: {}", String::from_utf8_lossy(&nasm.stderr));
    assert_eq!(folder.read("show.bin"), image, "{name}");
}

/// One text for both.
#[test]
#[ignore = "needs NASM"]
fn plain_text() {
    let text = include_str!("plain.txt");
    same("plain.txt", text, text);
}

/// The texts of shows. NASM writes JMP without a kind short, where it can.
#[test]
#[ignore = "needs NASM"]
fn texts_of_shows() {
    for name in ["document", "fountain", "ready", "countdown", "refill"] {
        let (_, file) = shows().into_iter().find(|(show, _)| show == name).unwrap();
        let text = String::from_utf8(fsq_desk::verbs::text::text(&file, name).output.unwrap()).unwrap();
        same(name, &text, &text.replace("JMP L", "JMP near L"));
    }
}
