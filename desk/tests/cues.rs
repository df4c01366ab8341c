//! `fsq cues`, `fsq run` and the picture.

mod common;

use common::{bytes, Folder};
use fsq_desk::cue::{cues_in, marks, sheet, steps};
use fsq_desk::timeline::{svg, Mark};
use fsq_desk::verbs::cues::cues;
use fsq_desk::verbs::run::run;

const SHEET: &str = "; delay      port  mask\n3*(40+2)-1   64    0x80 ; first\n\t1000 65 2*8-1\n\n5 64 0";

/// Document 02, No. 9: nine bytes a cue, and HLT.
#[test]
fn images() {
    let answer = cues(SHEET.as_bytes(), "sheet.txt");
    assert!(!answer.fault, "{}", answer.said);
    let image = answer.output.unwrap();
    assert_eq!(image, bytes("B9 7D 00 E2 FE B0 80 E6 40 B9 E8 03 E2 FE B0 0F E6 41 B9 05 00 E2 FE B0 00 E6 40 F4"));
    let found = cues_in(&image).unwrap();
    assert_eq!(found, sheet(SHEET.as_bytes()).unwrap());
    // No. 10: the sum of (delay + 3) and 1.
    assert_eq!(steps(&found), 125 + 3 + 1000 + 3 + 5 + 3 + 1);
    let ran = run(&image, 100_000, "image");
    assert_eq!(
        String::from_utf8(ran.output.unwrap()).unwrap(),
        "step 128       port 64  mask 80\nstep 1131      port 65  mask 0F\nstep 1139      port 64  mask 00\n1140 steps, 3 cues\n"
    );
    assert_eq!(ran.picture, Some(svg(&marks(&found), 1140, "image")));
    assert!(run(&image, 1139, "image").fault);
    assert_eq!(cues(b"", "sheet").output.unwrap(), [0xF4]);
}

/// What is no image of cues has no picture.
#[test]
fn other_images() {
    for image in ["", "F4 F4", "90 F4", "B9 00 00 E2 FE B0 80 E6 40 F4", "B9 01 00 E2 FD B0 80 E6 40 F4", "B9 01 00 E2 FE B0 80 E6 40"] {
        assert_eq!(cues_in(&bytes(image)), None, "{image}");
    }
    assert_eq!(cues_in(&[0xF4]), Some(Vec::new()));
    let ran = run(&bytes("B0 05 E6 07 F4"), 10, "image");
    assert_eq!((ran.output.unwrap(), ran.picture), (b"port 7   mask 05\n3 steps, 1 cue\n".to_vec(), None));
}

#[test]
fn mistakes() {
    for (text, said) in [
        ("5 6", "s:1:1: delay, port and mask are expected, and 2 stand here\n"),
        ("5 6 7 8", "s:1:1: delay, port and mask are expected, and 4 stand here\n"),
        ("; x\n 0 6 7", "s:2:2: the delay 0 is outside 1..65535\n"),
        ("65536 6 7", "s:1:1: the delay 65536 is outside 1..65535\n"),
        ("1 256 7", "s:1:3: the port 256 is outside 0..255\n"),
        ("1 2 -1", "s:1:5: the mask -1 is outside 0..255\n"),
        ("1 2 x", "s:1:5: a number is expected\n"),
        ("1 2 3+", "s:1:5: refusal 16: "),
        ("1 2 3\n\n1 1/0 3", "s:3:3: refusal 18: "),
    ] {
        let answer = cues(text.as_bytes(), "s");
        assert!(answer.fault && answer.output.is_none() && answer.picture.is_none(), "{text}");
        assert!(answer.said.starts_with(said), "{text}: {}", answer.said);
    }
    assert!(!cues("1 2 3\n".repeat(200).as_bytes(), "s").fault);
    assert!(cues("1 2 3\n".repeat(201).as_bytes(), "s").said.starts_with("s:201:1: a sheet has at most 200 cues (refusal 19)\n"));
}

/// One lane a port, one mark a cue.
#[test]
fn pictures() {
    let picture =
        svg(&[Mark { step: 10, port: 64, mask: 1 }, Mark { step: 20, port: 65, mask: 0 }, Mark { step: 30, port: 64, mask: 2 }], 31, "a<b");
    assert_eq!(picture.matches("<title>step ").count(), 3);
    assert_eq!(picture.matches(">port 6").count(), 2);
    assert!(picture.contains("<title>a&lt;b</title>") && picture.contains("<title>step 20, port 65, mask 00</title>"), "{picture}");
    svg(&[], 0, "");
    svg(&[Mark { step: u64::from(u32::MAX), port: 255, mask: 255 }], 1, "");
}

/// A show whose image is one of cues has its timeline in the report.
#[test]
fn reports() {
    let folder = Folder::new();
    folder.write("cues.txt", "MOV CX,125\na: LOOP a\nMOV AL,128\nOUT 64,AL\nHLT\n");
    assert_eq!(folder.fsq(&["make", "cues.txt", "-o", "cues.fsq"]).status, 0);
    assert!(folder.fsq(&["report", "cues.fsq", "-o", "-"]).text().contains("<title>step 128, port 64, mask 80</title>"));
}
