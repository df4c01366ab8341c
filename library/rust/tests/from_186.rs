//! Document 02, No. 12: shows from 186 modules, through the crate. The answers are by hand: SHL AX,3 is three bytes for the 186 (C1 E0 03), each copy two.

use fsq::{convert, convert_into, load, show_file, Found, Instruction, Jump, Operand, Operation, Reason, Refusal, Show};

/// The instructions of a text, with `; ` between them and `3*` before one for so many of it.
fn show(text: &str) -> Vec<Instruction> {
    let parts = text.split("; ").filter(|part| !part.is_empty());
    parts
        .flat_map(|part| {
            let (times, text) = part.split_once('*').unwrap_or(("1", part));
            vec![text.parse::<Instruction>().unwrap(); times.parse().unwrap()]
        })
        .collect()
}

fn file(origin: u16, text: &str) -> Vec<u8> {
    show_file(origin, &show(text))
}

#[track_caller]
fn becomes(origin: u16, from: &str, to: &str) {
    let (from, to) = (file(origin, from), file(origin, to));
    assert_eq!(convert(&from).unwrap(), to);
    load(&to).unwrap();
    // into a slice of its length and a longer one, whose later bytes stay; a byte less is 9
    for more in [0, 1, 60] {
        let mut out = vec![0xA5; to.len() + more];
        assert_eq!(convert_into(&from, &mut out), Ok(to.len()));
        assert_eq!(out[..to.len()], to);
        assert!(out[to.len()..].iter().all(|&byte| byte == 0xA5));
    }
    for length in [0, 8, to.len() - 1] {
        let mut out = vec![0xA5; length];
        let refusal = convert_into(&from, &mut out).unwrap_err();
        assert_eq!((refusal.reason, refusal.record, refusal.span.clone(), refusal.question()), (Reason::SliceTooShort, None, None, None));
        assert!(out.iter().all(|&byte| byte == 0xA5));
    }
}

#[track_caller]
fn refused(file: &[u8], number: u8, record: Option<u32>) -> Refusal {
    let refusal = convert(file).unwrap_err();
    assert_eq!((refusal.number(), refusal.record), (number, record));
    // whatever the slice is, and it stays
    for length in [0, 9, 400] {
        let mut out = vec![0xA5; length];
        assert_eq!(convert_into(file, &mut out).unwrap_err(), refusal);
        assert!(out.iter().all(|&byte| byte == 0xA5));
    }
    refusal
}

#[test]
fn copies() {
    becomes(256, "", "");
    becomes(256, "SHL AX,1; HLT", "SHL AX,1; HLT");
    becomes(256, "SHL AX,3", "3*SHL AX,1");
    becomes(256, "SHL AX,CL; SAR byte ES:[BX+4],31; RCL DX,2", "SHL AX,CL; 31*SAR byte ES:[BX+4],1; 2*RCL DX,1");
    for operation in ["ROL", "ROR", "RCL", "RCR", "SHL", "SHR", "SAR"] {
        for count in 2..=31 {
            becomes(0, &format!("{operation} BL,{count}"), &format!("{count}*{operation} BL,1"));
            becomes(0, &format!("{operation} word [600],{count}"), &format!("{count}*{operation} word [600],1"));
        }
    }
}

#[test]
fn targets() {
    becomes(256, "SHL AX,3; JE 256", "3*SHL AX,1; JE 256");
    becomes(256, "SHL AX,3; JE 259", "3*SHL AX,1; JE 262");
    becomes(256, "SHL AX,3; JE 261", "3*SHL AX,1; JE 264");
    becomes(256, "JE 261; SHL AX,3; HLT", "JE 264; 3*SHL AX,1; HLT");
    becomes(256, "SHL byte ES:[512],2; LOOP 262", "2*SHL byte ES:[512],1; LOOP 266");
    becomes(256, "SHL AX,2; CALL 259; JMP 262; JMP SHORT 265", "2*SHL AX,1; CALL 260; JMP 263; JMP SHORT 266");
    // no targets: EA, a register, data
    becomes(256, "SHL AX,2; MOV AX,259; RET 259", "2*SHL AX,1; MOV AX,259; RET 259");
    // across the wrap
    becomes(65531, "SHL AX,2; HLT; HLT; CALL 65535", "2*SHL AX,1; HLT; HLT; CALL 0");
    becomes(65531, "SHL AX,2; JE 65536", "2*SHL AX,1; JE 65537");
    becomes(65530, "SHL AX,2; HLT; HLT; HLT; JE -1", "2*SHL AX,1; HLT; HLT; HLT; JE 0");
}

/// The loader's refusals of the converted show count its records, the others those of the file.
#[test]
fn of_the_converted_show() {
    let refusal = refused(&file(65531, "SHL AX,3; JE 65536"), 6, Some(3));
    assert_eq!(refusal.reason, Reason::RelativeJumpOutOfRange { distance: 65536 });
    assert_eq!(refusal.to_string(), "refusal 6 of record 3 (question 7): the target is 65536 bytes away, outside -128..127");
    let refusal = refused(&file(65529, "SHL AX,2; JMP SHORT 65535; HLT; HLT"), 5, Some(2));
    assert_eq!(refusal.reason, Reason::ImmediateOutOfRange { value: 65536, low: 0, high: 65535 });
    assert_eq!(refusal.to_string(), "refusal 5 of record 2 (question 6): value 65536 is outside 0..65535");
    refused(&file(0, "42*SHL AX,2; JE 0"), 6, Some(84));
}

#[test]
fn counts() {
    for count in [0, 32, -1, 255, 257, 65537, i32::MIN, i32::MAX] {
        let refusal = refused(&file(256, &format!("HLT; HLT; SHL AX,{count}")), 24, Some(2));
        assert_eq!((refusal.reason, refusal.span.clone(), refusal.question()), (Reason::ShiftCountOutOfRange, None, None));
        assert_eq!(refusal.to_string(), "refusal 24 of record 2: the immediate count of a shift or rotate is outside 1..31");
    }
    // whatever else the record is
    refused(&file(256, "SHL [BX],40"), 24, Some(0));
    refused(&show_file(256, &[Instruction::one(Operation::SHL, fsq::Register::AX)]), 24, Some(0));
    let refusal = refused(&file(256, "SHL [BX],2"), 2, Some(0));
    assert_eq!((refusal.question(), refusal.span.is_some()), (Some(3), true));
    let refusal = refused(&file(256, "HLT; POP 5"), 4, Some(1));
    assert_eq!(refusal.question(), Some(3));
    let refusal = refused(&show_file(256, &[Instruction::one(Operation::POP, Operand::from(5).word())]), 4, Some(0));
    assert_eq!(refusal.question(), Some(5));
}

#[test]
fn no_record_at_the_target() {
    for target in [255, 257, 258, 260, 262] {
        let refusal = refused(&file(256, &format!("SHL AX,3; JE {target}")), 25, Some(1));
        assert_eq!((refusal.reason, refusal.span.clone(), refusal.question()), (Reason::NoRecordAtTarget, None, None));
        assert_eq!(refusal.to_string(), "refusal 25 of record 1: the branch goes to where no record stood, and not to the end of the show");
    }
    let far = Instruction::one(Operation::JMP, Operand::from(5).jump(Jump::Short));
    refused(&show_file(0, &[Instruction::none(Operation::HLT), far]), 25, Some(1));
}

/// Each before the next.
#[test]
fn order() {
    let mut unknown = file(256, "INT1; SHL AX,40; JE 300; HLT");
    let last = unknown.len() - 56;
    unknown[last] = 99;
    let refusal = refused(&unknown, 15, Some(3));
    assert_eq!(refusal.found, Some(Found::Code { name: "operation", at: 0, value: 99, high: 98 }));
    refused(&file(256, "INT1; SHL AX,40; JE 300"), 24, Some(1));
    refused(&file(256, "JE 300; SHL AX,4; INT1"), 7, Some(2));
    refused(&file(0, "42*SHL AX,2; JE 0; JE 127"), 25, Some(43));
    refused(&file(0, "JE 128; 42*SHL AX,2; 957*HLT"), 14, None);
}

#[test]
fn of_the_file_itself() {
    assert_eq!(refused(b"", 12, None).found, None);
    assert_eq!(refused(b"FSQ", 14, None).found, Some(Found::HeaderLength(3)));
    for version in [0, 2, 3, 4] {
        let mut other = file(256, "SHL AX,3");
        other[3] = version;
        let refusal = refused(&other, 13, None);
        assert_eq!(refusal.found, Some(Found::ConvertedVersion(version.into())));
        assert_eq!(refusal.to_string(), format!("refusal 13: the version of the show file is {version}, and 1 alone is converted"));
    }
    let mut long = file(256, "SHL AX,3");
    long.push(0);
    assert_eq!(refused(&long, 14, None).found, Some(Found::FileLength { length: 66, expected: 65 }));
    refused(&show_file(0, &show("1001*HLT")), 13, None);
    becomes(0, "32*SHL AX,31; 8*HLT", "992*SHL AX,1; 8*HLT");
    let refusal = refused(&file(0, "32*SHL AX,31; 9*HLT"), 14, None);
    assert_eq!(refusal.found, Some(Found::ConvertedCount));
    assert_eq!(refusal.to_string(), "refusal 14: the converted show file would have more than 1000 records");
}

/// A converted show is one of its own kind: it is converted to itself, and prints as `fsqlist` does.
#[test]
fn again() {
    let once = convert(&file(256, "SHL AX,3; RCR BL,2; JE 256; LOOP 262; HLT")).unwrap();
    assert_eq!(convert(&once).unwrap(), once);
    assert_eq!(Show::load(&once).unwrap().len(), 8);
}
