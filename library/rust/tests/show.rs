//! Loaded show files: records with offset and bytes, the text of REFERENCE 9, the versions with their counts (document 02, No. 5), and what is said of
//! a refused file.

use fsq::{encode_record, load, show_file, Base, Found, Instruction, Operand, Operation::*, Reason, Register::*, Segment, Show};

/// Document 01, 'Show file': MOV AX,4660; AAM; LOOP 256 at origin 256.
fn example() -> Vec<u8> {
    show_file(256, &[Instruction::two(MOV, AX, 4660), Instruction::none(AAM), Instruction::one(LOOP, 256)])
}

#[test]
fn records_with_offset_and_bytes() {
    let file = example();
    let show = Show::load(&file).unwrap();
    assert_eq!((show.version(), show.origin(), show.len(), show.is_empty()), (1, 256, 3, false));
    assert_eq!(show.image(), [0xB8, 0x34, 0x12, 0xD4, 0x0A, 0xE2, 0xF9]);
    let expected: [(u16, &str, &[u8]); 3] =
        [(0x0100, "MOV AX,4660", &[0xB8, 0x34, 0x12]), (0x0103, "AAM", &[0xD4, 0x0A]), (0x0105, "LOOP 256", &[0xE2, 0xF9])];
    assert_eq!(show.records().len(), 3);
    for (k, (record, (offset, text, bytes))) in show.records().zip(expected).enumerate() {
        assert_eq!((record.offset, record.bytes), (offset, bytes));
        assert_eq!(record.record, &file[9 + 56 * k..9 + 56 * (k + 1)]);
        assert_eq!(Instruction::from_record(record.record).unwrap().to_string(), text);
    }
    assert_eq!((&show).into_iter().count(), 3);
    assert_eq!(show.to_string(), "FSQ 1 0100 3\n0100 3 B83412\n0103 2 D40A\n0105 2 E2F9\n");
}

#[test]
fn a_lent_image() {
    let file = example();
    let mut image = [0xEE; 10];
    assert_eq!(Show::load_into(&file, &mut image).unwrap(), Show::load(&file).unwrap());
    assert_eq!(image[7..], [0xEE; 3]);
    // REFERENCE 8: 9 names the first record whose last byte lies behind the end, and no byte is changed.
    let mut short = [0xEE; 6];
    let refusal = Show::load_into(&file, &mut short).unwrap_err();
    assert_eq!((refusal.reason, refusal.record, short), (Reason::SliceTooShort, Some(2), [0xEE; 6]));
}

#[test]
fn offsets_wrap() {
    // REFERENCE 8: an offset is where the last record ended, modulo 65,536.
    let file = show_file(65535, &[Instruction::none(AAM), Instruction::none(NOP)]);
    let show = Show::load(&file).unwrap();
    assert_eq!(show.records().map(|record| record.offset).collect::<Vec<_>>(), [65535, 1]);
    assert!(Show::load(&show_file(7, &[])).unwrap().is_empty());
}

/// Every record of the longest files of both versions has its own bytes: those that it gets alone at its offset.
#[test]
fn a_thousand_records_and_more() {
    for (version, count) in [(1, 1000), (2, 1001), (2, 8000)] {
        let instructions: Vec<Instruction> = (0..count)
            .map(|n: u16| match n % 4 {
                0 => Instruction::two(ADD, AX, n),
                1 => Instruction::none(NOP),
                2 => Instruction::one(JMP, n),
                _ => Instruction::one(PUSH, BX),
            })
            .collect();
        let file = show_file(65000, &instructions);
        let show = Show::load(&file).unwrap();
        let mut image = Vec::new();
        for (record, instruction) in show.records().zip(&instructions) {
            assert_eq!(record.record, instruction.to_record());
            assert_eq!(encode_record(record.record, record.offset).unwrap(), record.bytes);
            assert_eq!(record.offset, 65000u16.wrapping_add(image.len() as u16));
            image.extend_from_slice(record.bytes);
        }
        assert_eq!((show.version(), show.len(), show.image()), (version, count.into(), &image[..]));
        assert_eq!(load(&file).unwrap(), image);
        // REFERENCE 9: the first line, then one for each record.
        let text = show.to_string();
        assert_eq!((text.lines().next(), text.lines().count()), (Some(&format!("FSQ {version} FDE8 {count}")[..]), 1 + usize::from(count)));
    }
}

/// REFERENCE 8: a header of this version, origin 0 and this count, and so many NOPs.
fn nops(version: u16, count: u16, records: usize) -> Vec<u8> {
    let mut file = b"FSQ".to_vec();
    [version, 0, count].iter().for_each(|field| file.extend(field.to_le_bytes()));
    file.extend(Instruction::none(NOP).to_record().repeat(records));
    file
}

/// Document 02, No. 5: up to 1,000 version 1, above it version 2, to 8,000; a count on the wrong side is 14, another version 13.
#[test]
fn the_counts_of_a_version() {
    for (version, count) in [(1, 0), (1, 1), (1, 1000), (2, 1001), (2, 3200), (2, 8000)] {
        let file = nops(version, count, count.into());
        let show = Show::load(&file).unwrap();
        // The SDM's NOP is 90.
        assert_eq!((show.version(), show.len(), show.image()), (version, count.into(), &vec![0x90; count.into()][..]));
    }
    for (version, low, high, counts) in [(1, 0, 1000, [1001, 3200, 8000, 8001, 65535]), (2, 1001, 8000, [0, 1, 1000, 8001, 65535])] {
        for count in counts {
            // In a file of this count's length, and before the length is asked.
            for records in [count.into(), 2] {
                let refusal = load(&nops(version, count, records)).unwrap_err();
                assert_eq!((refusal.number(), refusal.record), (14, None));
                assert_eq!(refusal.found, Some(Found::Count { version, count, low, high }));
                let text = format!("refusal 14: the count of the show file is {count}, outside {low}..{high} of version {version}");
                assert_eq!(refusal.to_string(), text);
            }
        }
    }
    for (version, count) in
        [(0, 0), (0, 1), (4, 0), (4, 1000), (4, 1001), (4, 8000), (4, 8001), (5, 1), (256, 1), (257, 1001), (259, 1), (65535, 2)]
    {
        let refusal = load(&nops(version, count, count.into())).unwrap_err();
        assert_eq!((refusal.number(), refusal.found), (13, Some(Found::Version(version))));
        assert_eq!(refusal.to_string(), format!("refusal 13: the version of the show file is {version}, not 1, 2 or 3"));
    }
}

/// REFERENCE 8: the length is exactly 9 + 56 for each record.
#[test]
fn the_length_of_a_long_file() {
    for (count, expected) in [(1001, 56065), (8000, 448009)] {
        let mut file = nops(2, count, count.into());
        assert_eq!(file.len(), expected);
        file.push(0);
        for length in [expected - 56, expected - 1, expected + 1] {
            let refusal = load(&file[..length]).unwrap_err();
            assert_eq!((refusal.number(), refusal.found), (14, Some(Found::FileLength { length, expected })));
        }
        assert_eq!(load(&file[..expected]).unwrap(), vec![0x90; count.into()]);
    }
}

/// Document 02, No. 5: the version is the count's.
#[test]
fn the_version_that_is_written() {
    let written = |count: usize| show_file(4660, &vec![Instruction::none(NOP); count]);
    for (count, header) in [(0, "01 00 34 12 00 00"), (1000, "01 00 34 12 E8 03"), (1001, "02 00 34 12 E9 03"), (8000, "02 00 34 12 40 1F")]
    {
        let bytes: Vec<String> = written(count)[3..9].iter().map(|byte| format!("{byte:02X}")).collect();
        assert_eq!(bytes.join(" "), header);
        assert_eq!(load(&written(count)).unwrap(), vec![0x90; count]);
    }
    // A count above 65,535 is written as 65,535.
    for (instructions, count) in [(8001, 8001), (65535, 65535), (65536 + 1001, 65535)] {
        let found = load(&written(instructions)).unwrap_err().found;
        assert_eq!(found, Some(Found::Count { version: 2, count, low: 1001, high: 8000 }));
    }
}

/// The longest image: 8,000 records of seven bytes. By the SDM MOV word ES:[BX+4660],22136 is 26 C7 87 34 12 78 56.
#[test]
fn the_longest_image() {
    let mov = Instruction::two(MOV, Operand::memory(Base::BX, 4660).word().in_segment(Segment::ES), 22136);
    let file = show_file(0, &vec![mov.at(3..9); 8000]);
    let expected = [0x26, 0xC7, 0x87, 0x34, 0x12, 0x78, 0x56].repeat(8000);
    assert_eq!(load(&file).unwrap(), expected);
    let mut image = vec![0xEE; 56001];
    assert_eq!(Show::load_into(&file, &mut image[..56000]).unwrap().image(), expected);
    assert_eq!(image[56000], 0xEE);
    // REFERENCE 8: 9 names the first record whose last byte lies behind the end, and no byte is changed.
    for (room, record) in [(55999, 7999), (55993, 7999), (55992, 7998), (7006, 1000), (0, 0)] {
        let mut short = vec![0xEE; room];
        let refusal = Show::load_into(&file, &mut short).unwrap_err();
        assert_eq!((refusal.reason, refusal.record, refusal.span), (Reason::SliceTooShort, Some(record), Some(3..9)));
        assert_eq!(short, vec![0xEE; room]);
    }
}

/// REFERENCE 8: the first record that is refused is named, with its values, also beyond 1,000; an unknown code before it.
#[test]
fn refused_beyond_a_thousand() {
    // Document 01's bench sheet: MOV byte [BX],300 is 5.
    let mov = Instruction::two(MOV, Operand::memory(Base::BX, 0).byte(), 300);
    for record in [999, 1000, 3199, 7998] {
        let mut instructions = vec![Instruction::none(NOP); 8000];
        instructions[record] = mov.clone();
        instructions[7999] = Instruction::none(ESC);
        let mut file = show_file(0, &instructions);
        let text = format!("refusal 5 of record {record} (question 6): value 300 is outside -128..255");
        assert_eq!(load(&file).unwrap_err().to_string(), text);
        file[9 + 56 * 7999] = 99;
        let text = "refusal 15 of record 7999: operation 99, at byte 0 of the record, is outside 0..98";
        assert_eq!(load(&file).unwrap_err().to_string(), text);
    }
}

/// REFERENCE 8 and 11: which length is wrong, the version, the code.
#[test]
fn what_a_refused_file_has() {
    let said = |file: &[u8]| {
        let refusal = Show::load(file).unwrap_err();
        assert_eq!(load(file).unwrap_err(), refusal);
        (refusal.found, refusal.to_string())
    };
    let file = example();
    let with = |at: usize, byte: u8| {
        let mut changed = file.clone();
        changed[at] = byte;
        changed
    };
    assert_eq!(said(b"FS"), (None, "refusal 12: this is no show file: it does not begin with FSQ".into()));
    let header = "refusal 14: the show file has 8 bytes, and its header alone 9";
    assert_eq!(said(&file[..8]), (Some(Found::HeaderLength(8)), header.into()));
    assert_eq!(said(&with(3, 4)), (Some(Found::Version(4)), "refusal 13: the version of the show file is 4, not 1, 2 or 3".into()));
    let count = "refusal 14: the count of the show file is 3, outside 1001..8000 of version 2";
    assert_eq!(said(&with(3, 2)), (Some(Found::Count { version: 2, count: 3, low: 1001, high: 8000 }), count.into()));
    let length = "refusal 14: the show file has 176 bytes, and by its count 177";
    assert_eq!(said(&file[..176]), (Some(Found::FileLength { length: 176, expected: 177 }), length.into()));
    // Document 02, No. 11: version 3 takes the count, and asks for 57 bytes a record.
    let length = "refusal 14: the show file has 177 bytes, and by its count 180";
    assert_eq!(said(&with(3, 3)), (Some(Found::FileLength { length: 177, expected: 180 }), length.into()));
    let code = "refusal 15 of record 1: jump kind 4, at byte 37 of the record, is outside 0..3";
    assert_eq!(said(&with(9 + 56 + 37, 4)), (Some(Found::Code { name: "jump kind", at: 37, value: 4, high: 3 }), code.into()));
}

/// Each code of REFERENCE 8 one above its highest: 15, the same for a record and for its instruction. In a record of 57 bytes all but the first stand a byte further.
#[test]
fn what_a_refused_record_has() {
    let instruction = Instruction::two(MOV, AX, 4660);
    let record = instruction.to_record();
    let codes = [
        (0, 0, 99, "operation"),
        (10, 11, 4, "kind"),
        (11, 12, 3, "size"),
        (13, 14, 3, "displacement size"),
        (14, 15, 4, "jump kind"),
        (33, 34, 4, "kind"),
        (34, 35, 3, "size"),
        (36, 37, 3, "displacement size"),
        (37, 38, 4, "jump kind"),
    ];
    for (short, long, value, name) in codes {
        for (mut changed, at) in [(record.to_vec(), short), (instruction.to_repeat_record().to_vec(), long)] {
            changed[at] = value;
            let refusal = encode_record(&changed, 0).unwrap_err();
            let text = format!("refusal 15: {name} {value}, at byte {at} of the record, is outside 0..{}", value - 1);
            assert_eq!((refusal.reason, refusal.to_string()), (Reason::UnknownCode, text));
            assert_eq!(refusal.found, Some(Found::Code { name, at, value, high: value - 1 }));
            assert_eq!(Instruction::from_record(&changed), Err(refusal));
            changed[at] = value - 1;
            assert!(Instruction::from_record(&changed).is_ok());
        }
    }
    for length in [0, 55] {
        let refusal = encode_record(&record[..length], 0).unwrap_err();
        assert_eq!(refusal.to_string(), format!("refusal 14: the record has {length} bytes, not 56 or 57"));
        assert_eq!(Instruction::from_record(&record[..length]), Err(refusal));
    }
    let long = [0; 58];
    assert_eq!(encode_record(&long, 0).unwrap_err().found, Some(Found::RecordLength(58)));
    assert_eq!(Instruction::from_record(&long).unwrap_err().found, Some(Found::RecordLength(58)));
}

/// A refusal is an error of `?`.
#[test]
fn an_error() {
    fn failing() -> Result<(), Box<dyn std::error::Error>> {
        load(b"")?;
        Ok(())
    }
    assert_eq!(failing().unwrap_err().to_string(), "refusal 12: this is no show file: it does not begin with FSQ");
}
