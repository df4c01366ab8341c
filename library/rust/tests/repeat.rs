//! Document 02, No. 11: a repeat belongs to its instruction. The bytes are the SDM's (F3 and F2 before A4 to A7 and AA to AF), the refusals, lengths and
//! versions that page's.

use fsq::{
    encode, encode_record, form, form_record, list, list_record, load, read, show_file, Base, Found, Instruction, Operand, Operation,
    Operation::*, Reason, Register::*, Repeat, Segment, Show, RECORD_LENGTH, REPEAT_RECORD_LENGTH,
};

/// The ten string operations, with the SDM's opcodes.
const STRINGS: [(Operation, u8); 10] = [
    (MOVSB, 0xA4),
    (MOVSW, 0xA5),
    (CMPSB, 0xA6),
    (CMPSW, 0xA7),
    (STOSB, 0xAA),
    (STOSW, 0xAB),
    (LODSB, 0xAC),
    (LODSW, 0xAD),
    (SCASB, 0xAE),
    (SCASW, 0xAF),
];

const REPEATS: [(Repeat, u8, &str); 2] = [(Repeat::Repne, 0xF2, "REPNE"), (Repeat::Rep, 0xF3, "REP")];

/// A record of version 3 with this byte in the place of its repeat.
fn with_repeat(instruction: &Instruction, repeat: u8) -> [u8; 57] {
    let mut record = instruction.to_repeat_record();
    record[2] = repeat;
    record
}

/// Bytes, list, form, reading and text of every repeat before every string operation; the same operation without one stays another instruction.
#[test]
fn every_repeat_of_every_string_operation() {
    for (operation, opcode) in STRINGS {
        let plain = Instruction::none(operation);
        assert_eq!(plain.repeat(), None);
        assert_eq!(encode(&plain, 0).unwrap(), [opcode]);
        let mut lists = vec![list(&plain, 0).unwrap()];
        for (repeat, byte, name) in REPEATS {
            assert_eq!(repeat.byte(), byte);
            let instruction = plain.clone().repeated(repeat);
            assert_eq!((instruction.repeat(), instruction.operation()), (Some(repeat), operation));
            assert_eq!(instruction.clone().repeated(None), plain);
            let bytes = encode(&instruction, 65535).unwrap();
            assert_eq!(bytes, [byte, opcode]);
            // It has this string alone.
            let strings = list(&instruction, 0).unwrap();
            assert_eq!(strings.to_string(), format!("{byte:02X} {opcode:02X}\n"));
            lists.push(strings);
            assert_eq!(form(&instruction, 0).unwrap().as_str(), format!("form {opcode:02X} -"));
            // What follows the string operation is not looked at.
            for behind in [&[][..], &[0xA4], &[0x0F, 0xFF]] {
                let reading = read(&[&bytes[..], behind].concat(), 0).unwrap();
                assert_eq!((reading.length, reading.repeat, reading.operation), (2, Some(repeat), operation));
                assert_eq!((reading.opcode, reading.width, reading.operands), (opcode, None, [None, None]));
                assert_eq!(reading.to_string(), format!("{name} {operation}"));
                assert_eq!(Instruction::from(reading), instruction);
            }
            let text = instruction.to_string();
            assert_eq!(text, format!("{name} {operation}"));
            for other in [text.clone(), text.to_lowercase(), format!("\t{text} "), text.replace(' ', "  \t")] {
                assert_eq!(other.parse().as_ref(), Ok(&instruction), "{other}");
            }
        }
        assert!(lists[0] != lists[1] && lists[1] != lists[2]);
        let reading = read(&[opcode, 0xA4], 0).unwrap();
        assert_eq!((reading.length, reading.repeat, reading.operation), (1, None, operation));
    }
}

/// F2 or F3 with no byte behind it, or before anything else, is REPNE or REP by itself.
#[test]
fn a_repeat_by_itself() {
    for (operation, byte) in [(REPNE, 0xF2), (REP, 0xF3)] {
        for behind in
            [&[][..], &[0x90], &[0xF3, 0xA4], &[0xF2, 0xA4], &[0x26, 0xA4], &[0xF0, 0xA4], &[0x0F], &[0xA3], &[0xA8], &[0xA9], &[0xB0]]
        {
            let reading = read(&[&[byte][..], behind].concat(), 0).unwrap();
            assert_eq!((reading.length, reading.repeat, reading.operation, reading.opcode), (1, None, operation, byte), "{behind:02X?}");
            assert_eq!(Instruction::from(reading), Instruction::none(operation));
            assert_eq!(reading.to_string(), operation.name());
        }
        // Every byte behind it: ten begin a string operation.
        let longer = (0..=255).filter(|&behind| read(&[byte, behind], 0).unwrap().length == 2).collect::<Vec<u8>>();
        assert_eq!(longer, STRINGS.map(|(_, opcode)| opcode));
        let alone = Instruction::none(operation);
        assert_eq!(encode(&alone, 0).unwrap(), [byte]);
        assert_eq!(list(&alone, 0).unwrap().to_string(), format!("{byte:02X}\n"));
        assert_eq!(form(&alone, 0).unwrap().as_str(), format!("form {byte:02X} -"));
    }
}

/// 23, with the instruction's span, no values and question 1: a number that is no repeat, and a repeat before another operation.
#[test]
fn refused_with_23() {
    let said = "the repeat is neither REP nor REPNE, or the operation takes none";
    let strings = STRINGS.map(|(operation, _)| operation);
    let mut refused = 0;
    for operation in Operation::ALL {
        let instruction = Instruction::none(operation).at(3..7);
        for repeat in 0..=255 {
            let record = with_repeat(&instruction, repeat);
            let is_right = repeat == 0 || (matches!(repeat, 0xF2 | 0xF3) && strings.contains(&operation));
            let answer = encode_record(&record, 0);
            if is_right {
                assert_ne!(answer.map_err(|refusal| refusal.number()), Err(23), "{operation} {repeat:02X}");
                continue;
            }
            let refusal = answer.unwrap_err();
            assert_eq!(
                (refusal.reason, refusal.number(), refusal.question()),
                (Reason::InvalidRepeat, 23, Some(1)),
                "{operation} {repeat:02X}"
            );
            assert_eq!((refusal.span.clone(), refusal.record, refusal.found), (Some(3..7), None, None));
            assert_eq!(refusal.to_string(), format!("refusal 23 (question 1): {said}"));
            assert_eq!(form_record(&record, 0).as_ref(), Err(&refusal));
            assert_eq!(list_record(&record, 0).as_ref(), Err(&refusal));
            let packed = Instruction::from_record(&record).unwrap();
            assert_eq!(packed.to_record(), record);
            assert_eq!(encode(&packed, 0).as_ref(), Err(&refusal));
            refused += 1;
        }
    }
    // All pairs but those of 0, and of F2 and F3 with the ten.
    assert_eq!(refused, 99 * 255 - 2 * 10);
}

/// Asked in question 1, behind count, first and second operand (8), and before question 2 (7) and all others; 15 and 14 stand before it.
#[test]
fn where_23_is_asked() {
    let number = |record: &[u8]| encode_record(record, 0).unwrap_err().number();
    let changed = |instruction: Instruction, repeat: u8, at: usize, byte: u8| {
        let mut record = with_repeat(&instruction, repeat);
        record[at] = byte;
        record
    };
    let movsb = || Instruction::none(MOVSB);
    for repeat in [0xF0, 0xF3, 99] {
        let another = |operation| Instruction::none(operation);
        // The count, the unused first and second operand's mode.
        assert_eq!(number(&changed(another(NOP), repeat, 1, 3)), 8);
        assert_eq!(number(&changed(another(NOP), repeat, 11 + 5, 2)), 8);
        assert_eq!(number(&changed(another(NOP), repeat, 34 + 5, 2)), 8);
        assert_eq!(number(&changed(another(NOP), repeat, 34, 4)), 15);
        assert_eq!(number(&with_repeat(&another(ESC), repeat)), 23);
        assert_eq!(number(&with_repeat(&another(INT1), repeat)), 23);
        for (instruction, later) in [
            (Instruction::two(ADD, Operand::memory(Base::BX, 0), 5), 2),
            (Instruction::two(MOV, AX, BL), 3),
            (Instruction::one(POP, 5), 4),
            (Instruction::one(PUSH, AL), 1),
            (Instruction::two(MOV, AL, 300), 5),
            (Instruction::one(JMP, 65536), 5),
            (Instruction::one(JE, 130), 6),
        ] {
            assert_eq!(number(&instruction.to_record()), later);
            assert_eq!(number(&with_repeat(&instruction, repeat)), 23);
        }
        for operation in [REP, REPNE, LOCK] {
            assert_eq!(number(&with_repeat(&Instruction::none(operation), repeat)), 23);
        }
    }
    assert_eq!(number(&changed(movsb(), 0xF0, 34 + 5, 2)), 8);
    assert_eq!(number(&with_repeat(&movsb(), 0xF0)), 23);
    assert_eq!(number(&changed(movsb(), 0xF0, 0, 99)), 15);
    assert_eq!(number(&changed(movsb(), 0xF3, 0, 99)), 15);
    // The builder makes no other numbers: another operation has the refusal.
    assert_eq!(encode(&Instruction::two(MOV, AX, 5).repeated(Repeat::Rep), 0).unwrap_err().reason, Reason::InvalidRepeat);
}

/// A record of 56 bytes has the repeat 0, one of 57 its own; 55 and 58 bytes are none.
#[test]
fn lengths_of_a_record() {
    assert_eq!((RECORD_LENGTH, REPEAT_RECORD_LENGTH), (56, 57));
    let (plain, repeated) = (Instruction::none(MOVSB), Instruction::none(MOVSB).repeated(Repeat::Rep));
    assert_eq!((plain.to_record().len(), repeated.to_record().len()), (56, 57));
    assert_eq!(plain.to_repeat_record()[..], [&[48, 0, 0][..], &[0; 54]].concat());
    assert_eq!(repeated.to_record(), repeated.to_repeat_record());
    assert_eq!(repeated.to_record(), [&[48, 0, 0xF3][..], &[0; 54]].concat());
    assert_eq!(encode_record(&plain.to_record(), 0).unwrap(), [0xA4]);
    assert_eq!(encode_record(&plain.to_repeat_record(), 0).unwrap(), [0xA4]);
    assert_eq!(encode_record(&repeated.to_record(), 0).unwrap(), [0xF3, 0xA4]);
    let mut longer = repeated.to_repeat_record().to_vec();
    longer.extend([0; 2]);
    for length in [0, 1, 55, 58, 59] {
        let refusal = encode_record(&longer[..length], 0).unwrap_err();
        assert_eq!((refusal.number(), refusal.found), (14, Some(Found::RecordLength(length))));
        assert_eq!(refusal.to_string(), format!("refusal 14: the record has {length} bytes, not 56 or 57"));
        assert_eq!(Instruction::from_record(&longer[..length]), Err(refusal));
    }
    // The same bytes at another length are another record: what was the repeat is the low byte of the span there.
    let span = Instruction::from_record(&longer[..56]).unwrap().span();
    assert_eq!((span.start, span.end), (0xF3, 0));
}

/// REFERENCE 8: what stands behind the repeat stands a byte further than in a record of 56 bytes.
#[test]
fn a_record_field_by_field() {
    let memory = Operand::memory(Base::BP_DI, -2).word().in_segment(Segment::ES).at(4..0x0102_0304);
    let instruction = Instruction::two(SCASW, memory, Operand::far(22136, 4660).at(7..8)).repeated(Repeat::Repne).at(1..9);
    let mut record = [0; 57];
    record[..3].copy_from_slice(&[53, 2, 0xF2]);
    record[3] = 1;
    record[7] = 9;
    record[11..18].copy_from_slice(&[3, 2, 0x26, 1, 0, 1, 3]);
    record[22..26].copy_from_slice(&[0xFE, 0xFF, 0xFF, 0xFF]);
    record[26..34].copy_from_slice(&[4, 0, 0, 0, 4, 3, 2, 1]);
    record[38] = 1;
    record[41..49].copy_from_slice(&[0x34, 0x12, 0, 0, 0x78, 0x56, 0, 0]);
    record[49] = 7;
    record[53] = 8;
    assert_eq!(instruction.to_record(), record);
    assert_eq!(Instruction::from_record(&record), Ok(instruction));
    // Without the third byte it is the record of 56 bytes.
    let short = [&record[..2], &record[3..]].concat();
    let without = Instruction::from_record(&record).unwrap().repeated(None);
    assert_eq!(without.to_record(), short);
    assert_eq!(Instruction::from_record(&short), Ok(without));
}

/// The question of 4 is by the first operand's size, which stands a byte further here.
#[test]
fn the_question_of_4() {
    for (operand, question) in [(Operand::from(5).word(), 5), (5.into(), 3)] {
        let pop = Instruction::one(POP, operand);
        let refusal = encode_record(&pop.to_repeat_record(), 0).unwrap_err();
        assert_eq!((refusal.number(), refusal.question()), (4, Some(question)));
        // In a file too, whose other record has a repeat.
        let file = show_file(0, &[Instruction::none(STOSB).repeated(Repeat::Rep), pop]);
        let refusal = load(&file).unwrap_err();
        assert_eq!((refusal.number(), refusal.question(), refusal.record), (4, Some(question), Some(1)));
    }
}

/// A show of REP MOVSB and others: version 3, 57 bytes a record. Without a repeat the version is 1 or 2, as before.
#[test]
fn a_show_with_a_repeat() {
    let instructions: Vec<Instruction> =
        ["MOV CX,4660", "REP MOVSB", "AAM", "REPNE SCASB", "LOOP 256"].map(|text| text.parse().unwrap()).into();
    let file = show_file(256, &instructions);
    assert_eq!(file[..9], *b"FSQ\x03\x00\x00\x01\x05\x00");
    assert_eq!(file.len(), 9 + 57 * 5);
    let expected: [(u16, &[u8]); 5] =
        [(0x0100, &[0xB9, 0x34, 0x12]), (0x0103, &[0xF3, 0xA4]), (0x0105, &[0xD4, 0x0A]), (0x0107, &[0xF2, 0xAE]), (0x0109, &[0xE2, 0xF5])];
    let show = Show::load(&file).unwrap();
    assert_eq!((show.version(), show.origin(), show.len()), (3, 256, 5));
    for (k, (record, (offset, bytes))) in show.records().zip(expected).enumerate() {
        assert_eq!((record.offset, record.bytes), (offset, bytes));
        assert_eq!(record.record, &file[9 + 57 * k..9 + 57 * (k + 1)]);
        assert_eq!(Instruction::from_record(record.record).as_ref(), Ok(&instructions[k]));
    }
    // REFERENCE 9: the version that the file has.
    let text = "FSQ 3 0100 5\n0100 3 B93412\n0103 2 F3A4\n0105 2 D40A\n0107 2 F2AE\n0109 2 E2F5\n";
    assert_eq!(show.to_string(), text);
    let without: Vec<Instruction> = instructions.into_iter().map(|instruction| instruction.repeated(None)).collect();
    let file = show_file(256, &without);
    assert_eq!((file[3], file.len()), (1, 9 + 56 * 5));
}

/// REP or REPNE as a record by itself has one byte, also before a record of a string operation: the reader would take both for one.
#[test]
fn a_record_of_rep_before_a_string_operation() {
    let instructions = [REP, MOVSB, REPNE, REP, SCASW, NOP].map(Instruction::none);
    let (single, double): (&[u8], &[u8]) = (&[0xF3], &[0xF3, 0xA5]);
    for file in [
        show_file(65535, &instructions),
        show_file(65535, &[&instructions[..], &[Instruction::none(MOVSW).repeated(Repeat::Rep)]].concat()),
    ] {
        let show = Show::load(&file).unwrap();
        assert_eq!(show.image()[..6], [0xF3, 0xA4, 0xF2, 0xF3, 0xAF, 0x90]);
        let records: Vec<_> = show.records().collect();
        assert_eq!((records[0].offset, records[0].bytes), (65535, single));
        for (k, record) in records.iter().take(6).enumerate() {
            assert_eq!((record.offset, record.bytes), (65535u16.wrapping_add(k as u16), &show.image()[k..k + 1]));
        }
        for record in records.iter().skip(6) {
            assert_eq!((show.version(), record.offset, record.bytes), (3, 5, double));
        }
    }
}

/// A header of a version, origin 0 and this count, and so many records of MOVSB with a repeat.
fn copies(version: u16, count: u16, records: usize, repeat: u8) -> Vec<u8> {
    let mut file = b"FSQ".to_vec();
    [version, 0, count].iter().for_each(|field| file.extend(field.to_le_bytes()));
    file.extend(with_repeat(&Instruction::none(MOVSB), repeat).repeat(records));
    file
}

/// Version 3 takes 0 to 8,000 records of 57 bytes, all of whose repeats may be 0; 1 and 2 do not take such records.
#[test]
fn the_counts_of_version_3() {
    for count in [0, 1, 1000, 1001, 8000] {
        let n = usize::from(count);
        assert_eq!(load(&copies(3, count, n, 0)).unwrap(), vec![0xA4; n]);
        let file = copies(3, count, n, 0xF3);
        assert_eq!(load(&file).unwrap(), [0xF3, 0xA4].repeat(n));
        assert_eq!((Show::load(&file).unwrap().records().len(), Show::load(&file).unwrap().version()), (n, 3));
        // A byte more, and a byte less than its records.
        for length in [9 + 57 * n + 1, 9 + 57 * n - 1].into_iter().take(if n == 0 { 1 } else { 2 }) {
            let refusal = load(&[&file[..], &[0]].concat()[..length]).unwrap_err();
            assert_eq!((refusal.number(), refusal.found), (14, Some(Found::FileLength { length, expected: 9 + 57 * n })));
        }
    }
    for count in [8001, 65535] {
        for records in [count.into(), 1] {
            let refusal = load(&copies(3, count, records, 0xF3)).unwrap_err();
            assert_eq!(refusal.found, Some(Found::Count { version: 3, count, low: 0, high: 8000 }));
            let text = format!("refusal 14: the count of the show file is {count}, outside 0..8000 of version 3");
            assert_eq!((refusal.number(), refusal.to_string()), (14, text));
        }
    }
    for version in [0, 4, 5, 258, 259] {
        assert_eq!(load(&copies(version, 1, 1, 0xF3)).unwrap_err().found, Some(Found::Version(version)));
    }
    // 57 bytes are no record of version 1, nor 56 one of version 3.
    assert_eq!(load(&copies(1, 1, 1, 0xF3)).unwrap_err().found, Some(Found::FileLength { length: 66, expected: 65 }));
    assert_eq!(load(&copies(2, 8000, 8000, 0xF3)).unwrap_err().found, Some(Found::FileLength { length: 456_009, expected: 448_009 }));
    let mut short = show_file(0, &[Instruction::none(MOVSB)]);
    short[3] = 3;
    assert_eq!(load(&short).unwrap_err().found, Some(Found::FileLength { length: 65, expected: 66 }));
}

/// A repeat that is none is 23 with its record, also 99; never 15, which is asked of all records before.
#[test]
fn a_refused_repeat_of_a_file() {
    for (repeat, number) in [(99, 23), (0xF0, 23), (1, 23), (0, 0), (0xF2, 0)] {
        let mut file = copies(3, 3, 3, 0xF3);
        file[9 + 57 + 2] = repeat;
        file[9 + 57 + 3] = 5;
        file[9 + 57 + 7] = 8;
        match load(&file) {
            Ok(image) => assert_eq!((number, image.len()), (0, if repeat == 0 { 5 } else { 6 })),
            Err(refusal) => {
                assert_eq!(
                    (refusal.number(), refusal.record, refusal.span.clone(), refusal.question()),
                    (number, Some(1), Some(5..8), Some(1))
                );
                let text = "refusal 23 of record 1 (question 1): the repeat is neither REP nor REPNE, or the operation takes none";
                assert_eq!(refusal.to_string(), text);
            }
        }
        // An unknown code of a later record comes first.
        file[9 + 2 * 57 + 34] = 4;
        let refusal = load(&file).unwrap_err();
        assert_eq!((refusal.number(), refusal.record), (15, Some(2)));
        assert_eq!(refusal.to_string(), "refusal 15 of record 2: kind 4, at byte 34 of the record, is outside 0..3");
    }
    // The first refused record is named: 23 before and behind another refusal.
    let (esc, wrong) = (Instruction::none(ESC), Instruction::none(NOP).repeated(Repeat::Rep));
    let refused = |instructions: &[Instruction]| load(&show_file(0, instructions)).map_err(|refusal| (refusal.number(), refusal.record));
    assert_eq!(refused(&[esc.clone(), wrong.clone()]), Err((7, Some(0))));
    assert_eq!(refused(&[Instruction::none(NOP), wrong, esc]), Err((23, Some(1))));
    // 9 is asked last.
    let mut file = copies(3, 2, 2, 0xF3);
    assert_eq!(Show::load_into(&file, &mut [0; 3]).unwrap_err().number(), 9);
    file[9 + 57 + 2] = 99;
    assert_eq!(Show::load_into(&file, &mut [0; 3]).unwrap_err().number(), 23);
}

/// The version is 3 wherever the instruction with the repeat stands, and above 1,000 too.
#[test]
fn the_version_that_is_written() {
    let movsb = || Instruction::none(MOVSB);
    for count in [1, 2, 1000, 1001, 8000] {
        for place in [0, count / 2, count - 1] {
            let mut instructions = vec![movsb(); count];
            instructions[place] = movsb().repeated(Repeat::Repne);
            let file = show_file(4660, &instructions);
            assert_eq!((file[3..7].to_vec(), file.len()), (vec![3, 0, 0x34, 0x12], 9 + 57 * count));
            let mut image = vec![0xA4; count + 1];
            image[place] = 0xF2;
            assert_eq!(load(&file).unwrap(), image);
        }
    }
    assert_eq!(show_file(0, &[]).len(), 9);
    let found = load(&show_file(0, &vec![movsb().repeated(Repeat::Rep); 8001])).unwrap_err().found;
    assert_eq!(found, Some(Found::Count { version: 3, count: 8001, low: 0, high: 8000 }));
}

/// The SDM's names of the repeats. One stands before an operation, and a name alone is the operation.
#[test]
fn the_text_of_a_repeat() {
    let rep = |operation| Instruction::none(operation).repeated(Repeat::Rep);
    for (text, instruction) in [
        ("repe cmpsb", rep(CMPSB)),
        ("REPZ CMPSW", rep(CMPSW)),
        ("repnz scasw", Instruction::none(SCASW).repeated(Repeat::Repne)),
        ("REP", Instruction::none(REP)),
        ("REPNE", Instruction::none(REPNE)),
        // What encode refuses is parsed.
        ("REP NOP", rep(NOP)),
        ("REP REP", rep(REP)),
        ("REPNE LOCK", Instruction::none(LOCK).repeated(Repeat::Repne)),
        ("REP MOV AX,5", Instruction::two(MOV, AX, 5).repeated(Repeat::Rep)),
        ("REP 5", Instruction::one(REP, 5)),
        ("REP XLATB", Instruction::one(XLATB, Operand::memory(Base::BX, 0).word()).repeated(Repeat::Rep)),
    ] {
        let parsed: Instruction = text.parse().unwrap_or_else(|error| panic!("{text}: {error}"));
        assert_eq!(parsed, instruction, "{text}");
        assert_eq!(instruction.to_string().parse().as_ref(), Ok(&instruction), "{text}");
    }
    for (text, at) in [("REP REP MOVSB", 8), ("MOVSB REP", 6), ("REP MOVSX", 4), ("LOCK MOVSB", 5), ("MOV MOV", 4), ("REPMOVSB", 0)] {
        assert_eq!(text.parse::<Instruction>().unwrap_err().at, at, "{text}");
    }
    // A number that is no repeat stands in braces.
    let printed = |repeat| Instruction::from_record(&with_repeat(&Instruction::none(MOVSB), repeat)).unwrap().to_string();
    assert_eq!((printed(0), printed(99), printed(0xF0)), ("MOVSB".into(), "MOVSB {repeat 63}".into(), "MOVSB {repeat F0}".into()));
    assert_eq!((printed(0xF3), printed(0xF2)), ("REP MOVSB".into(), "REPNE MOVSB".into()));
    assert!("MOVSB {repeat 63}".parse::<Instruction>().is_err());
}

/// A record's bytes may be changed, iterated and compared as a slice.
#[test]
fn bytes_of_a_record() {
    let mut record = Instruction::none(MOVSB).to_record();
    assert_eq!((record.len(), record.into_iter().count(), record.as_ref().len()), (56, 56, 56));
    record[0] = STOSB.number();
    assert_eq!(encode_record(&record, 0).unwrap(), [0xAA]);
    let repeated = Instruction::none(MOVSB).repeated(Repeat::Rep).to_record();
    assert_eq!((repeated.len(), repeated.into_iter().count(), format!("{repeated:?}").matches(", ").count()), (57, 57, 56));
    assert_ne!(record, repeated);
    assert_eq!(repeated.into_iter().take(3).collect::<Vec<u8>>(), [48, 0, 0xF3]);
    assert_eq!(repeated, repeated[..]);
    assert_eq!(&repeated[..], repeated);
    assert_eq!(repeated, repeated.to_vec());
}
