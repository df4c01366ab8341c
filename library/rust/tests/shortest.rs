//! Document 02, No. 8: the shortest string of an instruction. The bytes are that page's and the SDM's, the lists of test_vectors those that its rows have; what
//! holds of every record is asked of the stored ones.

use fsq::{
    encode, encode_record, encode_shortest, encode_shortest_record, list_record, read, Base, Bytes, Instruction, Jump, Operand,
    Operation::*, Register::*, Repeat, Segment, Show,
};
use std::collections::HashMap;

fn hex(text: &str) -> Vec<u8> {
    text.split(' ').map(|byte| u8::from_str_radix(byte, 16).unwrap()).collect()
}

/// An instruction at an offset, the encoder's bytes, and the shortest.
fn rows() -> Vec<(Instruction, u16, &'static str, &'static str)> {
    let at = |base| Operand::memory(base, 0);
    let jmp = |target: i32, kind| Instruction::one(JMP, Operand::from(target).jump(kind));
    vec![
        // Of the same length the lowest: the accumulator's 05 before 83, 89 before 8B, and of XCHG's two orders the lower ModRM.
        (Instruction::two(ADD, AX, 5), 0, "83 C0 05", "05 05 00"),
        (Instruction::two(ADD, AX, -1), 0, "83 C0 FF", "05 FF FF"),
        (Instruction::two(ADD, AX, 200), 0, "05 C8 00", "05 C8 00"),
        (Instruction::two(MOV, AX, BX), 0, "89 D8", "89 D8"),
        (Instruction::two(XCHG, BX, CX), 0, "87 D9", "87 CB"),
        (Instruction::two(XCHG, CX, BX), 0, "87 CB", "87 CB"),
        (Instruction::two(XCHG, CL, AL), 0, "86 C8", "86 C1"),
        (Instruction::two(XCHG, AX, BX), 0, "93", "93"),
        // 83 where its byte, extended, is the immediate, and 82 nowhere.
        (Instruction::two(ADD, BX, 65535), 0, "81 C3 FF FF", "83 C3 FF"),
        (Instruction::two(ADD, BX, 200), 0, "81 C3 C8 00", "81 C3 C8 00"),
        (Instruction::two(ADD, BL, 200), 0, "80 C3 C8", "80 C3 C8"),
        // The default segment's prefix goes, another stays: it is a part of the instruction, of LEA too.
        (Instruction::two(MOV, AX, at(Base::BX).in_segment(Segment::DS)), 0, "3E 8B 07", "8B 07"),
        (Instruction::two(MOV, AX, at(Base::BX).in_segment(Segment::ES)), 0, "26 8B 07", "26 8B 07"),
        (Instruction::two(LEA, AX, at(Base::BX).in_segment(Segment::ES)), 0, "26 8D 07", "26 8D 07"),
        (Instruction::two(LEA, AX, at(Base::BX).in_segment(Segment::DS)), 0, "3E 8D 07", "8D 07"),
        (Instruction::two(MOV, AL, at(Base::BP).in_segment(Segment::SS)), 0, "36 8A 46 00", "8A 46 00"),
        (Instruction::two(MOV, AL, at(Base::BP).in_segment(Segment::DS)), 0, "3E 8A 46 00", "3E 8A 46 00"),
        (Instruction::two(MOV, AX, Operand::address(4660).in_segment(Segment::DS)), 0, "3E A1 34 12", "A1 34 12"),
        // A displacement counts modulo 65,536, and 128 is not a byte's.
        (Instruction::two(MOV, AX, Operand::memory(Base::BX, 65535)), 0, "8B 87 FF FF", "8B 47 FF"),
        (Instruction::two(MOV, AX, Operand::memory(Base::BX, 65408)), 0, "8B 87 80 FF", "8B 47 80"),
        (Instruction::two(MOV, AX, Operand::memory(Base::BX, 128)), 0, "8B 87 80 00", "8B 87 80 00"),
        // EB where the target is -128 to 127 bytes behind it, whatever kind is said; a target counts modulo 65,536.
        (Instruction::one(JMP, 5), 0, "E9 02 00", "EB 03"),
        (jmp(5, Jump::Near), 0, "E9 02 00", "EB 03"),
        (jmp(5, Jump::Short), 0, "EB 03", "EB 03"),
        (Instruction::one(JMP, 129), 0, "E9 7E 00", "EB 7F"),
        (Instruction::one(JMP, 130), 0, "E9 7F 00", "E9 7F 00"),
        (Instruction::one(JMP, 130), 256, "E9 7F FF", "EB 80"),
        (Instruction::one(JMP, 129), 256, "E9 7E FF", "E9 7E FF"),
        (Instruction::one(JMP, 0), 65534, "E9 FF FF", "EB 00"),
        (Instruction::one(CALL, 5), 0, "E8 02 00", "E8 02 00"),
        (Instruction::one(JE, 130), 256, "74 80", "74 80"),
        // One string alone, the repeat with it.
        (Instruction::none(AAM), 0, "D4 0A", "D4 0A"),
        (Instruction::none(REP), 0, "F3", "F3"),
        (Instruction::none(MOVSB).repeated(Repeat::Rep), 0, "F3 A4", "F3 A4"),
        (Instruction::one(PUSH, AX), 0, "50", "50"),
        (Instruction::one(RET, 0), 0, "C2 00 00", "C2 00 00"),
    ]
}

#[test]
fn the_documents_and_the_manuals() {
    for (instruction, offset, encoded, shortest) in rows() {
        assert_eq!(encode(&instruction, offset).unwrap(), hex(encoded), "{instruction}");
        let string = encode_shortest(&instruction, offset).unwrap();
        assert_eq!(string, hex(shortest), "{instruction}");
        assert_eq!(string.to_string(), shortest);
        assert_eq!(encode_shortest_record(&instruction.to_repeat_record(), offset).unwrap(), string, "{instruction}");
    }
}

/// The rows of a file of crates/test_vectors, which have the offset in column 88 and the record at their end.
fn stored(name: &str) -> Vec<(String, Vec<u8>, u16)> {
    let text = std::fs::read_to_string(format!("{}/../../crates/test_vectors/data/{name}.txt", env!("CARGO_MANIFEST_DIR"))).unwrap();
    text.lines()
        .skip(1)
        .map(|row| {
            let digits = row.split_whitespace().next_back().unwrap();
            let record = (0..digits.len()).step_by(2).map(|at| u8::from_str_radix(&digits[at..at + 2], 16).unwrap()).collect();
            (row.to_string(), record, u16::from_str_radix(&row[88..92], 16).unwrap())
        })
        .collect()
}

/// All stored records: the rows of the bench sheet, of the lists and of the Rust's answers, and those of two shows.
fn records() -> Vec<(Vec<u8>, u16)> {
    let rows = ["bench_sheet", "lists", "sample"].into_iter().flat_map(stored).map(|(_, record, offset)| (record, offset));
    let shows = ["bench/records.fsq", "tests/shows/ready.fsq"].into_iter().flat_map(|name| {
        let file = std::fs::read(format!("{}/../../{name}", env!("CARGO_MANIFEST_DIR"))).unwrap();
        let show = Show::load(&file).unwrap();
        show.records().map(|record| (record.record.to_vec(), record.offset)).collect::<Vec<_>>()
    });
    rows.chain(shows).collect()
}

/// The first entry of every list that test_vectors has by hand.
#[test]
fn the_first_of_each_stored_list() {
    let mut other = 0;
    for (row, record, offset) in stored("lists") {
        // The entries behind their count, each its length and its bytes.
        let (number, length) = (&row[93..95], &row[99..101]);
        match number {
            "00" => {
                let length = length.parse::<usize>().unwrap();
                let string = encode_shortest_record(&record, offset).unwrap();
                assert_eq!(string, hex(&row[102..101 + 3 * length]), "{row}");
                other += usize::from(string != encode_record(&record, offset).unwrap());
            }
            _ => assert_eq!(encode_shortest_record(&record, offset).unwrap_err().number(), number.parse::<u8>().unwrap(), "{row}"),
        }
    }
    assert!(other > 5, "{other} are another string than the encoder's");
}

/// The first entry of the list, no longer than the encoder's string, which reads as the same; the refusal is the encoder's.
#[test]
fn every_stored_record() {
    let (mut accepted, mut refused) = (0, 0);
    for (record, offset) in records() {
        let shortest = encode_shortest_record(&record, offset);
        match encode_record(&record, offset) {
            Ok(encoded) => {
                let shortest = shortest.unwrap();
                let strings = list_record(&record, offset).unwrap();
                assert_eq!(shortest, strings[0]);
                assert!(shortest.len() <= encoded.len() && strings.iter().all(|string| shortest.len() <= string.len()));
                assert_eq!(meaning(&shortest, offset), meaning(&encoded, offset));
                accepted += 1;
            }
            Err(refusal) => {
                assert_eq!(shortest, Err(refusal));
                refused += 1;
            }
        }
    }
    assert!(accepted > 2000 && refused > 500, "{accepted} accepted, {refused} refused");
}

/// What bytes read as, without their length and form.
fn meaning(bytes: &[u8], offset: u16) -> impl Eq + std::hash::Hash + std::fmt::Debug {
    let reading = read(bytes, offset).unwrap();
    assert_eq!(reading.length, bytes.len());
    (reading.operation, reading.width, reading.operands, reading.repeat)
}

/// Two records that are the same instruction at an offset get the same bytes there, and so does what their strings are read as.
#[test]
fn the_same_instruction_the_same_bytes() {
    let mut other = 0;
    for at in [None, Some(0), Some(256), Some(65534)] {
        let mut strings: HashMap<_, Bytes> = HashMap::new();
        for (record, offset) in records() {
            let offset = at.unwrap_or(offset);
            let Ok(encoded) = encode_record(&record, offset) else { continue };
            let shortest = encode_shortest_record(&record, offset).unwrap();
            let kept = *strings.entry((offset, meaning(&encoded, offset))).or_insert(shortest);
            assert_eq!(kept, shortest, "{:?}", Instruction::from_record(&record));
            other += usize::from(encoded != shortest);
            for string in list_record(&record, offset).unwrap() {
                assert_eq!(encode_shortest(&read(&string, offset).unwrap().into(), offset).unwrap(), shortest, "{string}");
            }
        }
    }
    assert!(other > 1000, "{other} are another string than the encoder's");
}

/// The refusals of document 01's bench sheet and of No. 11, with their span and values.
#[test]
fn refusals() {
    let at_bx = || Operand::memory(Base::BX, 0);
    let rows = [
        (Instruction::one(POP, Segment::CS), 1),
        (Instruction::one(NOT, at_bx()), 2),
        (Instruction::two(ADD, AX, CL), 3),
        (Instruction::one(INC, at_bx()), 4),
        (Instruction::two(MOV, at_bx().byte(), 300), 5),
        (Instruction::one(JMP, Operand::from(130).jump(Jump::Short)), 6),
        (Instruction::none(ESC), 7),
        (Instruction::two(MOV, AX, Operand::memory(Base::BX, 65536)), 8),
        (Instruction::none(NOP).repeated(Repeat::Rep), 23),
    ];
    for (instruction, number) in rows {
        let instruction = instruction.at(3..7);
        let refusal = encode_shortest(&instruction, 0).unwrap_err();
        assert_eq!(refusal.number(), number, "{instruction}");
        assert_eq!(encode(&instruction, 0), Err(refusal), "{instruction}");
    }
    let record = Instruction::none(AAM).to_record();
    assert_eq!(encode_shortest_record(&record[..55], 0).unwrap_err().number(), 14);
    assert_eq!(encode_shortest_record(&[], 0).unwrap_err().number(), 14);
    let mut unknown = record.to_vec();
    unknown[0] = 99;
    assert_eq!(encode_shortest_record(&unknown, 0).unwrap_err().number(), 15);
}
