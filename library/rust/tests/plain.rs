//! What the form of an instruction uses of it, and the records of a file that is refused for one of them.

use fsq::{
    encode, encode_record, records, show_file, Base, Instruction, Jump, Operand,
    Operation::{self, *},
    Register::*,
    Segment, Show,
};

/// Each has the bytes of the other: REFERENCE 4.
#[test]
fn texts() {
    let bx = || Operand::memory(Base::BX, 0);
    for (instruction, text) in [
        (Instruction::two(AAM, AX, 5), "AAM"),
        (Instruction::none(INT), "INT 0"),
        (Instruction::two(LOOP, 2, AX), "LOOP 2"),
        (Instruction::two(MOV, Operand::from(AX).jump(Jump::Far), Operand::from(5).jump(Jump::Far)), "MOV AX,5"),
        (Instruction::two(LEA, AX, bx().byte().jump(Jump::Near)), "LEA AX,byte [BX]"),
        (Instruction::one(JMP, bx().jump(Jump::Near)), "JMP near [BX]"),
        (Instruction::one(JNE, Operand::from(2).jump(Jump::Short)), "JNE short 2"),
        (Instruction::one(JMP, Operand::far(22136, 4660)), "JMP 22136:4660"),
        (Instruction::two(RET, 4, Segment::ES), "RET 4"),
    ] {
        let plain = instruction.plain(0).unwrap();
        assert_eq!(plain.to_string(), text, "{instruction}");
        assert_eq!(encode(&plain, 0), encode(&instruction, 0), "{instruction}");
    }
    assert_eq!(Instruction::one(JE, 130).plain(0).unwrap_err().number(), 6);
}

/// Of every stored record that is accepted: the same bytes, a text without a brace that is parsed to the same record, and nothing more to leave out.
#[test]
fn stored_records() {
    let mut accepted = 0;
    for name in ["bench_sheet", "lists", "sample"] {
        let text = std::fs::read_to_string(format!("{}/../../crates/test_vectors/data/{name}.txt", env!("CARGO_MANIFEST_DIR"))).unwrap();
        // The offset stands in column 88, the record at the end.
        for row in text.lines().skip(1) {
            let (offset, digits) = (u16::from_str_radix(&row[88..92], 16).unwrap(), row.split_whitespace().next_back().unwrap());
            let record: Vec<u8> = (0..digits.len()).step_by(2).map(|at| u8::from_str_radix(&digits[at..at + 2], 16).unwrap()).collect();
            let Ok(bytes) = encode_record(&record, offset) else { continue };
            let plain = Instruction::from_record(&record).unwrap().plain(offset).unwrap();
            assert_eq!(encode(&plain, offset).unwrap(), bytes, "{row}");
            let parsed: Instruction = plain.to_string().parse().unwrap_or_else(|error| panic!("{plain}: {error}: {row}"));
            assert_eq!((parsed.to_string(), encode(&parsed, offset).unwrap()), (plain.to_string(), bytes), "{row}");
            assert_eq!(plain.plain(offset).unwrap(), plain, "{row}");
            accepted += 1;
        }
    }
    assert!(accepted > 1000, "{accepted}");
}

/// As those of a show that loads; of one that is refused for a record all the same; of one that is refused as a whole none.
#[test]
fn records_of_files() {
    let mut file = show_file(256, &[Instruction::two(Operation::MOV, AX, 4660), Instruction::none(AAM), Instruction::one(LOOP, 256)]);
    let (origin, all) = records(&file).unwrap();
    assert_eq!(origin, 256);
    assert!(all.eq(Show::load(&file).unwrap().records().map(|record| record.record)));
    // REFERENCE 8: an operation's number is 0 to 98.
    file[9 + 56] = 99;
    let refusal = Show::load(&file).unwrap_err();
    assert_eq!((refusal.number(), refusal.record), (15, Some(1)));
    assert_eq!(records(&file).unwrap().1.map(|record| record[0]).collect::<Vec<_>>(), [0, 99, LOOP.number()]);
    for (length, number) in [(2, 12), (3, 14), (file.len() - 1, 14)] {
        assert_eq!(records(&file[..length]).unwrap_err().number(), number);
    }
    assert_eq!(records(&show_file(7, &[])).unwrap().1.len(), 0);
}
