//! Forms and questions. The lines are document 02's, No. 3, with the SDM's opcode column; a bench record's opcode and digit are also the reader's.

use fsq::{
    encode, encode_record, form, form_record, list, read, Base, Extension, Instruction, Jump, Operand, Operation::*, Register::*, Segment,
    Show,
};

fn at_bx() -> Operand {
    Operand::memory(Base::BX, 0)
}

#[test]
fn forms() {
    let address = || Operand::address(4660);
    let rows = [
        (Instruction::two(ADD, BX, 5), "form 83 /0 Reg:Word Imm:Unspecified -128..127"),
        (Instruction::two(CMP, at_bx().word(), -1), "form 83 /7 Mem:Word Imm:Unspecified -128..127"),
        (Instruction::two(ADD, AX, 200), "form 05 Reg:Word Imm:Unspecified -32768..65535"),
        (Instruction::two(ADD, BX, 200), "form 81 /0 Reg:Word Imm:Unspecified -32768..65535"),
        (Instruction::two(SUB, at_bx().byte(), 5), "form 80 /5 Mem:Byte Imm:Unspecified -128..255"),
        (Instruction::two(ADD, AX, BX), "form 01 Reg:Word Reg:Word -"),
        (Instruction::two(ADD, AX, at_bx()), "form 03 Reg:Word Mem:Unspecified -"),
        (Instruction::one(NEG, BL), "form F6 /3 Reg:Byte -"),
        (Instruction::one(INC, BX), "form 43 Reg:Word -"),
        (Instruction::one(INC, BL), "form FE /0 Reg:Byte -"),
        (Instruction::one(DEC, at_bx().word()), "form FF /1 Mem:Word -"),
        (Instruction::two(MOV, BX, 5), "form BB Reg:Word Imm:Unspecified -32768..65535"),
        (Instruction::two(MOV, BL, 5), "form B3 Reg:Byte Imm:Unspecified -128..255"),
        (Instruction::two(MOV, at_bx().byte(), 5), "form C6 /0 Mem:Byte Imm:Unspecified -128..255"),
        (Instruction::two(MOV, at_bx(), Operand::from(5).word()), "form C7 /0 Mem:Unspecified Imm:Word -32768..65535"),
        (Instruction::two(MOV, AX, at_bx().in_segment(Segment::ES)), "form 8B Reg:Word Mem:Unspecified -"),
        (Instruction::two(MOV, AL, address()), "form A0 Reg:Byte Mem:Unspecified -"),
        (Instruction::two(MOV, address().in_segment(Segment::ES), AX), "form A3 Mem:Unspecified Reg:Word -"),
        (Instruction::two(MOV, BX, Segment::DS), "form 8C Reg:Word Seg:Word -"),
        (Instruction::two(MOV, Segment::DS, BX), "form 8E Seg:Word Reg:Word -"),
        (Instruction::two(TEST, BL, 5), "form F6 /0 Reg:Byte Imm:Unspecified -128..255"),
        (Instruction::two(TEST, AX, 5), "form A9 Reg:Word Imm:Unspecified -32768..65535"),
        (Instruction::two(TEST, CL, at_bx()), "form 84 Reg:Byte Mem:Unspecified -"),
        (Instruction::two(XCHG, AX, CX), "form 91 Reg:Word Reg:Word -"),
        (Instruction::two(XCHG, CX, AX), "form 91 Reg:Word Reg:Word -"),
        (Instruction::two(XCHG, CL, at_bx()), "form 86 Reg:Byte Mem:Unspecified -"),
        (Instruction::two(XCHG, at_bx(), CL), "form 86 Mem:Unspecified Reg:Byte -"),
        (Instruction::none(NOP), "form 90 -"),
        (Instruction::two(XCHG, AX, AX), "form 90 Reg:Word Reg:Word -"),
        (Instruction::one(PUSH, BX), "form 53 Reg:Word -"),
        (Instruction::one(PUSH, Segment::DS), "form 1E Seg:Word -"),
        (Instruction::one(PUSH, at_bx().word()), "form FF /6 Mem:Word -"),
        (Instruction::one(POP, BX), "form 5B Reg:Word -"),
        (Instruction::one(POP, at_bx().word()), "form 8F /0 Mem:Word -"),
        (Instruction::two(LEA, BX, at_bx()), "form 8D Reg:Word Mem:Unspecified -"),
        (Instruction::two(SHL, BX, 1), "form D1 /4 Reg:Word Imm:Unspecified -"),
        (Instruction::two(SHL, BX, Operand::from(1).byte()), "form D1 /4 Reg:Word Imm:Byte -"),
        (Instruction::two(SHL, BX, CL), "form D3 /4 Reg:Word Reg:Byte -"),
        (Instruction::one(CALL, 5), "form E8 Imm:Unspecified 0..65535"),
        (Instruction::one(CALL, BX), "form FF /2 Reg:Word -"),
        (Instruction::one(CALL, at_bx().jump(Jump::Far)), "form FF /3 Mem:Unspecified -"),
        (Instruction::one(JMP, 5), "form E9 Imm:Unspecified 0..65535"),
        (Instruction::one(JMP, Operand::far(6, 5)), "form EA Imm:Unspecified 0..65535"),
        (Instruction::one(JMP, Operand::from(5).jump(Jump::Short)), "form EB Imm:Unspecified 0..65535"),
        (Instruction::one(JE, 129), "form 74 Imm:Unspecified -"),
        (Instruction::one(LOOP, 0), "form E2 Imm:Unspecified -"),
        (Instruction::none(RET), "form C3 -"),
        (Instruction::one(RET, 5), "form C2 Imm:Unspecified 0..65535"),
        (Instruction::one(INT, 5), "form CD Imm:Unspecified 0..255"),
        (Instruction::none(INT3), "form CC -"),
        (Instruction::none(AAM), "form D4 -"),
        (Instruction::one(XLATB, at_bx().word()), "form D7 Mem:Word -"),
        (Instruction::two(IN, AL, 5), "form E4 Reg:Byte Imm:Unspecified 0..255"),
        (Instruction::two(OUT, 5, AX), "form E7 Imm:Unspecified Reg:Word 0..255"),
        (Instruction::two(OUT, DX, AX), "form EF Reg:Word Reg:Word -"),
        (Instruction::none(LOCK), "form F0 -"),
    ];
    for (instruction, line) in rows {
        let form = form(&instruction, 0).unwrap_or_else(|refusal| panic!("{instruction}: {refusal}"));
        assert_eq!((form.as_str(), form.to_string(), format!("{form:?}")), (line, line.to_string(), line.to_string()), "{instruction}");
        assert_eq!(form_record(&instruction.to_record(), 0), Ok(form));
        // The parts put together are the line.
        let mut parts = format!("form {:02X}", form.opcode());
        if let Some(digit) = form.digit() {
            parts += &format!(" /{digit}");
        }
        for operand in form.operands() {
            parts += &format!(" {operand}");
        }
        parts += &form.limits().map_or(" -".to_string(), |limits| format!(" {}..{}", limits.start(), limits.end()));
        assert_eq!(parts, line);
    }
}

#[test]
fn questions() {
    let mut count_3 = Instruction::none(NOP).to_record();
    count_3[1] = 3;
    let rows = [
        (Instruction::from_record(&count_3).unwrap(), 8, 1),
        (Instruction::two(MOV, AX, Operand::memory(Base::BX, 65536)), 8, 1),
        (Instruction::none(INT1), 7, 2),
        (Instruction::none(ESC), 7, 2),
        (Instruction::two(ADD, at_bx(), 5), 2, 3),
        (Instruction::one(NOT, at_bx()), 2, 3),
        (Instruction::two(SHL, at_bx(), 1), 2, 3),
        (Instruction::one(INC, at_bx()), 4, 3),
        (Instruction::one(POP, 5), 4, 3),
        (Instruction::one(POP, Operand::from(5).byte()), 4, 3),
        (Instruction::one(POP, BL), 4, 3),
        (Instruction::one(XLATB, at_bx().byte()), 4, 3),
        (Instruction::two(MOV, AX, BL), 3, 4),
        (Instruction::one(POP, Operand::from(5).word()), 4, 5),
        (Instruction::one(POP, Segment::CS), 1, 5),
        (Instruction::two(MOV, 5, AX), 1, 5),
        (Instruction::two(SHL, BX, 2), 1, 5),
        (Instruction::one(CALL, Operand::from(65536).jump(Jump::Far)), 1, 5),
        (Instruction::one(JMP, 65536), 5, 6),
        (Instruction::one(JMP, Operand::from(65536).jump(Jump::Far)), 5, 6),
        (Instruction::one(CALL, 65536), 5, 6),
        (Instruction::two(MOV, AL, 256), 5, 6),
        (Instruction::two(IN, AL, 256), 5, 6),
        (Instruction::one(JE, 130), 6, 7),
        (Instruction::one(JMP, Operand::from(130).jump(Jump::Short)), 6, 7),
    ];
    for (instruction, number, question) in rows {
        let instruction = instruction.at(3..7);
        let refusal = form(&instruction, 0).unwrap_err();
        assert_eq!((refusal.number(), refusal.question()), (number, Some(question)), "{instruction}");
        // That question is the library's; those of the others are told by the number and the record.
        assert_eq!(encode(&instruction, 0).as_ref(), Err(&refusal), "{instruction}");
        assert_eq!(list(&instruction, 0).as_ref(), Err(&refusal), "{instruction}");
        let file = fsq::show_file(65535, &[Instruction::none(NOP), instruction]);
        let of_record = Show::load(&file).unwrap_err();
        assert_eq!((of_record.question(), of_record.record), (Some(question), Some(1)));
        assert!(of_record.to_string().starts_with(&format!("refusal {number} of record 1 (question {question}): ")), "{of_record}");
    }
}

/// What is refused with 10 to 15 is refused before a question, and 9 is question 8's.
#[test]
fn without_a_question() {
    let mut record = Instruction::none(AAM).to_record();
    assert_eq!(form_record(&record[..55], 0), Err(encode_record(&record[..55], 0).unwrap_err()));
    let file = fsq::show_file(0, &[Instruction::none(AAM)]);
    assert_eq!(Show::load_into(&file, &mut [0]).unwrap_err().question(), Some(8));
    record[0] = 99;
    for refusal in [
        form_record(&record, 0).unwrap_err(),
        form_record(&[], 0).unwrap_err(),
        Instruction::from_record(&record).unwrap_err(),
        read(&[], 0).unwrap_err(),
        read(&[0x0F], 0).unwrap_err(),
        Show::load(b"FS").unwrap_err(),
        Show::load(&file[1..]).unwrap_err(),
        Show::load(&file[..64]).unwrap_err(),
    ] {
        assert_eq!(refusal.question(), None);
        assert!(!refusal.to_string().contains("question"), "{refusal}");
    }
}

/// The form of a record is the one by which its bytes read; 90 has two.
#[test]
fn a_form_is_the_readings() {
    let mut records = 0;
    for name in ["bench/records.fsq", "tests/shows/ready.fsq"] {
        let file = std::fs::read(format!("{}/../../{name}", env!("CARGO_MANIFEST_DIR"))).unwrap();
        for record in &Show::load(&file).unwrap() {
            let form = form_record(record.record, record.offset).unwrap();
            let reading = read(record.bytes, record.offset).unwrap();
            let first = record.bytes[usize::from(matches!(record.bytes[0], 0x26 | 0x2E | 0x36 | 0x3E))];
            assert_eq!(form.opcode(), first, "{reading}");
            let digit = match reading.extension {
                Extension::Digit(n) => Some(n),
                _ => None,
            };
            assert_eq!(form.digit(), digit, "{reading}");
            if form.opcode() != 0x90 {
                assert_eq!(form.operands().count(), reading.operands.iter().flatten().count(), "{reading}");
            }
            records += 1;
        }
    }
    assert!(records > 1000);
}
