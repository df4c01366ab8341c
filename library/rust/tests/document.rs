//! Document 01's bench sheet and document 02's Nos. 1 and 5 through the crate: bytes, lists, readings and refusals are those pages', or the SDM's
//! where a line says so.

use fsq::{
    encode, encode_record, list, load, read, show_file, Base, Instruction, Jump, Operand, Operation::*, Part, Reason, Register::*, Segment,
    Show, Size,
};

fn hex(text: &str) -> Vec<u8> {
    text.split(' ').map(|byte| u8::from_str_radix(byte, 16).unwrap()).collect()
}

/// An instruction at an offset, its bytes, and its text.
fn accepted() -> Vec<(Instruction, u16, &'static str, &'static str)> {
    let at_bx = || Operand::memory(Base::BX, 0);
    vec![
        (Instruction::two(MOV, AX, 4660), 0, "B8 34 12", "MOV AX,4660"),
        (Instruction::none(AAM), 0, "D4 0A", "AAM"),
        (Instruction::two(TEST, AL, 5), 0, "A8 05", "TEST AL,5"),
        (Instruction::two(ADD, AX, 5), 0, "83 C0 05", "ADD AX,5"),
        (Instruction::two(ADD, AX, -1), 0, "83 C0 FF", "ADD AX,65535"),
        (Instruction::two(MOV, AL, -1), 0, "B0 FF", "MOV AL,255"),
        (Instruction::two(TEST, AX, -2), 0, "A9 FE FF", "TEST AX,65534"),
        (Instruction::two(ADD, BX, 200), 0, "81 C3 C8 00", "ADD BX,200"),
        (Instruction::two(ADD, at_bx().word(), 5), 0, "83 07 05", "ADD word [BX],5"),
        // XCHG has no first and second; the reader puts the lower register first.
        (Instruction::two(XCHG, CL, AL), 0, "86 C8", "XCHG AL,CL"),
        (Instruction::one(JE, 129), 0, "74 7F", "JE 129"),
        (Instruction::one(JE, 130), 256, "74 80", "JE 130"),
        (Instruction::one(JE, 65536), 65534, "74 00", "JE 0"),
        (Instruction::one(JMP, 0), 65533, "E9 00 00", "JMP 0"),
        (Instruction::two(MOV, AL, Operand::memory(Base::BP, 0)), 0, "8A 46 00", "MOV AL,[BP]"),
        (Instruction::two(MOV, at_bx().byte(), 255), 0, "C6 07 FF", "MOV byte [BX],255"),
        // By the SDM: 8E /r, 8C /r, D3 /7, D0 /4, EC, E7 ib, EA cd, 26 A1, FF /2, 93, D7, C3, D6, prefixes and displacements.
        (Instruction::two(MOV, Segment::DS, AX), 0, "8E D8", "MOV DS,AX"),
        (Instruction::two(MOV, AX, Segment::CS), 0, "8C C8", "MOV AX,CS"),
        (Instruction::two(SAR, at_bx().word(), CL), 0, "D3 3F", "SAR word [BX],CL"),
        (Instruction::two(SHL, AL, 1), 0, "D0 E0", "SHL AL,1"),
        (Instruction::two(IN, AL, DX), 0, "EC", "IN AL,DX"),
        (Instruction::two(OUT, 16, AX), 0, "E7 10", "OUT 16,AX"),
        (Instruction::one(JMP, Operand::far(22136, 4660)), 0, "EA 34 12 78 56", "JMP 22136:4660"),
        (Instruction::two(MOV, AX, Operand::address(4660).in_segment(Segment::ES)), 0, "26 A1 34 12", "MOV AX,ES:[4660]"),
        (Instruction::one(CALL, at_bx().word()), 0, "FF 17", "CALL word [BX]"),
        (Instruction::two(XCHG, BX, AX), 0, "93", "XCHG AX,BX"),
        (Instruction::one(XLATB, at_bx().word()), 0, "D7", "XLATB [BX]"),
        (Instruction::none(RET), 0, "C3", "RET"),
        (Instruction::none(SALC), 0, "D6", "SALC"),
        (Instruction::one(JNE, Operand::from(2).jump(Jump::Short)), 0, "75 00", "JNE 2"),
        (Instruction::two(AND, Operand::memory(Base::BP_SI, -2), BX), 0, "21 5A FE", "AND [BP+SI-2],BX"),
        (Instruction::two(OR, CH, Operand::memory(Base::DI, 200)), 0, "0A AD C8 00", "OR CH,[DI+200]"),
        // Document 02, No. 1. TEST of a register and memory has no first and second; the reader puts the register first.
        (Instruction::two(TEST, AX, BX), 0, "85 D8", "TEST AX,BX"),
        (Instruction::two(TEST, BX, AX), 0, "85 C3", "TEST BX,AX"),
        (Instruction::two(TEST, at_bx(), CL), 0, "84 0F", "TEST CL,[BX]"),
        (Instruction::two(TEST, CL, at_bx()), 0, "84 0F", "TEST CL,[BX]"),
        (Instruction::two(TEST, AX, 5), 0, "A9 05 00", "TEST AX,5"),
        (Instruction::two(TEST, BL, 255), 0, "F6 C3 FF", "TEST BL,255"),
        (Instruction::two(TEST, at_bx().byte(), 5), 0, "F6 07 05", "TEST byte [BX],5"),
        (Instruction::two(TEST, at_bx().word(), 65535), 0, "F7 07 FF FF", "TEST word [BX],65535"),
        (Instruction::one(PUSH, AX), 0, "50", "PUSH AX"),
        (Instruction::one(PUSH, at_bx().word()), 0, "FF 37", "PUSH word [BX]"),
        (Instruction::one(POP, at_bx().word().in_segment(Segment::ES)), 0, "26 8F 07", "POP word ES:[BX]"),
        (Instruction::one(RET, 4), 0, "C2 04 00", "RET 4"),
        (Instruction::one(RET, 0), 0, "C2 00 00", "RET 0"),
        (Instruction::one(CALL, at_bx().jump(Jump::Far)), 0, "FF 1F", "CALL far [BX]"),
        (Instruction::one(CALL, at_bx().word().jump(Jump::Far)), 0, "FF 1F", "CALL far [BX]"),
        (Instruction::one(CALL, at_bx().word().jump(Jump::Near)), 0, "FF 17", "CALL word [BX]"),
        (Instruction::one(JMP, Operand::from(129).jump(Jump::Short)), 0, "EB 7F", "JMP 129"),
        (Instruction::one(JMP, Operand::from(129).jump(Jump::Near)), 0, "E9 7E 00", "JMP 129"),
        (Instruction::one(JMP, 5), 0, "E9 02 00", "JMP 5"),
        (Instruction::none(WAIT), 0, "9B", "WAIT"),
    ]
}

#[test]
fn bytes_and_readings() {
    for (instruction, offset, bytes, text) in accepted() {
        let string = encode(&instruction, offset).unwrap_or_else(|refusal| panic!("{text}: {refusal}"));
        assert_eq!(string[..], hex(bytes), "{text}");
        assert_eq!(string.to_string(), bytes);
        let reading = read(&string, offset).unwrap();
        assert_eq!((reading.to_string().as_str(), reading.length), (text, string.len()));
        assert!(list(&instruction, offset).unwrap().contains(&string), "{text} is not in its list");
    }
}

#[test]
fn an_image() {
    let moves: Vec<Instruction> = accepted().into_iter().filter(|row| !row.3.starts_with('J')).map(|row| row.0).collect();
    let strings: Vec<u8> = accepted().into_iter().filter(|row| !row.3.starts_with('J')).flat_map(|row| hex(row.2)).collect();
    assert_eq!(load(&show_file(0, &moves)).unwrap(), strings);
    assert_eq!(load(&show_file(0, &[])).unwrap(), []);
}

#[test]
fn refusals() {
    let at_bx = || Operand::memory(Base::BX, 0);
    let rows = [
        (Instruction::one(POP, Segment::CS), 1, 5, "the operation does not take these operands"),
        (Instruction::one(NOT, at_bx()), 2, 3, "byte or word is not said"),
        (Instruction::two(ADD, AX, CL), 3, 4, "one operand is a byte and the other a word"),
        (Instruction::one(INC, at_bx()), 4, 3, "the operation does not take an operand of this size"),
        (Instruction::two(ADD, AX, 70000), 5, 6, "value 70000 is outside -32768..65535"),
        (Instruction::two(MOV, at_bx().byte(), 300), 5, 6, "value 300 is outside -128..255"),
        (Instruction::one(JE, 130), 6, 7, "the target is 128 bytes away, outside -128..127"),
        (Instruction::none(INT1), 7, 2, "the encoder does not have this instruction"),
        (Instruction::none(ESC), 7, 2, "the encoder does not have this instruction"),
        (Instruction::two(MOV, AX, Operand::memory(Base::BX, 65536)), 8, 1, "the fields of the record contradict each other"),
        // Document 02, No. 1.
        (Instruction::two(TEST, BL, 300), 5, 6, "value 300 is outside -128..255"),
        (Instruction::two(TEST, at_bx().word(), 65536), 5, 6, "value 65536 is outside -32768..65535"),
        (Instruction::one(PUSH, at_bx().byte()), 1, 5, "the operation does not take these operands"),
        (Instruction::one(PUSH, at_bx()), 1, 5, "the operation does not take these operands"),
        (Instruction::one(POP, at_bx()), 4, 3, "the operation does not take an operand of this size"),
        (Instruction::one(RET, 65536), 5, 6, "value 65536 is outside 0..65535"),
        (Instruction::one(RET, AX), 1, 5, "the operation does not take these operands"),
        (Instruction::one(CALL, at_bx().byte().jump(Jump::Far)), 1, 5, "the operation does not take these operands"),
        (Instruction::one(JMP, Operand::from(65536).jump(Jump::Short)), 5, 6, "value 65536 is outside 0..65535"),
        (Instruction::one(JMP, Operand::from(130).jump(Jump::Short)), 6, 7, "the target is 128 bytes away, outside -128..127"),
    ];
    for (instruction, number, question, text) in rows {
        let refusal = encode(&instruction, 0).unwrap_err();
        assert_eq!(
            (refusal.number(), refusal.to_string()),
            (number, format!("refusal {number} (question {question}): {text}")),
            "{instruction:?}"
        );
        assert_eq!(list(&instruction, 0).unwrap_err(), refusal);
        // Behind a NOP at 65,535 it stands at 0 again.
        let of_record = load(&show_file(65535, &[Instruction::none(NOP), instruction])).unwrap_err();
        assert_eq!(of_record.to_string(), format!("refusal {number} of record 1 (question {question}): {text}"));
        assert_eq!((of_record.reason, of_record.record), (refusal.reason, Some(1)));
    }
}

/// Document 02, No. 1: E9 and EB to one target are the same instruction, as are 50 and FF F0; two registers of TEST keep their order; RET 0 is not
/// RET. The other strings of a list are the SDM's forms.
#[test]
fn lists_of_the_added_forms() {
    let at_bx = || Operand::memory(Base::BX, 0);
    let rows = [
        (Instruction::two(TEST, AL, 5), 0, "A8 05\nF6 C0 05\n"),
        (Instruction::two(TEST, AX, 5), 0, "A9 05 00\nF7 C0 05 00\n"),
        (Instruction::two(TEST, AX, BX), 0, "85 D8\n"),
        (Instruction::two(TEST, BX, AX), 0, "85 C3\n"),
        (Instruction::one(PUSH, AX), 0, "50\nFF F0\n"),
        (Instruction::one(POP, AX), 0, "58\n8F C0\n"),
        (Instruction::one(PUSH, at_bx().word()), 0, "FF 37\n3E FF 37\nFF 77 00\n3E FF 77 00\nFF B7 00 00\n3E FF B7 00 00\n"),
        (Instruction::one(CALL, at_bx().jump(Jump::Far)), 0, "FF 1F\n3E FF 1F\nFF 5F 00\n3E FF 5F 00\nFF 9F 00 00\n3E FF 9F 00 00\n"),
        (Instruction::none(RET), 0, "C3\n"),
        (Instruction::one(RET, 0), 0, "C2 00 00\n"),
        (Instruction::one(JMP, 100), 0, "EB 62\nE9 61 00\n"),
        (Instruction::one(JMP, Operand::from(100).jump(Jump::Short)), 0, "EB 62\nE9 61 00\n"),
        (Instruction::one(JMP, 130), 0, "E9 7F 00\n"),
        (Instruction::one(JMP, 0), 65534, "EB 00\nE9 FF FF\n"),
        (Instruction::none(WAIT), 0, "9B\n"),
    ];
    for (instruction, offset, strings) in rows {
        assert_eq!(list(&instruction, offset).unwrap().to_string(), strings, "{instruction:?}");
    }
    let (one, other) = (Instruction::two(TEST, at_bx(), CL), Instruction::two(TEST, CL, at_bx()));
    assert_eq!(list(&one, 0), list(&other, 0));
}

/// Document 02, No. 1: what the reader answers of a far and a near CALL through memory, of RET and of what it still does not read.
#[test]
fn readings_of_the_added_forms() {
    let memory = Some(Part::Memory { base: Some(Base::BX), displacement: 0, segment: Segment::DS });
    let (far, near) = (read(&hex("FF 1F"), 0).unwrap(), read(&hex("FF 17"), 0).unwrap());
    assert_eq!((far.width, far.operands), (None, [memory, None]));
    assert_eq!((near.width, near.operands), (Some(Size::Word), [memory, None]));
    let ret = read(&hex("C2 00 00"), 0).unwrap();
    assert_eq!((ret.operation, ret.width, ret.operands), (RET, None, [Some(Part::Immediate(0)), None]));
    assert_eq!(read(&hex("C3"), 0).unwrap().operands, [None, None]);
    for bytes in ["FF D8", "FF 28", "FF 38", "8F 08", "F6 08", "F7 C8", "9A", "F1", "D8", "26 9B", "26 EB", "26 8F C0"] {
        assert_eq!(read(&hex(bytes), 0).unwrap_err().reason, Reason::NotAnInstruction, "{bytes}");
    }
    for bytes in ["84", "A9 05", "F6 C0", "F7 C0 05", "8F", "FF 5F", "C2 04", "EB", "26 85"] {
        assert_eq!(read(&hex(bytes), 0).unwrap_err().reason, Reason::NotComplete, "{bytes}");
    }
}

#[test]
fn refusals_of_bytes_and_files() {
    let number = |file: &[u8]| load(file).map_err(|refusal| (refusal.number(), refusal.record, refusal.span));
    let file = show_file(0, &[Instruction::none(NOP), Instruction::none(HLT)]);
    let with = |at: usize, byte: u8| {
        let mut changed = file.clone();
        changed[at] = byte;
        changed
    };
    assert_eq!(number(&file), Ok(vec![0x90, 0xF4]));
    assert_eq!(number(b""), Err((12, None, None)));
    assert_eq!(number(&with(3, 4)), Err((13, None, None)));
    assert_eq!(number(&with(7, 1)), Err((14, None, None)));
    assert_eq!(number(&with(9 + 56, 99)), Err((15, Some(1), None)));
    // Document 02, No. 5: two records are on the wrong side of version 2. No. 11: those of version 3 have 57 bytes.
    assert_eq!(number(&with(3, 2)), Err((14, None, None)));
    assert_eq!(number(&with(3, 3)), Err((14, None, None)));
    for count in [1000, 1001, 8000] {
        assert_eq!(number(&show_file(0, &vec![Instruction::none(NOP); count])), Ok(vec![0x90; count]));
    }
    assert_eq!(number(&show_file(0, &vec![Instruction::none(NOP); 8001])), Err((14, None, None)));
    assert_eq!(encode_record(&file[9..64], 0).unwrap_err().reason, Reason::WrongLength);
    assert_eq!(encode_record(&with(9, 99)[9..65], 0).unwrap_err().reason, Reason::UnknownCode);
    assert_eq!(read(&[], 0).unwrap_err().reason, Reason::NotComplete);
    assert_eq!(read(&hex("26 8B C0"), 0).unwrap_err().reason, Reason::NotAnInstruction);
}

/// Document 01: the instruction's span where 000 names none, for 5 the operand's.
#[test]
fn spans_come_back() {
    let add = Instruction::two(ADD, Operand::from(AX).at(4..6), Operand::from(70000).at(7..12)).at(0..12);
    assert_eq!(encode(&add, 0).unwrap_err().span, Some(7..12));
    let pop = Instruction::one(POP, Operand::from(Segment::CS).at(4..6)).at(0..6);
    assert_eq!(encode(&pop, 0).unwrap_err().span, Some(0..6));
    // Document 02, No. 1.
    let push = Instruction::one(PUSH, Operand::memory(Base::BX, 0).at(5..9)).at(0..9);
    assert_eq!(encode(&push, 0).unwrap_err().span, Some(5..9));
    let ret = Instruction::one(RET, Operand::from(AX).at(4..6)).at(0..6);
    assert_eq!(encode(&ret, 0).unwrap_err().span, Some(0..6));
    let ret = Instruction::one(RET, Operand::from(-1).at(4..6)).at(0..6);
    assert_eq!(encode(&ret, 0).unwrap_err().span, Some(4..6));

    // The lister and the loader give the same ones.
    assert_eq!(list(&add, 0).unwrap_err().span, Some(7..12));
    assert_eq!(list(&pop, 0).unwrap_err().span, Some(0..6));
    let refused = |instruction: &Instruction| load(&show_file(0, &[Instruction::none(NOP), instruction.clone()])).unwrap_err();
    assert_eq!((refused(&add).record, refused(&add).span), (Some(1), Some(7..12)));
    assert_eq!((refused(&pop).record, refused(&pop).span), (Some(1), Some(0..6)));
    // REFERENCE 8: 9 has the span of the named record's instruction.
    let refusal = Show::load_into(&show_file(0, &[Instruction::none(NOP), Instruction::none(AAM).at(2..5)]), &mut [0; 2]).unwrap_err();
    assert_eq!((refusal.number(), refusal.record, refusal.span), (9, Some(1), Some(2..5)));
}
