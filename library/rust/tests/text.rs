//! The text of instructions and operands: printed, and parsed to the same record.

use fsq::{encode, read, Base, Instruction, Jump, Operand, Operation, Operation::*, Register, Register::*, Segment};
use std::collections::HashMap;

fn hex(text: &str) -> Vec<u8> {
    text.split(' ').map(|byte| u8::from_str_radix(byte, 16).unwrap()).collect()
}

/// The rows of document.rs, with the instruction's text in the place of the reading's: NASM's, the operands in the record's order.
fn rows() -> Vec<(Instruction, u16, &'static str, &'static str)> {
    let at_bx = || Operand::memory(Base::BX, 0);
    vec![
        (Instruction::two(MOV, AX, 4660), 0, "B8 34 12", "MOV AX,4660"),
        (Instruction::none(AAM), 0, "D4 0A", "AAM"),
        (Instruction::two(TEST, AL, 5), 0, "A8 05", "TEST AL,5"),
        (Instruction::two(ADD, AX, 5), 0, "83 C0 05", "ADD AX,5"),
        (Instruction::two(ADD, AX, -1), 0, "83 C0 FF", "ADD AX,-1"),
        (Instruction::two(MOV, AL, -1), 0, "B0 FF", "MOV AL,-1"),
        (Instruction::two(TEST, AX, -2), 0, "A9 FE FF", "TEST AX,-2"),
        (Instruction::two(ADD, BX, 200), 0, "81 C3 C8 00", "ADD BX,200"),
        (Instruction::two(ADD, at_bx().word(), 5), 0, "83 07 05", "ADD word [BX],5"),
        (Instruction::two(XCHG, CL, AL), 0, "86 C8", "XCHG CL,AL"),
        (Instruction::one(JE, 129), 0, "74 7F", "JE 129"),
        (Instruction::one(JE, 130), 256, "74 80", "JE 130"),
        (Instruction::one(JE, 65536), 65534, "74 00", "JE 65536"),
        (Instruction::one(JMP, 0), 65533, "E9 00 00", "JMP 0"),
        (Instruction::two(MOV, AL, Operand::memory(Base::BP, 0)), 0, "8A 46 00", "MOV AL,[BP]"),
        (Instruction::two(MOV, at_bx().byte(), 255), 0, "C6 07 FF", "MOV byte [BX],255"),
        (Instruction::two(MOV, Segment::DS, AX), 0, "8E D8", "MOV DS,AX"),
        (Instruction::two(MOV, AX, Segment::CS), 0, "8C C8", "MOV AX,CS"),
        (Instruction::two(SAR, at_bx().word(), CL), 0, "D3 3F", "SAR word [BX],CL"),
        (Instruction::two(SHL, AL, 1), 0, "D0 E0", "SHL AL,1"),
        (Instruction::two(IN, AL, DX), 0, "EC", "IN AL,DX"),
        (Instruction::two(OUT, 16, AX), 0, "E7 10", "OUT 16,AX"),
        (Instruction::one(JMP, Operand::far(22136, 4660)), 0, "EA 34 12 78 56", "JMP 22136:4660"),
        (Instruction::two(MOV, AX, Operand::address(4660).in_segment(Segment::ES)), 0, "26 A1 34 12", "MOV AX,ES:[4660]"),
        (Instruction::one(CALL, at_bx().word()), 0, "FF 17", "CALL word [BX]"),
        (Instruction::two(XCHG, BX, AX), 0, "93", "XCHG BX,AX"),
        (Instruction::one(XLATB, at_bx().word()), 0, "D7", "XLATB [BX]"),
        (Instruction::none(RET), 0, "C3", "RET"),
        (Instruction::none(SALC), 0, "D6", "SALC"),
        (Instruction::one(JNE, Operand::from(2).jump(Jump::Short)), 0, "75 00", "JNE short 2"),
        (Instruction::two(AND, Operand::memory(Base::BP_SI, -2), BX), 0, "21 5A FE", "AND [BP+SI-2],BX"),
        (Instruction::two(OR, CH, Operand::memory(Base::DI, 200)), 0, "0A AD C8 00", "OR CH,[DI+200]"),
        (Instruction::two(TEST, AX, BX), 0, "85 D8", "TEST AX,BX"),
        (Instruction::two(TEST, BX, AX), 0, "85 C3", "TEST BX,AX"),
        (Instruction::two(TEST, at_bx(), CL), 0, "84 0F", "TEST [BX],CL"),
        (Instruction::two(TEST, CL, at_bx()), 0, "84 0F", "TEST CL,[BX]"),
        (Instruction::two(TEST, AX, 5), 0, "A9 05 00", "TEST AX,5"),
        (Instruction::two(TEST, BL, 255), 0, "F6 C3 FF", "TEST BL,255"),
        (Instruction::two(TEST, at_bx().byte(), 5), 0, "F6 07 05", "TEST byte [BX],5"),
        (Instruction::two(TEST, at_bx().word(), 65535), 0, "F7 07 FF FF", "TEST word [BX],65535"),
        (Instruction::one(PUSH, AX), 0, "50", "PUSH AX"),
        (Instruction::one(PUSH, at_bx().word()), 0, "FF 37", "PUSH word [BX]"),
        (Instruction::one(POP, at_bx().word().in_segment(Segment::ES)), 0, "26 8F 07", "POP word ES:[BX]"),
        (Instruction::one(RET, 4), 0, "C2 04 00", "RET 4"),
        (Instruction::one(RET, 0), 0, "C2 00 00", "RET 0"),
        (Instruction::one(CALL, at_bx().jump(Jump::Far)), 0, "FF 1F", "CALL far [BX]"),
        (Instruction::one(CALL, at_bx().word().jump(Jump::Far)), 0, "FF 1F", "CALL far word [BX]"),
        (Instruction::one(CALL, at_bx().word().jump(Jump::Near)), 0, "FF 17", "CALL near word [BX]"),
        (Instruction::one(JMP, Operand::from(129).jump(Jump::Short)), 0, "EB 7F", "JMP short 129"),
        (Instruction::one(JMP, Operand::from(129).jump(Jump::Near)), 0, "E9 7E 00", "JMP near 129"),
        (Instruction::one(JMP, 5), 0, "E9 02 00", "JMP 5"),
        (Instruction::none(WAIT), 0, "9B", "WAIT"),
    ]
}

/// The records of a text and of an instruction are the same.
fn parses(text: &str, instruction: &Instruction) {
    match text.parse::<Instruction>() {
        Ok(parsed) => assert_eq!(parsed.to_record(), instruction.to_record(), "{text}"),
        Err(error) => panic!("{text}: {error}"),
    }
}

#[test]
fn printed_and_parsed() {
    for (instruction, offset, bytes, text) in rows() {
        assert_eq!(instruction.to_string(), text);
        for other in [text.into(), text.to_lowercase(), text.replace(',', " , ").replace('+', " + "), format!("\t {text} ")] {
            parses(&other, &instruction);
        }
        assert_eq!(encode(&text.parse().unwrap(), offset).unwrap(), hex(bytes), "{text}");
    }
}

/// What a reading prints is parsed too, and is the same instruction; but a branch across the segment's end has another target in its record.
#[test]
fn readings_are_parsed() {
    for (_, offset, bytes, text) in rows() {
        let printed = read(&hex(bytes), offset).unwrap().to_string();
        let parsed: Instruction = printed.parse().unwrap_or_else(|error| panic!("{printed}: {error}"));
        if text != "JE 65536" {
            assert!(fsq::list(&parsed, offset).unwrap().contains(&encode(&text.parse().unwrap(), offset).unwrap()), "{printed}");
        }
    }
}

#[test]
fn other_spellings() {
    let bx = |displacement| Operand::memory(Base::BX, displacement);
    let rows: [(&str, Instruction); 16] = [
        ("add word [bx+si-2],5", Instruction::two(ADD, Operand::memory(Base::BX_SI, -2).word(), 5)),
        ("ADD word [SI - 0x2 + BX], 0X5", Instruction::two(ADD, Operand::memory(Base::BX_SI, -2).word(), 5)),
        ("MOV AL,[ES:4660]", Instruction::two(MOV, AL, Operand::address(4660).in_segment(Segment::ES))),
        ("MOV AL,es : [ word 0x1234 ]", Instruction::two(MOV, AL, Operand::address(4660).in_segment(Segment::ES))),
        ("JMP far 22136:4660", Instruction::one(JMP, Operand::far(22136, 4660))),
        ("CALL word far [BX+0]", Instruction::one(CALL, bx(0).word().jump(Jump::Far))),
        ("SAL word AX,1", Instruction::two(SHL, AX, 1)),
        ("jz +130", Instruction::one(JE, 130)),
        ("loopne 0", Instruction::one(LOOPNZ, 0)),
        ("xlatb", Instruction::one(XLATB, bx(0).word())),
        ("XLATB word [BX]", Instruction::one(XLATB, bx(0).word())),
        ("XLATB [ES:BX]", Instruction::one(XLATB, bx(0).word().in_segment(Segment::ES))),
        ("INT3", Instruction::none(INT3)),
        ("INT 3", Instruction::one(INT, 3)),
        ("MOV CL,[-1+DI]", Instruction::two(MOV, CL, Operand::memory(Base::DI, -1))),
        ("MOV [ES:BX],word 5", Instruction::two(MOV, bx(0).in_segment(Segment::ES), Operand::from(5).word())),
    ];
    for (text, instruction) in rows {
        parses(text, &instruction);
    }
}

/// REFERENCE 4: [BX] in mode 2 keeps its two bytes. NASM says the length within the brackets.
#[test]
fn lengths_of_displacements() {
    for (text, bytes) in [
        ("MOV AL,[BX]", "8A 07"),
        ("MOV AL,[byte BX+0]", "8A 47 00"),
        ("MOV AL,[word BX+0]", "8A 87 00 00"),
        ("MOV AL,[word BX-2]", "8A 87 FE FF"),
        ("MOV AL,[BP]", "8A 46 00"),
        ("MOV AL,[word BP+0]", "8A 86 00 00"),
        ("MOV AL,ES:[word BX+SI-2]", "26 8A 80 FE FF"),
    ] {
        let instruction: Instruction = text.parse().unwrap();
        assert_eq!(encode(&instruction, 0).unwrap(), hex(bytes), "{text}");
        assert_eq!(instruction.to_string(), text);
    }
}

#[test]
fn what_is_not_parsed() {
    for (text, at, expected) in [
        ("", 0, "the name of an operation"),
        ("MOVE AX,5", 0, "the name of an operation"),
        ("MOV AX,", 7, "a register, a segment register, [ or a number"),
        ("MOV AX 5", 7, "a comma or the end"),
        ("MOV AX,5,6", 8, "the end"),
        ("MOV AX,0x", 7, "a number of 32 bits, decimal, or hexadecimal behind 0x"),
        ("MOV AX,4294967296", 7, "a number of 32 bits, decimal, or hexadecimal behind 0x"),
        ("MOV byte AX,5", 9, "a register of the size"),
        ("MOV byte word [BX],5", 9, "a register, a segment register, [ or a number"),
        ("MOV AX,[BX+BX]", 11, "another part of the address"),
        ("MOV AX,[BX-SI]", 11, "another part of the address"),
        ("MOV AX,[BX+1+2]", 13, "another part of the address"),
        ("MOV AX,[AX]", 8, "BX, BP, SI, DI or a number"),
        ("MOV AX,[BX+BP]", 14, "BX or BP, and SI or DI, before ]"),
        ("MOV AX,[BX", 10, "+, - or ]"),
        ("MOV AX,ES:5", 10, "["),
        ("JMP far 5", 8, "segment:offset of a far target"),
        ("JMP short 1:5", 10, "a target without a segment"),
        ("MOV AX,{register, mode 3, r/m 0}", 7, "a register, a segment register, [ or a number"),
        ("MOV AX,é", 7, "a register, a segment register, [ or a number"),
    ] {
        let error = text.parse::<Instruction>().unwrap_err();
        assert_eq!((error.at, error.expected), (at, expected), "{text}");
    }
    assert_eq!("[BX".parse::<Operand>().unwrap_err().to_string(), "at byte 3 of the text: +, - or ] is expected");
    assert!("MOV AX".parse::<Operation>().is_err());
}

/// What the syntax cannot say stands in braces.
#[test]
fn braces() {
    let mut unstated = Instruction::two(MOV, AX, 5).to_record();
    unstated[11] = 0;
    let printed = |record: &[u8]| Instruction::from_record(record).unwrap().to_string();
    assert_eq!(printed(&unstated), "MOV {register, mode 3, r/m 0},5");
    let mut beyond = Instruction::two(MOV, AX, 5).to_record();
    beyond[1] = 1;
    assert_eq!(printed(&beyond), "MOV AX {operand 1 beyond the count: 5}");
    let mut three = Instruction::two(MOV, AX, 5).to_record();
    three[1] = 3;
    assert_eq!(printed(&three), "MOV AX,5 {count 3}");
    assert_eq!(Instruction::none(XLATB).to_string(), "XLATB {count 0}");
    assert_eq!(Instruction::one(XLATB, Operand::memory(Base::BX, 0)).to_string(), "XLATB {memory, mode 0, r/m 7}");
    // REFERENCE 5: JMP AX with the immediate 70,000.
    let mut jump = Instruction::one(JMP, AX).to_record();
    jump[17..21].copy_from_slice(&70000i32.to_le_bytes());
    assert_eq!(printed(&jump), "JMP {register, mode 3, r/m 0, size word, immediate 70000}");
}

/// Operands of every kind, size, prefix, jump kind and displacement that the builders make.
fn operands() -> Vec<Operand> {
    use Base::{BP, BP_DI, BP_SI, BX, BX_DI, BX_SI, DI, SI};
    let registers = [AL, CL, DL, BL, AH, CH, DH, BH, AX, CX, DX, Register::BX, SP, Register::BP, Register::SI, Register::DI];
    let segments = [Segment::ES, Segment::CS, Segment::SS, Segment::DS];
    let mut memories = vec![Operand::address(0), Operand::address(4660), Operand::address(65535)];
    for base in [BX_SI, BX_DI, BP_SI, BP_DI, SI, DI, BP, BX] {
        memories.extend(
            [0, 1, -2, 127, -128, 128, -129, 65535, -32768, i32::MAX, i32::MIN].map(|displacement| Operand::memory(base, displacement)),
        );
    }
    let prefixed: Vec<Operand> = memories.iter().flat_map(|memory| segments.map(|segment| memory.clone().in_segment(segment))).collect();
    memories.extend(prefixed);
    memories.extend([0, 5, -1, 65535, i32::MAX, i32::MIN].map(Operand::from));
    let sized: Vec<Operand> = memories.iter().flat_map(|memory| [memory.clone().byte(), memory.clone().word()]).collect();
    memories.extend(sized);
    let mut operands = memories;
    operands.extend(registers.map(Operand::from));
    operands.extend(segments.map(Operand::from));
    let jumps: Vec<Operand> =
        operands.iter().flat_map(|operand| [Jump::Far, Jump::Near, Jump::Short].map(|jump| operand.clone().jump(jump))).collect();
    operands.extend(jumps);
    operands.extend([Operand::far(22136, 4660), Operand::far(0, 0), Operand::far(65535, 65535).word()]);
    operands
}

#[test]
fn every_built_operand_is_parsed() {
    let operands = operands();
    assert!(operands.len() > 5000);
    for operand in &operands {
        let text = operand.to_string();
        assert_eq!(text.parse().as_ref(), Ok(operand), "{text}");
    }
    for (n, pair) in operands.windows(2).enumerate() {
        // XLATB's texts are in other_spellings and braces.
        let operation = if n % 99 == 6 { LEA } else { Operation::ALL[n % 99] };
        for instruction in [
            Instruction::none(operation),
            Instruction::one(operation, pair[0].clone()),
            Instruction::two(operation, pair[0].clone(), pair[1].clone()),
        ] {
            parses(&instruction.to_string(), &instruction);
        }
    }
}

/// Any record of known codes: its text without a brace gives the record back, but for the spans, and one with a brace is not parsed. No two records
/// have one text.
#[test]
fn every_record_keeps_the_promise() {
    let mut state = 20u64;
    let mut next = |below: u64| {
        state = state.wrapping_mul(6364136223846793005).wrapping_add(1442695040888963407);
        (state >> 33) % below
    };
    let (mut parsed, mut braces, mut texts) = (0, 0, HashMap::new());
    for _ in 0..50_000 {
        let mut record = [0; 56];
        record[0] = next(99) as u8;
        record[1] = [0, 1, 2, 2, 2, 2, 2, 3][next(8) as usize];
        for at in [10, 33] {
            if next(4) == 0 {
                continue;
            }
            let kind = next(4) as u8;
            record[at] = kind;
            record[at + 1] = if kind == 2 { 2 } else { next(3) as u8 };
            record[at + 4] = [0, 0, 0, 1, 2, 3][next(6) as usize];
            record[at + 6] = next(if kind == 2 { 4 } else { 8 }) as u8;
            record[at + 5] = [0, 3, 3, next(3) as u8][kind as usize];
            if kind == 0 {
                record[at + 6] = 0;
                record[at + 7..at + 11].copy_from_slice(&(next(1 << 17) as i32 - 65536).to_le_bytes());
            }
            if kind == 3 {
                record[at + 2] = [0, 0x26, 0x2E, 0x36, 0x3E][next(5) as usize];
                record[at + 3] = record[at + 5];
                let mut displacement = [0, next(256) as i32 - 128, next(98304) as i32 - 32768][record[at + 5] as usize];
                if record[at + 5..at + 7] == [0, 6] {
                    record[at + 3] = 2;
                    displacement = next(65536) as i32;
                }
                record[at + 11..at + 15].copy_from_slice(&displacement.to_le_bytes());
            }
            if next(10) == 0 {
                record[at + [2, 5, 6, 7, 11][next(5) as usize]] = next(10) as u8;
            }
        }
        // A record with a repeat has it behind the count, also one that is none.
        let repeat = [0, 0, 0, 0, 0xF2, 0xF3, 0xF3, 0xF0][next(8) as usize];
        let packed = |record: &[u8]| if repeat == 0 { record.to_vec() } else { [&record[..2], &[repeat], &record[2..]].concat() };
        let instruction = Instruction::from_record(&packed(&record)).unwrap();
        assert_eq!(instruction.to_record(), packed(&record));
        let text = instruction.to_string();
        assert_eq!(*texts.entry(text.clone()).or_insert(packed(&record)), packed(&record), "{text}");
        if text.contains('{') {
            assert!(text.parse::<Instruction>().is_err(), "{text}");
            braces += 1;
        } else {
            parses(&text, &instruction);
            parsed += 1;
        }
        // The text does not have the spans.
        record[15..19].copy_from_slice(&[1; 4]);
        let moved = Instruction::from_record(&packed(&record)).unwrap();
        record[25..33].copy_from_slice(&[7; 8]);
        record[2..10].copy_from_slice(&[9; 8]);
        assert_eq!(Instruction::from_record(&packed(&record)).unwrap().to_string(), moved.to_string());
    }
    assert!(parsed > 10_000 && braces > 1_000, "{parsed} parsed, {braces} with braces");
}

/// Texts of no meaning get an answer.
#[test]
fn any_text() {
    let pieces =
        ["MOV", "JMP ", "REP ", "AX", "[", "]", "BX", "+", "-", "ES", ":", ",", " ", "0x", "19", "word ", "far ", "{", "é", "\t", "\0"];
    let mut state = 1u64;
    for _ in 0..50_000 {
        let mut text = String::from("MOV ");
        for _ in 0..8 {
            state = state.wrapping_mul(6364136223846793005).wrapping_add(1442695040888963407);
            text += pieces[(state >> 33) as usize % pieces.len()];
        }
        match text.parse::<Instruction>() {
            Ok(instruction) => parses(&instruction.to_string(), &instruction),
            Err(error) => assert!(error.at <= text.len(), "{text}: {error}"),
        }
        let _ = text[4..].parse::<Operand>();
    }
}

/// The other names that the SDM has for an operation.
#[test]
fn other_names() {
    let names = "SAL SHL, JZ JE, JNGE JL, JNG JLE, JNAE JB, JC JB, JNA JBE, JPE JP, JNZ JNE, JGE JNL, JG JNLE, JAE JNB, JNC JNB, JA JNBE, JPO JNP, \
                 LOOPE LOOPZ, LOOPNE LOOPNZ, REPE REP, REPZ REP, REPNZ REPNE";
    for pair in names.split(", ") {
        let (other, name) = pair.split_once(' ').unwrap();
        assert_eq!(other.parse::<Operation>().unwrap().name(), name);
    }
}
