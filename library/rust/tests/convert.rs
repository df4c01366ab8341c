//! Conversions: integers and operands, bytes and slices, records and instructions, readings and instructions.

use fsq::{encode, list, read, Base, Instruction, Jump, Operand, Operation::*, Part, Reason, Register::*, Segment, RECORD_LENGTH};

#[test]
fn integers() {
    assert_eq!(Operand::from(-1i8), Operand::from(-1));
    assert_eq!(Operand::from(255u8), Operand::from(255));
    assert_eq!(Operand::from(-32768i16), Operand::from(-32768));
    assert_eq!(Operand::from(65535u16), Operand::from(65535));
    // REFERENCE 4: ADD AX,-1 is 83 C0 FF, ADD AX,65535 is 05 FF FF.
    assert_eq!(encode(&Instruction::two(ADD, AX, -1i16), 0).unwrap(), [0x83, 0xC0, 0xFF]);
    assert_eq!(encode(&Instruction::two(ADD, AX, u16::MAX), 0).unwrap(), [0x05, 0xFF, 0xFF]);
}

#[test]
fn bytes_and_slices() {
    fn takes(bytes: impl AsRef<[u8]>) -> usize {
        bytes.as_ref().len()
    }
    // REFERENCE 4: MOV AX,[4660] is A1 34 12.
    let expected = [0xA1, 0x34, 0x12];
    let bytes = encode(&Instruction::two(MOV, AX, Operand::address(4660)), 0).unwrap();
    assert_eq!(bytes, expected);
    assert_eq!(expected, bytes);
    assert_eq!(bytes, &expected);
    assert_eq!(bytes, expected[..]);
    assert_eq!(bytes, &expected[..]);
    assert_eq!(&expected[..], bytes);
    assert_eq!(bytes, expected.to_vec());
    assert_eq!(expected.to_vec(), bytes);
    assert_ne!(bytes, [0xA1, 0x34]);
    assert_eq!(takes(bytes), 3);
    assert_eq!(bytes.into_iter().collect::<Vec<u8>>(), expected);
    assert_eq!((&bytes).into_iter().copied().rev().collect::<Vec<u8>>(), [0x12, 0x34, 0xA1]);
    let mut image = vec![0x90];
    image.extend(bytes);
    image.extend(&bytes);
    assert_eq!(image, [0x90, 0xA1, 0x34, 0x12, 0xA1, 0x34, 0x12]);

    // REFERENCE 7: ADD AX,5 lists 05 05 00, 83 C0 05, 81 C0 05 00.
    let strings = list(&Instruction::two(ADD, AX, 5), 0).unwrap();
    assert_eq!(strings.into_iter().map(|string| string.len()).collect::<Vec<_>>(), [3, 3, 4]);
    assert_eq!((&strings).into_iter().map(|string| string[0]).collect::<Vec<_>>(), [0x05, 0x83, 0x81]);
    assert_eq!(strings.as_ref().len(), 3);
}

/// REFERENCE 8: where each field of a record stands.
#[test]
fn a_record_field_by_field() {
    let memory = Operand::memory(Base::BP_DI, -2).word().in_segment(Segment::ES).jump(Jump::Far).at(4..0x0102_0304);
    let instruction = Instruction::two(CALL, memory, Operand::far(22136, 4660).at(7..8)).at(1..9);
    let mut record = [0; RECORD_LENGTH];
    record[0] = 58;
    record[1] = 2;
    record[2] = 1;
    record[6] = 9;
    record[10..17].copy_from_slice(&[3, 2, 0x26, 1, 1, 1, 3]);
    record[21..25].copy_from_slice(&[0xFE, 0xFF, 0xFF, 0xFF]);
    record[25..33].copy_from_slice(&[4, 0, 0, 0, 4, 3, 2, 1]);
    record[37] = 1;
    record[40..48].copy_from_slice(&[0x34, 0x12, 0, 0, 0x78, 0x56, 0, 0]);
    record[48] = 7;
    record[52] = 8;
    assert_eq!(instruction.to_record(), record);
    assert_eq!(Instruction::from_record(&record), Ok(instruction));
}

#[test]
fn records_of_all_operand_kinds() {
    let registers = [AL, CL, DL, BL, AH, CH, DH, BH, AX, CX, DX, BX, SP, BP, SI, DI];
    let bases = [Base::BX_SI, Base::BX_DI, Base::BP_SI, Base::BP_DI, Base::SI, Base::DI, Base::BP, Base::BX];
    let segments = [Segment::ES, Segment::CS, Segment::SS, Segment::DS];
    let mut operands: Vec<Operand> = registers.map(Operand::from).into();
    operands.extend(segments.map(Operand::from));
    operands.extend([i32::MIN, -1, 0, 5, i32::MAX].map(Operand::from));
    operands.extend([Operand::far(22136, 4660), Operand::address(65535).byte()]);
    operands.extend([Jump::Far, Jump::Near, Jump::Short].map(|jump| Operand::from(130).jump(jump)));
    for base in bases {
        operands.extend([0, -128, 128, 65535, 65536].map(|displacement| Operand::memory(base, displacement)));
        operands.extend(segments.map(|segment| Operand::memory(base, 0).in_segment(segment).word()));
    }
    for (n, first) in operands.iter().enumerate() {
        for second in &operands {
            let operation = fsq::Operation::ALL[n % 99];
            let two = Instruction::two(operation, first.clone().at(1..2), second.clone().at(3..u32::MAX)).at(0..5);
            assert_eq!(Instruction::from_record(&two.to_record()), Ok(two.clone()));
            assert_eq!((two.operation(), two.operands().len(), two.span()), (operation, 2, 0..5));
            assert_eq!((two.operands()[0].span(), two.operands()[1].span()), (1..2, 3..u32::MAX));
        }
        for instruction in [Instruction::one(PUSH, first.clone()), Instruction::none(AAM)] {
            assert_eq!(Instruction::from_record(&instruction.to_record()), Ok(instruction));
        }
    }
}

/// A record that is refused with 8 is an instruction all the same, and gives its bytes back: REFERENCE 3's prefix, mode and r/m, and a count of 9.
#[test]
fn records_that_are_not_well_formed() {
    for (at, byte) in [(1, 9), (12, 0x64), (15, 7), (16, 200)] {
        let mut record = Instruction::two(MOV, Operand::memory(Base::BX, 0).word(), 5).to_record();
        record[at] = byte;
        let instruction = Instruction::from_record(&record).unwrap();
        assert_eq!(instruction.to_record(), record);
        assert_eq!(instruction.operands().len(), 2);
        assert_eq!(encode(&instruction, 0).unwrap_err().reason, Reason::NotWellFormed);
    }
}

/// The bytes and offset of a string, and its instruction: document 01's bench sheet and the SDM, as document.rs has them.
#[test]
fn readings() {
    let at_bx = || Operand::memory(Base::BX, 0);
    let rows: [(&[u8], u16, Instruction); 19] = [
        (&[0x83, 0x07, 0x05], 0, Instruction::two(ADD, at_bx().word(), 5)),
        (&[0x83, 0xC0, 0xFF], 0, Instruction::two(ADD, AX, 65535)),
        (&[0x8A, 0x46, 0x00], 0, Instruction::two(MOV, AL, Operand::memory(Base::BP, 0))),
        // REFERENCE 6: 3E 8A 07, 8A 47 00 and 8A 87 00 00 are 8A 07.
        (&[0x3E, 0x8A, 0x07], 0, Instruction::two(MOV, AL, at_bx())),
        (&[0x8A, 0x87, 0x00, 0x00], 0, Instruction::two(MOV, AL, at_bx())),
        (&[0x26, 0xA1, 0x34, 0x12], 0, Instruction::two(MOV, AX, Operand::address(4660).in_segment(Segment::ES))),
        (&[0x8E, 0xD8], 0, Instruction::two(MOV, Segment::DS, AX)),
        (&[0xD3, 0x3F], 0, Instruction::two(SAR, at_bx().word(), CL)),
        (&[0xD0, 0xE0], 0, Instruction::two(SHL, AL, 1)),
        (&[0xEC], 0, Instruction::two(IN, AL, DX)),
        (&[0xE7, 0x10], 0, Instruction::two(OUT, 16, AX)),
        (&[0xEA, 0x34, 0x12, 0x78, 0x56], 0, Instruction::one(JMP, Operand::far(22136, 4660))),
        (&[0xFF, 0x17], 0, Instruction::one(CALL, at_bx().word())),
        (&[0xFF, 0x1F], 0, Instruction::one(CALL, at_bx().jump(Jump::Far))),
        (&[0xD7], 0, Instruction::one(XLATB, at_bx().word())),
        (&[0xC2, 0x00, 0x00], 0, Instruction::one(RET, 0)),
        (&[0xEB, 0x7F], 0, Instruction::one(JMP, Operand::from(129).jump(Jump::Short))),
        (&[0xE9, 0x7E, 0x00], 0, Instruction::one(JMP, 129)),
        // REFERENCE 5: JE at 65,534 to 65,536 is 74 00.
        (&[0x74, 0x00], 65534, Instruction::one(JE, 65536)),
    ];
    for (bytes, offset, instruction) in rows {
        let reading = read(bytes, offset).unwrap();
        assert_eq!(reading.offset, offset);
        assert_eq!(Instruction::from(&reading), instruction, "{reading}");
        assert_eq!(Instruction::from(reading), instruction);
    }
    // REFERENCE 5: JE at 0 to -1 is 74 FD. REFERENCE 7: no record of kind Short writes JMP to 0 at 65,534.
    assert_eq!(Instruction::from(read(&[0x74, 0xFD], 0).unwrap()), Instruction::one(JE, -1));
    assert_eq!(Instruction::from(read(&[0xEB, 0x00], 65534).unwrap()), Instruction::one(JMP, 0));
    assert_eq!(read(&[0x90], 0).unwrap().operands, [None::<Part>; 2]);
}

/// REFERENCE 7: the list of an instruction has every string that reads as it. So the instruction of a reading lists the string that was read.
#[test]
fn every_reading_is_an_instruction() {
    let mut whole = 0;
    for offset in [0, 65534] {
        for front in 0..=65535u16 {
            let [first, second] = front.to_be_bytes();
            for rest in [[0x05, 0x80, 0x34, 0x12, 0x78], [0x87, 0xFE, 0xFF, 0x00, 0x80]] {
                let string = [first, second, rest[0], rest[1], rest[2], rest[3], rest[4]];
                let Ok(reading) = read(&string, offset) else { continue };
                let instruction = Instruction::from(reading);
                let strings = list(&instruction, offset).unwrap_or_else(|refusal| panic!("{reading} at {offset}: {refusal}"));
                assert!(strings.iter().any(|listed| *listed == string[..reading.length]), "{reading} at {offset}");
                assert_eq!(Instruction::from_record(&instruction.to_record()).as_ref(), Ok(&instruction));
                // A branch across the segment's end has another target in its record.
                let same = instruction.to_string().replace("short ", "") == reading.to_string();
                assert!(same || matches!(reading.operands[0], Some(Part::Near(_))), "{reading}: {instruction}");
                whole += 1;
            }
        }
    }
    assert!(whole > 200_000, "{whole} readings");
}
