//! Text of a show, made again: the same origin, count and image, and the same text.

mod common;

use common::{file, shows, stored, Random};
use fsq::{encode_record, Instruction, Operation, Show};
use fsq_desk::verbs::make::make;
use fsq_desk::verbs::text::text;
use std::collections::BTreeSet;

fn round_trip(name: &str, file: &[u8]) -> String {
    let said = text(file, name);
    assert!(!said.fault, "{}", said.said);
    let first = said.output.unwrap();
    let made = make(&first, name);
    assert!(!made.fault, "{}", made.said);
    let made = made.output.unwrap();
    let (before, after) = (Show::load(file).unwrap(), Show::load(&made).unwrap());
    assert_eq!((before.origin(), before.len(), before.image()), (after.origin(), after.len(), after.image()), "{name}");
    // Each record has the bytes that it had, at the offset that it had: it reads as the same instruction.
    assert!(
        before.records().map(|record| (record.offset, record.bytes)).eq(after.records().map(|record| (record.offset, record.bytes))),
        "{name}"
    );
    assert_eq!(text(&made, name).output.unwrap(), first, "{name}");
    String::from_utf8(first).unwrap()
}

#[test]
fn of_the_shows() {
    for (name, file) in shows() {
        if name != "late" {
            round_trip(&name, &file);
        }
    }
}

/// Each accepted record of the stored answers, at its offset; both lengths of a record.
#[test]
fn of_the_stored_answers() {
    let rows = stored();
    assert!(rows.len() > 1000);
    for (offset, bytes, record) in rows {
        let show = file(offset, std::slice::from_ref(&record));
        assert_eq!(fsq::load(&show).unwrap(), bytes);
        round_trip("stored", &show);
        if record.len() == 56 {
            let mut repeat = record;
            repeat.insert(2, 0);
            round_trip("stored", &file(offset, &[repeat]));
        }
    }
}

/// An operand of any kind that is well formed (REFERENCE 3), with any value in the fields that its kind does not use.
fn operand(random: &mut Random) -> [u8; 23] {
    const VALUES: [i32; 18] = [0, 1, 2, 5, -1, 127, 128, -128, -129, 200, 255, 256, 32767, -32768, 65535, 65536, 70000, i32::MIN];
    let (mut prefix, mut displacement_size, mut displacement) = (0, 0, 0);
    let (mut immediate, kind) = (random.of(&VALUES), random.below(4) as u8);
    let mut size = random.below(3) as u8;
    let jump = random.of(&[0, 0, 1, 2, 3]);
    let (mode, rm) = match kind {
        0 => {
            displacement = random.of(&VALUES);
            (0, 0)
        }
        1 => (3, random.below(8) as u8),
        2 => {
            size = 2;
            (3, random.below(4) as u8)
        }
        _ => {
            prefix = random.of(&[0, 0x26, 0x2E, 0x36, 0x3E]);
            let (mode, rm) = (random.below(3) as u8, random.of(&[0, 1, 2, 3, 4, 5, 6, 6, 7, 7]));
            (displacement_size, displacement) = match (mode, rm) {
                (0, 6) | (2, _) => (2, random.of(&[0, 5, -5, 300, -1, -32768, 65535])),
                (1, _) => (1, random.of(&[0, 5, -5, 127, -128])),
                _ => (0, 0),
            };
            (mode, rm)
        }
    };
    if random.below(2) == 0 {
        immediate = random.of(&[0, 1, 5]);
    }
    let mut bytes = [0; 23];
    bytes[..7].copy_from_slice(&[kind, size, prefix, displacement_size, jump, mode, rm]);
    bytes[7..11].copy_from_slice(&immediate.to_le_bytes());
    bytes[11..15].copy_from_slice(&displacement.to_le_bytes());
    bytes[15..].copy_from_slice(&random.next().to_le_bytes());
    bytes
}

/// A record of 57 bytes: any operation, count, operands and spans; a repeat that is none is left to the refusals.
fn record(random: &mut Random) -> Vec<u8> {
    let operation = Operation::ALL[random.below(99)];
    let mut record = vec![operation.number(), random.below(3) as u8, random.of(&[0, 0, 0xF2, 0xF3])];
    record.extend(random.next().to_le_bytes());
    record.extend(operand(random));
    record.extend(operand(random));
    record
}

/// Records of every shape that the library accepts, in shows of up to 400 of them, from all offsets, so that the segment's end is crossed too.
#[test]
fn of_every_shape() {
    let mut random = Random(0x0F50_0032);
    let (mut operations, mut forms, mut braces, mut labels, mut tried) = (BTreeSet::new(), BTreeSet::new(), 0, 0, 0);
    for _ in 0..400 {
        let origin = random.next() as u16;
        let (mut offset, mut records) = (origin, Vec::new());
        while records.len() < 400 {
            tried += 1;
            let mut record = record(&mut random);
            // Half of the branches go to where a record may begin.
            if random.below(2) == 0 {
                let near = i32::from(offset) + random.below(64) as i32 - 32;
                record[18..22].copy_from_slice(&near.to_le_bytes());
            }
            if let Ok(bytes) = encode_record(&record, offset) {
                let instruction = Instruction::from_record(&record).unwrap();
                operations.insert(instruction.operation().number());
                braces += usize::from(instruction.to_string().contains('{'));
                let form = fsq::form_record(&record, offset).unwrap();
                forms.insert((form.opcode(), form.digit(), form.operands().map(str::to_string).collect::<Vec<_>>()));
                offset = offset.wrapping_add(bytes.len() as u16);
                records.push(record);
            }
        }
        let said = round_trip("shapes", &file(origin, &records));
        labels += said.lines().filter(|line| line.contains(':') && line.starts_with('L')).count();
    }
    println!("{tried} records tried, 160000 accepted of {} forms; {braces} have fields that no text says; {labels} labels", forms.len());
    // All operations but INT1 and ESC (REFERENCE 5).
    assert_eq!(operations.len(), 97);
    assert!(labels > 1000 && braces > 10000);
}

/// A target that is no record's start stays a number.
#[test]
fn targets_astray() {
    let show = make(b"ORG 256\nMOV AX,4660\nLOOP 257\nJE 300\nJMP 256\nJMP short end\nend:", "-").output.unwrap();
    let said = round_trip("astray", &show);
    assert_eq!(said, "        ORG 256\nL1:     MOV AX,4660\n        LOOP 257\n        JE 300\n        JMP L1\n        JMP short L2\nL2:\n");
}
