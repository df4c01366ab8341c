//! Runs on the desk: document 02, No. 10, by the bytes and the steps of the manual, through the crate.

use fsq::{run, Pair, Reason};

/// The bytes of a text in hexadecimal.
fn hex(text: &str) -> Vec<u8> {
    let digits: Vec<u32> = text.chars().filter_map(|c| c.to_digit(16)).collect();
    digits.chunks(2).map(|two| (two[0] * 16 + two[1]) as u8).collect()
}

/// Cues as No. 9 has them: delay, port, mask.
type Cue = (u16, u8, u8);

/// MOV CX,delay; LOOP to itself; MOV AL,mask; OUT port,AL for each cue, and HLT.
fn image_of(cues: &[Cue]) -> Vec<u8> {
    let code = |&(delay, port, mask): &Cue| [0xB9, delay as u8, (delay >> 8) as u8, 0xE2, 0xFE, 0xB0, mask, 0xE6, port];
    cues.iter().flat_map(code).chain([0xF4]).collect()
}

/// The sum of (delay + 3), plus 1.
fn budget_of(cues: &[Cue]) -> u32 {
    cues.iter().map(|cue| u32::from(cue.0) + 3).sum::<u32>() + 1
}

/// An image of 65,536 bytes, zeros but for the front and the end.
fn whole(front: &str, end: &str) -> Vec<u8> {
    let (front, end) = (hex(front), hex(end));
    let between = 65536 - front.len() - end.len();
    [front, vec![0; between], end].concat()
}

#[test]
fn halts() {
    // an image, the instructions carried out, and the log
    let rows = [
        ("F4", 1, ""),
        // MOV AL in both forms
        ("B007 E601 F4", 3, "01 07"),
        ("C6C007 E601 F4", 3, "01 07"),
        // MOV AX in both forms, and the halves of AX: AH is register 4 of a byte, SP of a word
        ("B83412 E602 F4", 3, "02 34"),
        ("C7C03412 E602 F4", 3, "02 34"),
        ("B034 B412 E602 F4", 4, "02 34"),
        ("B83412 B456 E602 F4", 4, "02 34"),
        ("B83412 C6C456 B000 E602 F4", 5, "02 00"),
        ("BC3412 E602 F4", 3, "02 00"),
        // CH is the high half of CX, CL the low one: 256 + 1 rounds
        ("B501 B101 E2FE F4", 260, ""),
        // the pairs in their order, the port first
        ("B001 E610 B002 E620 E630 F4", 6, "10 01 20 02 30 02"),
        // LOOP: CX is counted down, and it goes on where CX is 0 then
        ("B90100 E2FE F4", 3, ""),
        ("B90200 E2FE F4", 4, ""),
        ("E2FE F4", 65537, ""),
        ("B90300 E605 E2FC F4", 8, "05 00 05 00 05 00"),
        // JMP, near and short, forward and back
        ("E90100 90 F4", 2, ""),
        ("EB01 90 F4", 2, ""),
        ("EB03 F4 9090 EBFB", 3, ""),
        ("E90300 F4 9090 E9FAFF", 3, ""),
    ];
    for (image, count, log) in rows {
        let log = hex(log);
        let mut lent = vec![0xA5; log.len() + 3];
        let ran = run(&hex(image), count, &mut lent).expect(image);
        assert_eq!((ran.count(), ran.log()), (count.into(), &log[..]), "{image}");
        assert!(ran.pairs().eq(log.chunks(2).map(|pair| Pair { port: pair[0], mask: pair[1] })), "{image}");
        assert_eq!(lent, [&log[..], &[0xA5; 3]].concat(), "{image}");
        // one instruction fewer is not enough, and more change nothing
        assert_eq!(run(&hex(image), count - 1, &mut lent).unwrap_err().reason, Reason::BudgetSpent, "{image}");
        assert_eq!(run(&hex(image), u32::MAX, &mut lent).unwrap().count(), count.into(), "{image}");
    }
}

#[test]
fn refusals() {
    // an image, a budget, the log's length and the number
    let rows = [
        // 22 before 21, 21 before 9
        ("", 0, 0, 22),
        ("90", 0, 0, 22),
        ("E610", 0, 0, 22),
        ("F4", 0, 0, 22),
        ("B007 90", 1, 0, 22),
        ("B007 90", 2, 0, 21),
        ("", 1, 0, 21),
        ("E610 90", 2, 2, 21),
        ("E610 E7", 9, 2, 21),
        ("E610 F4", 1, 1, 9),
        ("E610 F4", 1, 0, 9),
        ("E610 E611 F4", 9, 2, 9),
        ("E610 E611 F4", 9, 3, 9),
        ("E610 E611 F4", 1, 2, 22),
        // no HLT
        ("EBFE", 1000, 0, 22),
        ("E2FE F4", 65536, 0, 22),
        // not whole inside the image
        ("B0", 9, 0, 21),
        ("B812", 9, 0, 21),
        ("C6", 9, 0, 21),
        ("C6C0", 9, 0, 21),
        ("E6", 9, 0, 21),
        ("E2", 9, 0, 21),
        ("E900", 9, 0, 21),
        ("EB", 9, 0, 21),
        // other instructions: OUT AX, OUT DX, LOOPNZ, LOOPZ, JCXZ, CALL, JMP far and through a register, MOV of memory, of a segment register, of a
        // register, IN, NOP, REP, a prefix
        ("E710 F4", 9, 2, 21),
        ("EE F4", 9, 2, 21),
        ("E000 F4", 9, 2, 21),
        ("E100 F4", 9, 2, 21),
        ("E300 F4", 9, 2, 21),
        ("E80000 F4", 9, 2, 21),
        ("EA05000000 F4", 9, 2, 21),
        ("FFE0", 9, 2, 21),
        ("C6060000 07 F4", 9, 2, 21),
        ("8ED8 F4", 9, 2, 21),
        ("8AC1 F4", 9, 2, 21),
        ("E410 F4", 9, 2, 21),
        ("90 F4", 9, 2, 21),
        ("F3 F4", 9, 2, 21),
        ("26B007 F4", 9, 2, 21),
    ];
    for (image, budget, length, number) in rows {
        let mut log = vec![0xA5; length];
        let refusal = run(&hex(image), budget, &mut log).expect_err(image);
        assert_eq!(refusal.number(), number, "{image}");
        assert_eq!((&refusal.span, refusal.record, refusal.found, refusal.question()), (&None, None, None, None), "{image}");
        assert_eq!(log, vec![0xA5; length], "{image}");
    }
    let reason = |image: &str, budget| run(&hex(image), budget, &mut []).unwrap_err().reason;
    assert_eq!(reason("90", 1), Reason::NotCarriedOut);
    assert_eq!(reason("90", 0), Reason::BudgetSpent);
    assert_eq!(reason("E610", 1), Reason::SliceTooShort);
}

/// Every first byte with zeros behind it: one step, then the budget is spent, or 21.
#[test]
fn first_bytes() {
    for first in 0..=255 {
        let known = matches!(first, 0xB0..=0xBF | 0xE2 | 0xE6 | 0xE9 | 0xEB);
        let reason = match run(&[first, 0, 0, 0, 0, 0], 1, &mut [0; 2]) {
            Ok(ran) => {
                assert_eq!((first, ran.count()), (0xF4, 1));
                continue;
            }
            Err(refusal) => refusal.reason,
        };
        assert_eq!(reason, if known { Reason::BudgetSpent } else { Reason::NotCarriedOut }, "{first:02X}");
    }
    // C6 and C7: /0 of mode 3 alone
    for second in 0..=255 {
        for first in [0xC6, 0xC7] {
            let reason = run(&[first, second, 0, 0, 0, 0], 1, &mut []).unwrap_err().reason;
            assert_eq!(reason, if second & 0xF8 == 0xC0 { Reason::BudgetSpent } else { Reason::NotCarriedOut }, "{first:02X} {second:02X}");
        }
    }
}

/// Each register of a byte and of a word, by what LOOP and OUT see of it.
#[test]
fn registers() {
    for register in 0..8_u8 {
        // MOV CX,0x0203; MOV register of a byte,1; LOOP to itself; OUT 9,AL; HLT
        let byte = [0xB9, 3, 2, 0xB0 + register, 1, 0xE2, 0xFE, 0xE6, 9, 0xF4];
        let rounds = match register {
            1 => 0x0201,
            5 => 0x0103,
            _ => 0x0203,
        };
        let mut log = [0; 2];
        let ran = run(&byte, 70_000, &mut log).unwrap();
        assert_eq!((ran.count(), ran.log()), (rounds + 4, &[9, u8::from(register == 0)][..]), "{register}");
        // the same with a word
        let word = [0xB9, 3, 2, 0xB8 + register, 1, 4, 0xE2, 0xFE, 0xE6, 9, 0xF4];
        let rounds = if register == 1 { 0x0401 } else { 0x0203 };
        let ran = run(&word, 70_000, &mut log).unwrap();
        assert_eq!((ran.count(), ran.log()), (rounds + 4, &[9, u8::from(register == 0)][..]), "{register}");
    }
}

/// Odd lengths: the last byte of the log is never written.
#[test]
fn logs() {
    let image = hex("B001 E610 B002 E620 F4");
    for length in 0..8 {
        let mut log = vec![0xA5; length];
        match run(&image, 9, &mut log) {
            Ok(ran) => {
                assert!(length >= 4);
                assert_eq!((ran.count(), ran.log(), ran.pairs().len()), (5, &[0x10, 1, 0x20, 2][..], 2));
                assert!(log[4..].iter().all(|&byte| byte == 0xA5));
            }
            Err(refusal) => {
                assert!(length < 4);
                assert_eq!(refusal.reason, Reason::SliceTooShort);
                assert!(log.iter().all(|&byte| byte == 0xA5));
            }
        }
    }
    // A log as long as 200 pairs, and longer than one OUT needs.
    let mut log = [0xA5; 400];
    assert_eq!(run(&hex("E601 F4"), 2, &mut log).unwrap().log(), [1, 0]);
    assert!(log[2..].iter().all(|&byte| byte == 0xA5));
}

#[test]
fn offsets() {
    let mut log = [0; 8];
    // JMP to FFFD, where JMP to 3 stands, and HLT there
    assert_eq!(run(&whole("E9FAFF F4", "E90300"), 9, &mut log).unwrap().count(), 3);
    assert_eq!(run(&whole("EBFB F4", "E90200"), 9, &mut log).unwrap().count(), 3);
    // MOV AL,7 at FFFE, and on at 0: OUT, then JMP once more, until the budget is spent
    let round = whole("E610 EBFA", "B007");
    assert_eq!(run(&round, 3, &mut log).unwrap_err().reason, Reason::BudgetSpent);
    assert_eq!(run(&round, 14, &mut log).unwrap_err().reason, Reason::SliceTooShort);
    // HLT at FFFF
    assert_eq!(run(&whole("E9FCFF", "F4"), 9, &mut log).unwrap().count(), 2);
    // JMP to FFF6, JMP to FFFF, where B0 stands: its immediate stands beyond the 65,536 bytes, or nowhere; behind it the offset would be 1, where HLT stands
    for behind in [&[][..], &[7, 0xF4]] {
        let image = [whole("EBF4", "EB0700000000000000B0"), behind.to_vec()].concat();
        assert_eq!(run(&image, 9, &mut log).unwrap_err().reason, Reason::NotCarriedOut);
    }
    // LOOP and JMP back over the start
    assert_eq!(run(&whole("B90200 E2FA F4", "F4"), 9, &mut log).unwrap().count(), 3);
    assert_eq!(run(&whole("EBFD", "F4"), 9, &mut log).unwrap().count(), 2);
    // JMP over more than a byte's distance
    assert_eq!(run(&[hex("E92C01"), vec![0; 300], hex("F4")].concat(), 9, &mut log).unwrap().count(), 2);
    // beyond the image
    assert_eq!(run(&hex("EB10"), 9, &mut log).unwrap_err().reason, Reason::NotCarriedOut);
    assert_eq!(run(&hex("E9FCFF"), 9, &mut log).unwrap_err().reason, Reason::NotCarriedOut);
    // What stands behind the first 65,536 bytes plays no part.
    let long = [whole("B007 E610 F4", ""), vec![0x90; 100_000]].concat();
    assert_eq!(run(&long, 3, &mut log).unwrap().log(), [0x10, 7]);
}

/// What a designer may rely on: for every list of cues that compiles, the run halts on the last step of the sum of (delay + 3) plus 1, and a log of one pair
/// a cue holds the ports and masks in their order.
#[test]
fn designers() {
    let mut seed = 10_u32;
    let mut below = |n: u32| {
        seed = seed.wrapping_mul(1664525).wrapping_add(1013904223);
        (seed >> 8) % n
    };
    let mut lists: Vec<Vec<Cue>> = vec![vec![], vec![(1, 0, 0)], vec![(65535, 255, 255)], vec![(65535, 0xFE, 0x01); 200]];
    lists.extend((1..=200).step_by(7).map(|n| (0..n).map(|_| (1 + below(300) as u16, below(256) as u8, below(256) as u8)).collect()));
    for cues in lists {
        let (image, budget) = (image_of(&cues), budget_of(&cues));
        let mut log = vec![0xA5; 2 * cues.len()];
        let ran = run(&image, budget, &mut log).unwrap();
        assert_eq!(ran.count(), budget.into());
        assert!(ran.pairs().eq(cues.iter().map(|&(_, port, mask)| Pair { port, mask })));
        assert_eq!(run(&image, budget - 1, &mut log).unwrap_err().reason, Reason::BudgetSpent);
        if !cues.is_empty() {
            let mut short = vec![0xA5; 2 * cues.len() - 1];
            assert_eq!(run(&image, budget, &mut short).unwrap_err().reason, Reason::SliceTooShort);
            assert!(short.iter().all(|&byte| byte == 0xA5));
        }
    }
    assert_eq!(budget_of(&[(65535, 0, 0); 200]), 13_107_601);
}

#[test]
fn words() {
    let words = |image: &str, budget| run(&hex(image), budget, &mut []).unwrap_err().to_string();
    assert_eq!(words("90", 1), "refusal 21: the next bytes inside the image are no instruction that a run carries out");
    assert_eq!(words("90", 0), "refusal 22: the whole budget is carried out, and HLT was not met");
    assert_eq!(words("E610", 1), "refusal 9: there is no room for the bytes");
}
