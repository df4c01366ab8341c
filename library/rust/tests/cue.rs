//! Document 02, No. 9: cues, through the crate. The bytes are NASM's for the text of the request (`tests/cue`), and the image is also read back.

use fsq::{compile, compile_bytes, compile_into, read, Cue, Reason, Refusal};

/// The bytes of MOV CX,delay; LOOP $; MOV AL,mask; OUT port,AL for each cue, and of HLT: the SDM's forms B8+rw, E2, B0+rb, E6, F4.
fn expected(cues: &[Cue]) -> Vec<u8> {
    let mut image = Vec::new();
    for cue in cues {
        let [low, high] = cue.delay.to_le_bytes();
        image.extend([0xB9, low, high, 0xE2, 0xFE, 0xB0, cue.mask, 0xE6, cue.port]);
    }
    image.push(0xF4);
    image
}

/// So many cues, each field in all of its range.
fn sheet(count: u16) -> Vec<Cue> {
    (0..count).map(|k| Cue::new(65535 - 321 * k, (k * 7) as u8, 255 - k as u8)).collect()
}

fn refused(cues: &[Cue]) -> Refusal {
    compile(cues).unwrap_err()
}

#[test]
fn the_requests_cues() {
    // NASM: mov cx,10 / loop $ / mov al,1 / out 0x61,al / mov cx,0x1234 / loop $ / mov al,0x80 / out 0x62,al / hlt
    let two = [Cue::new(10, 0x61, 1), Cue::new(0x1234, 0x62, 0x80)];
    let bytes = [0xB9, 0x0A, 0, 0xE2, 0xFE, 0xB0, 1, 0xE6, 0x61, 0xB9, 0x34, 0x12, 0xE2, 0xFE, 0xB0, 0x80, 0xE6, 0x62, 0xF4];
    assert_eq!(compile(&two).unwrap(), bytes);
    assert_eq!(compile(&[]).unwrap(), [0xF4]);
    for delay in [1, 2, 255, 256, 257, 0x1234, 65534, 65535] {
        for (port, mask) in [(0, 0), (0, 255), (255, 0), (1, 2), (127, 128), (255, 255)] {
            let cue = [Cue::new(delay, port, mask)];
            assert_eq!(compile(&cue).unwrap(), expected(&cue), "{cue:?}");
        }
    }
}

/// 9 bytes a cue and 1; each LOOP goes to itself, at its own offset.
#[test]
fn every_count() {
    for count in 0..=200 {
        let cues = sheet(count);
        let image = compile(&cues).unwrap();
        assert_eq!(image.len(), 9 * usize::from(count) + 1);
        assert_eq!(image, expected(&cues));
        let mut at = 0;
        let mut text = Vec::new();
        while at < image.len() {
            let reading = read(&image[at..], at as u16).unwrap();
            text.push(reading.to_string());
            at += reading.length;
        }
        let program = cues.iter().zip(0..).flat_map(|(cue, k)| {
            let Cue { delay, port, mask } = cue;
            [format!("MOV CX,{delay}"), format!("LOOP {}", 9 * k + 3), format!("MOV AL,{mask}"), format!("OUT {port},AL")]
        });
        assert_eq!(text, program.chain(["HLT".to_string()]).collect::<Vec<_>>());
    }
}

/// 19 before 20, and 20 before 9. None has a span, a record or a question.
#[test]
fn refusals() {
    let zero = Cue::new(0, 1, 2);
    let rows = [
        (compile_bytes(&[1], &mut [7; 9]), 19, Reason::NotACueList),
        (compile_bytes(&[0, 0, 0], &mut []), 19, Reason::NotACueList),
        (compile_bytes(&[1, 0, 0, 0, 1], &mut [7; 99]), 19, Reason::NotACueList),
        (compile_bytes(&[1; 801], &mut [7; 9]), 19, Reason::NotACueList),
        (compile_bytes(&[0; 804], &mut []), 19, Reason::NotACueList),
        (compile_bytes(&[1; 100_000], &mut []), 19, Reason::NotACueList),
        (compile_bytes(&[0; 800], &mut []), 20, Reason::NoDelay),
        (compile_bytes(&[0; 4], &mut [7; 99]), 20, Reason::NoDelay),
        (compile_bytes(&[1, 0, 0, 0, 0, 0, 5, 5], &mut [7; 99]), 20, Reason::NoDelay),
        (compile_bytes(&[], &mut []), 9, Reason::SliceTooShort),
        (compile_bytes(&[1; 800], &mut [7; 1800]), 9, Reason::SliceTooShort),
        (compile_into(&[zero; 201], &mut []), 19, Reason::NotACueList),
        (compile_into(&[Cue::new(1, 1, 2); 1000], &mut [7; 9009]), 19, Reason::NotACueList),
        (compile_into(&[zero; 200], &mut []), 20, Reason::NoDelay),
        (compile_into(&[Cue::new(1, 1, 2)], &mut [7; 9]), 9, Reason::SliceTooShort),
    ];
    for (answer, number, reason) in rows {
        let refusal = answer.unwrap_err();
        assert_eq!((refusal.number(), refusal.reason), (number, reason));
        assert_eq!((&refusal.span, refusal.record, refusal.found, refusal.question()), (&None, None, None, None), "{number}");
    }
    let one_without = |at: usize| (0..200).map(|k| Cue::new((k != at).into(), 1, 2)).collect::<Vec<_>>();
    for at in [0, 1, 99, 199] {
        assert_eq!(refused(&one_without(at)).reason, Reason::NoDelay, "{at}");
    }
    assert_eq!(refused(&[Cue::new(1, 1, 2); 201]).reason, Reason::NotACueList);
}

/// Into a lent slice: the bytes behind the image stay, and a refusal changes none.
#[test]
fn lent_slices() {
    for count in [0, 1, 2, 140, 200] {
        let cues = sheet(count);
        let bytes: Vec<u8> = cues.iter().flat_map(|cue| cue.to_bytes()).collect();
        let length = 9 * usize::from(count) + 1;
        for lent in [0, 1, length - 1, length, length + 1, length + 30] {
            let mut image = vec![7; lent];
            let mut behind = expected(&cues);
            behind.resize(lent.max(length), 7);
            match compile_into(&cues, &mut image) {
                Ok(n) => assert_eq!((n, lent >= length, &image), (length, true, &behind)),
                Err(refusal) => assert_eq!((refusal.reason, lent < length, &image), (Reason::SliceTooShort, true, &vec![7; lent])),
            }
            let mut again = vec![7; lent];
            assert_eq!(compile_bytes(&bytes, &mut again), compile_into(&cues, &mut vec![7; lent]));
            assert_eq!(again, image);
        }
    }
}

#[test]
fn bytes_of_a_cue() {
    for cue in sheet(200) {
        let [low, high] = cue.delay.to_le_bytes();
        assert_eq!(cue.to_bytes(), [low, high, cue.port, cue.mask]);
        assert_eq!(Cue::from_bytes(cue.to_bytes()), cue);
        assert_eq!(cue, Cue { delay: cue.delay, port: cue.port, mask: cue.mask });
    }
}

#[test]
fn words() {
    assert_eq!(
        refused(&[Cue::new(1, 1, 2); 201]).to_string(),
        "refusal 19: the length is no multiple of 4, or there are more than 200 cues"
    );
    assert_eq!(refused(&[Cue::new(0, 1, 2)]).to_string(), "refusal 20: a cue has a delay of 0");
    assert_eq!(compile_into(&[], &mut []).unwrap_err().to_string(), "refusal 9: there is no room for the bytes");
}
