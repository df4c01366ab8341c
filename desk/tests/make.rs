//! `fsq make`: bytes of texts, and mistakes with their places.

mod common;

use common::{bytes, Folder};
use fsq::{Instruction, Show};
use fsq_desk::verbs::make::make;

fn image(text: &str) -> Vec<u8> {
    let answer = make(text.as_bytes(), "show.txt");
    assert!(!answer.fault, "{text}\n{}", answer.said);
    let file = answer.output.unwrap();
    let show = Show::load(&file).unwrap();
    show.image().to_vec()
}

/// Document 01, 'Show file', whose bytes these are, with and without a label.
#[test]
fn document() {
    let folder = Folder::new();
    for text in ["ORG 256\nMOV AX,4660\nAAM\nLOOP 256\n", "\tORG 0x100 ; the origin\r\nstart: MOV AX,4660\r\n\r\nAAM;\r\nLOOP start"] {
        folder.write("show.txt", text);
        let ran = folder.fsq(&["make", "show.txt", "-o", "show.fsq"]);
        assert_eq!((ran.status, ran.said.as_str(), ran.text()), (0, "", ""));
        assert_eq!(folder.fsq(&["list", "show.fsq"]).text(), "FSQ 1 0100 3\n0100 3 B83412\n0103 2 D40A\n0105 2 E2F9\n");
    }
}

/// Bytes of NASM, but for the sums, whose values are document 02's (No. 6) and REFERENCE 12's.
#[test]
fn texts() {
    for (text, expected) in [
        ("", ""),
        ("; nothing\n\n  \t\n", ""),
        ("MOV CX,3*(40+2)-1", "B9 7D 00"),
        ("MOV CX,-7/2", "B9 FD FF"),
        ("mov cx , 3 * ( 40 + 2 ) - 1", "B9 7D 00"),
        ("MOV AX,[BX+2*3]", "8B 47 06"),
        ("MOV AX,[BX-2*3]", "8B 47 FA"),
        ("MOV AX,[2*3+BX]", "8B 47 06"),
        ("MOV AX,[BX+SI+(1+2)*4]", "8B 40 0C"),
        ("MOV AX,[ES:BX + 0x10 - 1]", "26 8B 47 0F"),
        ("MOV AX,[word BX+1-1]", "8B 87 00 00"),
        ("MOV AX,[0x1000+0x234]", "A1 34 12"),
        ("JMP 0x5000+0x678:0x1000+0x234", "EA 34 12 78 56"),
        ("ADD BX,-(1)", "83 C3 FF"),
        ("ADD word [BX],+5", "83 07 05"),
        ("a: b:\nc: JMP short c", "EB FE"),
        ("JMP end\nend:", "E9 00 00"),
        ("JMP short end\nNOP\nend:", "EB 01 90"),
        ("start: MOV SI,end-start\nend:", "BE 03 00"),
        ("MOV SI,end/2*3\nHLT\nend:", "BE 06 00 F4"),
        ("REP MOVSB\nrepne scasb\nREP", "F3 A4 F2 AE F3"),
        ("here: LOOP here\nJCXZ here\nJNZ here\nCALL here", "E2 FE E3 FC 75 FA E8 F7 FF"),
        // A label goes by the length of an instruction that goes by the label: 83 up to 127, else 81.
        ("ORG 124\nADD BX,end\nend:", "83 C3 7F"),
        ("ORG 125\nADD BX,end\nend:", "81 C3 81 00"),
        // Across the segment's end: document 01, JE at 65,534 to 65,536 is 74 00.
        ("ORG 65534\nJE end\nend:", "74 00"),
        ("ORG 65535\nfirst: NOP\nJE first", "90 74 FD"),
    ] {
        assert_eq!(image(text), bytes(expected), "{text}");
    }
}

/// A label before and behind more than 127 bytes, and 8,000 instructions, which is the most.
#[test]
fn long_texts() {
    let nops = "NOP\n".repeat(7999);
    let text = format!("JMP end\n{nops}end:");
    assert_eq!(image(&text)[..4], [0xE9, 0x3F, 0x1F, 0x90]);
    let answer = make(format!("{text}NOP\n").as_bytes(), "show.txt");
    assert!(answer.fault && answer.said.starts_with("show.txt:8001:5: a show has at most 8000 instructions\n"), "{}", answer.said);
}

/// Each text has one mistake, with its line and column.
#[test]
fn mistakes() {
    let folder = Folder::new();
    for (text, place, what) in [
        ("MOVE AX,5", "1:1", "the name of an operation is expected"),
        ("NOP\n  MOV AX 5", "2:10", "a comma or the end is expected"),
        ("NOP\n\tMOV AX,", "2:9", "a register, a segment register, [ or a number is expected"),
        ("NOP\nfoo: MOV AX,fo", "2:13", "there is no label fo"),
        (
            "NOP ; ü\n; ü\nx:\nMOV AL,3*\n",
            "4:8",
            "refusal 16: the text is not a sum of decimal numbers, + - * / and brackets, without blanks",
        ),
        ("MOV AL,2147483648-1", "1:8", "refusal 18: a value on the way is outside -2147483648..2147483647, or a divisor is 0"),
        ("MOV AL,1/0", "1:8", "refusal 18: a value on the way is outside -2147483648..2147483647, or a divisor is 0"),
        ("MOV AL,((((((((((((((((( 1 )))))))))))))))))", "1:8", "refusal 17: the sum is more than 16 brackets deep"),
        ("MOV AL,1 2", "1:10", "one of + - * / or the end of the number is expected"),
        ("MOV AL,12h", "1:8", "12h is no number, decimal, or hexadecimal behind 0x"),
        ("MOV AL,0x", "1:8", "0x is no number, decimal, or hexadecimal behind 0x"),
        ("MOV AX,[BX+2*SI]", "1:12", "refusal 16: the text is not a sum of decimal numbers, + - * / and brackets, without blanks"),
        ("MOV AX,[BX+SI+2+DI]", "1:20", "BX or BP, and SI or DI, before ] is expected"),
        ("MOV byte [BX],300", "1:15", "refusal 5 (question 6): value 300 is outside -128..255"),
        ("MOV byte [BX],2*(100+50)", "1:15", "refusal 5 (question 6): value 300 is outside -128..255"),
        ("ADD [BX],5", "1:1", "refusal 2 (question 3): byte or word is not said"),
        ("x: ADD AX,BL", "1:4", "refusal 3 (question 4): one operand is a byte and the other a word"),
        ("INC [BX]", "1:5", "refusal 4 (question 3): the operation does not take an operand of this size"),
        ("PUSH 5", "1:6", "refusal 1 (question 5): the operation does not take these operands"),
        ("REP NOP", "1:1", "refusal 23 (question 1): the repeat is neither REP nor REPNE, or the operation takes none"),
        ("ESC", "1:1", "refusal 7 (question 2): the encoder does not have this instruction"),
        ("JE 130", "1:4", "refusal 6 (question 7): the target is 128 bytes away, outside -128..127"),
        ("AAM 5", "1:1", "AAM has 1 operand here, and its form no operand"),
        ("LOOP", "1:1", "LOOP has no operand here, and its form 1 operand"),
        ("JMP 5,AX", "1:1", "JMP has 2 operands here, and its form 1 operand"),
        ("x:\nx: NOP", "2:1", "there is a label x before"),
        ("loop: NOP", "1:1", "loop is a word of the syntax and no name for a label"),
        ("NOP\nORG 5", "2:1", "ORG stands once, before all labels and instructions"),
        ("ORG 5\nORG 5", "2:1", "ORG stands once, before all labels and instructions"),
        ("ORG 65536", "1:1", "the origin 65536 is outside 0..65535"),
        ("ORG AX", "1:1", "a number is expected behind ORG, 0 to 65535"),
        ("ORG x", "1:5", "there is no label x"),
        ("{register}", "1:1", "the name of an operation is expected"),
    ] {
        folder.write("show.txt", text);
        let ran = folder.fsq(&["make", "show.txt", "-o", "show.fsq"]);
        assert_eq!((ran.status, ran.text()), (1, ""), "{text}");
        let mut lines = ran.said.lines();
        assert_eq!(lines.next(), Some(format!("show.txt:{place}: {what}").as_str()), "{text}");
        // The line is quoted, the place marked under it.
        let (line, column) = place.split_once(':').unwrap();
        assert_eq!(lines.next(), Some(format!("    {}", text.lines().nth(line.parse::<usize>().unwrap() - 1).unwrap()).as_str()));
        assert_eq!(lines.next().unwrap().find('^'), Some(3 + column.parse::<usize>().unwrap()), "{text}");
        assert_eq!(lines.next(), None, "{text}");
        assert_eq!(folder.names(), ["show.txt"], "{text}");
    }
}

/// All mistakes of a text are told, in its order.
#[test]
fn several_mistakes() {
    let said = make(b"MOVE AX,5\nNOP\nMOV AL,x\nADD [BX],5\nAX: NOP\n", "-").said;
    let places: Vec<&str> = said.lines().filter_map(|line| line.strip_prefix("-:")?.split(": ").next()).collect();
    assert_eq!(places, ["1:1", "3:8", "4:1", "5:1"]);
}

#[test]
fn bytes_that_are_no_text() {
    // Comments may be of another encoding.
    assert_eq!(image_of(b"NOP ; f\xFCr\n"), [0x90]);
    assert_eq!(image_of(b"\xEF\xBB\xBFNOP\n"), [0x90]);
    assert!(make(b"NOP\nN\xFCP\n", "a").said.starts_with("a:2:2: this is no character of UTF-8\n"));
    assert!(make("NÜP\n".as_bytes(), "a").said.starts_with("a:1:1: the name of an operation is expected\n"));
}

/// Of a long line a part is quoted.
#[test]
fn long_lines() {
    let said = make(format!("MOV AX,{}x", "1+".repeat(500)).as_bytes(), "a").said;
    let lines: Vec<&str> = said.lines().collect();
    assert_eq!((lines[0], lines[1].len(), lines[2].find('^')), ("a:1:1008: there is no label x", 4 + 81, Some(4 + 80)), "{said}");
    assert!(lines[1].ends_with("+1+x"));
    let said = make(&[b'$'; 1000], "a").said;
    assert_eq!(said.lines().map(str::len).max(), Some(4 + 160), "{said}");
}

fn image_of(text: &[u8]) -> Vec<u8> {
    fsq::load(&make(text, "-").output.unwrap()).unwrap()
}

/// ADD BX,200 has four bytes and ADD BX,0 three, so the label is 4 where it is 3, and 3 where it is 4.
#[test]
fn lengths_without_an_end() {
    let said = make(b"ADD BX,(4-end)*200\nend:\n", "a").said;
    assert!(said.starts_with("a:1:1: the lengths of instructions go by labels, and the labels by the lengths, without an end\n"), "{said}");
}

/// Records point into the text: the instruction and each operand.
#[test]
fn spans() {
    let text = "start:  REP  MOVSB\n  ADD word [BX] , 3*(40+2)-1 ; five\n  XLATB\n";
    let file = make(text.as_bytes(), "-").output.unwrap();
    let show = Show::load(&file).unwrap();
    let said: Vec<Vec<&str>> = show
        .records()
        .map(|record| {
            let instruction = Instruction::from_record(record.record).unwrap();
            let operands = instruction.operands().iter().map(|operand| operand.span());
            [instruction.span()].into_iter().chain(operands).map(|span| &text[span.start as usize..span.end as usize]).collect()
        })
        .collect();
    assert_eq!(said, [vec!["REP  MOVSB"], vec!["ADD word [BX] , 3*(40+2)-1", "word [BX]", "3*(40+2)-1"], vec!["XLATB", "XLATB"]]);
}
