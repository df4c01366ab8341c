//! Sums: the texts and values of document 02, No. 6, and of REFERENCE 12, through the crate.

use fsq::{evaluate, Reason};

/// A bracket so many deep around a text.
fn deep(depth: usize, text: &str) -> String {
    "(".repeat(depth) + text + &")".repeat(depth)
}

#[test]
fn values() {
    let rows = [
        ("3*(40+2)-1", 125),
        ("0", 0),
        ("007", 7),
        ("2+3*4", 14),
        ("(2+3)*4", 20),
        ("7-4-2", 1),
        ("7-(4-2)", 5),
        ("8/4*2", 4),
        ("8/(4*2)", 1),
        ("2*3/4", 1),
        // cut toward zero
        ("7/2", 3),
        ("-7/2", -3),
        ("7/-2", -3),
        ("-7/-2", 3),
        // unary minus, also of a bracket and of another minus
        ("1+-1", 0),
        ("1--1", 2),
        ("-(-5)", 5),
        ("--5", 5),
        ("-2*-3", 6),
        ("-(2+3)*4", -20),
        // the limits of an i32; a minus directly before digits is taken with them
        ("2147483647", i32::MAX),
        ("-2147483648", i32::MIN),
        ("(-2147483648)", i32::MIN),
        ("1*-2147483648", i32::MIN),
        ("-1--2147483648", i32::MAX),
        ("--2147483647", i32::MAX),
        ("-2147483647-1", i32::MIN),
        ("46340*46340", 2147395600),
        ("000000000000000000002147483647", i32::MAX),
    ];
    for (text, value) in rows {
        assert_eq!(evaluate(text), Ok(value), "{text}");
    }
}

#[test]
fn refusals() {
    let rows: [(&[&str], u8, Reason); 3] = [
        (
            &[
                "", "+1", "1++1", "2(3)", "()", "1 +1", " 1", "1 ", "1\n", "1\r", "\n", "-", "1-", "1+", "*1", "(1", "1)", ")1(", "(1)(2)",
                "(1)2", "1*/2", "0x10", "1.5", "1e3", "1,000", "1_000", "x", "\0", "1\0", "١", "１", "−1",
            ],
            16,
            Reason::NotASum,
        ),
        (&[&deep(17, "1"), &deep(17, "1/0"), &deep(17, "2147483648"), &deep(100, "1")], 17, Reason::TooDeep),
        (
            &[
                "1-2147483648",
                "2147483648",
                "2147483648-1",
                "-2147483649",
                "-(2147483648)",
                "--2147483648",
                "---2147483648",
                "2147483647+1",
                "2147483647+1-1",
                "-2147483648-1",
                "-2147483648/-1",
                "-2147483648*-1",
                "-(-2147483648)",
                "65536*65536",
                "1/0",
                "0/0",
                "0*(1/0)",
                "1/(2-2)",
                "99999999999999999999",
                &deep(16, "1/0"),
            ],
            18,
            Reason::ValueOutOfRange,
        ),
    ];
    for (texts, number, reason) in rows {
        for text in texts {
            let refusal = evaluate(text).expect_err(text);
            assert_eq!((refusal.number(), refusal.reason), (number, reason), "{text}");
            assert_eq!((&refusal.span, refusal.record, refusal.found, refusal.question()), (&None, None, None, None), "{text}");
        }
    }
}

/// At most 16 brackets deep: a minus is none, nor a bracket beside another. 16 is asked before 17.
#[test]
fn depths() {
    for depth in 0..=16 {
        assert_eq!(evaluate(deep(depth, "1")), Ok(1));
        assert_eq!(evaluate(format!("{}-{}", deep(depth, "1"), deep(16, "1"))), Ok(0));
    }
    assert_eq!(evaluate("-".repeat(17) + "1"), Ok(-1));
    assert_eq!(evaluate("-(".repeat(16) + "1" + &")".repeat(16)), Ok(1));
    assert_eq!(evaluate("-(".repeat(17) + "1" + &")".repeat(17)).unwrap_err().reason, Reason::TooDeep);
    assert_eq!(evaluate(format!("1+{}", deep(17, "1"))).unwrap_err().reason, Reason::TooDeep);
    assert_eq!(evaluate("(".repeat(17) + "1" + &")".repeat(16)).unwrap_err().reason, Reason::NotASum);
    assert_eq!(evaluate("(".repeat(16) + "1" + &")".repeat(17)).unwrap_err().reason, Reason::NotASum);
    assert_eq!(evaluate(deep(17, "1+")).unwrap_err().reason, Reason::NotASum);
}

/// Whatever holds bytes is a text, of any length.
#[test]
fn texts() {
    assert_eq!(evaluate(b"40+2"), Ok(42));
    assert_eq!(evaluate(*b"40+2"), Ok(42));
    assert_eq!(evaluate(&b"40+2"[..2]), Ok(40));
    assert_eq!(evaluate(Vec::from("40+2")), Ok(42));
    assert_eq!(evaluate(String::from("40+2")), Ok(42));
    assert_eq!(evaluate([]).unwrap_err().reason, Reason::NotASum);
    assert_eq!(evaluate([0xFF]).unwrap_err().reason, Reason::NotASum);
    assert_eq!(evaluate("1".to_string() + &"+1".repeat(99_999)), Ok(100_000));
    assert_eq!(evaluate("-".repeat(100_000) + "1"), Ok(1));
    assert_eq!(evaluate("0".repeat(100_000) + "7"), Ok(7));
    assert_eq!(evaluate("9".repeat(100_000)).unwrap_err().reason, Reason::ValueOutOfRange);
    assert_eq!(evaluate(deep(100_000, "1")).unwrap_err().reason, Reason::TooDeep);
}

#[test]
fn words() {
    let words = |text: &str| evaluate(text).unwrap_err().to_string();
    assert_eq!(words("1 +1"), "refusal 16: the text is not a sum of decimal numbers, + - * / and brackets, without blanks");
    assert_eq!(words(&deep(17, "1")), "refusal 17: the sum is more than 16 brackets deep");
    assert_eq!(words("1/0"), "refusal 18: a value on the way is outside -2147483648..2147483647, or a divisor is 0");
}
