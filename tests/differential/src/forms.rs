//! Accepted runs by opcode and /n, against document 01's forms.

use super::answers::Run;
use super::records::PREFIXES;

/// Opcodes whose reg field is part of the form.
const WITH_N: [u8; 14] = [0x80, 0x81, 0x83, 0x8F, 0xC6, 0xC7, 0xD0, 0xD1, 0xD2, 0xD3, 0xF6, 0xF7, 0xFE, 0xFF];

/// The first byte after the prefix, with /n where that is part of the form.
pub type Form = (u8, Option<u8>);

pub fn form_of(run: &Run) -> Form {
    let at = (run.bytes[0] != 0 && PREFIXES.contains(&run.bytes[0])) as usize;
    let opcode = run.bytes[at];
    (opcode, WITH_N.contains(&opcode).then(|| run.bytes[at + 1] / 8 % 8))
}

/// The forms of document 02, No. 1, in its order. 000 never writes them.
pub const LEFT_OPEN: [Form; 11] = [
    (0x84, None), (0x85, None), (0xA9, None), (0xF6, Some(0)), (0xF7, Some(0)), (0xFF, Some(6)), (0x8F, Some(0)), (0xC2, None),
    (0xFF, Some(3)), (0xEB, None), (0x9B, None),
];

/// Document 01, 'Code list', in its order, and the ones above.
pub fn all() -> Vec<Form> {
    let mut forms = LEFT_OPEN.to_vec();
    let mut plain = |opcodes: &[u8]| forms.extend(opcodes.iter().map(|opcode| (*opcode, None)));
    for base in (0x00..=0x38).step_by(8) {
        plain(&[base, base + 1, base + 2, base + 3, base + 4, base + 5]);
    }
    for register in 0..8 {
        plain(&[0x40 + register, 0x48 + register, 0x50 + register, 0x58 + register]);
        plain(&[0x90 + register, 0xB0 + register, 0xB8 + register]);
    }
    plain(&[0x88, 0x89, 0x8A, 0x8B, 0xA0, 0xA1, 0xA2, 0xA3, 0x8C, 0x8E]);
    plain(&[0x86, 0x87, 0xA8, 0x8D, 0xC4, 0xC5]);
    plain(&[0x06, 0x0E, 0x16, 0x1E, 0x07, 0x17, 0x1F]);
    plain(&[0xE8, 0xE9, 0xEA, 0xE0, 0xE1, 0xE2, 0xE3, 0xCD, 0xC3]);
    for condition in 0x70..=0x7F {
        plain(&[condition]);
    }
    plain(&[0xD7, 0xE4, 0xE5, 0xE6, 0xE7, 0xEC, 0xED, 0xEE, 0xEF, 0xD4, 0xD5]);
    // single bytes as in 000 (NOP is 90 as well)
    plain(&[0x27, 0x2F, 0x37, 0x3F, 0x98, 0x99, 0x9C, 0x9D, 0x9E, 0x9F, 0xCC, 0xCE, 0xCF, 0xD6]);
    plain(&[0xA4, 0xA5, 0xA6, 0xA7, 0xAA, 0xAB, 0xAC, 0xAD, 0xAE, 0xAF]);
    plain(&[0xF0, 0xF2, 0xF3, 0xF4, 0xF5, 0xF8, 0xF9, 0xFA, 0xFB, 0xFC, 0xFD]);

    let mut with_n = |opcodes: &[u8], ns: &[u8]| {
        forms.extend(opcodes.iter().flat_map(|opcode| ns.iter().map(|n| (*opcode, Some(*n)))))
    };
    with_n(&[0x80, 0x81, 0x83], &[0, 1, 2, 3, 4, 5, 6, 7]);
    with_n(&[0xC6, 0xC7], &[0]);
    with_n(&[0xD0, 0xD1, 0xD2, 0xD3], &[0, 1, 2, 3, 4, 5, 7]);
    with_n(&[0xF6, 0xF7], &[2, 3, 4, 5, 6, 7]);
    with_n(&[0xFE], &[0, 1]);
    with_n(&[0xFF], &[0, 1, 2, 4]);
    forms.sort();
    forms
}

pub fn name(form: &Form) -> String {
    match form {
        (opcode, None) => format!("{opcode:02X}"),
        (opcode, Some(n)) => format!("{opcode:02X}/{n}"),
    }
}

/// How often each form was accepted.
pub struct Tally([[u64; 9]; 256]);

impl Tally {
    pub fn new() -> Tally {
        Tally([[0; 9]; 256])
    }

    pub fn add(&mut self, run: &Run) {
        let (opcode, n) = form_of(run);
        self.0[opcode as usize][n.unwrap_or(8) as usize] += 1;
    }

    pub fn count(&self, form: &Form) -> u64 {
        self.0[form.0 as usize][form.1.unwrap_or(8) as usize]
    }

    pub fn total(&self) -> u64 {
        self.0.iter().flatten().sum()
    }
}
