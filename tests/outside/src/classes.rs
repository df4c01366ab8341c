//! Strings that a disassembler reads and our table does not, by name. docs/TESTING.md gives document 01's
//! sentence for each; tests/checks/outside compares the names.

use crate::strings::PREFIXES;

pub struct Class {
    pub name: &'static str,
    /// number of segment prefixes, opcode, second byte, does the disassembler name a memory operand
    applies: fn(usize, u8, u8, bool) -> bool,
}

pub static CLASSES: [Class; 14] = [
    Class { name: "two-prefixes", applies: |n, _, _, _| n > 1 },
    Class { name: "later-prefix", applies: |_, c, _, _| matches!(c, 0x64..=0x67) },
    Class { name: "later-opcode", applies: |_, c, _, _| matches!(c, 0x0F | 0x60..=0x63 | 0x68..=0x6F | 0xC0 | 0xC1 | 0xC8 | 0xC9) },
    Class { name: "escape", applies: |_, c, _, _| matches!(c, 0xD8..=0xDF) },
    Class { name: "int1", applies: |_, c, _, _| c == 0xF1 },
    Class { name: "far", applies: |_, c, x, _| matches!(c, 0x9A | 0xCA | 0xCB) || c == 0xFF && n(x) == 5 },
    Class {
        name: "unused-n",
        applies: |_, c, x, _| match c {
            0xD0..=0xD3 => n(x) == 6,
            0xF6 | 0xF7 => n(x) == 1,
            0xFE => n(x) > 1,
            0xFF => n(x) == 7,
            0xC6 | 0xC7 | 0x8F => n(x) > 0,
            _ => false,
        },
    },
    Class { name: "82", applies: |_, c, _, _| c == 0x82 },
    Class { name: "segment-register-4-to-7", applies: |_, c, x, _| matches!(c, 0x8C | 0x8E) && n(x) > 3 },
    Class { name: "into-cs", applies: |_, c, x, _| c == 0x8E && n(x) == 1 },
    Class { name: "mode-3", applies: |_, c, x, _| (matches!(c, 0x8D | 0xC4 | 0xC5) || c == 0xFF && n(x) == 3) && x >= 0xC0 },
    Class { name: "other-base", applies: |_, c, x, _| matches!(c, 0xD4 | 0xD5) && x != 0x0A },
    // by its bytes, as ndisasm gives the prefix to the memory operand of what it joins to these
    Class { name: "prefix-before-lock-rep-wait", applies: |n, c, _, _| n == 1 && matches!(c, 0xF0 | 0xF2 | 0xF3 | 0x9B) },
    // the last, as it alone goes by what the disassembler says
    Class { name: "prefix-without-memory", applies: |n, _, _, memory| n == 1 && !memory },
];

fn n(x: u8) -> u8 {
    x / 8 % 8
}

/// The class of a string that a disassembler reads, given whether it names a memory operand there.
pub fn of(string: &[u8], memory: bool) -> Option<usize> {
    let prefixes = string.iter().take_while(|b| PREFIXES.contains(b)).count();
    let opcode = *string.get(prefixes)?;
    let second = string.get(prefixes + 1).copied().unwrap_or(0);
    CLASSES.iter().position(|class| (class.applies)(prefixes, opcode, second, memory))
}

/// Instructions by themselves here, joined with what follows there: LOCK, REPNE and REP by both, WAIT by ndisasm alone.
pub const JOINED_BY_ZYDIS: &[u8] = &[0xF0, 0xF2, 0xF3];
pub const JOINED_BY_NDISASM: &[u8] = &[0xF0, 0xF2, 0xF3, 0x9B];
