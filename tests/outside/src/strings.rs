//! The byte strings that are asked.

use crate::random::Random;

pub const PREFIXES: [u8; 4] = [0x26, 0x2E, 0x36, 0x3E];

/// Behind each prefix or none, each first byte with each second byte, and random bytes behind them: eight in all. So many of each.
pub fn longer(of_each: u64, seed: u64, visit: &mut dyn FnMut([u8; 8])) {
    let mut random = Random::new(seed);
    for prefix in [None].into_iter().chain(PREFIXES.map(Some)) {
        for head in 0..=65535u16 {
            for _ in 0..of_each {
                let mut string = random.next().wrapping_mul(0x9E37_79B9_7F4A_7C15).to_le_bytes();
                let at = prefix.is_some() as usize;
                string[0] = prefix.unwrap_or(0);
                string[at..at + 2].copy_from_slice(&head.to_be_bytes());
                visit(string);
            }
        }
    }
}

/// Every string of this length.
pub fn all(length: usize, visit: &mut dyn FnMut(&[u8])) {
    for n in 0..1u32 << (8 * length) {
        visit(&n.to_be_bytes()[4 - length..]);
    }
}
