//! Zydis behind zydis.c.

extern "C" {
    fn zydis_read(bytes: *const u8, length: usize) -> usize;
}

/// The length of the instruction at the front of the bytes; 0 where Zydis reads none.
#[inline]
pub fn read(bytes: &[u8]) -> usize {
    unsafe { zydis_read(bytes.as_ptr(), bytes.len()) }
}
