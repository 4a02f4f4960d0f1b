//! The proved text check by itself.

mod c {
    extern "C" {
        pub fn panxidell_text(data: *const u8, len: usize) -> usize;
    }
}

/// How many bytes are text, from the front on: all, or those before the first ill-formed sequence.
pub fn up_to(bytes: &[u8]) -> usize {
    unsafe { c::panxidell_text(bytes.as_ptr(), bytes.len()) }
}
