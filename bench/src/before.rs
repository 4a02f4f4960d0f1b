//! The library and the text check of another checkout, if `bench/run` was given one.

#[cfg(feature = "before")]
mod c {
    extern "C" {
        pub fn panxidell_text_before(data: *const u8, len: usize) -> usize;
        pub fn panxidell_measure_before(data: *const u8, len: usize) -> u64;
        pub fn panxidell_fill_before(data: *const u8, len: usize, table: *mut u32, words: usize) -> u64;
        pub fn panxidell_check_before(table: *const u32, words: usize, n: usize, data: *const u8, len: usize) -> u64;
        pub fn panxidell_write_before(
            table: *const u32,
            words: usize,
            n: usize,
            data: *const u8,
            len: usize,
            out: *mut u8,
            room: usize,
        ) -> u64;
    }
}

/// Never called: no checkout was named.
#[cfg(not(feature = "before"))]
mod c {
    pub unsafe fn panxidell_text_before(_: *const u8, _: usize) -> usize {
        unreachable!()
    }
    pub unsafe fn panxidell_measure_before(_: *const u8, _: usize) -> u64 {
        unreachable!()
    }
    pub unsafe fn panxidell_fill_before(_: *const u8, _: usize, _: *mut u32, _: usize) -> u64 {
        unreachable!()
    }
    pub unsafe fn panxidell_check_before(_: *const u32, _: usize, _: usize, _: *const u8, _: usize) -> u64 {
        unreachable!()
    }
    #[rustfmt::skip]
    pub unsafe fn panxidell_write_before(
        _: *const u32, _: usize, _: usize, _: *const u8, _: usize, _: *mut u8, _: usize,
    ) -> u64 {
        unreachable!()
    }
}

pub const IS_NAMED: bool = cfg!(feature = "before");

/// How many bytes from the front are text.
pub fn text(bytes: &[u8]) -> usize {
    unsafe { c::panxidell_text_before(bytes.as_ptr(), bytes.len()) }
}

pub fn measure(data: &[u8]) -> u64 {
    unsafe { c::panxidell_measure_before(data.as_ptr(), data.len()) }
}

pub fn fill(data: &[u8], table: &mut [u32]) -> u64 {
    unsafe { c::panxidell_fill_before(data.as_ptr(), data.len(), table.as_mut_ptr(), table.len()) }
}

pub fn check(table: &[u32], n: usize, data: &[u8]) -> u64 {
    unsafe { c::panxidell_check_before(table.as_ptr(), table.len(), n, data.as_ptr(), data.len()) }
}

pub fn write(table: &[u32], n: usize, data: &[u8], out: &mut [u8]) -> u64 {
    let (room, out) = (out.len(), out.as_mut_ptr());
    unsafe { c::panxidell_write_before(table.as_ptr(), table.len(), n, data.as_ptr(), data.len(), out, room) }
}
