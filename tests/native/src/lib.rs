//! The proved library behind its C functions, with slices as arguments. Answers stay packed as C has them.

mod c {
    extern "C" {
        pub fn panxidell_measure(data: *const u8, len: usize) -> u64;
        pub fn panxidell_fill(data: *const u8, len: usize, table: *mut u32, words: usize) -> u64;
        pub fn panxidell_check(table: *const u32, words: usize, n: usize, data: *const u8, len: usize) -> u64;
        pub fn panxidell_write(
            table: *const u32,
            words: usize,
            n: usize,
            data: *const u8,
            len: usize,
            out: *mut u8,
            room: usize,
        ) -> u64;
        pub fn panxidell_in(table: *const u32, words: usize, n: usize, row: usize, bound: usize) -> u64;
        pub fn panxidell_on(table: *const u32, words: usize, n: usize, row: usize, bound: usize) -> u64;
        pub fn panxidell_along(table: *const u32, words: usize, n: usize, row: usize, bound: usize) -> u64;
        pub fn panxidell_resolve(
            table: *const u32,
            words: usize,
            n: usize,
            row: usize,
            out: *mut u32,
            three: usize,
        ) -> u64;
        pub fn panxidell_payload(
            table: *const u32,
            words: usize,
            row: usize,
            data: *const u8,
            len: usize,
            out: *mut u32,
            two: usize,
        ) -> u64;
        pub fn panxidell_read_unsigned(data: *const u8, len: usize, words4: *mut u32, four: usize) -> u64;
        pub fn panxidell_read_signed(data: *const u8, len: usize, words4: *mut u32, four: usize) -> u64;
        pub fn panxidell_write_unsigned(out: *mut u8, room: usize, w0: u32, w1: u32, w2: u32, w3: u32) -> u64;
        pub fn panxidell_write_signed(out: *mut u8, room: usize, w0: u32, w1: u32, w2: u32, w3: u32) -> u64;
    }
}

/// The paper's number in the top 8 bits, the number beside it in the low 56.
pub fn packed(number: u32, beside: u64) -> u64 {
    (number as u64) << 56 | beside
}

pub fn number(answer: u64) -> u32 {
    (answer >> 56) as u32
}

pub fn beside(answer: u64) -> u64 {
    answer & ((1 << 56) - 1)
}

// Every call lends whole slices, and the library is proved to stay inside them.

pub fn measure(data: &[u8]) -> u64 {
    unsafe { c::panxidell_measure(data.as_ptr(), data.len()) }
}

pub fn fill(data: &[u8], table: &mut [u32]) -> u64 {
    unsafe { c::panxidell_fill(data.as_ptr(), data.len(), table.as_mut_ptr(), table.len()) }
}

pub fn check(table: &[u32], n: usize, data: &[u8]) -> u64 {
    unsafe { c::panxidell_check(table.as_ptr(), table.len(), n, data.as_ptr(), data.len()) }
}

pub fn write(table: &[u32], n: usize, data: &[u8], out: &mut [u8]) -> u64 {
    let (room, out) = (out.len(), out.as_mut_ptr());
    unsafe { c::panxidell_write(table.as_ptr(), table.len(), n, data.as_ptr(), data.len(), out, room) }
}

pub fn step_in(table: &[u32], n: usize, row: usize, bound: usize) -> u64 {
    unsafe { c::panxidell_in(table.as_ptr(), table.len(), n, row, bound) }
}

pub fn on(table: &[u32], n: usize, row: usize, bound: usize) -> u64 {
    unsafe { c::panxidell_on(table.as_ptr(), table.len(), n, row, bound) }
}

pub fn along(table: &[u32], n: usize, row: usize, bound: usize) -> u64 {
    unsafe { c::panxidell_along(table.as_ptr(), table.len(), n, row, bound) }
}

pub fn resolve(table: &[u32], n: usize, row: usize, out: &mut [u32]) -> u64 {
    unsafe { c::panxidell_resolve(table.as_ptr(), table.len(), n, row, out.as_mut_ptr(), out.len()) }
}

pub fn payload(table: &[u32], row: usize, data: &[u8], out: &mut [u32]) -> u64 {
    let (two, out) = (out.len(), out.as_mut_ptr());
    unsafe { c::panxidell_payload(table.as_ptr(), table.len(), row, data.as_ptr(), data.len(), out, two) }
}

pub fn read_unsigned(data: &[u8], words: &mut [u32]) -> u64 {
    unsafe { c::panxidell_read_unsigned(data.as_ptr(), data.len(), words.as_mut_ptr(), words.len()) }
}

pub fn read_signed(data: &[u8], words: &mut [u32]) -> u64 {
    unsafe { c::panxidell_read_signed(data.as_ptr(), data.len(), words.as_mut_ptr(), words.len()) }
}

pub fn write_unsigned(out: &mut [u8], [w0, w1, w2, w3]: [u32; 4]) -> u64 {
    unsafe { c::panxidell_write_unsigned(out.as_mut_ptr(), out.len(), w0, w1, w2, w3) }
}

pub fn write_signed(out: &mut [u8], [w0, w1, w2, w3]: [u32; 4]) -> u64 {
    unsafe { c::panxidell_write_signed(out.as_mut_ptr(), out.len(), w0, w1, w2, w3) }
}
