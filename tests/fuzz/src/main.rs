//! libFuzzer's function: what an input stands for is `compare::input`.

#![no_main]

use compare::{input, Compare};

#[no_mangle]
extern "C" fn LLVMFuzzerTestOneInput(bytes: *const u8, size: usize) -> i32 {
    // libFuzzer lends so many bytes
    let bytes = if size == 0 { &[] } else { unsafe { std::slice::from_raw_parts(bytes, size) } };
    input::run(&mut Compare::default(), bytes);
    0
}
