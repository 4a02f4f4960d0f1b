//! The text check, by itself and inside `panxidell_measure`, beside `core::str::from_utf8` and the reference.

use native::{measure, packed};
use reference::generate::Random;
use reference::text::is_text;
use std::sync::atomic::{AtomicU32, Ordering};
use std::{process, str, thread};

/// Every text of up to so many bytes, 4 at most.
pub fn every(most: usize) {
    judged(&[]);
    let next = AtomicU32::new(0);
    thread::scope(|scope| {
        let work = || loop {
            let first = next.fetch_add(1, Ordering::Relaxed);
            if first > 0xff {
                break;
            }
            for size in 1..=most {
                (0..1 << (8 * (size - 1))).for_each(|others: u32| {
                    let [a, b, c, _] = others.to_le_bytes();
                    judged(&[first as u8, a, b, c][..size]);
                });
            }
        };
        let cores = thread::available_parallelism().map_or(1, |cores| cores.get());
        let workers: Vec<_> = (0..cores).map(|_| scope.spawn(work)).collect();
        workers.into_iter().for_each(|worker| worker.join().unwrap_or_else(|_| process::exit(1)));
    });
    let texts: u64 = (0..=most).map(|size| 1 << (8 * size)).sum();
    println!("all {texts} texts of up to {most} bytes, each as core::str::from_utf8 judges it");
}

/// Longer ones: a sequence, whole, broken or cut by the end, at every place among plain bytes; and any sequences, one byte of some changed.
pub fn longer(seed: u64, count: usize) {
    const PARTS: [&[u8]; 8] = [
        &[0xff],
        &[0x80],
        &[0xc3, 0xa9],
        &[0xc0, 0x80],
        &[0xe2, 0x82, 0xac],
        &[0xed, 0xa0, 0x80],
        &[0xf0, 0x9f, 0x8f, 0x81],
        &[0xf4, 0x90, 0x80, 0x80],
    ];
    for (size, part) in (0..40).flat_map(|size| PARTS.map(|part| (size, part))) {
        for at in 0..size {
            let mut bytes = vec![0x61; size];
            let end = size.min(at + part.len());
            bytes[at..end].copy_from_slice(&part[..end - at]);
            judged(&bytes);
        }
    }
    let random = &mut Random::new(seed);
    for _ in 0..count {
        let mut bytes = any(random).into_bytes();
        if random.below(2) == 0 && !bytes.is_empty() {
            let at = random.below(bytes.len());
            bytes[at] = random.below(256) as u8;
        }
        judged(&bytes);
    }
    println!(
        "texts of up to 39 bytes with a sequence at every place; seed {seed}: {count} of up to 122 bytes; the same"
    );
}

/// A text of up to 122 bytes: runs of sequences of one length, plain ones among them.
fn any(random: &mut Random) -> String {
    const RANGES: [(u32, u32); 5] =
        [(0, 0x80), (0x80, 0x800), (0x800, 0xd800), (0xe000, 0x1_0000), (0x1_0000, 0x11_0000)];
    let size = random.below(80);
    let mut text = String::new();
    while text.len() < size {
        let (low, high) = random.one_of(&RANGES);
        let run = random.below(12);
        text.extend((0..run).map(|_| char::from_u32(low + random.below((high - low) as usize) as u32).unwrap()));
    }
    text
}

/// Four judges, one verdict: the check by itself with its offset, `from_utf8` with its own, the reference, and the library, which is given a
/// document with this text.
fn judged(bytes: &[u8]) {
    let up_to = str::from_utf8(bytes).map_or_else(|error| error.valid_up_to(), str::len);
    let right = up_to == bytes.len();
    assert_eq!(text::up_to(bytes), up_to, "text {bytes:02x?}: how far it is text");
    assert_eq!(is_text(bytes), right, "text {bytes:02x?}: whether the reference takes it");
    let mut document = [0; 124];
    document[..2].copy_from_slice(&[8, bytes.len() as u8]);
    document[2..][..bytes.len()].copy_from_slice(bytes);
    let answer = if right { packed(0, 1) } else { packed(5, 0) };
    assert_eq!(measure(&document[..2 + bytes.len()]), answer, "text {bytes:02x?}: the library, of a document with it");
}
