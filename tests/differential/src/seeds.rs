//! The corpus: inputs that the fuzzer begins with, and the run over all that were kept.

use crate::documents::document;
use crate::tables::made;
use compare::{input, Compare, Tally};
use reference::generate::Random;
use std::fs;
use std::path::Path;

/// The paper's documents, and at the end those of request §2.
const PAPER: [&[u8]; 36] = [
    &[],
    &[0x02],
    &[0x02, 0x02],
    &[0x20],
    &[0x3f],
    &[0x40],
    &[0x7f],
    &[0x18, 0x40],
    &[0x18, 0x41],
    &[0x12, 0x70, 0x11, 0x01],
    &[0x1a, 0x70, 0x11, 0x01],
    &[0x11, 0xc8, 0x00],
    &[0x18, 0xc8],
    &[0x10, 0xe0],
    &[0x0d, 0x0d, 0x01, 0x80, 0x61, 0xa2, 0xc1, 0xc1, 0xc1],
    &[0xc1],
    &[0x0d, 0x0d, 0x01, 0xc1, 0x02],
    &[0x0d, 0x0d, 0x00, 0x02],
    &[0xa1, 0x0d, 0x00, 0x02, 0x81, 0x61, 0x01],
    &[0x0d, 0x00, 0x02, 0x02, 0x02],
    &[0x0d, 0x00, 0x05, 0x02],
    &[0x0d, 0x0d, 0x01, 0x44, 0x0d, 0x00, 0x01, 0xc1],
    &[0xc0, 0xff, 0xd7, 0x00],
    &[0xc0, 0xff, 0xff, 0x10],
    &[0xc0, 0x00, 0xd8, 0x00],
    &[0xc0, 0x00, 0x00, 0x11],
    &[0x81, 0xc0, 0x80],
    &[0x0d, 0x0d, 0x02, 0x44, 0xc1, 0xc2],
    &[0x0d, 0x00, 0x00],
    &[0x09, 0xfa, 0xff, 0xff, 0xff],
    &[0xa1, 0x02],
    &[0x0d, 0x0d, 0xf8, 0x00],
    &[0x08, 0x01, 0x61],
    &[0x0d, 0x0d, 0x01, 0x44, 0xa1, 0x0d, 0x00, 0x05, 0x0d, 0x0d, 0x01, 0x45, 0xc1, 0xc1],
    &[0x0d, 0x00, 0x08, 0x0d, 0x0d, 0x01, 0x44, 0x0d, 0x00, 0x01, 0xc1],
    &[0x0d, 0x0d, 0x02, 0x44, 0x0d, 0x00, 0x01, 0xc1, 0x02],
];

/// These documents, each as one input.
pub fn paper(folder: &str) {
    let deep = [32, 33].map(|levels| [&vec![0xa0; levels][..], &[0x02]].concat());
    let documents = PAPER.iter().copied().chain(deep.iter().map(Vec::as_slice));
    keep(folder, "paper", documents.map(|document| [&[0], document].concat()));
}

/// Inputs of every form of `compare::input`.
pub fn write(folder: &str) {
    let random = &mut Random::new(1);
    let inputs = (0..300).flat_map(|_| {
        let document = document(random);
        let change = [1, 1, random.below(60) as u8, 0, random.below(20) as u8, 0, 0, 0];
        let table = made(random);
        let [low, high] = (table.words.len() as u16).to_le_bytes();
        let words: Vec<u8> = table.words.iter().flat_map(|word| word.to_le_bytes()).collect();
        let more = (table.n as isize - table.words.len() as isize / 6) as u8;
        let marker = random.one_of(&[0x7c, 0xf8]) + random.below(8) as u8;
        [
            [&[0], &document[..]].concat(),
            [&change, &document[..]].concat(),
            [&[2, more, low, high], &words[..], &table.data].concat(),
            [&[3, marker], &random.bytes(17)[..]].concat(),
        ]
    });
    keep(folder, "seed", inputs);
}

fn keep(folder: &str, name: &str, inputs: impl Iterator<Item = Vec<u8>>) {
    fs::create_dir_all(folder).expect("a folder for the inputs");
    for (i, bytes) in inputs.enumerate() {
        fs::write(Path::new(folder).join(format!("{name}-{i:04}")), bytes).expect("room for the inputs");
    }
}

/// Every file of the corpus; a difference names the file.
pub fn replay(folder: &str) -> Tally {
    let mut compare = Compare::default();
    let mut paths: Vec<_> = fs::read_dir(folder).expect("a corpus").map(|entry| entry.unwrap().path()).collect();
    paths.sort();
    for path in &paths {
        compare.origin = path.display().to_string();
        input::run(&mut compare, &fs::read(path).expect("a file of the corpus"));
    }
    println!("{folder}: {} files", paths.len());
    compare.tally
}
