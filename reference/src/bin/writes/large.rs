//! Documents of many bytes: long lengths, and documents at the limit and above it. The rows share their bytes.

use super::cases::{Case, Cases};
use super::maker::table_of;
use super::parts::{array, damaged, holder, key, leaf};
use reference::generate::{shortest, Node};
use reference::rows::{kind, Row};

pub fn writes() -> Cases {
    [longest_payloads(), long_bodies(), around_the_limit(), far_above()].concat()
}

const LIMIT: usize = 16_777_215;

fn carrying(kind: u32, size: usize) -> Vec<Row> {
    leaf(kind, [0, size as u32, 0, 0])
}

/// Plain text of so many bytes.
fn plain(size: usize) -> Vec<u8> {
    (0..size).map(|at| 0x20 + ((at ^ at >> 7) % 95) as u8).collect()
}

/// Payloads of 65,535 bytes, the most that the data of a case may have.
fn longest_payloads() -> Cases {
    let data = plain(65_535);
    let record = holder(kind::RECORD, &[key(0, 65_535), carrying(kind::TEXT, 65_535)]);
    let length = [0xf9, 0xff, 0xff];
    let front = [0x0d, 0x00, 0xfa, 0x06, 0x00, 0x02, 0xb0];
    let document = [&front, &length[..], &data, &[0x08], &length, &data].concat();
    let bodies = array(&[damaged(0, 65_535, 10), carrying(kind::BINARY, 65_535)]);
    let second = [&[0xa1, 0x0d, 0x00], &length[..], &data, &[0x0c], &length, &data].concat();
    vec![
        Case::becoming(&holder(kind::FOREIGN, &[record]), &data, &document, document.len() + 4),
        Case::becoming(&bodies, &data, &second, second.len()),
    ]
}

/// Bytes of a length.
fn length_size(length: usize) -> usize {
    match length {
        0x00..=0xf7 => 1,
        0xf8..=0xff => 2,
        0x100..=0xffff => 3,
        0x1_0000..=0xff_ffff => 4,
        _ => 5,
    }
}

/// The sizes of more than 16 binaries, each as large as it may be but the last, whose array is just so many bytes.
fn filling(document: usize, most: usize) -> Vec<usize> {
    let bytes = |size: usize| 1 + length_size(size) + size;
    let last = |count: usize| {
        let left = document.checked_sub(1 + length_size(count) + (count - 1) * bytes(most))?;
        (0..=most).find(|size| bytes(*size) == left).map(|size| (count, size))
    };
    let (count, size) = (17..1_000).find_map(last).expect("a document that may be filled so");
    [vec![most; count - 1], vec![size]].concat()
}

/// Foreign bodies at the edges of lengths of two and three bytes, in others too.
fn long_bodies() -> Cases {
    let mut cases = Vec::new();
    for (size, levels) in [(65_530, 1), (65_535, 1), (65_536, 1), (65_530, 2), (65_531, 2), (65_500, 8), (70_000, 31)] {
        let payload = |size: usize| Node::Binary(plain(size));
        let body = Node::Array(filling(size, 240).into_iter().map(payload).collect());
        let node = (0..levels).fold(body, |body, _| Node::Foreign(Box::new(body)));
        let (rows, data) = table_of(&node);
        let document = shortest(&node);
        let room = document.len() + levels % 3 * 5;
        cases.push(Case::becoming(&rows, &data, &document, room));
        if levels > 2 {
            cases.push(Case::becoming(&rows, &data, &document, document.len() - 1));
        }
    }
    cases
}

/// "document above 16,777,215 bytes": an array of so many bytes, in so many foreign documents.
fn around_the_limit() -> Cases {
    let data = plain(26_000);
    let mut cases = Vec::new();
    for (size, levels, room) in [(LIMIT + 1, 0, 64), (LIMIT - 6, 1, 0), (LIMIT + 1, 1, 20), (LIMIT, 31, 1)] {
        let binaries: Vec<Vec<Row>> =
            filling(size, data.len()).into_iter().map(|size| carrying(kind::BINARY, size)).collect();
        let rows = (0..levels).fold(array(&binaries), |rows, _| holder(kind::FOREIGN, &[rows]));
        let needed = (0..levels).fold(size, |size, _| 2 + length_size(size) + size);
        cases.push(Case::new(&rows, &data, room, Err((if needed > LIMIT { 1 } else { 13 }, needed as u64))));
    }
    // "The writer asks 12, 1, 13".
    let mut broken = cases[0].clone();
    *broken.table.last_mut().unwrap() = 1;
    broken.meant = Some(Err((12, 0)));
    cases.push(broken);
    cases
}

/// 300 rows over the same 60,000 bytes, in a foreign document whose length has four bytes.
fn far_above() -> Cases {
    let data = plain(60_000);
    let entry = [key(0, 60_000), carrying(kind::TEXT, 60_000)];
    let record = holder(kind::FOREIGN, &[holder(kind::RECORD, &vec![entry; 150].concat())]);
    vec![Case::new(&record, &data, 10, Err((1, 7 + 2 + 150 * (60_003 + 60_004))))]
}
