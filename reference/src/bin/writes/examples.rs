//! Every example of the paper that says what is written, and those that say what is read.

use super::cases::{in_rooms, Cases};
use super::parts::{array, bytes, damaged, declare, leaf, none, refer, rows_of};
use reference::rows::{kind, Row};
use reference::varint::words;

pub fn writes() -> Cases {
    let mut cases = Vec::new();
    for (kind, value, document) in INTEGERS {
        cases.extend(in_rooms(&integer(kind, value), &[], &bytes(document)));
    }
    for value in -31..=64 {
        cases.extend(in_rooms(&integer(kind::SMALL, value), &[], &[(0x3f + value) as u8]));
    }
    for (document, short) in READ {
        let document = bytes(document);
        cases.extend(in_rooms(&rows_of(&document), &document, &bytes(short)));
    }
    for (size, front) in [(1, "80"), (32, "9f"), (33, "08 21"), (247, "08 f7"), (248, "08 f8 f8")] {
        let rows = leaf(kind::TEXT, [0, size, 0, 0]);
        let text = vec![0x6b; size as usize];
        cases.extend(in_rooms(&rows, &text, &[bytes(front), text.clone()].concat()));
    }
    for number in [0, 61, 62] {
        cases.extend(in_rooms(&referring(number), &[], &declaring(number)));
    }
    let nested = [vec![0xa0; 32], vec![0x02]].concat();
    cases.extend(in_rooms(&rows_of(&nested), &nested, &nested));
    cases.extend(by_hand());
    cases
}

const INTEGERS: [(u32, i128, &str); 6] = [
    (kind::SIGNED, 70_000, "12 70 11 01"),
    (kind::UNSIGNED, 70_000, "1a 70 11 01"),
    (kind::SIGNED, 200, "11 c8 00"),
    (kind::UNSIGNED, 200, "18 c8"),
    (kind::SIGNED, -32, "10 e0"),
    (kind::UNSIGNED, 65, "18 41"),
];

/// Documents as they are read, and as they are written.
const READ: [(&str, &str); 20] = [
    ("02", "02"),
    ("20", "20"),
    ("3f", "3f"),
    ("40", "40"),
    ("7f", "7f"),
    ("18 40", "7f"),
    ("10 40", "7f"),
    ("10 e1", "20"),
    ("18 41", "18 41"),
    ("19 41 00", "18 41"),
    ("0d 0d 01 80 61 a2 c1 c1 c1", "0d 0d 01 80 61 a2 c1 c1 c1"),
    ("a1 0d 00 02 81 61 01", "a1 0d 00 02 81 61 01"),
    ("0d 00 02 02 02", "0d 00 02 02 02"),
    ("0d 0d 01 44 0d 00 01 c1", "0d 0d 01 44 0d 00 01 c1"),
    ("0d 0d 01 44 0d 00 05 0d 0d 01 45 c1", "0d 0d 01 44 0d 00 05 0d 0d 01 45 c1"),
    ("0d 0d 01 44 0d 00 06 0d 0d 01 18 40 c1", "0d 0d 01 44 0d 00 05 0d 0d 01 7f c1"),
    ("c0 ff d7 00", "c0 ff d7 00"),
    ("c0 ff ff 10", "c0 ff ff 10"),
    ("0d 0d 02 44 c1 c2", "0d 0d 02 44 c1 c2"),
    ("0d 00 f8 02 18 40", "0d 00 01 7f"),
];

pub fn integer(kind: u32, value: i128) -> Vec<Row> {
    leaf(kind, words(value as u128))
}

/// A declaration of just so many entries that this number is in force in its value, a reference to the last.
fn referring(number: u32) -> Vec<Row> {
    declare(&vec![none(); number as usize + 1], refer(number, number + 1))
}

/// What that is written as, for numbers below 247.
fn declaring(number: u32) -> Vec<u8> {
    let count = number as u8 + 1;
    let reference = if number <= 61 { vec![0xc1 + number as u8] } else { vec![0xff, number as u8] };
    [vec![0x0d, 0x0d, count], vec![0x02; count as usize], reference].concat()
}

/// The paper's tables, row by row, over data that are no document.
fn by_hand() -> Cases {
    let text = || leaf(kind::TEXT, [1, 1, 0, 0]);
    let entry = || refer(0, 1);
    let tables = [
        (declare(&[text()], array(&[entry(), entry(), entry()])), "0d 0d 01 80 61 a2 c1 c1 c1"),
        (array(&[damaged(2, 2, 2), leaf(kind::TRUE, [0; 4])]), "a1 0d 00 02 81 61 01"),
        (damaged(4, 2, 10), "0d 00 02 02 02"),
        (declare(&[integer(kind::SMALL, 5)], array(&[entry()])), "0d 0d 01 44 a0 c1"),
    ];
    let data = bytes("ff 61 81 61 02 02 ff");
    tables.iter().flat_map(|(rows, document)| in_rooms(rows, &data, &bytes(document))).collect()
}
