//! Tables that the reader made, with one word of one row changed so that a rule is broken.

use super::parts::{rows_of, Case, Cases};
use super::right::{holders, leaves};
use reference::rows::{kind, Row};
use reference::varint::words;

pub fn broken_rows() -> Cases {
    let mut cases = Vec::new();
    for (document, row) in leaves() {
        let rows = rows_of(&document);
        // Bytes behind the document, so that a wrong size stays within the data.
        let tail = if carries(&rows[row]) { &[0x6b; 40][..] } else { &[] };
        let data = [&document, tail].concat();
        cases.push(Case::new(&rows, &data, true));
        cases.extend(with_row(&rows, row, &data, wrong_rows(&rows, row, &data)));
    }
    for document in holders() {
        let rows = rows_of(&document);
        for row in 0..rows.len() {
            let wrong = match rows[row][0] {
                kind::ARRAY..=kind::MAP | kind::REFERENCE..=kind::KEY => wrong_rows(&rows, row, &document),
                _ => [wrong_ends(rows[row], row), with(rows[row], 0, &[0, kind::KEY])].concat(),
            };
            cases.extend(with_row(&rows, row, &document, wrong));
        }
    }
    cases
}

/// Whether a row has a place and a size.
fn carries(row: &Row) -> bool {
    matches!(row[0], kind::FLOAT | kind::TEXT | kind::BINARY | kind::KEY) || row[0] == kind::FOREIGN && row[4] != 0
}

/// The table with each of these wrong rows instead of a right one.
fn with_row(rows: &[Row], row: usize, data: &[u8], wrong: Vec<Row>) -> Cases {
    let change = |changed| {
        let mut rows = rows.to_vec();
        rows[row] = changed;
        Case::new(&rows, data, false)
    };
    wrong.into_iter().filter(|changed| *changed != rows[row]).map(change).collect()
}

/// A row with one of its words wrong, each in several ways.
fn wrong_rows(rows: &[Row], row: usize, data: &[u8]) -> Vec<Row> {
    let right = rows[row];
    [wrong_kinds(right), wrong_ends(right, row), wrong_blanks(right), wrong_words(right, row, data.len() as u32)]
        .concat()
}

/// The row with each of these numbers as one of its words.
fn with(row: Row, word: usize, numbers: &[u32]) -> Vec<Row> {
    let change = |&number| {
        let mut row = row;
        row[word] = number;
        row
    };
    numbers.iter().map(change).collect()
}

/// No kind at all; a key at a value position, or anything else where a key stands.
fn wrong_kinds(row: Row) -> Vec<Row> {
    let mut wrong = with(row, 0, &[0, 18, 255, u32::MAX]);
    if row[0] == kind::KEY {
        wrong.extend(with(row, 0, &[kind::NONE, kind::TEXT, kind::ARRAY, kind::BINARY]));
    } else {
        wrong.extend(with(row, 0, &[kind::KEY]));
    }
    wrong
}

/// An end follows from all else, so every other one is wrong.
fn wrong_ends(row: Row, at: usize) -> Vec<Row> {
    with(row, 1, &[row[1] - 1, row[1] + 1, at as u32, 0, u32::MAX])
}

/// Each word that the kind does not name, other than 0.
fn wrong_blanks(row: Row) -> Vec<Row> {
    let named = match row[0] {
        kind::FALSE..=kind::NONE => 0,
        kind::SMALL..=kind::UNSIGNED => 4,
        kind::ARRAY..=kind::MAP | kind::CHAR | kind::DECLARATION => 1,
        kind::FOREIGN if row[4] == 0 => 0,
        kind::FOREIGN => 3,
        _ => 2,
    };
    (2 + named..6).flat_map(|word| with(row, word, &[1])).collect()
}

/// The words that the kind names, out of their range.
fn wrong_words(row: Row, at: usize, length: u32) -> Vec<Row> {
    let [kind, _, w0, w1, w2, _] = row;
    match kind {
        kind::SMALL => integers(row, &[65, 66, 255, 1 << 31, 1 << 32, i128::MAX, -32, -33, -255, i128::MIN]),
        kind::SIGNED => integers(row, &[-31, -30, -1, 0, 1, 63, 64]),
        kind::UNSIGNED => integers(row, &[0, 1, 63, 64]),
        kind::FLOAT => {
            let sizes = with(row, 3, &[0, 1, 3, 5, 6, 7, 9, 12, 15, 17, 24, 31, 33, 40, u32::MAX]);
            [sizes, wrong_places(row, length)].concat()
        }
        kind::TEXT | kind::BINARY | kind::KEY => [wrong_places(row, length), wrong_sizes(row, length)].concat(),
        kind::CHAR => with(row, 2, &[0xd800, 0xdbff, 0xdc00, 0xdfff, 0x11_0000, 0xff_ffff, 1 << 24, u32::MAX]),
        kind::ARRAY | kind::RECORD | kind::MAP | kind::DECLARATION => {
            // Twice 2^31 more is as much again in 32 bits, and one more than the largest number is 0.
            with(row, 2, &[w0 + 1, w0.wrapping_sub(1), 0, w0 | 1 << 31, u32::MAX])
        }
        kind::REFERENCE => {
            let at = at as u32;
            let numbers = with(row, 2, &[w0 + 1, w0.wrapping_sub(1), u32::MAX]);
            [numbers, with(row, 3, &[w1 + 1, w1 - 1, 0, at, u32::MAX])].concat()
        }
        kind::FOREIGN if w2 != 0 => {
            let verdicts = with(row, 4, &Vec::from_iter((0..=12).chain([w2 + 256])));
            let verdicts = verdicts.into_iter().filter(|wrong| wrong[4] != w2).collect();
            [verdicts, wrong_places(row, length), wrong_sizes(row, length)].concat()
        }
        _ => Vec::new(),
    }
}

/// The row with each of these values instead of its own.
fn integers(row: Row, values: &[i128]) -> Vec<Row> {
    let change = |value: &i128| {
        let [w0, w1, w2, w3] = words(*value as u128);
        [row[0], row[1], w0, w1, w2, w3]
    };
    values.iter().map(change).collect()
}

/// Places from which the size runs past the data, in 32 bits round to 0 or behind it.
fn wrong_places(row: Row, length: u32) -> Vec<Row> {
    let size = row[3];
    let round = 0u32.wrapping_sub(size);
    let places = [length + 1 - size, length + 1, 1 << 31, round, round.wrapping_add(1), u32::MAX];
    with(row, 2, &places.into_iter().filter(|place| *place > length - size).collect::<Vec<u32>>())
}

/// Sizes with which the row runs past the data, in 32 bits round to 0 or behind it.
fn wrong_sizes(row: Row, length: u32) -> Vec<Row> {
    let place = row[2];
    let round = 0u32.wrapping_sub(place);
    let sizes = [length + 1 - place, length + 1, 1 << 31, round, round.wrapping_add(1), u32::MAX];
    with(row, 3, &sizes.into_iter().filter(|size| *size > length - place).collect::<Vec<u32>>())
}
