//! Payloads of every kind at the edges of the data.

use super::asks::{payload_of, Ask, Case, Cases};
use reference::rows::{kind, Row};

pub fn walks() -> Cases {
    let mut cases = edges();
    cases.push(longest());
    cases.extend(kinds());
    cases.extend(lent_rows());
    cases
}

const CARRYING: [u32; 4] = [kind::FLOAT, kind::TEXT, kind::BINARY, kind::KEY];

/// A payload's row, by its number. The end is not asked about.
fn carrying(kind: u32, row: usize, place: u32, size: u32) -> Row {
    [kind, row as u32 * 3, place, size, 7, 7]
}

/// Asks for every row, and says what each has to have; n plays no part.
fn asked(rows: &[Row], data: &[u8], n: u32) -> Case {
    let ask = |(row, &[kind, _, place, size, ..]): (usize, &Row)| {
        let whole = place as u64 + size as u64 <= data.len() as u64;
        payload_of(row).meaning(if CARRYING.contains(&kind) && whole { size } else { 0 })
    };
    let asks = rows.iter().enumerate().map(ask).collect();
    Case { n, data: data.to_vec(), ..Case::new(rows, asks) }
}

/// Places and sizes at the edges, and where their sum wraps in 32 bits.
fn edges() -> Cases {
    let mut cases = Vec::new();
    for (at, length) in [0u32, 1, 4, 33, 300].into_iter().enumerate() {
        let data: Vec<u8> = (0..length).map(|byte| (byte * 37 + 1) as u8).collect();
        let half = length / 2;
        let ends = [0, 1, half, length.saturating_sub(1), length, length + 1, 1 << 31, MOST - length, MOST - 3, MOST];
        let pairs = ends.into_iter().flat_map(|place| ends.map(|size| (place, size)));
        let rows = pairs.enumerate().map(|(row, (place, size))| carrying(CARRYING[(row + at) % 4], row, place, size));
        cases.push(asked(&rows.collect::<Vec<_>>(), &data, at as u32));
    }
    cases
}

const MOST: u32 = u32::MAX;

/// The longest data of these cases, whole and a byte too far.
fn longest() -> Case {
    let data: Vec<u8> = (0..4096u32).map(|byte| (byte ^ byte >> 8) as u8).collect();
    let parts = [(0, 4096), (0, 4097), (1, 4095), (1, 4096), (4095, 1), (4096, 0), (4096, 1), (4097, 0), (2048, 2048)];
    let rows = parts.into_iter().enumerate().map(|(row, (place, size))| carrying(kind::BINARY, row, place, size));
    asked(&rows.collect::<Vec<_>>(), &data, 1)
}

/// Every kind, and numbers that are none: only four have a payload, a damaged body has not.
fn kinds() -> Cases {
    let none = [18, 23, 255, 256, 263, 264, 1 << 16 | 8, 1 << 31 | 12, MOST];
    let mut cases = Vec::new();
    for (place, size) in [(0, 5), (2, 3), (3, 0), (0, 6), (5, 1), (1, 2)] {
        let rows: Vec<Row> =
            (0..=17).chain(none).enumerate().map(|(row, kind)| carrying(kind, row, place, size)).collect();
        cases.push(asked(&rows, b"\x00k\xff\x80z", rows.len() as u32));
    }
    cases
}

/// "a row not in the table": by the words lent alone, whatever n is, and an incomplete row is none.
fn lent_rows() -> Cases {
    let rows: Vec<Row> = (0..5).map(|row| carrying(CARRYING[row % 4], row, row as u32, 2)).collect();
    let table = rows.as_flattened();
    let mut cases = Vec::new();
    for words in 0..=table.len() {
        let size = |row: usize| if 6 * row + 6 <= words { 2 } else { 0 };
        let ask = |row: usize| payload_of(row).meaning(size(row));
        let beyond = [1 << 24, 1 << 31, MOST as usize / 6, MOST as usize / 6 + 1, MOST as usize];
        let asks: Vec<Ask> = (0..8).chain(beyond).map(ask).collect();
        for n in [0, 3, 5, MOST] {
            cases.push(Case { table: table[..words].to_vec(), n, data: b"abcdefgh".to_vec(), asks: asks.clone() });
        }
    }
    cases
}
