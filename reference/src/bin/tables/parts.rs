//! Tables row by row: read from a document, or put together by hand.

use reference::fill::fill;
use reference::measure::measure;
use reference::rows::{kind, lent, Row};

/// A table with n and its data, and whether it is right, where its maker knows.
#[derive(Clone, Debug)]
pub struct Case {
    pub table: Vec<u32>,
    pub n: u32,
    pub data: Vec<u8>,
    pub right: Option<bool>,
}

pub type Cases = Vec<Case>;

impl Case {
    /// The table of these rows, all of them used.
    pub fn new(rows: &[Row], data: &[u8], right: bool) -> Self {
        let table = rows.as_flattened().to_vec();
        Case { table, n: rows.len() as u32, data: data.to_vec(), right: Some(right) }
    }

    /// The same table with these numbers behind it, which no rule asks about.
    pub fn lending(mut self, behind: &[u32]) -> Self {
        self.table.extend(behind);
        self
    }
}

pub fn bytes(hex: &str) -> Vec<u8> {
    hex.split_whitespace().map(|pair| u8::from_str_radix(pair, 16).unwrap()).collect()
}

/// The rows that the reader makes of a right document, in a table of just so many.
pub fn rows_of(document: &[u8]) -> Vec<Row> {
    let mut table = vec![0; 6 * measure(document).expect("a right document")];
    fill(document, &mut table).expect("rows enough");
    lent(&table).to_vec()
}

/// A row and what it holds, with ends counted from that row; those of the children are moved behind it.
/// The rows that references name stay as they are given.
pub fn part(kind: u32, [w0, w1, w2, w3]: [u32; 4], children: &[Vec<Row>]) -> Vec<Row> {
    let mut rows = vec![[kind, 0, w0, w1, w2, w3]];
    for child in children {
        let before = rows.len() as u32;
        rows.extend(child.iter().map(|&[kind, end, w0, w1, w2, w3]| [kind, end + before, w0, w1, w2, w3]));
    }
    rows[0][1] = rows.len() as u32;
    rows
}

pub fn leaf(kind: u32, words: [u32; 4]) -> Vec<Row> {
    part(kind, words, &[])
}

pub fn none() -> Vec<Row> {
    leaf(kind::NONE, [0; 4])
}

pub fn key(place: u32, size: u32) -> Vec<Row> {
    leaf(kind::KEY, [place, size, 0, 0])
}

pub fn refer(number: u32, row: u32) -> Vec<Row> {
    leaf(kind::REFERENCE, [number, row, 0, 0])
}

pub fn damaged(place: u32, size: u32, verdict: u32) -> Vec<Row> {
    leaf(kind::FOREIGN, [place, size, verdict, 0])
}

/// A holder that says how many it holds.
pub fn holder(kind: u32, children: &[Vec<Row>]) -> Vec<Row> {
    let count = match kind {
        kind::ARRAY => children.len() as u32,
        kind::RECORD | kind::MAP => children.len() as u32 / 2,
        kind::DECLARATION => children.len() as u32 - 1,
        _ => 0,
    };
    part(kind, [count, 0, 0, 0], children)
}

/// An array of these.
pub fn array(children: &[Vec<Row>]) -> Vec<Row> {
    holder(kind::ARRAY, children)
}

/// A declaration of these entries before its value.
pub fn declare(entries: &[Vec<Row>], value: Vec<Row>) -> Vec<Row> {
    holder(kind::DECLARATION, &[entries, &[value]].concat())
}

/// Every way to hold a position one level down. A key is the first byte of the data.
pub const WAYS: [fn(Vec<Row>) -> Vec<Row>; 7] = [
    |held| array(&[held]),
    |held| holder(kind::RECORD, &[key(0, 1), held]),
    |held| holder(kind::MAP, &[held, none()]),
    |held| holder(kind::MAP, &[none(), held]),
    |held| declare(&[held], none()),
    |held| declare(&[none()], held),
    |held| holder(kind::FOREIGN, &[held]),
];

/// A part so many levels down, each the way it says.
pub fn deep(levels: usize, way: impl Fn(usize) -> usize, bottom: Vec<Row>) -> Vec<Row> {
    (0..levels).rev().fold(bottom, |held, level| WAYS[way(level)](held))
}
