//! A table with the room for its document, and what its maker knows of the answer.

use super::parts;
use reference::generate::{shortest, Node};
use reference::rows::Row;

/// The document, or the refusal's number and the number beside it.
pub type Answer = Result<Vec<u8>, (u32, u64)>;

#[derive(Clone, Debug)]
pub struct Case {
    pub table: Vec<u32>,
    pub n: u32,
    pub data: Vec<u8>,
    pub room: usize,
    pub meant: Option<Answer>,
}

pub type Cases = Vec<Case>;

impl Case {
    /// All of these rows, with the answer meant.
    pub fn new(rows: &[Row], data: &[u8], room: usize, meant: Answer) -> Self {
        let table = rows.as_flattened().to_vec();
        Case { table, n: rows.len() as u32, data: data.to_vec(), room, meant: Some(meant) }
    }

    /// Rows that become this document, if there is room for it.
    pub fn becoming(rows: &[Row], data: &[u8], document: &[u8], room: usize) -> Self {
        let needed = document.len();
        let meant = if needed <= room { Ok(document.to_vec()) } else { Err((13, needed as u64)) };
        Case::new(rows, data, room, meant)
    }

    /// Rows that break a rule.
    pub fn bad(rows: &[Row], data: &[u8], room: usize) -> Self {
        Case::new(rows, data, room, Err((12, 0)))
    }

    /// A table for the check, whose maker knows no more than whether it is right.
    pub fn checked(case: parts::Case, room: usize) -> Self {
        let meant = if case.right == Some(false) { Some(Err((12, 0))) } else { None };
        Case { table: case.table, n: case.n, data: case.data, room, meant }
    }

    /// The same table with these numbers behind it.
    pub fn lending(mut self, behind: &[u32]) -> Self {
        self.table.extend(behind);
        self
    }
}

/// Rows in every sort of room for their document: none, too little, one byte too little, just enough, and more.
pub fn in_rooms(rows: &[Row], data: &[u8], document: &[u8]) -> Cases {
    let needed = document.len();
    let mut rooms = vec![0, 1, needed / 2, needed - 1, needed, needed + 1, needed + 9];
    rooms.sort();
    rooms.dedup();
    rooms.into_iter().map(|room| Case::becoming(rows, data, document, room)).collect()
}

/// Rows that stand for a tree: with just enough room for its document, or with a byte less or more.
pub fn in_room(rows: &[Row], data: &[u8], node: &Node) -> Cases {
    let document = shortest(node);
    let needed = document.len();
    [needed - 1, needed, needed + 1].map(|room| Case::becoming(rows, data, &document, room)).to_vec()
}
