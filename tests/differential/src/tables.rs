//! Tables: what the reader gives, made by others from nothing, and changed.

use reference::generate::{Random, DAMAGED};
use reference::rows::kind;

/// A table, the rows it is said to have, and its data.
#[derive(Clone)]
pub struct Table {
    pub words: Vec<u32>,
    pub n: usize,
    pub data: Vec<u8>,
}

/// A table whose payloads lie anywhere in the data, one over another and in any order. It is right, unless a foreign
/// body in it refers to what is around it.
pub fn made(random: &mut Random) -> Table {
    let mut maker = Maker { random, words: Vec::new(), data: Vec::new(), parts: Vec::new(), damaged: Vec::new() };
    maker.lay_data();
    let mut rows = maker.random.one_of(&[1, 3, 6, 12, 30, 90]);
    maker.value(0, &[], &mut rows);
    let n = maker.words.len() / 6;
    for _ in 0..maker.random.one_of(&[0, 0, 1, 5, 6, 13]) {
        let word = maker.random.number() as u32;
        maker.words.push(word);
    }
    Table { words: maker.words, n, data: maker.data }
}

struct Maker<'a> {
    random: &'a mut Random,
    words: Vec<u32>,
    data: Vec<u8>,
    /// Places and sizes of texts.
    parts: Vec<(usize, usize)>,
    damaged: Vec<(usize, usize, u32)>,
}

impl Maker<'_> {
    fn lay_data(&mut self) {
        for _ in 0..self.random.below(8) {
            match self.random.below(4) {
                0 => {
                    let size = self.random.below(40);
                    let bytes = self.random.bytes(size);
                    self.data.extend(bytes);
                }
                1 => {
                    let (body, verdict) = self.random.one_of(&DAMAGED);
                    self.damaged.push((self.data.len(), body.len(), verdict));
                    self.data.extend(body);
                }
                _ => {
                    let text = self.random.one_of(&[
                        "k",
                        "passage",
                        "é€😀",
                        "",
                        "twenty-four bytes of text",
                        "a text of more than thirty-two bytes",
                    ]);
                    self.parts.push((self.data.len(), text.len()));
                    self.data.extend(text.as_bytes());
                }
            }
        }
    }

    fn text(&mut self) -> [u32; 4] {
        let (place, size) = if self.parts.is_empty() || self.random.below(6) == 0 {
            (self.random.below(self.data.len() + 1), 0)
        } else {
            self.random.one_of(&self.parts)
        };
        [place as u32, size as u32, 0, 0]
    }

    /// Lays one value and its children; a holder's row is set when its end is known.
    fn value(&mut self, depth: u32, entries: &[u32], rows: &mut usize) {
        *rows = rows.saturating_sub(1);
        let row = self.words.len() / 6;
        self.words.extend([0; 6]);
        let (kind, words) = if depth == 32 || *rows == 0 || self.random.below(3) == 0 {
            self.leaf(depth, entries)
        } else {
            self.holder(depth + 1, entries, rows)
        };
        let end = (self.words.len() / 6) as u32;
        self.words[6 * row..][..2].copy_from_slice(&[kind, end]);
        self.words[6 * row + 2..][..4].copy_from_slice(&words);
    }

    fn leaf(&mut self, depth: u32, entries: &[u32]) -> (u32, [u32; 4]) {
        match self.random.below(14) {
            0 => (self.random.one_of(&[kind::FALSE, kind::TRUE, kind::NONE]), [0; 4]),
            1 => (kind::SMALL, split((self.random.below(96) as i128 - 31) as u128)),
            2 => (kind::SIGNED, split((65 + self.random.wide() / 2) & (u128::MAX >> 1))),
            3 => (kind::SIGNED, split(!(31 + self.random.wide() / 2) | 1 << 127)),
            4 => (kind::UNSIGNED, split(self.random.wide().max(65))),
            5 => {
                let size = self.random.one_of(&[2, 4, 8, 16, 32]);
                match self.data.len().checked_sub(size) {
                    Some(most) => (kind::FLOAT, [self.random.below(most + 1) as u32, size as u32, 0, 0]),
                    None => (kind::NONE, [0; 4]),
                }
            }
            6 | 7 => (kind::TEXT, self.text()),
            8 => {
                let place = self.random.below(self.data.len() + 1);
                let size = self.random.below(self.data.len() - place + 1);
                (kind::BINARY, [place as u32, size as u32, 0, 0])
            }
            9 => (kind::CHAR, [self.random.one_of(&[0, 0x61, 0xd7ff, 0xe000, 0x10ffff]), 0, 0, 0]),
            10 | 11 if !entries.is_empty() => {
                let number = self.random.below(entries.len());
                (kind::REFERENCE, [number as u32, entries[number], 0, 0])
            }
            12 if !self.damaged.is_empty() => {
                let (place, size, verdict) = self.random.one_of(&self.damaged);
                (kind::FOREIGN, [place as u32, size as u32, if depth == 32 { 9 } else { verdict }, 0])
            }
            _ => (kind::TRUE, [0; 4]),
        }
    }

    fn holder(&mut self, depth: u32, entries: &[u32], rows: &mut usize) -> (u32, [u32; 4]) {
        let count = self.random.one_of(&[0, 1, 1, 2, 3, 9, 17]);
        let held = match self.random.below(6) {
            0 | 1 => {
                (0..count).for_each(|_| self.value(depth, entries, rows));
                kind::ARRAY
            }
            2 => {
                for _ in 0..count {
                    let [place, size, ..] = self.text();
                    let end = (self.words.len() / 6) as u32 + 1;
                    self.words.extend([kind::KEY, end, place, size, 0, 0]);
                    self.value(depth, entries, rows);
                }
                kind::RECORD
            }
            3 => {
                (0..2 * count).for_each(|_| self.value(depth, entries, rows));
                kind::MAP
            }
            4 => {
                let count = count.max(1);
                let mut own = Vec::new();
                for _ in 0..count {
                    let row = (self.words.len() / 6) as u32;
                    self.value(depth, &own, rows);
                    own.push(row);
                }
                self.value(depth, &own, rows);
                return (kind::DECLARATION, [count as u32, 0, 0, 0]);
            }
            _ => {
                // no entry around a body is seen in it; now and then it refers to one, and the table is bad
                let seen = if self.random.below(6) == 0 { entries } else { &[] };
                self.value(depth, seen, rows);
                return (kind::FOREIGN, [0; 4]);
            }
        };
        (held, [count as u32, 0, 0, 0])
    }
}

fn split(value: u128) -> [u32; 4] {
    [value as u32, (value >> 32) as u32, (value >> 64) as u32, (value >> 96) as u32]
}

/// One to three changes: a word, a row, the number of rows, or the data.
pub fn change(table: &mut Table, random: &mut Random) {
    for _ in 0..1 + random.below(3) {
        let rows = table.words.len() / 6;
        match random.below(16) {
            0..=9 if rows > 0 => {
                let at = 6 * random.below(table.n.clamp(1, rows)) + random.below(6);
                table.words[at] = word(table, at, random);
            }
            10 if rows > 1 => {
                let (a, b) = (random.below(rows), random.below(rows));
                (0..6).for_each(|i| table.words.swap(6 * a + i, 6 * b + i));
            }
            11 if rows > 1 => {
                let (from, to) = (random.below(rows), random.below(rows));
                table.words.copy_within(6 * from..6 * from + 6, 6 * to);
            }
            12 => table.n = random.one_of(&[0, 1, rows, rows + 1, table.n + 1, table.n.saturating_sub(1)]),
            13 => {
                let keep = random.below(table.data.len() + 1);
                table.data.truncate(keep);
            }
            14 if !table.data.is_empty() => {
                let at = random.below(table.data.len());
                table.data[at] = random.number() as u8;
            }
            15 if !table.words.is_empty() => {
                let keep = table.words.len() - 1 - random.below(table.words.len().min(13));
                table.words.truncate(keep);
            }
            _ => {}
        }
    }
}

/// A word that may be wrong by little, or by much.
fn word(table: &Table, at: usize, random: &mut Random) -> u32 {
    let now = table.words[at];
    match random.below(8) {
        0 => now.wrapping_add(1),
        1 => now.wrapping_sub(1),
        2 => random.below(20) as u32,
        3 => random.below(table.n.saturating_add(2).min(1 << 25)) as u32,
        4 => (table.data.len() + random.below(3)) as u32,
        5 => now ^ 1 << random.below(32),
        6 => random.one_of(&[
            0,
            1,
            2,
            65,
            0xffff_ffff,
            0xffff_ffe0,
            0x8000_0000,
            0xd800,
            0x110000,
            0x00ff_ffff,
            0x0100_0000,
        ]),
        _ => random.number() as u32,
    }
}
