//! The check: whether a table keeps the row rules.

use crate::measure;
use crate::refusal::{Fault, Refusal};
use crate::registry::Registry;
use crate::rows::{is_codepoint, is_small, kind, lent, Row};
use crate::text::is_text;
use crate::{DEPTH, LIMIT};

/// Accepts n rows that keep every row rule over the data, and refuses others with 12.
pub fn check(table: &[u32], n: usize, data: &[u8]) -> Result<(), Refusal> {
    let limit = LIMIT as usize;
    match lent(table).get(..n) {
        Some(rows) if (1..=limit).contains(&n) && data.len() <= limit => {
            match (Check { rows, data }).value(0, n, 0, &Registry::EMPTY) {
                Some(end) if end == n => Ok(()),
                _ => Err(Refusal::bare(Fault::BadTable)),
            }
        }
        _ => Err(Refusal::bare(Fault::BadTable)),
    }
}

struct Check<'a> {
    rows: &'a [Row],
    data: &'a [u8],
}

impl Check<'_> {
    /// The end of a row that keeps the rules with all its children; `bound` is its holder's end.
    fn value(&self, row: usize, bound: usize, depth: u32, registry: &Registry) -> Option<usize> {
        if row >= bound || depth > DEPTH {
            return None;
        }
        let [kind, end, words @ ..] = self.rows[row];
        let (first, end) = (row + 1, end as usize);
        if end > bound {
            return None;
        }
        let last = match (kind, words) {
            (kind::FALSE | kind::TRUE | kind::NONE, [0, 0, 0, 0]) => first,
            (kind::SMALL, _) if is_small(words) => first,
            (kind::SIGNED, _) if !is_small(words) => first,
            (kind::UNSIGNED, _) if !matches!(words, [0..=64, 0, 0, 0]) => first,
            (kind::FLOAT, [place, size @ (2 | 4 | 8 | 16 | 32), 0, 0]) => self.part(place, size).map(|_| first)?,
            (kind::TEXT, [place, size, 0, 0]) if self.is_text(place, size) => first,
            (kind::BINARY, [place, size, 0, 0]) => self.part(place, size).map(|_| first)?,
            (kind::CHAR, [codepoint, 0, 0, 0]) if is_codepoint(codepoint) => first,
            (kind::ARRAY, [count, 0, 0, 0]) => self.elements(first, end, count as u64, depth + 1, registry)?,
            (kind::RECORD, [count, 0, 0, 0]) => self.entries(first, end, count, depth + 1, registry)?,
            (kind::MAP, [count, 0, 0, 0]) => self.elements(first, end, 2 * count as u64, depth + 1, registry)?,
            (kind::REFERENCE, [number, entry, 0, 0])
                if number < registry.force() && entry == registry.row(self.rows, number) =>
            {
                first
            }
            (kind::DECLARATION, [count @ 1..=u32::MAX, 0, 0, 0]) => self.declaration(first, end, count, depth + 1)?,
            (kind::FOREIGN, [0, 0, 0, 0]) => self.value(first, end, depth + 1, &Registry::EMPTY)?,
            (kind::FOREIGN, [place, size, verdict, 0]) if self.verdict(place, size, depth + 1) == Some(verdict) => {
                first
            }
            _ => return None,
        };
        (last == end).then_some(end)
    }

    /// So many rows back to back; the end of the last.
    fn elements(&self, first: usize, bound: usize, count: u64, depth: u32, registry: &Registry) -> Option<usize> {
        let mut next = first;
        for _ in 0..count {
            next = self.value(next, bound, depth, registry)?;
        }
        Some(next)
    }

    /// Keys and values of a record in turn; the end of the last.
    fn entries(&self, first: usize, bound: usize, count: u32, depth: u32, registry: &Registry) -> Option<usize> {
        let mut next = first;
        for _ in 0..count {
            match self.rows.get(next) {
                Some(&[kind::KEY, end, place, size, 0, 0]) if end as usize == next + 1 && self.is_text(place, size) => {
                    next = self.value(next + 1, bound, depth, registry)?;
                }
                _ => return None,
            }
        }
        Some(next)
    }

    /// Entry i under the i before it, then the value under all; the value's end.
    #[inline(never)]
    fn declaration(&self, first: usize, bound: usize, count: u32, depth: u32) -> Option<usize> {
        let mut registry = Registry::of(count);
        let mut next = first;
        for _ in 0..count {
            let row = next;
            next = self.value(row, bound, depth, &registry)?;
            registry.enter(row);
        }
        self.value(next, bound, depth, &registry)
    }

    /// The number under which those bytes are refused as a document there, with no entry in force (request §2).
    fn verdict(&self, place: u32, size: u32, depth: u32) -> Option<u32> {
        self.part(place, size)?;
        let end = place as usize + size as usize;
        let refused = measure::body(&self.data[..end], place as usize, depth).err()?;
        Some(refused.number())
    }

    fn is_text(&self, place: u32, size: u32) -> bool {
        self.part(place, size).is_some_and(is_text)
    }

    fn part(&self, place: u32, size: u32) -> Option<&[u8]> {
        self.data.get(place as usize..)?.get(..size as usize)
    }
}
