//! Filling: document to table. The document is measured whole; then the rows of one that fits are laid.

use crate::head::{codepoint, head, key, Head};
use crate::measure::{self, Measure};
use crate::refusal::{Fault, Refusal};
use crate::registry::Registry;
use crate::rows::{is_small, kind, lent, lent_mut, Row};
use crate::varint::{signed_body, small_words, unsigned_body, words, Words};

/// Fills a table with a document's rows; the rows used. All other numbers of the table are 0 afterwards.
pub fn fill(data: &[u8], table: &mut [u32]) -> Result<usize, Refusal> {
    match fitting(data, lent(table).len()) {
        Ok(document) => {
            let (used, rest) = table.split_at_mut(6 * document.rows);
            lay(data, lent_mut(used), document.sound);
            rest.fill(0);
            Ok(document.rows)
        }
        Err(refusal) => {
            table.fill(0);
            Err(refusal)
        }
    }
}

/// Measures a document that is right and fits in so many rows.
fn fitting(data: &[u8], lent: usize) -> Result<Measure, Refusal> {
    let document = measure::whole(data)?;
    if document.rows > lent {
        return Err(Refusal::at(Fault::Full, document.rows));
    }
    Ok(document)
}

/// Lays all rows of a right document; there are as many as it needs. A sound one has no damaged body.
fn lay(data: &[u8], rows: &mut [Row], sound: bool) {
    Fill { data, rows, used: 0, sound }.value(0, 0, &Registry::EMPTY);
}

struct Fill<'a> {
    data: &'a [u8],
    rows: &'a mut [Row],
    used: usize,
    /// Whether every foreign body still to come is known to be right.
    sound: bool,
}

/// The head at a place that measuring accepted.
#[inline(always)]
fn measured(head: Result<Head, Fault>) -> Head {
    head.unwrap_or_else(|_| unreachable!("measuring refused nothing here"))
}

impl Fill<'_> {
    /// Writes the row of one position, a holder's behind its children's; the place behind it.
    #[inline(always)]
    fn value(&mut self, at: usize, depth: u32, registry: &Registry) -> usize {
        let head = measured(head(self.data, at));
        let (kind, words) = match head.kind {
            kind::SMALL => (kind::SMALL, small_words(self.data[at] as i32 - 0x3f)),
            kind::SIGNED | kind::UNSIGNED => integer(head.kind, &self.data[head.place..head.next]),
            kind::FLOAT | kind::TEXT | kind::BINARY => (head.kind, [head.place as u32, head.number, 0, 0]),
            kind::CHAR => (kind::CHAR, [codepoint(&self.data[head.place..head.next]), 0, 0, 0]),
            kind::REFERENCE => (kind::REFERENCE, [head.number, registry.row(self.rows, head.number), 0, 0]),
            kind::ARRAY | kind::RECORD | kind::MAP | kind::DECLARATION | kind::FOREIGN => {
                return self.holder(head, depth + 1, registry);
            }
            _ => (head.kind, [0; 4]),
        };
        self.used += 1;
        self.put(self.used - 1, kind, words);
        head.next
    }

    fn holder(&mut self, head: Head, depth: u32, registry: &Registry) -> usize {
        let row = self.used;
        self.used += 1;
        let mut next = head.next;
        let mut words = [head.number, 0, 0, 0];
        match head.kind {
            kind::ARRAY => next = self.elements(next, head.number, depth, registry),
            kind::RECORD => next = self.entries(next, head.number, depth, registry),
            kind::MAP => next = self.elements(next, 2 * head.number, depth, registry),
            kind::DECLARATION => next = self.declaration(next, head.number, depth),
            _ => words = self.foreign(&head, depth),
        }
        self.put(row, head.kind, words);
        next
    }

    fn elements(&mut self, at: usize, count: u32, depth: u32, registry: &Registry) -> usize {
        let mut next = at;
        for _ in 0..count {
            next = self.value(next, depth, registry);
        }
        next
    }

    fn entries(&mut self, at: usize, count: u32, depth: u32, registry: &Registry) -> usize {
        let mut next = at;
        for _ in 0..count {
            let key = measured(key(self.data, next));
            self.used += 1;
            self.put(self.used - 1, kind::KEY, [key.place as u32, key.number, 0, 0]);
            next = self.value(key.next, depth, registry);
        }
        next
    }

    #[inline(never)]
    fn declaration(&mut self, at: usize, count: u32, depth: u32) -> usize {
        let mut registry = Registry::of(count);
        let mut next = at;
        for _ in 0..count {
            let row = self.used;
            next = self.value(next, depth, &registry);
            registry.enter(row);
        }
        self.value(next, depth, &registry)
    }

    /// The words of a foreign row; a right body's rows are written behind it. It starts with no entry (request §2).
    #[inline(never)]
    fn foreign(&mut self, head: &Head, depth: u32) -> Words {
        let outside = self.sound;
        if !outside {
            match measure::body(&self.data[..head.next], head.place, depth) {
                Ok(body) => self.sound = body.sound,
                Err(refusal) => return [head.place as u32, head.number, refusal.number(), 0],
            }
        }
        self.value(head.place, depth, &Registry::EMPTY);
        self.sound = outside;
        [0; 4]
    }

    /// Writes a row whose children are the rows used behind it.
    #[inline(always)]
    fn put(&mut self, row: usize, kind: u32, [w0, w1, w2, w3]: Words) {
        self.rows[row] = [kind, self.used as u32, w0, w1, w2, w3];
    }
}

/// An integer in -31..64 is small from every form.
#[inline(always)]
fn integer(kind: u32, body: &[u8]) -> (u32, Words) {
    let (words, small) = match kind {
        kind::SIGNED => {
            let words = words(signed_body(body) as u128);
            (words, is_small(words))
        }
        _ => {
            let words = words(unsigned_body(body));
            (words, matches!(words, [0..=64, 0, 0, 0]))
        }
    };
    (if small { kind::SMALL } else { kind }, words)
}
