//! Measuring: whether the bytes are a right document, and how many rows it needs. Nothing is written.

use crate::head::{codepoint, head, key, Head};
use crate::refusal::{Fault, Refusal};
use crate::rows::{is_codepoint, kind};
use crate::text::is_text;
use crate::{DEPTH, LIMIT};

/// The rows that a document needs. It is never refused with 11: no table is lent.
pub fn measure(data: &[u8]) -> Result<usize, Refusal> {
    Ok(whole(data)?.rows)
}

/// What a right document needs.
pub(crate) struct Measure {
    pub rows: usize,
    /// Whether no foreign body in it is damaged.
    pub sound: bool,
}

/// Measures all of the data: too many bytes are refused first.
pub(crate) fn whole(data: &[u8]) -> Result<Measure, Refusal> {
    if data.len() > LIMIT as usize {
        return Err(Refusal::bare(Fault::TooLong));
    }
    body(data, 0, 0)
}

/// Measures the document from `at` to the end of the data, its position at `depth`.
pub(crate) fn body(data: &[u8], at: usize, depth: u32) -> Result<Measure, Refusal> {
    let mut measure = Measure { rows: 0, sound: true };
    measure.document(data, at, depth)?;
    Ok(measure)
}

impl Measure {
    /// No entry is in force at the start of a document, a foreign body's neither (request §2).
    fn document(&mut self, data: &[u8], at: usize, depth: u32) -> Result<(), Refusal> {
        let next = self.value(data, at, depth, 0)?;
        if next < data.len() {
            return Err(Refusal::at(Fault::Extra, next));
        }
        Ok(())
    }

    /// Reads one position; the place behind it. The data end where the bytes around it end.
    #[inline(always)]
    fn value(&mut self, data: &[u8], at: usize, depth: u32, force: u32) -> Result<usize, Refusal> {
        if depth > DEPTH {
            return Err(Refusal::at(Fault::Deep, at));
        }
        let head = head(data, at).map_err(|fault| Refusal::at(fault, at))?;
        self.rows += 1;
        let fault = match head.kind {
            kind::TEXT if !is_text(&data[head.place..head.next]) => Fault::Text,
            kind::CHAR if !is_codepoint(codepoint(&data[head.place..head.next])) => Fault::Char,
            kind::REFERENCE if head.number >= force => Fault::NoEntry,
            kind::DECLARATION if head.number == 0 => Fault::EmptyRegistry,
            kind::ARRAY | kind::RECORD | kind::MAP | kind::DECLARATION | kind::FOREIGN => {
                return self.children(data, head, depth + 1, force);
            }
            _ => return Ok(head.next),
        };
        Err(Refusal::at(fault, at))
    }

    /// Reads all that a holder holds; the place behind it.
    fn children(&mut self, data: &[u8], head: Head, depth: u32, force: u32) -> Result<usize, Refusal> {
        match head.kind {
            kind::ARRAY => self.elements(data, head.next, head.number, depth, force),
            kind::RECORD => self.entries(data, head.next, head.number, depth, force),
            kind::MAP => self.elements(data, head.next, 2 * head.number, depth, force),
            kind::DECLARATION => self.declaration(data, head.next, head.number, depth),
            _ => {
                self.foreign(&data[..head.next], head.place, depth);
                Ok(head.next)
            }
        }
    }

    /// So many positions back to back: elements, or the keys and values of a map.
    fn elements(&mut self, data: &[u8], at: usize, count: u32, depth: u32, force: u32) -> Result<usize, Refusal> {
        let mut next = at;
        for _ in 0..count {
            next = self.value(data, next, depth, force)?;
        }
        Ok(next)
    }

    /// Keys and values of a record in turn.
    fn entries(&mut self, data: &[u8], at: usize, count: u32, depth: u32, force: u32) -> Result<usize, Refusal> {
        let mut next = at;
        for _ in 0..count {
            let key = key(data, next).map_err(|fault| Refusal::at(fault, next))?;
            if !is_text(&data[key.place..key.next]) {
                return Err(Refusal::at(Fault::Text, next));
            }
            self.rows += 1;
            next = self.value(data, key.next, depth, force)?;
        }
        Ok(next)
    }

    /// Entry i under the i before it, then the value under all.
    fn declaration(&mut self, data: &[u8], at: usize, count: u32, depth: u32) -> Result<usize, Refusal> {
        let mut next = at;
        for force in 0..=count {
            next = self.value(data, next, depth, force)?;
        }
        Ok(next)
    }

    /// A body that is not a whole right document adds no rows. Each body is read once.
    fn foreign(&mut self, data: &[u8], at: usize, depth: u32) {
        let rows = self.rows;
        if self.document(data, at, depth).is_err() {
            self.rows = rows;
            self.sound = false;
        }
    }
}
