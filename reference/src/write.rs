//! The writer: table to document, each value in the fewest bytes.

use crate::check::check;
use crate::refusal::{Fault, Refusal};
use crate::rows::{end, kind, lent, Row};
use crate::varint::{self, signed_form, unsigned_form, write_unsigned, SIZES};
use crate::LIMIT;

/// Writes n rows as a document at the front of the output; the bytes written.
pub fn write(table: &[u32], n: usize, data: &[u8], out: &mut [u8]) -> Result<usize, Refusal> {
    check(table, n, data)?;
    let rows = &lent(table)[..n];
    let needed = size(rows, 0, n);
    if needed > LIMIT as u64 {
        return Err(Refusal { fault: Fault::TooLong, beside: needed });
    }
    let Some(out) = out.get_mut(..needed as usize) else {
        return Err(Refusal { fault: Fault::NoRoom, beside: needed });
    };
    let mut rest = Out { rest: out };
    for row in 0..n {
        rest.row(rows, row, data);
    }
    Ok(needed as usize)
}

/// Bytes of the rows from one to another, holders whole. Each right foreign body is measured once.
fn size(rows: &[Row], from: usize, to: usize) -> u64 {
    let mut total = 0;
    let mut row = from;
    while row < to {
        if is_right_foreign(&rows[row]) {
            let body = size(rows, row + 1, end(&rows[row]));
            total += 2 + number_size(body) + body;
            row = end(&rows[row]);
        } else {
            total += own_size(&rows[row]);
            row += 1;
        }
    }
    total
}

/// Bytes of a row without its children. A right foreign row is not asked here.
#[inline]
fn own_size(row: &Row) -> u64 {
    let &[kind, _, w0, w1, ..] = row;
    let (number, size) = (w0 as u64, w1 as u64);
    match kind {
        kind::SIGNED | kind::UNSIGNED => 1 + SIZES[form(row)] as u64,
        kind::FLOAT => 1 + size,
        kind::TEXT if (1..=32).contains(&size) => 1 + size,
        kind::TEXT | kind::BINARY => 1 + number_size(size) + size,
        kind::KEY => number_size(size) + size,
        kind::ARRAY if (1..=16).contains(&number) => 1,
        kind::RECORD | kind::MAP if (1..=8).contains(&number) => 1,
        kind::REFERENCE if number <= 61 => 1,
        kind::ARRAY | kind::RECORD | kind::MAP | kind::REFERENCE => 1 + number_size(number),
        kind::CHAR => 4,
        kind::DECLARATION => 2 + number_size(number),
        kind::FOREIGN => 2 + number_size(size) + size,
        _ => 1,
    }
}

/// Bytes of a length, count or number.
#[inline]
fn number_size(number: u64) -> u64 {
    match number {
        0x00..=0xf7 => 1,
        _ => 1 + SIZES[unsigned_form(number as u128)] as u64,
    }
}

fn is_right_foreign(row: &Row) -> bool {
    row[0] == kind::FOREIGN && row[4] == 0
}

/// The shortest form of an integer that is not small.
#[inline]
fn form(&[kind, _, words @ ..]: &Row) -> usize {
    match kind {
        kind::SIGNED => signed_form(varint::value(words) as i128),
        _ => unsigned_form(varint::value(words)),
    }
}

/// The part of the output not yet written.
struct Out<'a> {
    rest: &'a mut [u8],
}

impl Out<'_> {
    /// Writes a row without its children.
    #[inline]
    fn row(&mut self, rows: &[Row], row: usize, data: &[u8]) {
        let [kind, end, words @ ..] = rows[row];
        let [number, size, verdict, _] = words;
        let part = || &data[number as usize..number as usize + size as usize];
        match kind {
            kind::FALSE | kind::TRUE | kind::NONE => self.byte(kind - kind::FALSE),
            kind::SMALL => self.byte(number.wrapping_add(0x3f)),
            kind::SIGNED | kind::UNSIGNED => {
                let form = form(&rows[row]);
                self.byte(form as u32 + if kind == kind::SIGNED { 0x10 } else { 0x18 });
                self.bytes(&varint::value(words).to_le_bytes()[..SIZES[form]]);
            }
            kind::FLOAT => {
                self.byte(0x02 + size.ilog2());
                self.bytes(part());
            }
            kind::TEXT => {
                self.counted(0x08, 0x7f, 32, size);
                self.bytes(part());
            }
            kind::BINARY => {
                self.byte(0x0c);
                self.number(size);
                self.bytes(part());
            }
            kind::KEY => {
                self.number(size);
                self.bytes(part());
            }
            kind::ARRAY => self.counted(0x09, 0x9f, 16, number),
            kind::RECORD => self.counted(0x0a, 0xaf, 8, number),
            kind::MAP => self.counted(0x0b, 0xb7, 8, number),
            kind::CHAR => {
                self.byte(0xc0);
                self.bytes(&number.to_le_bytes()[..3]);
            }
            kind::REFERENCE if number <= 61 => self.byte(0xc1 + number),
            kind::REFERENCE => {
                self.byte(0xff);
                self.number(number);
            }
            kind::DECLARATION => {
                self.bytes(&[0x0d, 0x0d]);
                self.number(number);
            }
            _ => {
                self.bytes(&[0x0d, 0x00]);
                if verdict == 0 {
                    self.number(self::size(rows, row + 1, end as usize) as u32);
                } else {
                    self.number(size);
                    self.bytes(part());
                }
            }
        }
    }

    /// A marker that carries 1 to `most` itself above its base, or the long one and the number.
    #[inline]
    fn counted(&mut self, long: u32, base: u32, most: u32, number: u32) {
        if (1..=most).contains(&number) {
            self.byte(base + number);
        } else {
            self.byte(long);
            self.number(number);
        }
    }

    #[inline]
    fn number(&mut self, number: u32) {
        let written = write_unsigned(self.rest, [number, 0, 0, 0]);
        self.skip(written.expect("the output has the size of the document"));
    }

    #[inline]
    fn byte(&mut self, byte: u32) {
        self.rest[0] = byte as u8;
        self.skip(1);
    }

    #[inline]
    fn bytes(&mut self, bytes: &[u8]) {
        self.rest[..bytes.len()].copy_from_slice(bytes);
        self.skip(bytes.len());
    }

    #[inline]
    fn skip(&mut self, written: usize) {
        self.rest = &mut std::mem::take(&mut self.rest)[written..];
    }
}
