//! The bytes of a value position or a key, its children aside.

use crate::refusal::Fault;
use crate::rows::kind;
use crate::varint::{read_unsigned, SIZES};
use crate::LIMIT;

/// What stands at a place. An integer has its marker's kind, whatever its value.
pub struct Head {
    pub kind: u32,
    /// Size of the body, count, or reference number.
    pub number: u32,
    /// Where the body begins.
    pub place: usize,
    /// Where the body ends; children begin here.
    pub next: usize,
}

/// Reads the head of a position: 2, 3, 4, or 2 for the body.
#[inline(always)]
pub fn head(data: &[u8], at: usize) -> Result<Head, Fault> {
    let &marker = data.get(at).ok_or(Fault::Short)?;
    let next = at + 1;
    let number = marker as u32;
    match marker {
        0x00..=0x02 => bare(kind::FALSE + number, 0, next),
        0x03..=0x07 => body(data, kind::FLOAT, 2 << (number - 0x03), next),
        0x08 => long_body(data, kind::TEXT, next),
        0x09 => long(data, kind::ARRAY, next),
        0x0a => long(data, kind::RECORD, next),
        0x0b => long(data, kind::MAP, next),
        0x0c => long_body(data, kind::BINARY, next),
        0x0d => match data.get(next) {
            Some(0x0d) => long(data, kind::DECLARATION, next + 1),
            Some(0x00) => long_body(data, kind::FOREIGN, next + 1),
            Some(_) => Err(Fault::Marker),
            None => Err(Fault::Short),
        },
        0x0e..=0x0f => Err(Fault::Marker),
        0x10..=0x17 => body(data, kind::SIGNED, SIZES[marker as usize - 0x10] as u32, next),
        0x18..=0x1f => body(data, kind::UNSIGNED, SIZES[marker as usize - 0x18] as u32, next),
        0x20..=0x7f => bare(kind::SMALL, 0, next),
        0x80..=0x9f => body(data, kind::TEXT, number - 0x7f, next),
        0xa0..=0xaf => bare(kind::ARRAY, number - 0x9f, next),
        0xb0..=0xb7 => bare(kind::RECORD, number - 0xaf, next),
        0xb8..=0xbf => bare(kind::MAP, number - 0xb7, next),
        0xc0 => body(data, kind::CHAR, 3, next),
        0xc1..=0xfe => bare(kind::REFERENCE, number - 0xc1, next),
        0xff => long(data, kind::REFERENCE, next),
    }
}

/// Reads the head of a record key: 2, 4, or 2 for the body.
#[inline(always)]
pub fn key(data: &[u8], at: usize) -> Result<Head, Fault> {
    long_body(data, kind::KEY, at)
}

/// The codepoint in the body of a char.
#[inline]
pub fn codepoint(body: &[u8]) -> u32 {
    body.iter().rev().fold(0, |number, &byte| number << 8 | byte as u32)
}

#[inline(always)]
fn bare(kind: u32, number: u32, next: usize) -> Result<Head, Fault> {
    Ok(Head { kind, number, place: next, next })
}

#[inline(always)]
fn body(data: &[u8], kind: u32, size: u32, place: usize) -> Result<Head, Fault> {
    let next = place + size as usize;
    if next > data.len() {
        return Err(Fault::Short);
    }
    Ok(Head { kind, number: size, place, next })
}

#[inline(always)]
fn long(data: &[u8], kind: u32, at: usize) -> Result<Head, Fault> {
    let (number, next) = number(data, at)?;
    bare(kind, number, next)
}

#[inline(always)]
fn long_body(data: &[u8], kind: u32, at: usize) -> Result<Head, Fault> {
    let (size, place) = number(data, at)?;
    body(data, kind, size, place)
}

/// A length, count or reference number, and the place behind it.
#[inline(always)]
fn number(data: &[u8], at: usize) -> Result<(u32, usize), Fault> {
    match data.get(at) {
        Some(&byte @ 0x00..=0xf7) => Ok((byte as u32, at + 1)),
        Some(_) => long_number(data, at),
        None => Err(Fault::Short),
    }
}

#[inline(never)]
fn long_number(data: &[u8], at: usize) -> Result<(u32, usize), Fault> {
    match read_unsigned(&data[at..]) {
        Ok(([number @ 0..=LIMIT, 0, 0, 0], used)) => Ok((number, at + used)),
        Ok(_) => Err(Fault::Huge),
        Err(refusal) => Err(refusal.fault),
    }
}
