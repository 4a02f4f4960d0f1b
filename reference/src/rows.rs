//! Rows of a lent table.

use crate::varint::{small_words, Words};

/// Kind, end, w0, w1, w2, w3.
pub type Row = [u32; 6];

/// The numbers of the row kinds.
pub mod kind {
    pub const FALSE: u32 = 1;
    pub const TRUE: u32 = 2;
    pub const NONE: u32 = 3;
    pub const SMALL: u32 = 4;
    pub const SIGNED: u32 = 5;
    pub const UNSIGNED: u32 = 6;
    pub const FLOAT: u32 = 7;
    pub const TEXT: u32 = 8;
    pub const ARRAY: u32 = 9;
    pub const RECORD: u32 = 10;
    pub const MAP: u32 = 11;
    pub const BINARY: u32 = 12;
    pub const CHAR: u32 = 13;
    pub const REFERENCE: u32 = 14;
    pub const DECLARATION: u32 = 15;
    pub const FOREIGN: u32 = 16;
    pub const KEY: u32 = 17;
}

/// The rows that a table lends: its whole sixes.
#[inline]
pub fn lent(table: &[u32]) -> &[Row] {
    table.as_chunks().0
}

/// The rows that a table lends, to be written.
#[inline]
pub fn lent_mut(table: &mut [u32]) -> &mut [Row] {
    table.as_chunks_mut().0
}

/// The row number after all the row's children.
#[inline]
pub fn end(row: &Row) -> usize {
    row[1] as usize
}

/// Whether the words of an integer row, two's complement, are in -31..64.
#[inline]
pub fn is_small(words: Words) -> bool {
    match words {
        [low, 0, 0, 0] => low <= 64,
        [low, u32::MAX, u32::MAX, u32::MAX] => low >= small_words(-31)[0],
        _ => false,
    }
}

/// Whether a char may have this codepoint.
#[inline]
pub fn is_codepoint(number: u32) -> bool {
    number <= 0x10ffff && !(0xd800..=0xdfff).contains(&number)
}

#[cfg(test)]
mod tests {
    use super::*;
    use crate::varint::words;

    #[test]
    fn small_is_from_minus_31_to_64() {
        for value in -200i128..200 {
            assert_eq!(is_small(words(value as u128)), (-31..=64).contains(&value), "{value}");
        }
        assert!(!is_small([0, 1, 0, 0]) && !is_small([u32::MAX, u32::MAX, u32::MAX, 0]));
        assert!(!is_small([u32::MAX - 30, u32::MAX, u32::MAX, 0x7fff_ffff]));
    }

    #[test]
    fn codepoints_are_those_of_char() {
        for number in (0..0x120000).chain([0xffffff, u32::MAX]) {
            assert_eq!(is_codepoint(number), char::from_u32(number).is_some());
        }
    }

    #[test]
    fn a_table_lends_whole_sixes() {
        assert_eq!(lent(&[0; 11]).len(), 1);
        assert_eq!(lent(&[0; 5]).len(), 0);
    }
}
