//! What the bytes of one file of the corpus stand for, and every operation on it. The fuzzer makes such bytes.
//!
//! The first byte says what follows: a document (0), a document whose table is then changed (1), a table and its data
//! (2), a variable integer (3), each modulo 4.

use crate::{Compare, Way};
use native::{beside, number};

pub fn run(compare: &mut Compare, bytes: &[u8]) {
    let Some((&first, rest)) = bytes.split_first() else { return };
    match first % 4 {
        0 => {
            document(compare, rest);
        }
        1 => changed(compare, rest),
        2 => table(compare, rest),
        _ => integer(compare, rest),
    }
}

/// A document, measured, and filled in with no words lent, with five, with a row and with a word too few, and with rows
/// enough.
fn document(compare: &mut Compare, data: &[u8]) -> Option<Vec<u32>> {
    let measured = compare.measure(data);
    compare.fill(data, measured, 0);
    compare.fill(data, measured, 5);
    if number(measured) != 0 {
        compare.fill(data, measured, 13);
        return None;
    }
    let rows = beside(measured) as usize;
    compare.fill(data, measured, 6 * rows - 6);
    compare.fill(data, measured, 6 * rows - 1);
    compare.fill(data, measured, 6 * rows + 7);
    let (_, table) = compare.fill(data, measured, 6 * rows);
    operations(compare, &table, rows, data);
    Some(table)
}

/// A byte says how many changes follow, each two bytes for the word's place and four for the word; then the document.
fn changed(compare: &mut Compare, bytes: &[u8]) {
    let Some((&count, rest)) = bytes.split_first() else { return };
    let (changes, data) = rest.split_at(rest.len().min(6 * (count % 8) as usize));
    let Some(mut table) = document(compare, data) else { return };
    let size = table.len();
    for change in changes.chunks_exact(6) {
        let at = u16::from_le_bytes([change[0], change[1]]) as usize % size;
        table[at] = u32::from_le_bytes([change[2], change[3], change[4], change[5]]);
    }
    operations(compare, &table, size / 6, data);
}

/// A byte that n differs by from the whole rows, two bytes for the number of words, the words, the data.
fn table(compare: &mut Compare, bytes: &[u8]) {
    let Some((&[more, low, high], rest)) = bytes.split_first_chunk() else { return };
    let (words, data) = rest.split_at(rest.len().min(4 * u16::from_le_bytes([low, high]) as usize));
    let words: Vec<u32> = words.chunks_exact(4).map(|word| u32::from_le_bytes(word.try_into().unwrap())).collect();
    let n = (words.len() / 6).wrapping_add_signed(more as i8 as isize);
    operations(compare, &words, n, data);
}

fn integer(compare: &mut Compare, bytes: &[u8]) {
    let mut words = [0; 4];
    bytes.chunks_exact(4).zip(&mut words).for_each(|(body, word)| *word = u32::from_le_bytes(body.try_into().unwrap()));
    for signed in [false, true] {
        compare.read_integer(signed, bytes, 4);
        let needed = beside(compare.write_integer(signed, words, 0)) as usize;
        compare.write_integer(signed, words, needed - 1);
        compare.write_integer(signed, words, needed + 1);
    }
}

fn operations(compare: &mut Compare, table: &[u32], n: usize, data: &[u8]) {
    compare.check(table, n, data);
    let (answer, _) = compare.write(table, n, data, 0);
    if number(answer) == 13 {
        let needed = beside(answer) as usize;
        compare.write(table, n, data, needed - 1);
        compare.write(table, n, data, needed);
    }
    for (row, words) in table.chunks_exact(6).enumerate().take(64) {
        for bound in [n, words[1] as usize] {
            for way in [Way::In, Way::On, Way::Along] {
                compare.step(way, table, n, row, bound);
            }
        }
        compare.resolve(table, n, row, 3);
        compare.payload(table, row, data, 2);
    }
}
