//! One generated case: a document or a table, and every operation on it.

use crate::documents::document;
use crate::tables::{change, made, Table};
use compare::{Compare, Tally, Way};
use native::{beside, number, packed};
use reference::generate::Random;
use reference::varint::words;
use reference::LIMIT;

pub fn case(compare: &mut Compare, seed: u64, case: u64) {
    compare.origin = format!("differential case {seed} {case}");
    let random = &mut Random::new(seed.wrapping_add(case.wrapping_mul(0x9e37_79b9_7f4a_7c15)));
    match case % 8 {
        0..=4 => a_document(compare, random),
        5 | 6 => a_table(compare, random),
        _ => (0..20).for_each(|_| integers(compare, random)),
    }
}

/// Every document of up to so many bytes, measured, and filled in with rows enough.
pub fn short(size: u32) -> Tally {
    let mut compare = Compare { origin: "every short document".to_string(), ..Compare::default() };
    let measured = compare.measure(&[]);
    assert_eq!(measured, packed(2, 0));
    for words in [0, 5, 6] {
        compare.fill(&[], measured, words);
    }
    for size in 1..=size {
        for bytes in 0..1u32 << (8 * size) {
            let document = &bytes.to_le_bytes()[..size as usize];
            let measured = compare.measure(document);
            compare.fill(document, measured, 6 * size as usize);
        }
    }
    println!("all documents of up to {size} bytes");
    compare.tally
}

fn a_document(compare: &mut Compare, random: &mut Random) {
    let data = document(random);
    let measured = compare.measure(&data);
    if number(measured) != 0 {
        for words in [0, 1, 5, 6, 12, 6 * random.below(20) + random.below(6)] {
            compare.fill(&data, measured, words);
        }
        return;
    }
    let needed = beside(measured) as usize;
    let exact = 6 * needed;
    for words in [0, 5, 6, exact - 6, exact - 1, exact + 1, exact + 5, exact + 6, exact + random.below(40)] {
        compare.fill(&data, measured, words);
    }
    for words in [random.below(exact), random.below(exact)] {
        compare.fill(&data, measured, words);
    }
    let (_, words) = compare.fill(&data, measured, exact);
    let table = Table { words, n: needed, data };
    assert_eq!(number(compare.check(&table.words, needed, &table.data)), 0, "what is filled passes the check");
    operations(compare, &table, random);
    for _ in 0..3 {
        let mut table = table.clone();
        change(&mut table, random);
        operations(compare, &table, random);
    }
}

fn a_table(compare: &mut Compare, random: &mut Random) {
    let mut table = made(random);
    operations(compare, &table, random);
    for _ in 0..3 {
        change(&mut table, random);
        operations(compare, &table, random);
    }
}

/// Check, write and walks; nothing that is only lent to be read may change.
fn operations(compare: &mut Compare, table: &Table, random: &mut Random) {
    let Table { words, n, data } = table;
    let (n, rows) = (*n, words.len() / 6);
    let answer = compare.check(words, n, data);
    for n in [n.wrapping_sub(1), n + 1, rows, 0, 1, random.below(rows + 2), usize::MAX, LIMIT as usize + 1] {
        compare.check(words, n, data);
    }
    compare.check(words, n, &data[..random.below(data.len() + 1)]);
    compare.check(words, n, &[data, &b"more"[..]].concat());

    let (written, _) = compare.write(words, n, data, 0);
    if number(answer) == 0 {
        let needed = beside(written) as usize;
        for room in [needed - 1, needed + 1, needed + random.below(20), random.below(needed)] {
            compare.write(words, n, data, room);
        }
        let (_, out) = compare.write(words, n, data, needed);
        // written shortest: read and written again they are the same bytes
        let measured = compare.measure(&out);
        assert_eq!(measured, packed(0, n as u64), "what is written reads back");
        let (_, table) = compare.fill(&out, measured, 6 * n);
        assert!(compare.write(&table, n, &out, needed).1 == out, "what is read back is written again");
    } else {
        compare.write(words, n, data, data.len() + 40);
        compare.write(words, n.wrapping_sub(1), data, 40);
    }
    walks(compare, table, random);
}

const FAR: [usize; 7] = [LIMIT as usize, LIMIT as usize + 1, u32::MAX as usize, 1 << 32, 1 << 33, 1 << 56, usize::MAX];

fn walks(compare: &mut Compare, Table { words, n, data }: &Table, random: &mut Random) {
    let (n, rows) = (*n, words.len() / 6);
    let few = 24;
    for i in 0..rows.min(few) {
        let row = if rows <= few { i } else { random.below(rows) };
        let end = words[6 * row + 1] as usize;
        for bound in [end, n, row + 1] {
            steps(compare, words, n, row, bound);
        }
        let (near, far) = (random.below(n.min(1 << 30) + 2), random.one_of(&FAR));
        steps(compare, words, n, row, random.one_of(&[end.wrapping_sub(1), end + 1, row, 0, n + 1, near, far]));
        let other = random.one_of(&[n.wrapping_sub(1), n + 1, rows, rows + 1, 0, end, row, far]);
        steps(compare, words, other, row, random.one_of(&[end, n, other]));
        compare.resolve(words, n, row, 3);
        compare.payload(words, row, data, 2);
        compare.payload(words, row, &data[..random.below(data.len() + 1)], random.below(5));
        if random.below(4) == 0 {
            compare.resolve(words, other, row, random.below(6));
        }
    }
    for row in [rows, n, rows + 1, random.one_of(&FAR), (1 << 32) + random.below(rows + 1)] {
        let far = random.one_of(&FAR);
        steps(compare, words, n, row, random.one_of(&[n, row.wrapping_add(1), far]));
        compare.resolve(words, n, row, 3);
        compare.resolve(words, far, row, random.below(6));
        compare.payload(words, row, data, 2);
    }
}

fn steps(compare: &mut Compare, table: &[u32], n: usize, row: usize, bound: usize) {
    for way in [Way::In, Way::On, Way::Along] {
        compare.step(way, table, n, row, bound);
    }
}

fn integers(compare: &mut Compare, random: &mut Random) {
    let value = match random.below(4) {
        0 => random.wide(),
        1 => !random.wide(),
        // at the edges of the forms
        2 => (1u128 << random.below(128)).wrapping_add(random.below(5) as u128).wrapping_sub(2),
        _ => (random.below(600) as i128 - 300) as u128,
    };
    let mut data = Vec::from(value.to_le_bytes());
    let marker = random.one_of(&[0, 0x7c, 0xf8]);
    data.insert(0, if marker == 0 { random.number() as u8 } else { marker + random.below(8) as u8 });
    data.truncate(random.below(20));
    for signed in [false, true] {
        compare.read_integer(signed, &data, 4);
        compare.read_integer(signed, &data, random.below(7));
        compare.write_integer(signed, words(value), random.below(20));
        let needed = beside(compare.write_integer(signed, words(value), 0)) as usize;
        for room in [needed - 1, needed, needed + 1] {
            compare.write_integer(signed, words(value), room);
        }
    }
}
