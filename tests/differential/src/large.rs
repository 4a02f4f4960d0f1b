//! Documents and tables at the size limit and beyond it.

use compare::{Compare, Tally, Way};
use native::{beside, number, packed};
use reference::rows::kind;
use reference::LIMIT;

const MOST: usize = LIMIT as usize;

pub fn run(long: bool) -> Tally {
    let mut compare = Compare { origin: "the largest documents and tables".to_string(), ..Compare::default() };
    too_long(&mut compare);
    many_bytes_needed(&mut compare);
    written_at_the_limit(&mut compare);
    if long {
        many_rows(&mut compare);
        more_rows_than_the_limit(&mut compare);
        long_registry(&mut compare);
    }
    println!("documents of {MOST} bytes and one more, and tables that need more bytes than 32 bits count");
    compare.tally
}

/// A binary that fills a document of so many bytes.
fn binary(size: usize) -> Vec<u8> {
    let mut data = vec![0x61; size];
    data[..2].copy_from_slice(&[0x0c, 0xfa]);
    data[2..5].copy_from_slice(&((size - 5) as u32).to_le_bytes()[..3]);
    data
}

fn too_long(compare: &mut Compare) {
    let data = binary(MOST);
    let measured = compare.measure(&data);
    assert_eq!(measured, packed(0, 1));
    let (answer, table) = compare.fill(&data, measured, 13);
    assert_eq!(answer, packed(0, 1));
    assert_eq!(compare.fill(&data, measured, 0).0, packed(11, 1));
    assert_eq!(compare.fill(&data, measured, 5).0, packed(11, 1));
    assert_eq!(compare.check(&table, 1, &data), packed(0, 1));
    assert_eq!(compare.write(&table, 1, &data, MOST - 1).0, packed(13, MOST as u64));
    assert_eq!(compare.write(&table, 1, &data, MOST).0, packed(0, MOST as u64));
    let more = binary(MOST + 1);
    // above the limit nothing else is asked
    for data in [&more, &vec![0x0e; MOST + 1]] {
        let measured = compare.measure(data);
        assert_eq!(measured, packed(1, 0));
        for words in [0, 5, 6, 13] {
            assert_eq!(compare.fill(data, measured, words), (packed(1, 0), vec![0; words]));
        }
    }
    assert_eq!(compare.check(&table, 1, &more), packed(12, 0));
    assert_eq!(compare.write(&table, 1, &more, 20).0, packed(12, 0));
    let wrong = vec![0x0e; MOST];
    let measured = compare.measure(&wrong);
    assert_eq!(compare.fill(&wrong, measured, 6).0, packed(3, 0));
}

/// An array of rows that all point at the same bytes.
fn pointing(count: u32, kind: u32, size: u32) -> Vec<u32> {
    let mut table = vec![kind::ARRAY, count + 1, count, 0, 0, 0];
    for row in 1..=count {
        table.extend([kind, row + 1, 0, size, 0, 0]);
    }
    table
}

/// Needed bytes beyond 32 bits, and beyond what a foreign body's length may say.
fn many_bytes_needed(compare: &mut Compare) {
    let size = 15_000_000;
    let data = vec![0x61; size as usize];
    for count in [1, 2, 286, 287, 300] {
        let table = pointing(count, kind::BINARY, size);
        assert_eq!(number(compare.check(&table, 1 + count as usize, &data)), 0);
        let (answer, _) = compare.write(&table, 1 + count as usize, &data, 100);
        let array = if count <= 16 {
            1
        } else if count <= 0xf7 {
            2
        } else {
            4
        };
        let needed = array + count as u64 * (5 + size as u64);
        assert_eq!(answer, packed(if count == 1 { 13 } else { 1 }, needed), "{count} rows");
        // the same inside foreign bodies, whose lengths are counted in more and more bytes
        let mut inside = vec![kind::FOREIGN, count + 3, 0, 0, 0, 0, kind::FOREIGN, count + 3, 0, 0, 0, 0];
        inside.extend(table.chunks(6).flat_map(|row| [row[0], row[1] + 2, row[2], row[3], row[4], row[5]]));
        assert!(beside(compare.write(&inside, 3 + count as usize, &data, 100).0) > needed);
    }
    let table = pointing(2, kind::TEXT, size);
    assert_eq!(number(compare.write(&table, 3, &data, 100).0), 1);
}

/// Two binaries whose document has exactly the limit's bytes, and one more or less.
fn written_at_the_limit(compare: &mut Compare) {
    let data = vec![0x61; 9_000_000];
    for more in [-1i64, 0, 1] {
        let mut table = pointing(2, kind::BINARY, 8_388_602);
        table[9] = (8_388_602 + more) as u32;
        let needed = (MOST as i64 + more) as u64;
        let (answer, _) = compare.write(&table, 3, &data, MOST + 1);
        assert_eq!(answer, packed(if more > 0 { 1 } else { 0 }, needed));
        compare.write(&table, 3, &data, needed as usize - 1);
    }
}

/// As many rows as a document can have.
fn many_rows(compare: &mut Compare) {
    let mut data = vec![0x02; MOST];
    data[..5].copy_from_slice(&[0x09, 0xfa, 0xfa, 0xff, 0xff]);
    let rows = MOST - 4;
    let measured = compare.measure(&data);
    assert_eq!(measured, packed(0, rows as u64));
    for words in [6 * rows - 6, 6 * rows - 1] {
        assert_eq!(compare.fill(&data, measured, words).0, packed(11, rows as u64));
    }
    assert_eq!(compare.fill(&data, measured, 6 * rows).0, packed(0, rows as u64));
    let (answer, table) = compare.fill(&data, measured, 6 * rows + 7);
    assert_eq!(answer, packed(0, rows as u64));
    assert_eq!(compare.check(&table, rows, &data), packed(0, rows as u64));
    assert_eq!(compare.check(&table, rows + 1, &data), packed(12, 0));
    assert_eq!(compare.write(&table, rows, &data, MOST).0, packed(0, MOST as u64));
    // one element less than the count says
    data.pop();
    let measured = compare.measure(&data);
    assert_eq!(compare.fill(&data, measured, 6 * rows).0, packed(2, data.len() as u64));
}

/// n of the limit, and one more.
fn more_rows_than_the_limit(compare: &mut Compare) {
    for rows in [MOST, MOST + 1] {
        let mut table = vec![0; 6 * rows];
        for (row, words) in table.chunks_mut(6).enumerate() {
            words[..2].copy_from_slice(&[kind::TRUE, row as u32 + 1]);
        }
        table[..3].copy_from_slice(&[kind::ARRAY, rows as u32, rows as u32 - 1]);
        let number = if rows <= MOST { 0 } else { 12 };
        assert_eq!(native::number(compare.check(&table, rows, &[])), number);
        assert_eq!(native::number(compare.write(&table, rows, &[], 10).0), if rows <= MOST { 1 } else { 12 });
        for row in [0, 1, rows - 2, rows - 1, rows] {
            for bound in [rows, row + 1] {
                for way in [Way::In, Way::On, Way::Along] {
                    compare.step(way, &table, rows, row, bound);
                }
            }
            compare.payload(&table, row, &[], 2);
            compare.resolve(&table, rows, row, 3);
        }
    }
}

/// A long registry, whose entries are found from anywhere.
fn long_registry(compare: &mut Compare) {
    let entries = 20_000u32;
    let mut data = vec![0x0d, 0x0d, 0xf9];
    data.extend(&(entries as u16).to_le_bytes());
    for entry in 0..entries {
        data.extend(if entry % 3 == 0 { &[0xa1, 0x40, 0x41][..] } else { &[0x02] });
    }
    data.extend([0x09, 0xf9, 0xe8, 0x03]);
    for i in 0..1000 {
        data.extend([0xff, 0xf9]);
        data.extend(&((i * 7919 % entries) as u16).to_le_bytes());
    }
    let measured = compare.measure(&data);
    let rows = beside(measured) as usize;
    let (_, table) = compare.fill(&data, measured, 6 * rows);
    assert_eq!(compare.check(&table, rows, &data), packed(0, rows as u64));
    assert_eq!(number(compare.write(&table, rows, &data, data.len()).0), 0);
    for row in rows - 1001..rows {
        compare.resolve(&table, rows, row, 3);
        compare.step(Way::Along, &table, rows, row, row + 1);
    }
}
