//! Tables put together at the edges of each rule, on both sides of it.

use super::parts::{array, bytes, damaged, declare, deep, holder, key, leaf, none, part, refer, Case, Cases, WAYS};
use reference::generate::DAMAGED;
use reference::rows::{kind, Row};
use reference::varint::words;
use reference::LIMIT;

pub fn edges() -> Cases {
    let mut cases = Vec::new();
    cases.extend(integers());
    cases.extend(floats_and_chars());
    cases.extend(texts());
    cases.extend(payloads());
    cases.extend(lent_rows());
    cases.extend(keys());
    cases.extend(key_and_value());
    cases.extend(counts());
    cases.extend(ends());
    cases.extend(longest());
    cases.extend(references());
    cases.extend(verdicts_in_force());
    cases.extend(verdicts());
    cases.extend(depths());
    cases.extend(verdicts_by_depth());
    cases
}

/// "An integer in -31..64 is kind 4 from every form; else its marker's signedness counts."
fn integers() -> Cases {
    let mut values: Vec<i128> = (-34..=-28).chain(-2..=2).chain(62..=67).collect();
    for bits in [7, 8, 31, 32, 64, 96] {
        values.extend([1 << bits, (1 << bits) - 1, (1 << bits) - 31, -(1 << bits), 64 - (1 << bits), 65 + (1 << bits)]);
    }
    values.extend([i128::MIN, i128::MIN + 64, i128::MAX, i128::MAX - 30]);
    let mut cases = Vec::new();
    for value in values {
        let small = (-31..=64).contains(&value);
        for (kind, right) in [(kind::SMALL, small), (kind::SIGNED, !small), (kind::UNSIGNED, value as u128 > 64)] {
            cases.push(Case::new(&leaf(kind, words(value as u128)), &[], right));
        }
    }
    cases
}

fn floats_and_chars() -> Cases {
    let mut cases = Vec::new();
    for size in (0..=36).chain([63, 64]) {
        let right = [2, 4, 8, 16, 32].contains(&size);
        cases.push(Case::new(&leaf(kind::FLOAT, [0, size, 0, 0]), &[0xff; 64], right));
        cases.push(Case::new(&leaf(kind::FLOAT, [64 - size, size, 0, 0]), &[0x00; 64], right));
    }
    for edge in [0, 0x80, 0x800, 0xd800, 0xdc00, 0xe000, 0x1_0000, 0x11_0000, 0x11_d800, 1 << 24, 1 << 31, u32::MAX] {
        for codepoint in [edge - (edge > 0) as u32, edge, edge.saturating_add(1)] {
            let right = char::from_u32(codepoint).is_some();
            cases.push(Case::new(&leaf(kind::CHAR, [codepoint, 0, 0, 0]), &[], right));
        }
    }
    cases
}

/// Well-formed and ill-formed bytes as a text and as a key, whole and cut; bytes before and behind belong to no one.
fn texts() -> Cases {
    let good =
        "|00|7f|c2 80|df bf|e0 a0 80|e1 80 80|ec bf bf|ed 9f bf|ee 80 80|ef bf bf|f0 90 80 80|f3 bf bf bf|f4 8f bf bf";
    let ill = "80|bf|c0 80|c1 bf|c2|c2 7f|c2 c0|e0 9f bf|e0 a0|e1 80 7f|ed a0 80|ed bf bf|ef bf|f0 8f bf bf|f0 90 80|\
        f4 90 80 80|f5 80 80 80|f8 88 80 80 80|fe|ff";
    let mut cases = Vec::new();
    for (lines, right) in [(good, true), (ill, false)] {
        for text in lines.split('|').map(bytes) {
            let size = text.len() as u32;
            let data = [&[0x80, 0x61], &text[..], &[0x62, 0xbf]].concat();
            cases.push(Case::new(&leaf(kind::TEXT, [2, size, 0, 0]), &data, right));
            cases.push(Case::new(&leaf(kind::TEXT, [1, size + 2, 0, 0]), &data, right));
            cases.push(Case::new(&record(&[key(2, size), none()]), &data, right));
            cases.push(Case::new(&leaf(kind::BINARY, [2, size, 0, 0]), &data, true));
            // One sequence cut at any byte is none.
            for (place, size) in (1..size).flat_map(|cut| [(2, cut), (2 + cut, size - cut)]) {
                if right {
                    cases.push(Case::new(&leaf(kind::TEXT, [place, size, 0, 0]), &data, false));
                    cases.push(Case::new(&record(&[key(place, size), none()]), &data, false));
                }
            }
        }
    }
    let long = [vec![0x6b; 4093], bytes("e2 82 ac")].concat();
    for size in 4093..=4096 {
        cases.push(Case::new(&leaf(kind::TEXT, [0, size, 0, 0]), &long, matches!(size, 4093 | 4096)));
    }
    cases
}

/// "place + size is at most the data's length", for each kind that has them, and where the sum wraps in 32 bits.
fn payloads() -> Cases {
    let mut cases = Vec::new();
    for length in [0, 4] {
        // Each byte is a text, and a document that is refused with 3.
        let data = vec![0x0f; length];
        let ends = [0, 1, 4, 5, 1 << 31, u32::MAX - 3, u32::MAX];
        for (place, size) in ends.iter().flat_map(|place| ends.map(|size| (*place, size))) {
            let right = place as u64 + size as u64 <= length as u64;
            for kind in [kind::TEXT, kind::BINARY] {
                cases.push(Case::new(&leaf(kind, [place, size, 0, 0]), &data, right));
            }
            if size == 4 {
                cases.push(Case::new(&leaf(kind::FLOAT, [place, size, 0, 0]), &data, right));
            }
            cases.push(Case::new(&record(&[key(place, size), none()]), &data, right));
            cases.push(Case::new(&damaged(place, size, if size == 0 { 2 } else { 3 }), &data, right));
        }
    }
    cases
}

/// "n is 1 to 16,777,215 and the table holds n rows", "row 0 ends at n".
fn lent_rows() -> Cases {
    let mut cases = Vec::new();
    let tables = [none(), array(&[none(), none()]), declare(&[none()], array(&[refer(0, 1), array(&[])]))];
    for rows in tables {
        let table = rows.as_flattened();
        let behind = [kind::NONE, rows.len() as u32 + 1, 0, 0, 0, 0, kind::NONE, 0, 0, 0, 0];
        for words in [0, 5, table.len() - 6, table.len() - 1, table.len(), table.len() + 5, table.len() + 11] {
            let lent = [table, &behind].concat()[..words].to_vec();
            let counts = (0..=rows.len() as u32 + 2).chain([LIMIT, LIMIT + 1, 1 << 31, u32::MAX]);
            for n in counts {
                let right = n as usize == rows.len() && table.len() <= words;
                cases.push(Case { table: lent.clone(), n, data: vec![], right: Some(right) });
            }
        }
    }
    cases
}

/// "keys stand only as record keys", and nothing else stands there.
fn keys() -> Cases {
    let mut cases = vec![Case::new(&key(0, 1), b"k", false)];
    let others =
        [leaf(kind::TEXT, [0, 1, 0, 0]), leaf(kind::BINARY, [0, 1, 0, 0]), none(), array(&[]), array(&[none()])];
    for way in WAYS {
        cases.push(Case::new(&way(key(0, 1)), b"k", false));
        cases.extend(others.iter().map(|other| Case::new(&way(other.clone()), b"k", true)));
    }
    for other in others {
        cases.push(Case::new(&record(&[other.clone(), none()]), b"k", false));
        cases.push(Case::new(&record(&[key(0, 1), none(), other.clone(), none()]), b"k", false));
        cases.push(Case::new(&record(&[key(0, 1), other, key(0, 0), none()]), b"k", true));
    }
    // At each place among four children.
    for (place, kind) in (0..4).flat_map(|place| [kind::ARRAY, kind::MAP, kind::DECLARATION].map(|kind| (place, kind)))
    {
        let mut children = vec![none(); 4];
        children[place] = key(0, 1);
        cases.push(Case::new(&holder(kind, &children), b"k", false));
    }
    cases
}

fn record(children: &[Vec<Row>]) -> Vec<Row> {
    holder(kind::RECORD, children)
}

/// "a record: key and value in turn".
fn key_and_value() -> Cases {
    let mut cases = Vec::new();
    // Each child a key or not: one order of two is right, and one of four.
    for count in [2, 4] {
        for keys in 0..1 << count {
            let child = |at: usize| if keys >> at & 1 == 1 { key(0, 1) } else { none() };
            let children: Vec<Vec<Row>> = (0..count).map(child).collect();
            cases.push(Case::new(&record(&children), b"k", keys == 0b0101 >> (4 - count)));
        }
    }
    // A value missing, and a key that holds its value.
    let holding = || part(kind::KEY, [0, 1, 0, 0], &[none()]);
    let said = |count: u32, children: &[Vec<Row>]| part(kind::RECORD, [count, 0, 0, 0], children);
    cases.push(Case::new(&said(1, &[key(0, 1)]), b"k", false));
    cases.push(Case::new(&said(2, &[key(0, 1), none(), key(0, 1)]), b"k", false));
    cases.push(Case::new(&said(1, &[holding()]), b"k", false));
    cases.push(Case::new(&said(1, &[holding(), none()]), b"k", false));
    cases
}

/// For each number of children, each count said.
fn counts() -> Cases {
    let mut cases = Vec::new();
    for there in 0..6usize {
        let nones = vec![none(); there];
        let entries: Vec<Vec<Row>> = (0..there).map(|at| if at % 2 == 0 { key(0, 0) } else { none() }).collect();
        for said in (0..6).chain([1 << 31, u32::MAX]) {
            let needed = said as usize;
            for (kind, children, right) in [
                (kind::ARRAY, &nones, there == needed),
                (kind::RECORD, &entries, there == 2 * needed),
                (kind::MAP, &nones, there == 2 * needed),
                (kind::DECLARATION, &nones, said > 0 && there == 1 + needed),
            ] {
                cases.push(Case::new(&part(kind, [said, 0, 0, 0], children), &[], right));
            }
        }
        // "right: all 0, one child. Damaged: .. no child"
        cases.push(Case::new(&part(kind::FOREIGN, [0; 4], &nones), &[0x0f], there == 1));
        cases.push(Case::new(&part(kind::FOREIGN, [0, 1, 3, 0], &nones), &[0x0f], there == 0));
        cases.push(Case::new(&part(kind::FOREIGN, [0, 0, 2, 0], &nones), &[0x0f], there == 0));
        cases.push(Case::new(&part(kind::FOREIGN, [0, 1, 0, 0], &nones), &[0x0f], false));
        for kind in [kind::FALSE, kind::SMALL, kind::BINARY, kind::CHAR] {
            cases.push(Case::new(&part(kind, [0; 4], &nones), &[], there == 0));
        }
    }
    cases
}

/// "children stand back to back from row + 1 to the holder's end": every end of every row, and some wrong together.
fn ends() -> Cases {
    let rows = array(&[array(&[none()]), none()]);
    let with_ends = |ends: [u32; 4], right| {
        let mut rows = rows.clone();
        (0..4).for_each(|row| rows[row][1] = ends[row]);
        Case::new(&rows, &[], right)
    };
    let mut cases = Vec::new();
    for (row, end) in (0..4).flat_map(|row| (0..6).map(move |end| (row, end))) {
        let mut ends = [4, 3, 3, 4];
        ends[row] = end;
        cases.push(with_ends(ends, ends == [4, 3, 3, 4]));
    }
    for ends in [[3, 4, 3, 4], [4, 2, 2, 4], [4, 4, 4, 4], [3, 3, 3, 3], [2, 2, 3, 4], [5, 3, 3, 5]] {
        cases.push(with_ends(ends, false));
    }
    cases
}

/// The longest tables of these cases, 256 rows.
fn longest() -> Cases {
    let rows = array(&vec![none(); 255]);
    let mut cases = vec![Case::new(&rows, &[], true)];
    for (row, word, number) in [(0, 2, 254), (0, 2, 256), (0, 1, 255), (255, 0, 0), (255, 1, 255), (255, 5, 1)] {
        let mut rows = rows.clone();
        rows[row][word] = number;
        cases.push(Case::new(&rows, &[], false));
    }
    for (number, row) in [(253, 254), (253, 253), (254, 255), (0, 1)] {
        let right = number != 254 && row == number + 1;
        cases.push(Case::new(&declare(&vec![none(); 254], refer(number, row)), &[], right));
    }
    cases
}

/// A place for a row: the table around it, and the rows of the entries in force there.
type Around = (fn(Vec<Row>) -> Vec<Row>, &'static [u32]);

const IN_FORCE: [Around; 21] = [
    (|row| row, &[]),
    (|row| array(&[row]), &[]),
    (|row| declare(&[none()], row), &[1]),
    (|row| declare(&[row], none()), &[]),
    (|row| declare(&[none(), row], none()), &[1]),
    (|row| declare(&[none(), array(&[none()]), row], none()), &[1, 2]),
    (|row| declare(&[array(&[none()]), none()], row), &[1, 3]),
    (|row| declare(&[none(), none()], holder(kind::RECORD, &[key(0, 0), row])), &[1, 2]),
    (|row| declare(&[none()], holder(kind::MAP, &[row, none()])), &[1]),
    (|row| declare(&[none(), none(), none()], array(&[none(), row])), &[1, 2, 3]),
    // In a declaration inside another, nothing of the outer one is in force; behind it, the outer one is.
    (|row| declare(&[none(), none()], declare(&[none()], row)), &[4]),
    (|row| declare(&[none(), none()], declare(&[row], none())), &[]),
    (|row| declare(&[none(), declare(&[row], none())], none()), &[]),
    (|row| declare(&[none()], array(&[declare(&[none(), none()], none()), row])), &[1]),
    (|row| declare(&[declare(&[none()], none()), none()], row), &[1, 4]),
    // Request §2: in a foreign body nothing around it is in force, be it in an entry or in another body; what it
    // declares is.
    (|row| declare(&[none()], foreign(row)), &[]),
    (|row| declare(&[none(), foreign(row)], none()), &[]),
    (|row| foreign(declare(&[none()], foreign(row))), &[]),
    (|row| declare(&[none()], foreign(foreign(row))), &[]),
    (|row| declare(&[none()], foreign(declare(&[none()], row))), &[4]),
    (|row| declare(&[none()], array(&[foreign(none()), row])), &[1]),
];

fn foreign(body: Vec<Row>) -> Vec<Row> {
    holder(kind::FOREIGN, &[body])
}

/// A reference is right with exactly the numbers in force, each with its entry's row.
fn references() -> Cases {
    let mut cases = Vec::new();
    for (around, entries) in IN_FORCE {
        let rows = around(none()).len() as u32;
        for number in (0..entries.len() as u32 + 2).chain([u32::MAX]) {
            for row in 0..=rows {
                let right = entries.get(number as usize) == Some(&row);
                cases.push(Case::new(&around(refer(number, row)), &[], right));
            }
        }
    }
    // Many entries, each of one row, and one of two in their middle.
    for count in [63, 64, 65, 66, 128, 129] {
        let mut entries = vec![none(); count];
        entries[count / 2] = array(&[none()]);
        let row = |number: usize| if number <= count / 2 { 1 + number as u32 } else { 2 + number as u32 };
        for number in [count / 2 + 1, count - 1, count] {
            let table = |row| declare(&entries, refer(number as u32, row));
            cases.push(Case::new(&table(row(number)), &[], number < count));
            cases.push(Case::new(&table(row(number) - 1), &[], false));
        }
    }
    cases
}

/// Request §2: a body that refers to what it has not declared itself is damaged, whatever is in force where it stands.
fn verdicts_in_force() -> Cases {
    let mut cases = Vec::new();
    for (around, entries) in IN_FORCE {
        for number in 0..=entries.len() as u8 {
            // A reference alone, in an array, and with a byte behind it; with what reading would give under its entry.
            let data = [0xc1 + number, 0x02, 0xa1, 0x02, 0xc1 + number];
            for (place, size, in_force) in [(0, 1, 0), (2, 3, 0), (0, 2, 10)] {
                for verdict in [in_force, 7] {
                    cases.push(Case::new(&around(damaged(place, size, verdict)), &data, verdict == 7));
                }
            }
        }
    }
    cases
}

/// Every verdict on every damaged body, and on right ones.
fn verdicts() -> Cases {
    let mut cases = Vec::new();
    let right: [(&[u8], u32); 3] = [(&[0x02], 0), (&[0x80, 0x6b], 0), (&[0x0d, 0x00, 0x00], 0)];
    for (body, read) in DAMAGED.into_iter().chain(right) {
        let data = [&[0x6b], body, &[0x02, 0x02]].concat();
        for verdict in (0..=12).chain([255]) {
            let right = read != 0 && verdict == read;
            cases.push(Case::new(&damaged(1, body.len() as u32, verdict), &data, right));
        }
        // At depth 31 a body may still be read; at 32 every one is too deep.
        for verdict in [read, 9, 2] {
            let table = deep(31, |_| 0, damaged(1, body.len() as u32, verdict));
            cases.push(Case::new(&table, &data, read != 0 && verdict == read));
            let table = deep(32, |_| 0, damaged(1, body.len() as u32, verdict));
            cases.push(Case::new(&table, &data, verdict == 9));
        }
    }
    cases
}

/// Positions nest to depth 32: every way down, alone and in turn, and what may stand at the bottom.
fn depths() -> Cases {
    let mut cases = Vec::new();
    for levels in [31, 32, 33, 34] {
        for way in 0..WAYS.len() {
            let table = deep(levels, |_| way, none());
            cases.push(Case::new(&table, b"k", levels <= 32));
        }
        cases.push(Case::new(&deep(levels, |level| level % WAYS.len(), none()), b"k", levels <= 32));
    }
    for levels in [31, 32] {
        for way in WAYS {
            cases.push(Case::new(&deep(levels, |_| 0, way(none())), b"k", levels < 32));
            cases.push(Case::new(&deep(levels, |_| 6, way(none())), b"k", levels < 32));
        }
        for kind in [kind::ARRAY, kind::RECORD, kind::MAP] {
            cases.push(Case::new(&deep(levels, |_| 5, holder(kind, &[])), b"k", true));
        }
    }
    cases
}

/// Bodies in rows at depth 30, 31 and 32, with what reading gives at the first two (0: right) and 9 at the last.
fn verdicts_by_depth() -> Cases {
    let bodies = [
        ("", 2, 2),
        ("02", 0, 0),
        ("a0 02", 0, 9),
        ("a0 a0 02", 9, 9),
        ("b0", 2, 2),
        ("b0 01 ff 02", 5, 5),
        ("b0 01 6b 02", 0, 9),
        ("0d 00 01 02", 0, 0),
    ];
    let mut cases = Vec::new();
    for (body, first, second) in bodies {
        let data = bytes(body);
        for (levels, read) in [(30, first), (31, second), (32, 9)] {
            for verdict in [0, 2, 5, 9] {
                let table = deep(levels, |_| 0, damaged(0, data.len() as u32, verdict));
                cases.push(Case::new(&table, &data, read != 0 && verdict == read));
            }
        }
    }
    cases
}
