//! Properties over generated documents and tables, right and wrong.

mod naive;

use reference::check::check;
use reference::fill::fill;
use reference::generate::{changed, longer, noise, shortest, tree, Node, Random, DAMAGED};
use reference::measure::measure;
use reference::refusal::Refusal;
use reference::rows::{lent, Row};
use reference::walk::{along, on, payload, resolve, start, step_in, Standing};
use reference::write::write;
use std::time::{Duration, Instant};

const DOCUMENTS: u64 = 20_000;

/// A tree of one of several sizes and shapes, at times deep in arrays or foreign documents.
fn random_tree(random: &mut Random) -> Node {
    let mut rows = random.one_of(&[1, 3, 8, 20, 60]);
    let levels = if random.below(6) == 0 { random.below(33) as u32 } else { 0 };
    let foreign = random.below(2) == 0;
    let mut node = tree(random, levels, 0, &mut rows);
    for _ in 0..levels {
        node = if foreign { Node::Foreign(Box::new(node)) } else { Node::Array(vec![node]) };
    }
    node
}

/// A row with the bytes it carries instead of their place.
type Carried = (Row, Vec<u8>);

fn carried(row: &Row, data: &[u8]) -> Carried {
    match naive::body(row) {
        Some((place, size)) => {
            let [kind, end, _, w1, w2, w3] = *row;
            ([kind, end, 0, w1, w2, w3], data[place..place + size].to_vec())
        }
        None => (*row, Vec::new()),
    }
}

/// The rows that a tree stands for.
fn expected(node: &Node, entries: &[usize], rows: &mut Vec<Carried>) {
    let own = rows.len();
    let wide = |kind, value: u128| {
        let word = |at: u32| (value >> (32 * at)) as u32;
        [kind, 0, word(0), word(1), word(2), word(3)]
    };
    let bare = |kind, w0: usize| ([kind, 0, w0 as u32, 0, 0, 0], Vec::new());
    let bytes = |kind, bytes: &[u8], verdict| ([kind, 0, 0, bytes.len() as u32, verdict, 0], bytes.to_vec());
    rows.push(match node {
        Node::False => bare(1, 0),
        Node::True => bare(2, 0),
        Node::None => bare(3, 0),
        Node::Signed(value @ -31..=64) => (wide(4, *value as u128), vec![]),
        Node::Signed(value) => (wide(5, *value as u128), vec![]),
        Node::Unsigned(value) => (wide(if *value <= 64 { 4 } else { 6 }, *value), vec![]),
        Node::Float(body) => bytes(7, body, 0),
        Node::Text(text) => bytes(8, text.as_bytes(), 0),
        Node::Binary(body) => bytes(12, body, 0),
        Node::Char(char) => bare(13, *char as usize),
        Node::Array(elements) => bare(9, elements.len()),
        Node::Record(entries) => bare(10, entries.len()),
        Node::Map(entries) => bare(11, entries.len()),
        Node::Reference(number) => ([14, 0, *number, entries[*number as usize] as u32, 0, 0], vec![]),
        Node::Declaration(entries, _) => bare(15, entries.len()),
        Node::Foreign(_) => bare(16, 0),
        Node::Damaged(body, verdict) => bytes(16, body, *verdict),
    });
    match node {
        Node::Array(elements) => elements.iter().for_each(|element| expected(element, entries, rows)),
        Node::Record(pairs) => {
            for (key, value) in pairs {
                rows.push(bytes(17, key.as_bytes(), 0));
                rows.last_mut().unwrap().0[1] = rows.len() as u32;
                expected(value, entries, rows);
            }
        }
        Node::Map(pairs) => {
            for (key, value) in pairs {
                expected(key, entries, rows);
                expected(value, entries, rows);
            }
        }
        Node::Declaration(declared, value) => {
            let mut before = Vec::new();
            for entry in declared {
                let row = rows.len();
                expected(entry, &before, rows);
                before.push(row);
            }
            expected(value, &before, rows);
        }
        Node::Foreign(value) => expected(value, &[], rows),
        _ => {}
    }
    rows[own].0[1] = rows.len() as u32;
}

/// Rows, or the refusal's number and the number beside it.
type Answer = Result<usize, (u32, usize)>;

fn plain(answer: Result<usize, Refusal>) -> Answer {
    answer.map_err(|refusal| (refusal.number(), refusal.beside as usize))
}

/// Fills a table of so many words that has no zeros before.
fn filled(document: &[u8], words: usize) -> (Answer, Vec<u32>) {
    let mut table = vec![0xdead_beef; words];
    (plain(fill(document, &mut table)), table)
}

/// What holds for any bytes at all; the rows when they are accepted.
fn reads_right(document: &[u8]) -> Option<Vec<Row>> {
    let measured = plain(measure(document));
    assert_eq!(measured, naive::measure(document), "{document:02x?}");
    match measured {
        Err((number, place)) => {
            assert!((2..=10).contains(&number) && place <= document.len());
            for words in [0, 5, 6 * document.len() + 5] {
                assert_eq!(filled(document, words), (measured, vec![0; words]), "{document:02x?}");
            }
            None
        }
        Ok(n) => {
            assert!(n <= document.len());
            for words in [0, 5, 6 * n - 6, 6 * n - 1] {
                assert_eq!(filled(document, words), (Err((11, n)), vec![0; words]), "{document:02x?}");
            }
            for words in [6 * n, 6 * document.len() + 5] {
                assert_eq!(filled(document, words), naive::fill(document, words), "{document:02x?}");
            }
            let (answer, table) = filled(document, 6 * n);
            assert_eq!(answer, measured);
            let rows = lent(&table).to_vec();
            accepted(document, &rows);
            Some(rows)
        }
    }
}

/// What holds for the rows of an accepted document.
fn accepted(document: &[u8], rows: &[Row]) {
    let (table, n) = (rows.as_flattened(), rows.len());
    check(table, n, document).unwrap();
    let mut out = vec![0xaa; document.len() + 1];
    let written = write(table, n, document, &mut out).unwrap();
    assert!(written <= document.len() && out[written..].iter().all(|byte| *byte == 0xaa));
    let mut less = vec![0xaa; written - 1];
    let refusal = write(table, n, document, &mut less).unwrap_err();
    assert_eq!((refusal.number(), refusal.beside), (13, written as u64));
    assert!(less.iter().all(|byte| *byte == 0xaa));
    out.truncate(written);

    let (answer, back) = filled(&out, 6 * n);
    assert_eq!(answer, Ok(n));
    for (row, (a, b)) in rows.iter().zip(lent(&back)).enumerate() {
        assert_eq!(carried(a, document), carried(b, &out));
        assert_eq!(payload(table, row, document), payload(&back, row, &out));
    }
    let mut again = vec![0; written];
    assert_eq!((write(&back, n, &out, &mut again), &again), (Ok(written), &out));
    walks(table, n);
}

/// In and on come by every row once, in order, with its holder's end; along and resolve stay below.
fn walks(table: &[u32], n: usize) {
    fn from(table: &[u32], n: usize, standing: Standing, next: &mut usize) {
        assert_eq!(standing.row, *next);
        *next += 1;
        let row = lent(table)[standing.row];
        match along(table, n, standing) {
            Ok(entry) => {
                assert_eq!((row[0], entry.row), (14, row[3] as usize));
                assert!(entry.row < standing.row && entry.bound == lent(table)[entry.row][1] as usize);
            }
            Err(refusal) => assert!(row[0] != 14 && refusal.number() == 14),
        }
        let end = resolve(table, n, standing.row).unwrap();
        assert!(end.row < n && end.moves < n && !matches!(lent(table)[end.row][0], 14 | 15));
        assert_eq!(end.bound, lent(table)[end.row][1] as usize);
        assert_eq!(end.moves == 0, end.row == standing.row);
        let mut child = step_in(table, n, standing);
        while let Ok(inside) = child {
            assert_eq!(inside.bound, row[1] as usize);
            from(table, n, inside, next);
            child = on(table, n, inside);
        }
        assert_eq!((child.unwrap_err().number(), *next), (14, row[1] as usize));
    }
    let mut next = 0;
    from(table, n, start(n), &mut next);
    assert_eq!((next, on(table, n, start(n)).unwrap_err().number()), (n, 14));
}

/// Bytes before a body at depth 3, the row of the first value in it, and the bytes behind it: under entries, in an entry,
/// and in another body.
fn around(body: &[u8], way: usize) -> (Vec<u8>, u32, &'static [u8]) {
    let header = |size: usize| [&[0x0d, 0x00, 0xfa], &size.to_le_bytes()[..3]].concat();
    let own = header(body.len());
    match way {
        0 => ([&[0x0d, 0x0d, 0x02, 0x01, 0x02, 0xa1, 0x02], &own[..]].concat(), 6, &[]),
        1 => ([&[0x0d, 0x0d, 0x02, 0x01, 0xa0], &own[..]].concat(), 4, &[0x02]),
        _ => {
            let inside = [&[0x0d, 0x0d, 0x01, 0x01], &own[..]].concat();
            ([header(inside.len() + body.len()), inside].concat(), 4, &[])
        }
    }
}

/// Request §2: a foreign body has the rows of its bytes alone, row numbers and places moved, or the verdict for which
/// they are refused alone, whatever is in force around it. Alone they stand in three arrays, so that as many levels are
/// left.
#[test]
fn a_body_is_what_its_bytes_are_alone() {
    let mut random = Random::new(5);
    let mut met = [0; 11];
    for case in 0..DOCUMENTS as usize {
        let (force, mut rows) = (random.below(3) as u32, random.one_of(&[1, 3, 8, 20]));
        let body = longer(&tree(&mut random, 3, force, &mut rows), &mut random);
        let body = match random.below(8) {
            0 => random.one_of(&DAMAGED).0.to_vec(),
            1 | 2 => changed(&body, &mut random),
            _ => body,
        };
        let (front, first, behind) = around(&body, case % 3);
        let document = [&front[..], &body, behind].concat();
        let (answer, table) = filled(&document, 6 * document.len());
        let rows = &lent(&table)[..answer.unwrap()];
        let three = [&[0xa0; 3], &body[..]].concat();
        let alone = filled(&three, 6 * three.len());
        let (down, by) = (first - 3, front.len() as u32 - 3);
        let expected = match alone.0 {
            Ok(n) => {
                let moved = |&[kind, end, w0, w1, w2, w3]: &Row| match kind {
                    7 | 8 | 12 | 17 => [kind, down + end, by + w0, w1, w2, w3],
                    16 if w2 != 0 => [kind, down + end, by + w0, w1, w2, w3],
                    14 => [kind, down + end, w0, down + w1, w2, w3],
                    _ => [kind, down + end, w0, w1, w2, w3],
                };
                let mut rows = vec![[16, down + n as u32, 0, 0, 0, 0]];
                rows.extend(lent(&alone.1)[3..n].iter().map(moved));
                rows
            }
            Err((number, _)) => vec![[16, first, front.len() as u32, body.len() as u32, number, 0]],
        };
        let own = first as usize - 1;
        assert_eq!(rows[own..own + expected.len()], expected, "{document:02x?}");
        assert_eq!(rows.len(), own + expected.len() + behind.len(), "{document:02x?}");
        met[alone.0.map_or_else(|(number, _)| number, |_| 0) as usize] += 1;
    }
    assert!([0, 2, 3, 4, 5, 6, 7, 8, 9, 10].iter().all(|number| met[*number] >= 50), "{met:?}");
}

#[test]
fn trees_in_any_form() {
    let mut random = Random::new(1);
    for _ in 0..DOCUMENTS {
        let node = random_tree(&mut random);
        let document = longer(&node, &mut random);
        let rows = reads_right(&document).unwrap_or_else(|| panic!("{node:?}"));
        let mut carried_rows = Vec::new();
        expected(&node, &[], &mut carried_rows);
        assert_eq!(rows.iter().map(|row| carried(row, &document)).collect::<Vec<_>>(), carried_rows);
        let mut out = vec![0; document.len()];
        let written = write(rows.as_flattened(), rows.len(), &document, &mut out).unwrap();
        assert_eq!(out[..written], shortest(&node));
    }
}

#[test]
fn changed_and_cut_documents() {
    let mut random = Random::new(2);
    let mut right = 0;
    for _ in 0..DOCUMENTS {
        let node = random_tree(&mut random);
        let document = changed(&longer(&node, &mut random), &mut random);
        right += reads_right(&document).is_some() as u32;
        reads_right(&document[..random.below(document.len() + 1)]);
        // The same bytes as the body of a foreign document inside an array.
        let body = Node::Array(vec![Node::Damaged(document, 0), Node::True]);
        reads_right(&longer(&body, &mut random)).unwrap();
    }
    assert!((2_000..18_000).contains(&right), "{right}");
}

#[test]
fn every_front_of_a_document() {
    let mut random = Random::new(3);
    for _ in 0..500 {
        let node = random_tree(&mut random);
        let document = longer(&node, &mut random);
        (0..document.len()).for_each(|size| assert_eq!(reads_right(&document[..size]), None));
    }
}

#[test]
fn noisy_bytes() {
    let mut random = Random::new(4);
    for _ in 0..20 * DOCUMENTS {
        reads_right(&noise(&mut random));
    }
}

/// No bytes; one more than the limit, where measuring and filling ask nothing else.
#[test]
fn no_bytes_and_too_many() {
    assert_eq!(reads_right(&[]), None);
    for document in [vec![0x02; 16_777_216], vec![0x0e; 16_777_216]] {
        assert_eq!((plain(measure(&document)), naive::measure(&document)), (Err((1, 0)), Err((1, 0))));
        for words in [0, 5, 6, 13] {
            assert_eq!(filled(&document, words), (Err((1, 0)), vec![0; words]));
            assert_eq!(filled(&document, words), naive::fill(&document, words));
        }
    }
}

#[test]
fn every_document_of_two_bytes() {
    for bytes in 0..=u16::MAX {
        reads_right(&bytes.to_le_bytes());
    }
}

#[test]
fn changed_tables() {
    let mut random = Random::new(5);
    let mut right = 0;
    for _ in 0..DOCUMENTS {
        let node = random_tree(&mut random);
        let data = longer(&node, &mut random);
        let mut rows = naive::rows(&data).unwrap();
        for _ in 0..8 {
            let mut rows = rows.clone();
            for _ in 0..1 + random.below(2) {
                let (at, word) = (random.below(rows.len()), random.below(6));
                let old = rows[at][word];
                rows[at][word] = match random.below(6) {
                    0 => old.wrapping_add(1),
                    1 => old.wrapping_sub(1),
                    2 => random.below(19) as u32,
                    3 => random.one_of(&[0, u32::MAX, 64, 65, 0xd800, 0x110000, rows.len() as u32, data.len() as u32]),
                    4 => rows[random.below(rows.len())][word],
                    _ => random.number() as u32 >> random.below(32),
                };
            }
            right += unchecked(&rows, &data, &mut random) as u32;
        }
        let (a, b) = (random.below(rows.len()), random.below(rows.len()));
        rows.swap(a, b);
        right += unchecked(&rows, &data, &mut random) as u32;
        rows.truncate(random.below(rows.len()));
        right += unchecked(&rows, &data, &mut random) as u32;
    }
    assert!(right > 5_000, "{right}");
}

/// What holds for any table at all; whether it is right.
fn unchecked(rows: &[Row], data: &[u8], random: &mut Random) -> bool {
    let (table, n) = (rows.as_flattened(), rows.len());
    let right = check(table, n, data).is_ok();
    assert_eq!(right, naive::check(rows, data), "{rows:?} {data:02x?}");
    let mut out = vec![0xaa; 40 * n + 2 * data.len()];
    match write(table, n, data, &mut out) {
        Ok(written) => {
            let (answer, back) = filled(&out[..written], 6 * n);
            assert!(right && answer == Ok(n));
            assert!(rows.iter().zip(lent(&back)).all(|(a, b)| carried(a, data) == carried(b, &out)));
        }
        Err(refusal) => {
            assert_eq!(right, refusal.number() == 13);
            assert!(right || (refusal.number(), refusal.beside) == (12, 0));
            assert!(out.iter().all(|byte| *byte == 0xaa));
        }
    }
    for row in 0..n + 1 {
        payload(table, row, data);
        match resolve(table, n, row) {
            Ok(end) => assert!(end.row < n && end.moves < n),
            Err(refusal) => assert!(refusal.number() == 12 && !(right && row < n)),
        }
        let standing = Standing { row, bound: random.below(n + 2) };
        for step in [step_in, on, along] {
            match step(table, n, standing) {
                Ok(to) => assert!(to.row < n && to.row != row),
                Err(refusal) => assert!(matches!(refusal.number(), 12 | 14)),
            }
        }
    }
    right
}

/// Foreign documents in foreign documents, with damage at the bottom: measuring each body twice
/// at every level would take 2 to the 31st readings of it.
#[test]
fn nested_bodies_are_measured_once() {
    let begun = Instant::now();
    for bottom in [&[0x02][..], &[0x02, 0x02], &[]] {
        let mut body = [&[0x0c, 0xfa, 0x00, 0x00, 0x02][..], &vec![7; 0x20000], bottom].concat();
        for level in 0..32 {
            let size = (body.len() as u32).to_le_bytes();
            body = [&[0x0d, 0x00, 0xfb], &size[..], &body].concat();
            if level % 2 == 1 {
                body = [&[0xa1], &body[..], &[0x0d, 0x00, 0x01, 0x0e]].concat();
            }
            reads_right(&body);
        }
    }
    assert!(begun.elapsed() < Duration::from_secs(60));
}

/// More entries than a registry marks, each one found again.
#[test]
fn many_entries() {
    let mut random = Random::new(6);
    for count in [63, 64, 65, 127, 128, 129, 1000, 5000] {
        let entries = (0..count).map(|before| match random.below(4) {
            0 if before > 0 => Node::Reference(random.below(before) as u32),
            1 => Node::Array(vec![Node::None; random.below(3)]),
            _ => Node::True,
        });
        let entries = entries.collect();
        let value = Node::Array((0..count as u32).map(Node::Reference).collect());
        let node = Node::Declaration(entries, Box::new(value));
        let rows = reads_right(&shortest(&node)).unwrap();
        let table = rows.as_flattened();
        let wrong = rows.len() - 1 - random.below(count);
        let mut changed = table.to_vec();
        changed[6 * wrong + 3] += 1;
        assert!(check(table, rows.len(), &shortest(&node)).is_ok());
        assert!(check(&changed, rows.len(), &shortest(&node)).is_err());
    }
}
