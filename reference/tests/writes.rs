//! The cases of `writes`: each answered as its maker meant and as its tree's document asks, read back, and none shorter.

mod naive;
#[allow(dead_code)]
#[path = "../src/bin/writes.rs"]
mod writes;

use reference::check::check;
use reference::generate::{shortest, Node};
use reference::rows::{kind, lent, Row};
use reference::varint::value;
use std::collections::{BTreeMap, BTreeSet, HashSet};
use writes::{marked, one_longer, written, Case};

const LIMIT: usize = 16_777_215;
const LARGE: &str = "large documents";

/// Every case with its group, what the writer answers, and the output afterwards.
struct Asked {
    group: &'static str,
    case: Case,
    answer: Result<usize, (u32, u64)>,
    out: Vec<u8>,
}

impl Asked {
    fn rows(&self) -> &[Row] {
        &lent(&self.case.table)[..self.case.n as usize]
    }

    /// The number of the answer.
    fn number(&self) -> u32 {
        self.answer.map_or_else(|(number, _)| number, |_| 0)
    }
}

fn all() -> Vec<Asked> {
    let mut all = Vec::new();
    for (group, cases) in writes::groups() {
        for case in cases {
            let (answer, out) = written(&case);
            let answer = answer.map_err(|refusal| (refusal.number(), refusal.beside));
            all.push(Asked { group, case, answer, out });
        }
    }
    all
}

/// Every case that is written.
fn all_written() -> impl Iterator<Item = (Asked, usize)> {
    all().into_iter().filter_map(|asked| asked.answer.ok().map(|used| (asked, used)))
}

/// The output after a refusal, or with this document at its front.
fn left(document: &[u8], room: usize) -> Vec<u8> {
    [document, &marked(room)[document.len()..]].concat()
}

#[test]
fn each_answer_is_the_one_meant() {
    let mut meant = 0;
    for Asked { group, case, answer, out } in all() {
        match &case.meant {
            Some(Ok(document)) => {
                assert_eq!(answer, Ok(document.len()), "{group}: {case:02x?}");
                assert!(out == left(document, case.room), "{group}: {case:02x?} {out:02x?}");
            }
            Some(Err(refusal)) => {
                assert_eq!(answer, Err(*refusal), "{group}: {case:02x?}");
                assert!(out == marked(case.room), "{group}: {case:02x?} {out:02x?}");
            }
            None => continue,
        }
        meant += 1;
    }
    assert!(meant > 3_500, "{meant}");
}

/// The tree that right rows from one on stand for, by the counts alone: no end is looked at.
fn tree(rows: &[Row], next: &mut usize, data: &[u8]) -> Node {
    let [kind, _, words @ ..] = rows[*next];
    let [w0, w1, w2, _] = words;
    *next += 1;
    let part = |place: u32, size: u32| data[place as usize..][..size as usize].to_vec();
    let text = |place, size| String::from_utf8(part(place, size)).unwrap();
    let mut held = || tree(rows, next, data);
    match kind {
        kind::FALSE => Node::False,
        kind::TRUE => Node::True,
        kind::NONE => Node::None,
        kind::SMALL | kind::SIGNED => Node::Signed(value(words) as i128),
        kind::UNSIGNED => Node::Unsigned(value(words)),
        kind::FLOAT => Node::Float(part(w0, w1)),
        kind::TEXT => Node::Text(text(w0, w1)),
        kind::BINARY => Node::Binary(part(w0, w1)),
        kind::CHAR => Node::Char(char::from_u32(w0).unwrap()),
        kind::ARRAY => Node::Array((0..w0).map(|_| held()).collect()),
        kind::RECORD => {
            let mut entry = || {
                let [_, _, place, size, ..] = rows[*next];
                *next += 1;
                (text(place, size), tree(rows, next, data))
            };
            Node::Record((0..w0).map(|_| entry()).collect())
        }
        kind::MAP => Node::Map((0..w0).map(|_| (held(), held())).collect()),
        kind::REFERENCE => Node::Reference(w0),
        kind::DECLARATION => {
            let entries = (0..w0).map(|_| held()).collect();
            Node::Declaration(entries, Box::new(held()))
        }
        kind::FOREIGN if w2 == 0 => Node::Foreign(Box::new(held())),
        _ => Node::Damaged(part(w0, w1), w2),
    }
}

#[test]
fn each_answer_is_that_of_the_tree() {
    for Asked { group, case, answer, out } in all() {
        let n = case.n as usize;
        let rows = lent(&case.table).get(..n).filter(|_| (1..=LIMIT).contains(&n));
        // The plain check reads what it has written, and so knows none of the longest documents.
        let right = rows.filter(|rows| match group {
            LARGE => check(&case.table, n, &case.data).is_ok(),
            _ => naive::check(rows, &case.data),
        });
        let document = right.map(|rows| shortest(&tree(rows, &mut 0, &case.data)));
        let (meant, after) = match &document {
            None => (Err((12, 0)), &[][..]),
            Some(long) if long.len() > LIMIT => (Err((1, long.len() as u64)), &[][..]),
            Some(long) if long.len() > case.room => (Err((13, long.len() as u64)), &[][..]),
            Some(whole) => (Ok(whole.len()), &whole[..]),
        };
        assert_eq!(answer, meant, "{case:02x?}");
        assert!(out == left(after, case.room), "{case:02x?} {out:02x?}");
    }
}

/// A row with the bytes it carries instead of their place.
fn carried(row: &Row, data: &[u8]) -> (Row, Vec<u8>) {
    match naive::body(row) {
        Some((place, size)) => {
            let [kind, end, _, w1, w2, w3] = *row;
            ([kind, end, 0, w1, w2, w3], data[place..place + size].to_vec())
        }
        None => (*row, Vec::new()),
    }
}

fn all_carried(rows: &[Row], data: &[u8]) -> Vec<(Row, Vec<u8>)> {
    rows.iter().map(|row| carried(row, data)).collect()
}

#[test]
fn what_is_written_is_read_back() {
    for (asked, used) in all_written() {
        let document = &asked.out[..used];
        let rows = naive::rows(document).unwrap();
        assert!(all_carried(&rows, document) == all_carried(asked.rows(), &asked.case.data), "{:02x?}", asked.case);
    }
}

#[test]
fn no_other_form_is_shorter() {
    let mut seen = HashSet::new();
    let mut others = 0;
    for (asked, used) in all_written().filter(|(_, used)| *used <= 300) {
        if seen.insert(asked.out[..used].to_vec()) {
            for longer in one_longer(&tree(asked.rows(), &mut 0, &asked.case.data)) {
                assert!(longer.len() >= used, "{:02x?} {longer:02x?}", asked.case);
                let rows = naive::rows(&longer).unwrap();
                assert!(all_carried(&rows, &longer) == all_carried(asked.rows(), &asked.case.data));
                others += 1;
            }
        }
    }
    assert!(others > 20_000, "{others}");
}

#[test]
fn every_answer_is_met_often() {
    let mut met: BTreeMap<&str, BTreeMap<u32, usize>> = BTreeMap::new();
    let mut all_met: BTreeMap<u32, usize> = BTreeMap::new();
    for asked in all() {
        *met.entry(asked.group).or_default().entry(asked.number()).or_default() += 1;
        *all_met.entry(asked.number()).or_default() += 1;
    }
    println!("{met:?}");
    assert_eq!(Vec::from_iter(all_met.keys().copied()), [0, 1, 12, 13]);
    assert!(all_met[&0] >= 2_000 && all_met[&1] >= 4 && all_met[&12] >= 500 && all_met[&13] >= 800, "{all_met:?}");
}

#[test]
fn every_kind_and_marker_is_written() {
    let mut kinds: BTreeMap<u32, usize> = BTreeMap::new();
    let mut verdicts: BTreeMap<u32, usize> = BTreeMap::new();
    let (mut markers, mut references) = (BTreeSet::new(), BTreeSet::new());
    for (asked, _) in all_written() {
        for row in asked.rows() {
            *kinds.entry(row[0]).or_default() += 1;
            if row[0] == kind::FOREIGN && row[4] != 0 {
                *verdicts.entry(row[4]).or_default() += 1;
            }
            if row[0] == kind::REFERENCE {
                references.insert(row[2]);
            }
        }
        markers.insert(asked.out[0]);
    }
    assert!((kind::FALSE..=kind::KEY).all(|kind| kinds[&kind] >= 100), "{kinds:?}");
    assert!((2..=10).all(|verdict| verdicts[&verdict] >= 10), "{verdicts:?}");
    // A document begins with every marker but those of references.
    assert!((0x00..=0x0d).chain(0x10..=0xc0).all(|marker| markers.contains(&marker)), "{markers:02x?}");
    assert!((0..=62).chain([247, 248, 255, 256]).all(|number| references.contains(&number)), "{references:?}");
}

#[test]
fn cases_fit_their_bounds() {
    let mut sizes: BTreeMap<&str, (usize, usize)> = BTreeMap::new();
    for (group, cases) in writes::groups() {
        for case in cases {
            let (count, bytes) = sizes.entry(group).or_default();
            *count += 1;
            *bytes += 12 + 4 * case.table.len() + case.data.len();
            assert!(case.table.len() <= 4_096 && case.data.len() <= 65_535 && case.room <= 163_840);
        }
    }
    println!("{sizes:?}");
    assert!(writes::inputs().len() < 1_550_000, "{}", writes::inputs().len());
    assert!(writes::expected().len() < 1_500_000, "{}", writes::expected().len());
    assert_eq!(writes::expected().lines().count(), sizes.values().map(|(count, _)| count).sum::<usize>());
}
