//! Tables of random words, and right ones with one or two words changed at random.

use super::parts::{rows_of, Case, Cases};
use super::right::{holders, leaves, random_document};
use reference::generate::Random;
use reference::rows::{kind, Row};

pub fn tables() -> Cases {
    let mut random = Random::new(47);
    let mut cases = exchanged_kinds();
    cases.extend((0..300).map(|_| random_rows(&mut random)));
    let bases: Vec<Vec<u8>> = leaves().into_iter().map(|(document, _)| document).chain(holders()).collect();
    for at in 0..1260 {
        let document = match at % 3 {
            0 => random_document(&mut random),
            _ => bases[random.below(bases.len())].clone(),
        };
        cases.push(changed(&document, 1 + at % 2, &mut random));
    }
    cases
}

/// Every kind over the words of every leaf.
fn exchanged_kinds() -> Cases {
    let mut cases = Vec::new();
    for (document, row) in leaves().into_iter().step_by(2) {
        for kind in kind::FALSE..=kind::KEY {
            let mut rows = rows_of(&document);
            rows[row][0] = kind;
            cases.push(Case { right: None, ..Case::new(&rows, &document, true) });
        }
    }
    cases
}

/// Rows of any kind, mostly with an end that could be right and with small words.
fn random_rows(random: &mut Random) -> Case {
    let n = 1 + random.below(5);
    let length = random.below(12);
    let data = if random.below(2) == 0 { vec![0x6b; length] } else { random.bytes(length) };
    let mut rows: Vec<Row> = (0..n).map(|row| random_row(row, n, length, random)).collect();
    rows[0][1] = if random.below(8) == 0 { random.below(n + 2) } else { n } as u32;
    Case { right: None, ..Case::new(&rows, &data, true) }
}

fn random_row(row: usize, n: usize, length: usize, random: &mut Random) -> Row {
    let kinds = random.one_of(&[18, 18, 18, 18, 18, 20]);
    let kind = random.below(kinds) as u32;
    let end = if row + 1 < n && random.below(3) == 0 { row + 1 + random.below(n - row) } else { row + 1 };
    let holds = end - row - 1;
    let mut words = [0; 4];
    match kind {
        kind::SMALL..=kind::UNSIGNED => words[0] = random.below(130) as u32,
        kind::FLOAT | kind::TEXT | kind::BINARY | kind::KEY => {
            words[0] = random.below(length + 1) as u32;
            words[1] = random.below(4) as u32;
        }
        kind::ARRAY => words[0] = holds as u32,
        kind::RECORD | kind::MAP => words[0] = holds as u32 / 2,
        kind::CHAR => words[0] = random.number() as u32 >> (8 + random.below(20)),
        kind::REFERENCE => {
            words[0] = random.below(2) as u32;
            words[1] = words[0] + random.below(3) as u32;
        }
        kind::DECLARATION => words[0] = holds.saturating_sub(1) as u32,
        kind::FOREIGN if holds == 0 => {
            words[0] = random.below(length + 1) as u32;
            words[1] = random.below(3) as u32;
            words[2] = random.one_of(&[2, 2, 3, 5, 7, 9, 10]);
        }
        _ => {}
    }
    if random.below(10) == 0 {
        words[random.below(4)] = random.number() as u32 >> random.below(32);
    }
    let [w0, w1, w2, w3] = words;
    [kind, end as u32, w0, w1, w2, w3]
}

/// A document's table with so many words changed, and now and then another n.
fn changed(document: &[u8], changes: usize, random: &mut Random) -> Case {
    let mut rows = rows_of(document);
    for _ in 0..changes {
        let (at, word) = (random.below(rows.len()), random.below(6));
        let old = rows[at][word];
        rows[at][word] = match random.below(7) {
            0 => old.wrapping_add(1),
            1 => old.wrapping_sub(1),
            2 => random.below(19) as u32,
            3 => random.one_of(&[0, u32::MAX, 64, 65, 0xd800, 0x11_0000, rows.len() as u32, document.len() as u32]),
            4 => rows[random.below(rows.len())][word],
            5 => rows[random.below(rows.len())][random.below(6)],
            _ => random.number() as u32 >> random.below(32),
        };
    }
    let case = Case { right: None, ..Case::new(&rows, document, true) };
    match random.below(20) {
        0 => Case { n: random.below(rows.len() + 2) as u32, ..case },
        _ => case,
    }
}
