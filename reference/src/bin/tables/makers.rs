//! Tables that no reader made: payloads that overlap, run backwards or share bytes, over data of any sort.

use super::parts::{array, bytes, damaged, declare, holder, key, leaf, none, refer, rows_of, Case, Cases};
use super::right::random_document;
use reference::generate::Random;
use reference::measure::measure;
use reference::rows::{kind, Row};
use std::str::from_utf8;

pub fn tables() -> Cases {
    let mut random = Random::new(43);
    let mut cases = places();
    cases.extend(middles());
    cases.extend(bodies());
    cases.extend((0..200).map(|_| payloads(&mut random)));
    cases.extend((0..200).map(|_| exchanged(&mut random)));
    cases
}

fn text(place: u32, size: u32) -> Vec<Row> {
    leaf(kind::TEXT, [place, size, 0, 0])
}

fn binary(place: u32, size: u32) -> Vec<Row> {
    leaf(kind::BINARY, [place, size, 0, 0])
}

/// Payloads in no order over plain text of each length: right when the data reach as far as they do.
fn places() -> Cases {
    let record = |children: &[Vec<Row>]| holder(kind::RECORD, children);
    let tables = [
        (array(&[text(0, 3), text(0, 3), text(0, 3)]), 3),
        (array(&[text(0, 2), text(1, 2), text(0, 3)]), 3),
        (array(&[text(4, 2), text(2, 2), text(0, 2)]), 6),
        (array(&[binary(0, 6), text(2, 2), binary(3, 1), leaf(kind::FLOAT, [1, 4, 0, 0])]), 6),
        (array(&[text(5, 0), binary(5, 0), text(0, 0), binary(3, 0)]), 5),
        (record(&[key(0, 2), text(0, 2), key(0, 2), text(0, 2)]), 2),
        (record(&[key(4, 0), none(), key(4, 0), none()]), 4),
        (record(&[key(4, 2), binary(0, 6), key(0, 6), text(4, 0)]), 6),
        (declare(&[text(3, 2)], array(&[refer(0, 1), text(0, 3), refer(0, 1)])), 5),
        (array(&[none(), array(&[])]), 0),
    ];
    let mut cases = Vec::new();
    for (rows, reach) in tables {
        cases.extend((0..8).map(|length| Case::new(&rows, &b"abcdefgh"[..length], reach <= length)));
        cases.push(Case::new(&rows, &[0x6b; 300], true));
    }
    cases
}

/// Every part of a text of short and long sequences, as a text and as a key.
fn middles() -> Cases {
    let data = "aé€k\u{1d11e}".as_bytes();
    let mut cases = Vec::new();
    for (place, end) in parts(data) {
        let right = from_utf8(&data[place..end]).is_ok();
        let (place, size) = (place as u32, (end - place) as u32);
        cases.push(Case::new(&text(place, size), data, right));
        cases.push(Case::new(&holder(kind::RECORD, &[key(place, size), text(0, 1)]), data, right));
    }
    cases
}

/// Every place and end in the data.
fn parts(data: &[u8]) -> impl Iterator<Item = (usize, usize)> {
    let length = data.len();
    (0..=length).flat_map(move |place| (place..=length).map(move |end| (place, end)))
}

/// Every part of a document as a damaged body, two of them over the same bytes.
fn bodies() -> Cases {
    let data = bytes("a1 0d 00 02 81 61 c0 00 d8 00 0d 0d 00");
    let mut cases = Vec::new();
    for (place, end) in parts(&data) {
        let verdict = measure(&data[place..end]).map_or_else(|refusal| refusal.number(), |_| 0);
        let (place, size) = (place as u32, (end - place) as u32);
        let body = damaged(place, size, verdict);
        cases.push(Case::new(&body, &data, verdict != 0));
        cases.push(Case::new(&array(&[body.clone(), damaged(1, 6, 10), body]), &data, verdict != 0));
    }
    cases
}

/// Payloads at random places, in the data or a little past them.
fn payloads(random: &mut Random) -> Case {
    let length = random.below(24);
    let data = match random.below(3) {
        0 => vec![0x6b; length],
        1 => "né€\u{1d11e}o".bytes().cycle().take(length).collect(),
        _ => random.bytes(length),
    };
    let (mut rows, mut right) = (Vec::new(), true);
    for _ in 0..1 + random.below(3) {
        let (place, size) = (random.below(length + 1), random.one_of(&[0, 1, 1, 2, 3, 4, 8]));
        let part = data.get(place..place + size);
        let (kind, good) = match random.below(3) {
            0 => (kind::FLOAT, part.is_some() && matches!(size, 2 | 4 | 8)),
            1 => (kind::TEXT, part.is_some_and(|part| from_utf8(part).is_ok())),
            _ => (kind::BINARY, part.is_some()),
        };
        rows.push(leaf(kind, [place as u32, size as u32, 0, 0]));
        right &= good;
    }
    Case::new(&array(&rows), &data, right)
}

/// A random document's rows, where each payload is another one that may stand there as well.
fn exchanged(random: &mut Random) -> Case {
    let document = random_document(random);
    let length = document.len();
    let mut rows = rows_of(&document);
    let is_text = |row: &Row| matches!(row[0], kind::TEXT | kind::KEY);
    let texts: Vec<Row> = rows.iter().copied().filter(is_text).collect();
    for row in &mut rows {
        let (place, size) = match row[0] {
            kind::TEXT | kind::KEY => {
                let other = random.one_of(&texts);
                (other[2] as usize, other[3] as usize)
            }
            kind::BINARY => {
                let place = random.below(length + 1);
                (place, random.below(length - place + 1))
            }
            kind::FLOAT => (random.below(length - row[3] as usize + 1), row[3] as usize),
            _ => continue,
        };
        (row[2], row[3]) = (place as u32, size as u32);
    }
    Case::new(&rows, &document, true)
}
