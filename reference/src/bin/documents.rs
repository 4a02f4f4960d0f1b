//! Generated documents, each form at its edges, damaged and cut ones among them.
//!
//! `documents inputs` prints the documents (two bytes of length, little endian, then the bytes),
//! `documents expected` the listing of each, one behind the other.

use reference::generate::{changed, integer_forms, longer, noise, number_forms, shortest, tree, Node, Random, DAMAGED};
use reference::listing::listing;
use std::collections::HashSet;
use std::io::{stdout, Write};

fn main() -> std::io::Result<()> {
    match std::env::args().nth(1).as_deref() {
        Some("inputs") => stdout().write_all(&prefixed(&documents())),
        Some("expected") => stdout().write_all(expected(&documents()).as_bytes()),
        _ => {
            eprintln!("usage: documents inputs | expected");
            std::process::exit(2)
        }
    }
}

fn prefixed(documents: &[Vec<u8>]) -> Vec<u8> {
    documents.iter().flat_map(|bytes| [&(bytes.len() as u16).to_le_bytes(), &bytes[..]].concat()).collect()
}

fn expected(documents: &[Vec<u8>]) -> String {
    documents.iter().map(|bytes| listing(bytes)).collect()
}

type Documents = Vec<Vec<u8>>;

fn documents() -> Documents {
    let mut documents = vec![vec![]];
    documents.extend(examples());
    documents.extend(markers());
    documents.extend(groups());
    documents.extend(lengths());
    documents.extend(integers());
    documents.extend(floats_and_chars());
    documents.extend(texts());
    documents.extend(references());
    documents.extend(foreign());
    documents.extend(alone());
    documents.extend(depths());
    documents.extend(full_tables());
    documents.extend(random_documents());
    let mut seen = HashSet::new();
    documents.retain(|document| seen.insert(document.clone()));
    documents
}

fn bytes(hex: &str) -> Vec<u8> {
    hex.split_whitespace().map(|pair| u8::from_str_radix(pair, 16).unwrap()).collect()
}

/// The examples of the paper, and those of its decided readings.
fn examples() -> Documents {
    let lines = "02|02 02|20|3f|40|7f|18 40|18 41|12 70 11 01|1a 70 11 01|11 c8 00|18 c8|10 e0|0d 0d 01 80 61 a2 c1 c1 c1|\
        c1|0d 0d 01 c1 02|0d 0d 00 02|a1 0d 00 02 81 61 01|0d 00 02 02 02|0d 00 05 02|0d 0d 01 44 0d 00 01 c1|\
        c0 ff d7 00|c0 ff ff 10|c0 00 d8 00|c0 00 00 11|81 c0 80|0d 0d 02 44 c1 c2|08 01 61|09 01 02|\
        0d 0d 01 02 ff 00|09 fa ff ff ff|a1 02|0d|0d 0d|0d 0d f8|0d 0d f8 00|0d 0d 00|0d 0d 01|0d 0d 01 02|0d 00|\
        0d 00 00|a1 0d 00 00 0d 00 00|82 c0 80|c0 00 d8|a1 0d 00 03 0d 00 01 01|b0 01 61|b0 01 ff 0e|b1 00 02 00 02|b0 80";
    lines.split('|').map(bytes).collect()
}

/// Every byte alone, every byte behind `0d`, and every marker with a tail of small values behind it.
fn markers() -> Documents {
    let mut documents = Vec::new();
    for byte in 0..=255u8 {
        documents.push(vec![byte]);
        documents.push(vec![0x0d, byte]);
        documents.push(vec![byte, 0x01, 0x61, 0x02]);
    }
    for byte in (0..=255u8).filter(|byte| !(0x20..0x80).contains(byte)) {
        documents.push([vec![byte], vec![0x00; 33]].concat());
    }
    documents
}

/// Every marker that carries a size or count itself, with as many units as it says, one less and one more.
fn groups() -> Documents {
    let mut documents = Vec::new();
    for (first, last, unit) in [(0x80, 0x9f, "6b"), (0xa0, 0xaf, "02"), (0xb0, 0xb7, "01 6b 02"), (0xb8, 0xbf, "02 01")]
    {
        for marker in first..=last {
            let document = [vec![marker], bytes(unit).repeat((marker - first) as usize + 1)].concat();
            documents.push([&document[..], &[0x02]].concat());
            documents.push(document[..document.len() - 1].to_vec());
            documents.push(document);
        }
    }
    documents
}

/// Everything that a number stands in front of: the front, what one more of the number adds, the end.
const NUMBERED: [(&str, &str, &str); 9] = [
    ("08", "6b", ""),
    ("09", "02", ""),
    ("0a", "01 6b 02", ""),
    ("0b", "02 01", ""),
    ("0c", "ff", ""),
    ("0d 0d", "02", "01"),
    ("0d 00", "02", ""),
    ("b0", "6b", "02"),
    ("0d 0d 03 00 01 02 ff", "", ""),
];

/// Numbers at the edges of each form, in every form that holds them.
fn lengths() -> Documents {
    let mut documents = Vec::new();
    for (front, unit, tail) in NUMBERED {
        let [front, unit, tail] = [front, unit, tail].map(bytes);
        for number in [0, 1, 2, 3] {
            for form in number_forms(number) {
                let document = [&front, &form, &unit.repeat(number as usize), &tail].map(|part| &part[..]).concat();
                documents.push(document[..document.len() - 1].to_vec());
                documents.push([&document[..], &[0x02]].concat());
                documents.push(document);
            }
        }
        for number in [16, 17, 247, 248, 255, 256] {
            let rows = !matches!(front[..], [0x08] | [0x0c] | [0x0d, 0x00] | [0xb0]);
            for form in number_forms(number).into_iter().take(if rows { 1 } else { 2 }) {
                if !rows || number <= 17 || front == [0x09] {
                    let units = unit.repeat(number as usize);
                    documents.push([&front, &form, &units, &tail].map(|part| &part[..]).concat());
                }
            }
        }
        for number in
            [247, 248, 255, 256, 65_535, 65_536, 16_777_214, 16_777_215, 16_777_216, u32::MAX as u128, 1 << 32]
        {
            documents.extend(number_forms(number).into_iter().flat_map(|form| cut(&front, &form)));
        }
        for number in [1 << 48, 1 << 64, 1 << 96, u128::MAX] {
            documents.extend(number_forms(number).into_iter().flat_map(|form| cut(&front, &form)));
        }
    }
    documents
}

/// A number with its last byte missing, and with a little behind it.
fn cut(front: &[u8], form: &[u8]) -> Documents {
    let start = [front, form].concat();
    vec![start[..start.len() - 1].to_vec(), [&start[..], &[0x02, 0x02]].concat()]
}

/// Small values in every form, the edges of every size in the two shortest forms, and cut bodies.
fn integers() -> Documents {
    let mut documents = Vec::new();
    for value in [-33i128, -32, -31, -30, -1, 0, 1, 63, 64, 65, 66] {
        documents.extend(integer_forms(value as u128, value < 0, true));
    }
    for value in [64, 65, 66] {
        documents.extend(integer_forms(value, false, false));
    }
    for size in [1, 2, 3, 4, 6, 8, 12, 16] {
        let half = 1u128 << (8 * size - 1);
        let mut edges = vec![((half - 1), false, true), (half.wrapping_neg(), true, true), (half - 1, false, false)];
        edges.extend([(half, false, false), (half + (half - 1), false, false)]);
        if size < 16 {
            edges.extend([(half, false, true), (half.wrapping_neg() - 1, true, true), (2 * half, false, false)]);
        }
        for (value, negative, signed) in edges {
            documents.extend(integer_forms(value, negative, signed).into_iter().take(2));
        }
    }
    for marker in 0x10..=0x1f {
        documents
            .extend([0x00, 0x40, 0x41, 0x80, 0xe1, 0xe0, 0xff].map(|byte| [vec![marker], vec![byte; 15]].concat()));
        documents.extend([0x00, 0xff].map(|byte| [vec![marker], vec![byte; 16]].concat()));
        let size = [1, 2, 3, 4, 6, 8, 12, 16][marker as usize % 8];
        for byte in [0x00, 0x40, 0x41, 0x7f, 0x80, 0xe0, 0xe1, 0xff] {
            let mut document = vec![if byte >= 0x80 { 0xff } else { 0x00 }; 1 + size];
            document[0] = marker;
            document[1] = byte;
            documents.push(document[..size].to_vec());
            documents.push(document);
        }
    }
    documents
}

fn floats_and_chars() -> Documents {
    let mut documents = Vec::new();
    for (marker, size) in [(0x03, 2), (0x04, 4), (0x05, 8), (0x06, 16), (0x07, 32)] {
        for byte in [0x00, 0x3c, 0x7f, 0xff] {
            let document = [vec![marker], vec![byte; size]].concat();
            documents.push(document[..size].to_vec());
            documents.push([&document[..], &[0x00]].concat());
            documents.push([&[0xa1], &document[..], &[0x00]].concat());
            documents.push(document);
        }
    }
    for codepoint in
        [0, 1, 0x7f, 0x80, 0xff, 0x100, 0x7ff, 0x800, 0xd7fe, 0xd7ff, 0xd800, 0xd801, 0xdbff, 0xdc00, 0xdfff]
    {
        documents.push([&[0xc0], &u32::to_le_bytes(codepoint)[..3]].concat());
    }
    for codepoint in
        [0xe000, 0xfffd, 0xfffe, 0xffff, 0x10000, 0xfffff, 0x10d800, 0x10fffe, 0x10ffff, 0x110000, 0x11d800, 0xffffff]
    {
        let document = [&[0xc0], &u32::to_le_bytes(codepoint)[..3]].concat();
        documents.push([&[0xa1], &document[..], &document[..]].concat());
        documents.push(document[..3].to_vec());
        documents.push(document[..2].to_vec());
        documents.push(document);
    }
    documents
}

/// Texts at the edges of each rule of the grammar, as a text; now and then as a key, or in a foreign body.
fn texts() -> Documents {
    const LEADS: [u8; 22] = [
        0x7f, 0x80, 0xbf, 0xc0, 0xc1, 0xc2, 0xdf, 0xe0, 0xe1, 0xec, 0xed, 0xee, 0xef, 0xf0, 0xf1, 0xf3, 0xf4, 0xf5,
        0xf7, 0xf8, 0xfe, 0xff,
    ];
    const SECONDS: [u8; 10] = [0x00, 0x7f, 0x80, 0x8f, 0x90, 0x9f, 0xa0, 0xbf, 0xc0, 0xff];
    const TAILS: [&[u8]; 9] =
        [&[], &[0x80], &[0xbf], &[0x7f], &[0xc0], &[0x80, 0x80], &[0xbf, 0xbf], &[0x80, 0x7f], &[0xbf, 0xc0]];
    let mut texts: Vec<Vec<u8>> = LEADS.iter().map(|lead| vec![*lead]).collect();
    for lead in LEADS {
        let most = match lead {
            0xf0..=0xf4 => TAILS.len(),
            0xe0..=0xef => 5,
            _ => 1,
        };
        for second in SECONDS {
            texts.extend(TAILS[..most].iter().map(|tail| [&[lead, second], *tail].concat()));
        }
    }
    let mut documents = Vec::new();
    for (at, text) in texts.iter().enumerate() {
        let size = text.len() as u8;
        documents.push([&[0x7f + size], &text[..]].concat());
        match at % 8 {
            0 => documents.push([&[0xb0, size], &text[..], &[0x02]].concat()),
            2 => documents.push([&[0x0d, 0x00, size + 1, 0x7f + size], &text[..]].concat()),
            4 => documents.push([&[0x08, size + 3, 0x61, 0x62], &text[..], &[0x63]].concat()),
            6 => documents.push([&[0x08, size + 9], &b"12345678"[..], text, &[0x63]].concat()),
            _ => {}
        }
    }
    for size in [0, 1, 31, 32, 33, 64, 247, 248, 255, 256, 300] {
        documents.push(shortest(&Node::Text("k".repeat(size))));
        documents.push(shortest(&Node::Record(vec![("k".repeat(size), Node::True)])));
        documents.push(shortest(&Node::Binary(vec![0xff; size])));
    }
    // The longest document that the listing program reads.
    documents.push([&[0x08, 0xf9, 0xfc, 0x3f], &vec![0x6b; 16_380][..]].concat());
    documents
}

fn references() -> Documents {
    let mut documents = Vec::new();
    let declared =
        |entries: usize, value: &[u8]| [&[0x0d, 0x0d, entries as u8], &vec![0x02; entries][..], value].concat();
    for number in [0u8, 1, 2, 3, 30, 60, 61] {
        let short = vec![0xc1 + number];
        for entries in [number as usize, number as usize + 1].into_iter().filter(|entries| *entries > 0) {
            documents.push(declared(entries, &short));
        }
    }
    for number in [0, 1, 61, 62, 63, 64] {
        for (at, form) in number_forms(number).into_iter().enumerate() {
            let value = [&[0xff], &form[..]].concat();
            documents.push(declared(2, &value));
            documents.push(declared(number as usize + 1, &value));
            if at > 0 {
                break;
            }
        }
        documents.push(declared(number.max(1) as usize, &[0xff, number as u8]));
    }
    let all: Vec<u8> = (0..62).map(|number| 0xc1 + number).chain([0xff, 0x3e, 0xff, 0xf8, 0x3f]).collect();
    documents.push(declared(64, &[&[0x09, 0x40], &all[..]].concat()));
    documents.push(declared(63, &[&[0x09, 0x40], &all[..]].concat()));
    // Entries see the ones before them, and only those of the innermost declaration.
    let lines = "0d 0d 03 02 c1 c2 c3|0d 0d 03 02 c1 c3 c3|0d 0d 03 02 c2 c1 c3|0d 0d 02 a1 02 02 c1 a1 c1 c2|0d 0d 02 a0 c1 02 02|\
        0d 0d 01 02 0d 0d 01 01 c1|0d 0d 01 02 0d 0d 01 c1 c1|0d 0d 02 01 02 0d 0d 01 00 c2|0d 0d 02 01 02 a1 0d 0d 01 00 c1 c2|\
        0d 0d 02 01 02 a1 0d 0d 01 00 c2 c2|0d 0d 02 02 0d 0d 01 01 c1 a1 c1 c2|0d 0d 02 02 0d 0d 01 c1 c1 c2|\
        0d 0d 01 0d 0d 01 0d 0d 01 02 c1 c1 c1|0d 0d 02 0d 0d 02 01 c1 c2 c1 a1 c1 c2|0d 0d 01 02 b0 01 61 c1|0d 0d 01 02 b8 c1 c1|\
        0d 0d 01 02 b8 c1 c2|a1 0d 0d 01 02 c1 c1|a1 0d 0d 01 02 c1 0d 0d 02 a0 02 c1 c2|b8 c1 02|b0 00 c1|a0 c1|\
        0d 0d 02 02 0d 00 01 c1 c2|0d 0d 02 02 0d 00 01 c2 c2|0d 0d 01 02 0d 00 06 0d 0d 01 c1 02 02|\
        0d 0d 01 02 0d 00 05 0d 0d 01 01 c1|0d 0d 01 02 0d 00 04 0d 00 01 c1|0d 0d 01 02 a1 0d 00 01 c2 c1|0d 00 01 c1|\
        0d 0d 02 80 61 80 62 a2 c2 c1 c2|0d 0d f8 01 02 ff f8 00|0d 0d 02 01|0d 0d 02 01 02|0d 0d 01 0e 0e|0d 0d 01 02 0e";
    documents.extend(lines.split('|').map(bytes));
    documents
}

fn foreign() -> Documents {
    let mut documents = Vec::new();
    let held = |body: &[u8], verdict| Node::Damaged(body.to_vec(), verdict);
    let mut random = Random::new(21);
    for (body, verdict) in DAMAGED {
        let node = held(body, verdict);
        documents.push(shortest(&node));
        documents.push(shortest(&Node::Foreign(Box::new(node.clone()))));
        documents.push(shortest(&Node::Array(vec![node.clone(), Node::True, node.clone()])));
        documents.push(shortest(&Node::Map(vec![(node.clone(), Node::Foreign(Box::new(Node::False)))])));
        documents.push(shortest(&Node::Declaration(vec![node.clone()], Box::new(Node::Reference(0)))));
        documents
            .push(longer(&Node::Record(vec![("f".into(), node.clone()), ("g".into(), node.clone())]), &mut random));
        // Right bytes before the fault, and bytes behind it.
        documents.push(shortest(&held(&[&[0xa1, 0xa0, 0x02], body].concat(), 0)));
        documents.push(shortest(&held(&[body, &[0x02]].concat(), 0)));
        let mut nested = node;
        for _ in 0..5 {
            nested = Node::Foreign(Box::new(Node::Array(vec![Node::Text("é".into()), nested])));
        }
        documents.push(shortest(&nested));
    }
    // A body that runs past the bytes around it, at each length.
    for size in 0..8 {
        documents.push([&[0xa1, 0x0d, 0x00, size], &[0x81, 0x61, 0x62, 0x01, 0x02][..]].concat());
        documents.push([&[0x0d, 0x00, 0x06, 0x0d, 0x00, size], &[0x81, 0x61, 0x62][..]].concat());
    }
    documents
}

/// Request §2: what is in force around a foreign body is not in force in it; a document inlined without the header sees
/// it.
fn alone() -> Documents {
    let lines = "0d 0d 01 44 0d 00 01 c1|0d 0d 01 44 0d 00 02 a0 c1|0d 0d 04 40 41 42 43 0d 00 01 c4|0d 0d 01 44 b0 01 6b 0d 00 01 c1|\
        0d 0d 01 44 b8 0d 00 01 c1 c1|0d 0d 01 44 0d 00 05 0d 0d 01 45 c1|0d 0d 01 44 a1 0d 00 05 0d 0d 01 45 c1 c1|\
        0d 0d 02 44 45 0d 00 05 0d 0d 01 46 c2|0d 00 08 0d 0d 01 44 0d 00 01 c1|0d 00 0c 0d 0d 01 44 0d 00 05 0d 0d 01 45 c1|\
        0d 0d 02 44 0d 00 01 c1 02|0d 0d 02 44 0d 00 05 0d 0d 01 45 c1 c2|0d 0d 02 44 0d 0d 01 0d 00 01 c1 c1 c2|\
        0d 0d 01 44 c1|0d 0d 01 44 a1 c1 c1|0d 0d 01 44 0d 0d 01 45 c1";
    lines.split('|').map(bytes).collect()
}

/// Nesting of every kind to depth 31, 32 and 33, with each sort of leaf at the bottom.
fn depths() -> Documents {
    let leaves = [
        "02",
        "",
        "0e",
        "09 00",
        "0a 00",
        "b0",
        "b0 01",
        "b0 fb 00 00 00 01",
        "b0 01 ff",
        "b0 01 61",
        "b0 00 02",
        "b8",
    ];
    let more = [
        "a0",
        "a0 02",
        "b8 02 02",
        "0d 0d 01",
        "0d 0d 01 02 c1",
        "0d 0d 00",
        "0d 00 00",
        "0d 00 01 02",
        "0d 00 02 02 02",
        "c1",
    ];
    let mut documents = Vec::new();
    for (at, leaf) in leaves.into_iter().chain(more).map(bytes).enumerate() {
        for levels in [31, 32, 33] {
            documents.push([vec![0xa0; levels], leaf.clone()].concat());
            let fronts = ["b0 01 6b", "b8 02", "0d 0d 01 02"];
            documents.push([bytes(fronts[at % 3]).repeat(levels), leaf.clone()].concat());
            let mut body = leaf.clone();
            for _ in 0..levels {
                body = shortest(&Node::Damaged(body, 0));
            }
            documents.push(body);
        }
    }
    // Nesting in keys of maps and in entries, closed behind.
    for levels in [31, 32, 33] {
        documents.push([vec![0xb8; levels], vec![0x02; 1 + levels]].concat());
        documents.push([bytes("0d 0d 01").repeat(levels), vec![0x02], vec![0xc1; levels]].concat());
    }
    documents
}

/// Documents of 1,023 to 1,026 rows, in an array, in a foreign body, and with a fault behind them.
fn full_tables() -> Documents {
    let mut documents = Vec::new();
    let array = |count: u16| [&[0x09, 0xf9], &count.to_le_bytes()[..], &vec![0x02; count as usize]].concat();
    documents.push(array(1023));
    for count in [1024, 1025, 3000] {
        documents.push(array(count));
        documents.push(shortest(&Node::Damaged(array(count), 0)));
    }
    documents.push([array(1024), vec![0x02]].concat());
    documents.push(array(1024)[..1027].to_vec());
    documents.push([array(1023), vec![0x02]].concat());
    // Foreign bodies: one row too many, and a damaged one that would have had too many.
    documents.push(shortest(&Node::Damaged(array(1023), 0)));
    documents.push(shortest(&Node::Damaged([array(1100), vec![0x0e]].concat(), 0)));
    documents.push(shortest(&Node::Array(vec![Node::Damaged(array(1100)[..900].to_vec(), 0), Node::Text("k".into())])));
    let keys = vec![("".to_string(), Node::None); 512];
    documents.push(shortest(&Node::Record(keys.clone())));
    documents.push(shortest(&Node::Record(keys[..511].to_vec())));
    documents.push(shortest(&Node::Map(vec![(Node::None, Node::None); 512])));
    documents
}

fn random_documents() -> Documents {
    let mut random = Random::new(31);
    let mut documents = Vec::new();
    for _ in 0..400 {
        let mut rows = random.one_of(&[3, 6, 12, 24]);
        let node = tree(&mut random, 0, 0, &mut rows);
        let document = longer(&node, &mut random);
        documents.push(changed(&document, &mut random));
        documents.push(document[..random.below(document.len())].to_vec());
        let damaged = changed(&document, &mut random);
        documents.push(shortest(&Node::Array(vec![Node::Damaged(damaged, 0), Node::True])));
        documents.push(document);
    }
    documents.extend((0..500).map(|_| noise(&mut random)));
    documents
}

#[cfg(test)]
#[path = "../../tests/naive/mod.rs"]
mod naive;

#[cfg(test)]
mod tests {
    use super::*;

    #[test]
    fn listings_agree_with_the_plainest_reader() {
        for document in documents() {
            let expected = match naive::rows(&document) {
                Ok(rows) if rows.len() > 1_024 => format!("refused 11 {}\n", rows.len()),
                Ok(rows) => {
                    let lines = rows.iter().map(|row| row.map(|word| word.to_string()).join(" ") + "\n");
                    format!("read {}\n{}", rows.len(), lines.collect::<String>())
                }
                Err((number, place)) => format!("refused {number} {place}\n"),
            };
            assert_eq!(listing(&document), expected);
        }
    }

    #[test]
    fn documents_fit_their_bounds_and_meet_every_answer() {
        let documents = documents();
        assert!((2_000..8_000).contains(&documents.len()), "{}", documents.len());
        assert!(prefixed(&documents).len() < 400_000, "{}", prefixed(&documents).len());
        let listings: Vec<String> = documents.iter().map(|document| listing(document)).collect();
        for number in 2..=11 {
            let front = format!("refused {number} ");
            assert!(listings.iter().filter(|listing| listing.starts_with(&front)).count() >= 4, "{number}");
        }
        for kind in 1..=17 {
            let front = format!("{kind} ");
            assert!(listings.iter().flat_map(|listing| listing.lines()).any(|line| line.starts_with(&front)), "{kind}");
        }
        for verdict in 2..=10 {
            let damaged = |line: &str| line.starts_with("16 ") && line.ends_with(&format!(" {verdict} 0"));
            assert!(listings.iter().flat_map(|listing| listing.lines()).any(damaged), "{verdict}");
        }
        assert!(listings.iter().all(|listing| listing.starts_with("re")));
    }

    #[test]
    fn lengths_are_two_bytes_little_endian() {
        assert_eq!(prefixed(&[vec![], vec![2; 258]])[..5], [0, 0, 2, 1, 2]);
    }
}
