//! Tables that the reader made: all right.

use super::parts::{bytes, rows_of, Case, Cases};
use reference::generate::{longer, shortest, tree, Node, Random, DAMAGED};

/// A document, and the row in its table of the leaf that it is about.
pub type About = (Vec<u8>, usize);

/// Every document that a rule is broken in, and more; with nothing behind the rows, and with rubbish there.
pub fn read_tables() -> Cases {
    let mut random = Random::new(41);
    let mut documents: Vec<Vec<u8>> = leaves().into_iter().map(|(document, _)| document).collect();
    documents.extend(holders());
    documents.extend(foreign());
    documents.extend(registries(&mut random));
    documents.extend(depths());
    documents.extend((0..150).map(|_| random_document(&mut random)));
    let mut cases = Vec::new();
    for document in documents {
        let case = Case::new(&rows_of(&document), &document, true);
        let behind: Vec<u32> = (0..1 + random.below(13)).map(|_| random.number() as u32).collect();
        cases.push(case.clone().lending(&behind));
        cases.push(case);
    }
    cases
}

/// The document of a tree of a few rows, in any form.
pub fn random_document(random: &mut Random) -> Vec<u8> {
    let mut rows = random.one_of(&[2, 4, 8, 14]);
    let node = tree(random, 0, 0, &mut rows);
    longer(&node, random)
}

/// What stands before and behind a leaf, and the leaf's row.
const AROUND: [(&str, &str, usize); 6] = [
    ("", "", 0),
    ("a2 02", "01", 2),
    ("b0 01 6b", "", 2),
    ("b8", "02", 1),
    ("0d 0d 01", "c1", 1),
    ("0d 0d 01 02 a1 c1", "", 4),
];

/// Every kind of leaf at the edges of its range: alone, and in one of five places.
pub fn leaves() -> Vec<About> {
    let lines = "00|01|02|20|3f|7f|10 e0|11 c8 00|18 41|18 c8|03 00 7c|04 ff ff ff ff|80 61|82 e2 82 ac|08 00|0c 00|\
        0c 03 ff 00 ff|c0 00 00 00|c0 ff d7 00|c0 00 e0 00|c0 ff ff 10|0d 00 00|0d 00 01 0f|0d 00 02 81 61|\
        0d 00 03 81 c0 80|0d 00 05 ff fa ff ff ff|0d 00 02 02 02";
    let mut leaves: Vec<Vec<u8>> = lines.split('|').map(bytes).collect();
    let wide = [Node::Signed(i128::MIN), Node::Signed(i128::MAX), Node::Unsigned(1 << 127), Node::Unsigned(u128::MAX)];
    leaves.extend(wide.iter().map(shortest));
    leaves.extend([8, 16, 32].map(|size| shortest(&Node::Float(vec![0x7f; size]))));
    let mut documents = Vec::new();
    for (at, leaf) in leaves.into_iter().enumerate() {
        for (front, tail, row) in [AROUND[0], AROUND[1 + at % 5]] {
            documents.push(([&bytes(front)[..], &leaf, &bytes(tail)].concat(), row));
        }
    }
    documents
}

/// Holders, keys, references and right foreign documents, in a few rows each.
pub fn holders() -> Vec<Vec<u8>> {
    let lines = "09 00|0a 00|0b 00|a0 02|a1 02 01|b0 01 6b 02|b1 00 02 02 c3 a9 01|b8 02 01|b9 00 01 40 41|\
        a1 a0 02 01|a1 02 a0 01|a0 a0 a0 02|a1 09 00 02|b0 01 6b b0 01 6c 02|b8 a0 02 b0 00 01|b0 01 6b b8 02 09 00|\
        0d 0d 01 02 01|0d 0d 01 02 c1|0d 0d 02 44 c1 c2|0d 0d 01 80 61 a1 c1 c1|0d 0d 02 a0 02 c1 a1 c2 c1|\
        0d 0d 01 0d 0d 01 02 c1 c1|0d 0d 02 01 02 a1 0d 0d 01 00 c1 c2|0d 0d 01 a0 02 b0 01 6b c1|0d 0d 01 02 b8 c1 c1|\
        0d 0d 03 00 c1 c2 a2 c3 c2 c1|a1 0d 0d 01 02 c1 0d 0d 01 01 c1|\
        0d 00 01 02|0d 00 02 a0 02|a1 0d 00 01 02 01|0d 00 04 0d 00 01 02|0d 0d 01 44 0d 00 01 c1|\
        0d 0d 01 44 a1 0d 00 05 0d 0d 01 45 c1 c1|0d 00 0c 0d 0d 01 44 0d 00 05 0d 0d 01 45 c1|\
        0d 0d 02 0d 00 01 02 0d 00 01 c1 c2|b0 01 6b 0d 00 03 a1 02 01|a1 0d 00 02 81 61 01|0d 0d 01 0d 00 01 c1 c1";
    lines.split('|').map(bytes).collect()
}

/// Every damaged body in every sort of holder.
fn foreign() -> Vec<Vec<u8>> {
    let mut documents = Vec::new();
    for (body, verdict) in DAMAGED {
        let node = Node::Damaged(body.to_vec(), verdict);
        documents.push(shortest(&node));
        documents.push(shortest(&Node::Foreign(Box::new(node.clone()))));
        documents.push(shortest(&Node::Array(vec![node.clone(), Node::True, node.clone()])));
        documents.push(shortest(&Node::Map(vec![(node.clone(), Node::Foreign(Box::new(node.clone())))])));
        documents.push(shortest(&Node::Declaration(vec![node.clone()], Box::new(Node::Reference(0)))));
        documents.push(shortest(&Node::Record(vec![("f".into(), node.clone()), ("g".into(), node)])));
    }
    documents
}

/// Many entries, of one row and more, and a reference to each.
fn registries(random: &mut Random) -> Vec<Vec<u8>> {
    let mut documents = Vec::new();
    for count in [1, 2, 61, 62, 63, 64, 65, 66, 90, 120] {
        let entries = (0..count).map(|before| match random.below(16) {
            0 => Node::Array(vec![Node::None]),
            1 | 2 if before > 0 => Node::Reference(random.below(before) as u32),
            _ => Node::True,
        });
        let entries = entries.collect();
        let value = Node::Array((0..count as u32).rev().map(Node::Reference).collect());
        documents.push(shortest(&Node::Declaration(entries, Box::new(value))));
    }
    documents
}

/// Nesting of every kind to depth 31 and 32, with each sort of row at the bottom that may stand there.
fn depths() -> Vec<Vec<u8>> {
    let bottoms = ["02", "09 00", "0a 00", "0b 00", "80 61", "0d 00 00", "0d 00 01 02", "0d 00 02 02 02"];
    let fronts = ["a0", "b0 01 6b", "b8 02", "0d 0d 01 02"];
    let mut documents = Vec::new();
    for (at, bottom) in bottoms.map(bytes).into_iter().enumerate() {
        for levels in [31, 32] {
            documents.push([bytes(fronts[at % 4]).repeat(levels), bottom.clone()].concat());
        }
        documents.push([vec![0xa0; 32], bottom].concat());
    }
    let mut foreign = Node::None;
    for _ in 0..32 {
        foreign = Node::Foreign(Box::new(foreign));
    }
    documents.push(shortest(&foreign));
    // Nesting in keys of maps and in entries, closed behind.
    for levels in [31, 32] {
        documents.push([vec![0xb8; levels], vec![0x02; 1 + levels]].concat());
        documents.push([bytes("0d 0d 01").repeat(levels), vec![0x02], vec![0xc1; levels]].concat());
    }
    documents
}
