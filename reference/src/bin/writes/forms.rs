//! Every form at the edges of what it holds. The tables are made row by row.

use super::cases::{in_room, Cases};
use super::maker::table_of;
use reference::generate::{shortest, Node};

pub fn writes() -> Cases {
    let mut cases = Vec::new();
    for node in [integers(), floats(), chars(), sized()].concat() {
        let (rows, data) = table_of(&node);
        cases.extend(in_room(&rows, &data, &node));
    }
    // These once each, written: with just enough room, or a byte more.
    for (at, node) in [short(), bodies(), counted(), referring()].concat().into_iter().enumerate() {
        let (rows, data) = table_of(&node);
        cases.push(in_room(&rows, &data, &node)[1 + at % 2].clone());
    }
    cases
}

/// Integers at the edges of every size of body and around, of both signs.
fn integers() -> Vec<Node> {
    let mut nodes: Vec<Node> = (-34..=-29).chain([-1, 0, 1]).chain(62..=67).map(Node::Signed).collect();
    nodes.extend((62..=67).map(Node::Unsigned));
    for bits in (8..128).step_by(8) {
        let (half, whole) = (1i128 << (bits - 1), 1u128 << bits);
        nodes.extend([half - 1, half, -half, -half - 1].map(Node::Signed));
        nodes.extend([whole as i128 - 1, -(whole as i128), -(whole as i128) - 1].map(Node::Signed));
        nodes.extend([whole / 2, whole - 1, whole].map(Node::Unsigned));
    }
    nodes.extend([i128::MAX, i128::MIN, i128::MIN + 1].map(Node::Signed));
    nodes.extend([1 << 127, (1 << 127) - 1, u128::MAX, u128::MAX - 1].map(Node::Unsigned));
    // Words of which one alone is not 0, or not -1.
    nodes.extend((0..4).map(|word| Node::Signed(0x1234_5678 << (32 * word))));
    nodes.extend((0..4).map(|word| Node::Signed(!(0x1234_5678 << (32 * word)))));
    nodes
}

/// Bodies of each size, NaN too.
fn floats() -> Vec<Node> {
    let mut nodes = Vec::new();
    for size in [2, 4, 8, 16, 32] {
        nodes.extend([0x00, 0xff, 0x7f, 0x0d].map(|byte| Node::Float(vec![byte; size])));
        nodes.push(Node::Float((0..size).map(|at| (13 * at + 1) as u8).collect()));
    }
    nodes
}

fn chars() -> Vec<Node> {
    let codepoints = [0, 0x7f, 0x80, 0xff, 0x100, 0x7ff, 0x800, 0xd7ff, 0xe000, 0xffff, 0x1_0000, 0x10_ffff];
    codepoints.map(|codepoint| Node::Char(char::from_u32(codepoint).unwrap())).to_vec()
}

/// Lengths of payloads, on both sides of each edge of a marker or a length.
const EDGES: [usize; 15] = [0, 1, 8, 9, 16, 17, 31, 32, 33, 246, 247, 248, 255, 256, 257];

/// Text, binary, keys and damaged bodies of each length.
fn sized() -> Vec<Node> {
    let mut nodes = Vec::new();
    for size in EDGES {
        let text: String = "panxidell".chars().cycle().take(size).collect();
        nodes.push(Node::Text(text.clone()));
        nodes.push(Node::Binary((0..size).map(|at| (251 * at + 3) as u8).collect()));
        nodes.push(Node::Record(vec![(text, Node::None)]));
        nodes.push(Node::Damaged(vec![0x0f; size], if size == 0 { 2 } else { 3 }));
    }
    // Text is counted in bytes.
    nodes.extend([8, 16, 17, 123, 124, 127, 128].map(|chars| Node::Text("é".repeat(chars))));
    nodes
}

/// Foreign documents whose body has each length, alone and in one more.
fn bodies() -> Vec<Node> {
    let mut nodes = Vec::new();
    for size in [1, 2, 8, 9, 16, 17, 32, 33, 243, 244, 245, 246, 247, 248, 249, 251, 252, 253, 254, 255, 256, 257, 258]
    {
        let body = (0..size).map(|less| Node::Binary(vec![0x6b; size - less]));
        let body = body.chain([Node::None]).find(|body| shortest(body).len() <= size).unwrap();
        let whole = Node::Foreign(Box::new(body));
        nodes.push(Node::Foreign(Box::new(whole.clone())));
        nodes.push(whole);
    }
    nodes
}

/// Every marker that holds a length or a count itself.
fn short() -> Vec<Node> {
    let mut nodes: Vec<Node> = (1..=32).map(|size| Node::Text("k".repeat(size))).collect();
    nodes.extend((1..=16).map(|count| Node::Array(vec![Node::None; count])));
    nodes.extend((1..=8).map(|count| Node::Record(vec![("k".into(), Node::None); count])));
    nodes.extend((1..=8).map(|count| Node::Map(vec![(Node::None, Node::True); count])));
    nodes
}

/// Holders of each count.
fn counted() -> Vec<Node> {
    let mut nodes = Vec::new();
    for count in [0, 1, 8, 9, 16, 17, 32, 33, 247, 248, 255, 256] {
        nodes.push(Node::Array(vec![Node::False; count]));
        nodes.push(Node::Record(vec![(String::new(), Node::True); count]));
        nodes.push(Node::Map(vec![(Node::False, Node::None); count]));
        nodes.extend((count > 0).then(|| Node::Declaration(vec![Node::True; count], Box::new(Node::None))));
    }
    nodes
}

/// References of each number, to the last of just so many entries.
fn referring() -> Vec<Node> {
    let numbers = [0, 1, 30, 60, 61, 62, 63, 247, 248, 255, 256];
    let node =
        |number: usize| Node::Declaration(vec![Node::None; number + 1], Box::new(Node::Reference(number as u32)));
    numbers.map(node).to_vec()
}
