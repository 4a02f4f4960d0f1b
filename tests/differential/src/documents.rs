//! Documents: random trees in any forms, changed, cut, deep, at the edges of their forms, with foreign bodies that refer
//! to what is around them, and noise.

use reference::generate::{changed, longer, noise, shortest, tree, Node, Random};

/// A document, right or not.
pub fn document(random: &mut Random) -> Vec<u8> {
    let bytes = match random.below(17) {
        0..=6 => encoded(&any_tree(random), random),
        7 => encoded(&deep(random), random),
        8 => encoded(&edge(random), random),
        9 | 10 => noise(random),
        11 => [any_bytes(random), any_bytes(random)].concat(),
        12 => cut(&any_bytes(random), random),
        13 => spliced(random),
        14 => texts(random),
        15 => encoded(&outside(random), random),
        _ => {
            let size = random.below(40);
            random.bytes(size)
        }
    };
    match random.below(5) {
        0 | 1 => changed(&bytes, random),
        2 if random.below(4) == 0 => cut(&bytes, random),
        _ => bytes,
    }
}

/// A tree of a few rows, some of a few hundred.
pub fn any_tree(random: &mut Random) -> Node {
    let mut rows = random.one_of(&[1, 4, 8, 16, 32, 64, 200]);
    tree(random, 0, 0, &mut rows)
}

fn any_bytes(random: &mut Random) -> Vec<u8> {
    encoded(&any_tree(random), random)
}

fn encoded(node: &Node, random: &mut Random) -> Vec<u8> {
    if random.below(2) == 0 {
        shortest(node)
    } else {
        longer(node, random)
    }
}

fn cut(bytes: &[u8], random: &mut Random) -> Vec<u8> {
    bytes[..random.below(bytes.len() + 1)].to_vec()
}

/// The front of one document and the rear of another.
fn spliced(random: &mut Random) -> Vec<u8> {
    let (front, rear) = (any_bytes(random), any_bytes(random));
    let from = random.below(rear.len() + 1);
    [&cut(&front, random), &rear[from..]].concat()
}

/// Request §2: entries, and a foreign body that may refer to them. It is damaged then.
fn outside(random: &mut Random) -> Node {
    let entries = 1 + random.below(4) as u32;
    let mut rows = 6;
    let body = Node::Foreign(Box::new(tree(random, 2, entries, &mut rows)));
    match random.below(3) {
        0 => Node::Declaration(vec![Node::True; entries as usize], Box::new(body)),
        1 => Node::Declaration([vec![Node::True; entries as usize], vec![body]].concat(), Box::new(Node::None)),
        _ => {
            let within = Node::Declaration(vec![Node::None], Box::new(Node::Array(vec![body, Node::Reference(0)])));
            Node::Declaration(
                vec![Node::True; entries as usize],
                Box::new(Node::Array(vec![within, Node::Reference(0)])),
            )
        }
    }
}

/// A chain of holders that ends near the deepest position.
fn deep(random: &mut Random) -> Node {
    let mut rows = 4;
    let levels = 24 + random.below(11) as u32;
    let mut node = tree(random, levels.min(32), 0, &mut rows);
    // a body too deep is damaged and skipped; without foreign bodies the document is refused
    let ways = random.one_of(&[9, 8, 8]);
    for _ in 0..levels {
        node = around(node, ways, random);
    }
    node
}

fn around(node: Node, ways: usize, random: &mut Random) -> Node {
    let leaf = Node::True;
    match random.below(ways) {
        0 | 1 => Node::Array(vec![node]),
        2 => Node::Array(vec![leaf, node, Node::Unsigned(70_000)]),
        3 => Node::Record(vec![("k".to_string(), node)]),
        4 => Node::Map(vec![(node, leaf)]),
        5 => Node::Map(vec![(leaf, node)]),
        6 => Node::Declaration(vec![leaf], Box::new(node)),
        7 => Node::Declaration(vec![leaf, node], Box::new(Node::Reference(1))),
        _ => Node::Foreign(Box::new(node)),
    }
}

/// Counts, lengths and reference numbers at the edges of their forms.
fn edge(random: &mut Random) -> Node {
    let size =
        random.one_of(&[0, 1, 8, 9, 16, 17, 31, 32, 33, 61, 62, 63, 64, 65, 247, 248, 249, 255, 256, 257, 300, 1000]);
    let leaf = |random: &mut Random| match random.below(3) {
        0 => Node::None,
        1 => Node::Unsigned(random.wide()),
        _ => Node::Signed(random.below(300) as i128 - 150),
    };
    match random.below(10) {
        0 => Node::Text("k".repeat(size)),
        1 => Node::Binary(random.bytes(size)),
        2 => Node::Array((0..size).map(|_| leaf(random)).collect()),
        3 => Node::Record((0..size).map(|i| ("k".repeat(i % 3), leaf(random))).collect()),
        4 => Node::Map((0..size).map(|_| (leaf(random), leaf(random))).collect()),
        5 => Node::Foreign(Box::new(Node::Binary(random.bytes(size)))),
        6 => Node::Record(vec![("k".repeat(size), leaf(random))]),
        7 => Node::Array(vec![leaf(random), Node::Declaration(vec![], Box::new(leaf(random)))]),
        _ => {
            // entries of one row or more, each reaching any before it
            let size = size.max(1);
            let entries = (0..size).map(|before| entry(random, before)).collect();
            let numbers = [0, 61, 62, 247, 248, size - 1, size, random.below(size)];
            let numbers = numbers.into_iter().filter(|number| *number < size || random.below(40) == 0);
            Node::Declaration(entries, Box::new(Node::Array(numbers.map(|n| Node::Reference(n as u32)).collect())))
        }
    }
}

fn entry(random: &mut Random, before: usize) -> Node {
    match random.below(6) {
        0 if before > 0 => Node::Reference(random.below(before) as u32),
        1 => Node::Array((0..random.below(4)).map(|_| Node::True).collect()),
        2 if before > 0 => Node::Array(vec![Node::Reference(random.below(before) as u32)]),
        _ => Node::None,
    }
}

/// A text of sequences, most of them well formed.
fn texts(random: &mut Random) -> Vec<u8> {
    let mut body = Vec::new();
    for _ in 0..random.below(14) {
        let sequence: &[u8] = match random.below(40) {
            0..=9 => b"k",
            10 => b"ascii of some more bytes than a word has",
            11..=15 => &[0xc2 + random.below(30) as u8, 0x80 + random.below(64) as u8],
            16..=20 => &[0xe1 + random.below(12) as u8, 0x80 + random.below(64) as u8, 0x80 + random.below(64) as u8],
            21..=24 => &[0xf1 + random.below(3) as u8, 0x80 + random.below(64) as u8, 0x80, 0xbf],
            25 => &[0xe0, 0x9f + random.below(3) as u8, 0x80 + random.below(64) as u8],
            26 => &[0xed, 0x9f + random.below(2) as u8, 0xbf],
            27 => &[0xf0, 0x8f + random.below(3) as u8, 0x80, 0x80],
            28 => &[0xf4, 0x8f + random.below(2) as u8, 0xbf, 0xbf],
            29 => &[0xc0 + random.below(2) as u8, 0x80],
            30 => &[0xf5 + random.below(11) as u8, 0x80, 0x80, 0x80],
            31 => &[0x80 + random.below(64) as u8],
            32 => &[0xe2, 0x82],
            33 => &[0xf0, 0x9f, 0x98],
            34 => &[random.number() as u8],
            35 => &[0xee + random.below(2) as u8, 0x80, 0xbf],
            _ => b"",
        };
        body.extend(sequence);
    }
    let head: &[u8] = match body.len() {
        0 => &[0x08, 0x00],
        size if size <= 32 => &[0x7f + size as u8],
        size => &[0x08, size.min(0xf7) as u8],
    };
    match random.below(3) {
        0 => [&[0xb0, body.len().min(0xf7) as u8], &body[..], &[0x01]].concat(),
        _ => [head, &body].concat(),
    }
}
