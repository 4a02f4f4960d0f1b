//! What is measured, filled in, checked and written.

use reference::generate::{shortest, Node, Random};

/// A passage: tag, milliseconds of a race day (three bytes), panel.
fn passage(tag: Node, i: usize) -> Node {
    let time = 83_456 + 37 * i as u128 % 16_000_000;
    Node::Array(vec![tag, Node::Unsigned(time), Node::Unsigned(1 + i as u128 % 2)])
}

fn tag(random: &mut Random) -> Node {
    Node::Binary(random.bytes(12))
}

/// Passages with their tags in full.
pub fn passages(count: usize) -> Node {
    let random = &mut Random::new(1);
    Node::Array((0..count).map(|i| passage(tag(random), i)).collect())
}

/// Passages whose tags are references to so many entries.
pub fn interned(entries: usize, count: usize) -> Node {
    let random = &mut Random::new(2);
    let tags = (0..entries).map(|_| tag(random)).collect();
    let passages = (0..count).map(|i| passage(Node::Reference(random.below(entries) as u32), i)).collect();
    Node::Declaration(tags, Box::new(Node::Array(passages)))
}

/// Passages of two panels in turn. Those of the other one stand each in a foreign document; one in ten of these is
/// damaged: it was cut short, at any place.
pub fn twin_panel(count: usize) -> Node {
    let random = &mut Random::new(6);
    let heard = |random: &mut Random, i: usize| {
        let passage = passage(tag(random), i);
        if i % 2 == 0 {
            return passage;
        }
        if random.below(10) > 0 {
            return Node::Foreign(Box::new(passage));
        }
        let body = shortest(&passage);
        Node::Damaged(body[..random.below(body.len())].to_vec(), 2)
    };
    Node::Array((0..count).map(|i| heard(random, i)).collect())
}

const NAMES: [&str; 8] = ["Ana", "Björn", "Chloë", "Dmitri", "Eszter", "Ferdinand", "Gwen", "Håkon"];

/// Texts of so many words at least, and up to 13 more; a quarter of them beyond ASCII. From one word on, they have 3 to about 100 bytes.
pub fn texts(count: usize, least: usize) -> Node {
    let random = &mut Random::new(3);
    let text = |random: &mut Random| {
        let words: Vec<&str> = (0..least + random.below(14)).map(|_| random.one_of(&NAMES)).collect();
        let text = words.join(" ");
        Node::Text(if random.below(4) > 0 { text.replace(|c: char| !c.is_ascii(), "o") } else { text })
    };
    Node::Array((0..count).map(|_| text(random)).collect())
}

/// Integers of every size up to so many bits, of both signs, evenly.
pub fn integers(count: usize, bits: usize) -> Node {
    let random = &mut Random::new(4);
    let sizes: Vec<usize> = [1, 2, 3, 4, 6, 8, 12, 16].into_iter().filter(|size| 8 * size <= bits).collect();
    let integer = |random: &mut Random| {
        let size = 8 * random.one_of(&sizes);
        let body = (random.number() as u128) << 96 ^ (random.number() as u128) << 48 ^ random.number() as u128;
        match random.below(3) {
            0 => Node::Signed(random.below(96) as i128 - 31),
            1 => Node::Signed(((body << (128 - size)) as i128) >> (128 - size)),
            _ => Node::Unsigned(body << (128 - size) >> (128 - size)),
        }
    };
    Node::Array((0..count).map(|_| integer(random)).collect())
}

/// Records in records.
pub fn nested(count: usize) -> Node {
    let random = &mut Random::new(5);
    let record = |fields: Vec<(&str, Node)>| {
        Node::Record(fields.into_iter().map(|(key, value)| (key.to_string(), value)).collect())
    };
    let name = |random: &mut Random| Node::Text(random.one_of(&NAMES).to_string());
    let result = |random: &mut Random, i: usize| {
        let splits = (0..4).map(|k| Node::Unsigned(83_456 + (37 * i + 911 * k) as u128)).collect();
        let club = record(vec![
            ("name", name(random)),
            ("city", name(random)),
            ("founded", Node::Unsigned(1900 + i as u128 % 100)),
        ]);
        let rider = record(vec![("name", name(random)), ("number", Node::Unsigned(i as u128 % 600)), ("club", club)]);
        record(vec![
            ("rider", rider),
            ("tag", tag(random)),
            ("splits", Node::Array(splits)),
            ("finished", if i % 9 == 0 { Node::None } else { Node::True }),
        ])
    };
    Node::Array((0..count).map(|i| result(random, i)).collect())
}
