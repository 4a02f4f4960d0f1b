//! Generated documents: random trees, their bytes in any form, and damage to bytes.

/// A deterministic source of numbers (xorshift).
pub struct Random(u64);

impl Random {
    pub fn new(seed: u64) -> Self {
        Random(seed.wrapping_mul(0x9e37_79b9_7f4a_7c15) | 1)
    }

    pub fn number(&mut self) -> u64 {
        self.0 ^= self.0 << 13;
        self.0 ^= self.0 >> 7;
        self.0 ^= self.0 << 17;
        self.0.wrapping_mul(0x2545_f491_4f6c_dd1d) >> 16
    }

    /// A number below the limit.
    pub fn below(&mut self, limit: usize) -> usize {
        (self.number() % limit as u64) as usize
    }

    pub fn one_of<T: Copy>(&mut self, choices: &[T]) -> T {
        choices[self.below(choices.len())]
    }

    pub fn bytes(&mut self, size: usize) -> Vec<u8> {
        (0..size).map(|_| self.number() as u8).collect()
    }

    pub fn wide(&mut self) -> u128 {
        let value = (self.number() as u128) << 96 ^ (self.number() as u128) << 48 ^ self.number() as u128;
        value >> self.below(128)
    }
}

/// A value of a document. A damaged body stands with its verdict.
#[derive(Clone, PartialEq, Debug)]
pub enum Node {
    False,
    True,
    None,
    Signed(i128),
    Unsigned(u128),
    Float(Vec<u8>),
    Text(String),
    Binary(Vec<u8>),
    Char(char),
    Array(Vec<Node>),
    Record(Vec<(String, Node)>),
    Map(Vec<(Node, Node)>),
    Reference(u32),
    Declaration(Vec<Node>, Box<Node>),
    Foreign(Box<Node>),
    Damaged(Vec<u8>, u32),
}

/// Chooses one of so many forms; the first is the shortest.
pub type Choose<'a> = &'a mut dyn FnMut(usize) -> usize;

/// The document of a tree in its shortest forms.
pub fn shortest(node: &Node) -> Vec<u8> {
    let mut out = Vec::new();
    encode(node, &mut |_| 0, &mut out);
    out
}

/// The document of a tree in forms taken at random.
pub fn longer(node: &Node, random: &mut Random) -> Vec<u8> {
    let mut out = Vec::new();
    encode(node, &mut |forms| if random.below(2) == 0 { 0 } else { random.below(forms) }, &mut out);
    out
}

/// Writes a tree in the forms chosen.
pub fn encode(node: &Node, choose: Choose, out: &mut Vec<u8>) {
    match node {
        Node::False => out.push(0x00),
        Node::True => out.push(0x01),
        Node::None => out.push(0x02),
        Node::Signed(value) => pick(integer_forms(*value as u128, *value < 0, true), choose, out),
        Node::Unsigned(value) => pick(integer_forms(*value, false, false), choose, out),
        Node::Float(body) => {
            out.push(0x03 + [2, 4, 8, 16, 32].iter().position(|size| *size == body.len()).unwrap() as u8);
            out.extend(body);
        }
        Node::Text(text) => {
            counted(Some((0x80, 32)), &[0x08], text.len(), choose, out);
            out.extend(text.as_bytes());
        }
        Node::Binary(body) => {
            counted(None, &[0x0c], body.len(), choose, out);
            out.extend(body);
        }
        Node::Char(char) => {
            out.push(0xc0);
            out.extend(&(*char as u32).to_le_bytes()[..3]);
        }
        Node::Array(elements) => {
            counted(Some((0xa0, 16)), &[0x09], elements.len(), choose, out);
            elements.iter().for_each(|element| encode(element, choose, out));
        }
        Node::Record(entries) => {
            counted(Some((0xb0, 8)), &[0x0a], entries.len(), choose, out);
            for (key, value) in entries {
                pick(number_forms(key.len() as u128), choose, out);
                out.extend(key.as_bytes());
                encode(value, choose, out);
            }
        }
        Node::Map(entries) => {
            counted(Some((0xb8, 8)), &[0x0b], entries.len(), choose, out);
            for (key, value) in entries {
                encode(key, choose, out);
                encode(value, choose, out);
            }
        }
        Node::Reference(number) => {
            let mut forms = Vec::from_iter((*number < 62).then(|| vec![0xc1 + *number as u8]));
            forms.extend(number_forms(*number as u128).iter().map(|form| [&[0xff], &form[..]].concat()));
            pick(forms, choose, out);
        }
        Node::Declaration(entries, value) => {
            counted(None, &[0x0d, 0x0d], entries.len(), choose, out);
            entries.iter().for_each(|entry| encode(entry, choose, out));
            encode(value, choose, out);
        }
        Node::Foreign(value) => {
            let mut body = Vec::new();
            encode(value, choose, &mut body);
            counted(None, &[0x0d, 0x00], body.len(), choose, out);
            out.extend(body);
        }
        Node::Damaged(body, _) => {
            counted(None, &[0x0d, 0x00], body.len(), choose, out);
            out.extend(body);
        }
    }
}

/// A marker that holds 1 to `most` itself, or the long one and a number.
fn counted(short: Option<(u8, usize)>, long: &[u8], number: usize, choose: Choose, out: &mut Vec<u8>) {
    let mut forms = Vec::new();
    match short {
        Some((first, most)) if (1..=most).contains(&number) => forms.push(vec![first + number as u8 - 1]),
        _ => {}
    }
    forms.extend(number_forms(number as u128).iter().map(|form| [long, form].concat()));
    pick(forms, choose, out);
}

fn pick(forms: Vec<Vec<u8>>, choose: Choose, out: &mut Vec<u8>) {
    out.extend(&forms[choose(forms.len())]);
}

const SIZES: [usize; 8] = [1, 2, 3, 4, 6, 8, 12, 16];

/// Every form of an unsigned variable integer.
pub fn number_forms(number: u128) -> Vec<Vec<u8>> {
    let direct = (number <= 0xf7).then(|| vec![number as u8]);
    direct.into_iter().chain(body_forms(0xf8, number, |bits| number >> bits == 0)).collect()
}

/// Every form of a signed variable integer.
pub fn signed_number_forms(number: i128) -> Vec<Vec<u8>> {
    let direct = (-124..=123).contains(&number).then(|| vec![number as u8]);
    let fits = |bits: usize| number >> (bits - 1) == number >> 127;
    direct.into_iter().chain(body_forms(0x7c, number as u128, fits)).collect()
}

/// Every form of an integer value: both signednesses hold a small one, one of them holds any other.
pub fn integer_forms(value: u128, negative: bool, signed: bool) -> Vec<Vec<u8>> {
    let signed_value = value as i128;
    let small = if negative { signed_value >= -31 } else { value <= 64 };
    let mut forms = Vec::from_iter(small.then(|| vec![(0x3f + signed_value) as u8]));
    if signed || small {
        forms.extend(body_forms(0x10, value, |bits| signed_value >> (bits - 1) == signed_value >> 127));
    }
    if !signed || (small && !negative) {
        forms.extend(body_forms(0x18, value, |bits| value >> bits == 0));
    }
    forms
}

fn body_forms(marker: u8, value: u128, fits: impl Fn(usize) -> bool) -> Vec<Vec<u8>> {
    let fitting = (0..8).filter(|&form| SIZES[form] == 16 || fits(8 * SIZES[form]));
    fitting.map(|form| [&[marker + form as u8], &value.to_le_bytes()[..SIZES[form]]].concat()).collect()
}

/// Bodies that are no right document anywhere, with their verdicts at depth 32 and above.
pub const DAMAGED: [(&[u8], u32); 15] = [
    (&[], 2),
    (&[0x81, 0x61], 2),
    (&[0xc0, 0x61], 2),
    (&[0x0d], 2),
    (&[0x0f], 3),
    (&[0x0d, 0x01], 3),
    (&[0x08, 0xfb, 0, 0, 0, 1], 4),
    (&[0x81, 0xc0, 0x80], 5),
    (&[0xc0, 0x00, 0xd8, 0x00], 6),
    (&[0xc1], 7),
    (&[0xff, 0xfa, 0xff, 0xff, 0xff], 7),
    (&[0x0d, 0x0d, 0xf8, 0x00], 8),
    (&[0xa0; 34], 9),
    (&[0x02, 0x02], 10),
    (&[0x0d, 0x00, 0x00, 0x01], 10),
];

const CHARS: [char; 12] =
    ['\0', 'a', 'z', '\u{7f}', '\u{80}', 'é', '\u{7ff}', '\u{800}', '\u{d7ff}', '\u{e000}', '\u{10000}', '\u{10ffff}'];

/// A random tree for a position at this depth, under so many entries, of about so many rows.
pub fn tree(random: &mut Random, depth: u32, force: u32, rows: &mut usize) -> Node {
    *rows = rows.saturating_sub(1);
    let leaf = depth == 32 || *rows == 0 || random.below(5) < 2;
    if leaf {
        return self::leaf(random, depth, force);
    }
    let count = match random.below(12) {
        0 => random.one_of(&[7, 8, 9, 15, 16, 17]),
        count => count / 3,
    };
    match random.below(7) {
        0 | 1 => Node::Array((0..count).map(|_| tree(random, depth + 1, force, rows)).collect()),
        2 => Node::Record((0..count).map(|_| (text(random), tree(random, depth + 1, force, rows))).collect()),
        3 => Node::Map(
            (0..count).map(|_| (tree(random, depth + 1, force, rows), tree(random, depth + 1, force, rows))).collect(),
        ),
        4 | 5 => {
            let count = count.max(1) as u32;
            let entries = (0..count).map(|before| tree(random, depth + 1, before, rows)).collect();
            Node::Declaration(entries, Box::new(tree(random, depth + 1, count, rows)))
        }
        _ => Node::Foreign(Box::new(tree(random, depth + 1, 0, rows))),
    }
}

fn leaf(random: &mut Random, depth: u32, force: u32) -> Node {
    match random.below(12) {
        0 => random.one_of(&[&Node::False, &Node::True, &Node::None]).clone(),
        1 => Node::Signed(random.below(140) as i128 - 66),
        2 => Node::Unsigned(random.below(130) as u128),
        3 => Node::Signed(if random.below(2) == 0 { random.wide() as i128 } else { !random.wide() as i128 }),
        4 => Node::Unsigned(random.wide()),
        5 => {
            let size = random.one_of(&[2, 4, 8, 16, 32]);
            Node::Float(random.bytes(size))
        }
        6 => Node::Text(text(random)),
        7 => {
            let size = random.below(9);
            Node::Binary(random.bytes(size))
        }
        8 => Node::Char(random.one_of(&CHARS)),
        9 => {
            let (body, verdict) = random.one_of(&DAMAGED);
            Node::Damaged(body.to_vec(), if depth == 32 { 9 } else { verdict })
        }
        _ if force > 0 => Node::Reference(random.below(force as usize) as u32),
        _ => Node::None,
    }
}

fn text(random: &mut Random) -> String {
    let chars = if random.below(20) == 0 { random.one_of(&[31, 32, 33, 60]) } else { random.below(7) };
    (0..chars).map(|_| if random.below(3) > 0 { 'k' } else { random.one_of(&CHARS) }).collect()
}

/// The bytes with one to three small changes.
pub fn changed(bytes: &[u8], random: &mut Random) -> Vec<u8> {
    let mut bytes = bytes.to_vec();
    for _ in 0..1 + random.below(3) {
        let at = random.below(bytes.len() + 1);
        let byte = match random.below(3) {
            0 => random.number() as u8,
            1 => random.one_of(&[0x00, 0x01, 0x02, 0x08, 0x09, 0x0a, 0x0b, 0x0c, 0x0d, 0x0e, 0x10, 0x1f]),
            _ => random.one_of(&[0x20, 0x7f, 0x80, 0xa0, 0xb0, 0xb8, 0xc0, 0xc1, 0xc2, 0xf8, 0xfb, 0xff]),
        };
        match random.below(4) {
            0 => bytes.insert(at, byte),
            1 if at < bytes.len() => {
                bytes.remove(at);
            }
            _ if at < bytes.len() => bytes[at] = byte,
            _ => bytes.push(byte),
        }
    }
    bytes
}

/// Bytes of markers and small numbers, mostly no right document.
pub fn noise(random: &mut Random) -> Vec<u8> {
    let size = 1 + random.below(24);
    (0..size)
        .map(|_| match random.below(4) {
            0 => random.number() as u8,
            1 => random.below(0x20) as u8,
            2 => random.one_of(&[0x0d, 0x0d, 0x00, 0x01, 0xc1, 0xa0, 0xa1, 0xb0, 0xb8, 0x81]),
            _ => random.below(4) as u8,
        })
        .collect()
}
