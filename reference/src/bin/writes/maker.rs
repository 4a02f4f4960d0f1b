//! A maker of tables that is no reader: rows from a tree, over data that have each payload but once.

use reference::generate::Node;
use reference::rows::{kind, Row};
use reference::varint::words;

/// The rows of a tree and their data, in which some bytes belong to no row. A payload stands where its bytes are met
/// last, so that payloads overlap.
pub fn table_of(node: &Node) -> (Vec<Row>, Vec<u8>) {
    let mut made = Made { rows: Vec::new(), data: vec![0xff, 0x02] };
    made.value(node, &[]);
    (made.rows, made.data)
}

struct Made {
    rows: Vec<Row>,
    data: Vec<u8>,
}

impl Made {
    fn value(&mut self, node: &Node, entries: &[usize]) {
        let own = self.rows.len();
        let row = self.own_row(node, entries);
        self.rows.push(row);
        match node {
            Node::Array(elements) => elements.iter().for_each(|element| self.value(element, entries)),
            Node::Record(pairs) => {
                for (key, value) in pairs {
                    let row = self.carrying(kind::KEY, key.as_bytes(), 0);
                    self.rows.push(row);
                    self.ends(self.rows.len() - 1);
                    self.value(value, entries);
                }
            }
            Node::Map(pairs) => {
                pairs.iter().flat_map(|(key, value)| [key, value]).for_each(|part| self.value(part, entries))
            }
            Node::Declaration(declared, value) => {
                let mut before = Vec::new();
                for entry in declared {
                    let row = self.rows.len();
                    self.value(entry, &before);
                    before.push(row);
                }
                self.value(value, &before);
            }
            Node::Foreign(value) => self.value(value, &[]),
            _ => {}
        }
        self.ends(own);
    }

    /// The row ends behind all there is.
    fn ends(&mut self, row: usize) {
        self.rows[row][1] = self.rows.len() as u32;
    }

    fn own_row(&mut self, node: &Node, entries: &[usize]) -> Row {
        match node {
            Node::False => bare(kind::FALSE, 0),
            Node::True => bare(kind::TRUE, 0),
            Node::None => bare(kind::NONE, 0),
            Node::Signed(value @ -31..=64) => wide(kind::SMALL, *value as u128),
            Node::Signed(value) => wide(kind::SIGNED, *value as u128),
            Node::Unsigned(value @ 0..=64) => wide(kind::SMALL, *value),
            Node::Unsigned(value) => wide(kind::UNSIGNED, *value),
            Node::Float(body) => self.carrying(kind::FLOAT, body, 0),
            Node::Text(text) => self.carrying(kind::TEXT, text.as_bytes(), 0),
            Node::Binary(body) => self.carrying(kind::BINARY, body, 0),
            Node::Char(char) => bare(kind::CHAR, *char as usize),
            Node::Array(elements) => bare(kind::ARRAY, elements.len()),
            Node::Record(pairs) => bare(kind::RECORD, pairs.len()),
            Node::Map(pairs) => bare(kind::MAP, pairs.len()),
            Node::Reference(number) => [kind::REFERENCE, 0, *number, entries[*number as usize] as u32, 0, 0],
            Node::Declaration(entries, _) => bare(kind::DECLARATION, entries.len()),
            Node::Foreign(_) => bare(kind::FOREIGN, 0),
            Node::Damaged(body, verdict) => self.carrying(kind::FOREIGN, body, *verdict),
        }
    }

    /// A row with its bytes where they are met last, or else behind the data and a byte that is no one's.
    fn carrying(&mut self, kind: u32, bytes: &[u8], verdict: u32) -> Row {
        let size = bytes.len();
        let met = (0..=self.data.len()).rev().find(|place| self.data[*place..].starts_with(bytes));
        let place = met.unwrap_or_else(|| {
            self.data.push(0xff);
            self.data.extend(bytes);
            self.data.len() - size
        });
        [kind, 0, place as u32, size as u32, verdict, 0]
    }
}

fn bare(kind: u32, w0: usize) -> Row {
    [kind, 0, w0 as u32, 0, 0, 0]
}

fn wide(kind: u32, value: u128) -> Row {
    let [w0, w1, w2, w3] = words(value);
    [kind, 0, w0, w1, w2, w3]
}
