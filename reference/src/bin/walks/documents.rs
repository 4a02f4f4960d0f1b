//! Right tables: every standing, every step, every row.

use super::asks::{everything, Case, Cases};
use super::parts::{bytes, rows_of};
use super::right::read_tables;
use reference::generate::{longer, shortest, tree, Node, Random};

pub fn walks() -> Cases {
    // The check's come twice, with rubbish behind the rows and without: these in turn.
    let tables = read_tables().into_iter().enumerate().filter(|(at, _)| (at / 2 + at) % 2 == 0);
    let tables = tables.filter(|(_, case)| case.n <= 150).map(|(_, case)| (case.table, case.n, case.data));
    let more = documents().into_iter().map(|document| {
        let rows = rows_of(&document);
        (rows.as_flattened().to_vec(), rows.len() as u32, document)
    });
    let walk = |(table, n, data): (Vec<u32>, u32, Vec<u8>)| {
        let asks = everything(&table, n as usize);
        Case { table, n, data, asks }
    };
    tables.chain(more).map(walk).collect()
}

/// Documents in which references and declarations lead far, beside those that the check is asked about.
fn documents() -> Vec<Vec<u8>> {
    let mut random = Random::new(51);
    let mut documents = vec![bytes("0d 0d 02 44 c1 c2")];
    documents.extend(chains());
    documents.extend(nested());
    documents.extend((0..80).map(|at| declaration(&mut random, [8, 12, 20, 30][at % 4])));
    documents
}

/// A declaration of a few random entries, whose value may refer to them, of about so many rows.
pub fn declaration(random: &mut Random, mut rows: usize) -> Vec<u8> {
    let count = 1 + random.below(4) as u32;
    let entries = (0..count).map(|before| tree(random, 1, before, &mut rows)).collect();
    let value = Box::new(tree(random, 1, count, &mut rows));
    longer(&Node::Declaration(entries, value), random)
}

/// Entries that are references to the one before: from row 0, n - 1 moves.
fn chains() -> Vec<Vec<u8>> {
    let chain = |count: u32| {
        let entries = (0..count).map(|before| if before == 0 { Node::True } else { Node::Reference(before - 1) });
        shortest(&Node::Declaration(entries.collect(), Box::new(Node::Reference(count - 1))))
    };
    [1, 2, 3, 4, 5, 7, 12, 30, 62, 254].map(chain).to_vec()
}

/// Declarations as entries and as values of declarations, down to depth 32.
fn nested() -> Vec<Vec<u8>> {
    let lines = "0d 0d 01 0d 0d 01 44 c1 c1|0d 0d 01 02 0d 0d 01 44 c1|0d 0d 02 0d 0d 01 44 c1 c1 c2|\
        0d 0d 02 0d 0d 02 44 c1 c2 0d 0d 01 02 c1 c2|0d 0d 01 a1 0d 0d 01 44 c1 02 a1 c1 0d 0d 01 80 6b c1|\
        0d 0d 02 44 a1 c1 0d 0d 01 02 c1 b0 01 6b c2|0d 0d 01 0d 00 05 0d 0d 01 44 c1 a1 c1 0d 00 01 c1|\
        0d 0d 03 02 c1 0d 0d 02 01 c1 c2 b8 c3 c2|0d 0d 02 a0 02 0d 00 01 c1 a2 c2 c1 0d 0d 01 0d 00 00 c1|\
        0d 0d 02 a0 02 0d 00 05 0d 0d 01 44 c1 a1 c2 c1|0d 0d 01 44 0d 00 0d 0d 0d 02 45 c1 0d 00 05 0d 0d 01 46 c1";
    let mut documents: Vec<Vec<u8>> = lines.split('|').map(bytes).collect();
    for levels in [2, 5, 31, 32] {
        documents.push([bytes("0d 0d 01 44").repeat(levels - 1), bytes("0d 0d 02 44 c1 c2")].concat());
        documents.push([bytes("0d 0d 01").repeat(levels), bytes("44"), vec![0xc1; levels]].concat());
    }
    documents
}
