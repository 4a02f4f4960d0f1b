//! Tables for the writer: the paper's examples, every form at its edges, documents in longer forms, tables by other
//! makers, broken ones, documents too long, random trees; each with so much room for its document.
//!
//! `writes inputs` prints the cases: two bytes W, four bytes n, two bytes D and four bytes R, then the W words of the
//! table and the D bytes of data; all numbers little endian. `writes expected` prints a line for each: what the
//! writer answers, the number beside it, Adler-32 of the R bytes of output afterwards, a colon, and the first of those
//! bytes, at most 64. Before each call byte i of the output is 165 + 7 i, less what passes a byte.

#[allow(dead_code)]
#[path = "tables/broken.rs"]
mod broken;
#[path = "writes/cases.rs"]
mod cases;
#[path = "writes/documents.rs"]
mod documents;
#[allow(dead_code)]
#[path = "tables/edges.rs"]
mod edges;
#[path = "writes/examples.rs"]
mod examples;
#[path = "writes/forms.rs"]
mod forms;
#[path = "writes/large.rs"]
mod large;
#[path = "writes/lent.rs"]
mod lent;
#[path = "writes/maker.rs"]
mod maker;
#[allow(dead_code)]
#[path = "tables/makers.rs"]
mod makers;
#[allow(dead_code)]
#[path = "tables/parts.rs"]
mod parts;
#[allow(dead_code)]
#[path = "tables/random.rs"]
mod random;
#[allow(dead_code)]
#[path = "tables/right.rs"]
mod right;
#[path = "writes/trees.rs"]
mod trees;

pub use cases::{Case, Cases};
pub use documents::one_longer;
use reference::refusal::Refusal;
use reference::write::write;
use std::collections::HashSet;
use std::io::{stdout, Write};

fn main() -> std::io::Result<()> {
    match std::env::args().nth(1).as_deref() {
        Some("inputs") => stdout().write_all(&inputs()),
        Some("expected") => stdout().write_all(expected().as_bytes()),
        _ => {
            eprintln!("usage: writes inputs | expected");
            std::process::exit(2)
        }
    }
}

/// Every case once, under the name of its group.
pub fn groups() -> Vec<(&'static str, Cases)> {
    let mut groups = vec![
        ("the paper's examples", examples::writes()),
        ("every form at its edges", forms::writes()),
        ("read from documents", documents::writes()),
        ("by other makers", lent::writes()),
        ("the check's tables", checked()),
        ("large documents", large::writes()),
        ("random trees", trees::writes()),
    ];
    let mut seen = HashSet::new();
    for (_, cases) in &mut groups {
        cases.retain(|case| seen.insert(input(case)));
    }
    groups
}

/// Some of the tables that the check is asked about, right and broken.
fn checked() -> Cases {
    let broken = broken::broken_rows().into_iter().step_by(9);
    let edges = edges::edges().into_iter().step_by(8);
    let makers = makers::tables().into_iter().step_by(4);
    let random = random::tables().into_iter().step_by(9);
    let cases = broken.chain(edges).chain(makers).chain(random).enumerate();
    cases.map(|(at, case)| Case::checked(case, [64, 12, 0, 99, 300, 1][at % 6])).collect()
}

fn cases() -> impl Iterator<Item = Case> {
    groups().into_iter().flat_map(|(_, cases)| cases)
}

/// The cases as the program reads them.
pub fn inputs() -> Vec<u8> {
    cases().flat_map(|case| input(&case)).collect()
}

fn input(case: &Case) -> Vec<u8> {
    let mut input = Vec::new();
    input.extend((case.table.len() as u16).to_le_bytes());
    input.extend(case.n.to_le_bytes());
    input.extend((case.data.len() as u16).to_le_bytes());
    input.extend((case.room as u32).to_le_bytes());
    input.extend(case.table.iter().flat_map(|word| word.to_le_bytes()));
    input.extend(&case.data);
    input
}

/// What the program has to print.
pub fn expected() -> String {
    cases().map(|case| answer(&case)).collect()
}

/// The line for one case.
fn answer(case: &Case) -> String {
    let (answer, out) = written(case);
    let (number, beside) = answer.map_or_else(|refusal| (refusal.number(), refusal.beside), |used| (0, used as u64));
    let shown: String = out.iter().take(64).map(|byte| format!(" {byte:02x}")).collect();
    format!("{number} {beside} {}:{shown}\n", checksum(&out))
}

/// What the writer answers, and the output afterwards.
pub fn written(case: &Case) -> (Result<usize, Refusal>, Vec<u8>) {
    let mut out = marked(case.room);
    let answer = write(&case.table, case.n as usize, &case.data, &mut out);
    (answer, out)
}

/// An output before it is written to.
pub fn marked(room: usize) -> Vec<u8> {
    (0..room).map(|at| (165 + 7 * at) as u8).collect()
}

/// Adler-32 of RFC 1950.
fn checksum(bytes: &[u8]) -> u32 {
    let (mut a, mut b) = (1, 0);
    for byte in bytes {
        a = (a + *byte as u32) % 65_521;
        b = (b + a) % 65_521;
    }
    b << 16 | a
}
