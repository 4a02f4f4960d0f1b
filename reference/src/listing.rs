//! The listing program's lines.

use crate::fill::fill;
use crate::rows::lent;
use std::fmt::Write;

/// The most bytes that the listing program reads.
pub const BYTES: usize = 16_384;

/// The rows that it lends.
pub const ROWS: usize = 1_024;

/// What the listing program prints for a document.
pub fn listing(document: &[u8]) -> String {
    if document.len() > BYTES {
        return "input too long\n".to_string();
    }
    let mut table = [0; 6 * ROWS];
    let mut lines = String::new();
    match fill(document, &mut table) {
        Ok(n) => {
            writeln!(lines, "read {n}").unwrap();
            for [kind, end, w0, w1, w2, w3] in &lent(&table)[..n] {
                writeln!(lines, "{kind} {end} {w0} {w1} {w2} {w3}").unwrap();
            }
        }
        Err(refusal) => writeln!(lines, "refused {} {}", refusal.number(), refusal.beside).unwrap(),
    }
    lines
}
