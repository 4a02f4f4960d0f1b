//! Reads a document on standard input and prints its listing.

use reference::listing::{listing, BYTES};
use std::io::{stdin, stdout, Read, Write};

fn main() -> std::io::Result<()> {
    let mut document = Vec::new();
    stdin().take(BYTES as u64 + 1).read_to_end(&mut document)?;
    stdout().write_all(listing(&document).as_bytes())
}
