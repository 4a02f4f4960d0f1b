//! What is lent, what is counted, and what is printed of a difference.

use crate::GUARD;
use std::collections::BTreeMap;
use std::fmt::{self, LowerHex};

/// A list to be written, between guards, all filled with a pattern.
#[derive(Clone)]
pub struct Lent<T> {
    pub all: Vec<T>,
}

impl<T> Lent<T> {
    pub fn part(&mut self) -> &mut [T] {
        let end = self.all.len() - GUARD;
        &mut self.all[GUARD..end]
    }
}

impl Lent<u32> {
    pub fn numbers(size: usize) -> Self {
        Lent { all: (0..size + 2 * GUARD).map(|i| (i as u32).wrapping_mul(0x9e37_79b9) | 1).collect() }
    }
}

impl Lent<u8> {
    pub fn bytes(size: usize) -> Self {
        Lent { all: (0..size + 2 * GUARD).map(|i| (165 + 7 * i) as u8).collect() }
    }
}

/// A call, for the report.
pub struct Call<'a> {
    pub what: &'static str,
    pub data: &'a [u8],
    pub table: &'a [u32],
    pub arguments: fmt::Arguments<'a>,
}

/// Longer lists are printed in part.
const MOST: usize = 65_536;

/// Prints two answers, each with who gave it, and what was lent to both, and stops.
#[cold]
pub fn differ<T: PartialEq + LowerHex>(call: &Call, origin: &str, answers: [(&str, u64); 2], lent: (&[T], &[T])) -> ! {
    eprintln!("DIFFERENCE in {} {} ({origin})", call.what, call.arguments);
    for (who, answer) in answers {
        eprintln!("  {:12} {} {}", format!("{who}:"), native::number(answer), native::beside(answer));
    }
    if let Some(at) = lent.0.iter().zip(lent.1).position(|(ours, theirs)| ours != theirs) {
        let place = at as isize - GUARD as isize;
        eprintln!("  what was lent differs first at {place}: {:x}, reference {:x}", lent.0[at], lent.1[at]);
    }
    eprintln!("  data, {} bytes: {}", call.data.len(), hex(call.data, ""));
    eprintln!("  table, {} words: {}", call.table.len(), hex(call.table, " "));
    panic!("two answers differ");
}

fn hex<T: LowerHex>(numbers: &[T], between: &str) -> String {
    let width = 2 * size_of::<T>() * usize::from(between.is_empty());
    let digits: Vec<String> = numbers.iter().take(MOST).map(|number| format!("{number:0width$x}")).collect();
    let more = if numbers.len() > MOST { " .." } else { "" };
    digits.join(between) + more
}

/// How often each operation gave each number.
#[derive(Default)]
pub struct Tally {
    seen: BTreeMap<&'static str, [u64; 16]>,
}

impl Tally {
    #[inline]
    pub fn count(&mut self, what: &'static str, number: u32) {
        self.seen.entry(what).or_default()[number as usize % 16] += 1;
    }

    pub fn add(&mut self, other: &Tally) {
        for (what, counts) in &other.seen {
            let sums = self.seen.entry(what).or_default();
            sums.iter_mut().zip(counts).for_each(|(sum, count)| *sum += count);
        }
    }

    pub fn calls(&self) -> u64 {
        self.seen.values().flatten().sum()
    }
}

impl fmt::Display for Tally {
    fn fmt(&self, f: &mut fmt::Formatter) -> fmt::Result {
        for (what, counts) in &self.seen {
            write!(f, "  {what:14}")?;
            for (number, count) in counts.iter().enumerate().filter(|(_, count)| **count > 0) {
                write!(f, "  {number}: {count}")?;
            }
            writeln!(f)?;
        }
        Ok(())
    }
}
