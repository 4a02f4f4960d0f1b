//! The entries in force, with their rows.

use crate::rows::{end, Row};

const MARKS: usize = 64;

/// Rows of up to 64 entries at equal steps; between two of them entries are found by their ends.
pub struct Registry {
    force: u32,
    shift: u32,
    marks: [u32; MARKS],
}

impl Registry {
    /// No entry in force.
    pub const EMPTY: Registry = Registry { force: 0, shift: 0, marks: [0; MARKS] };

    /// A registry for a declaration of so many entries, none of them in force yet.
    pub fn of(entries: u32) -> Self {
        let bits = u32::BITS - entries.saturating_sub(1).leading_zeros();
        Registry { shift: bits.saturating_sub(MARKS.ilog2()), ..Registry::EMPTY }
    }

    /// How many entries are in force.
    #[inline]
    pub fn force(&self) -> u32 {
        self.force
    }

    /// Puts the next entry in force.
    #[inline]
    pub fn enter(&mut self, row: usize) {
        if self.force.trailing_zeros() >= self.shift {
            self.marks[(self.force >> self.shift) as usize] = row as u32;
        }
        self.force += 1;
    }

    /// The row of an entry in force.
    #[inline]
    pub fn row(&self, rows: &[Row], number: u32) -> u32 {
        let mark = number >> self.shift;
        let mut row = self.marks[mark as usize];
        for _ in mark << self.shift..number {
            row = end(&rows[row as usize]) as u32;
        }
        row
    }
}

#[cfg(test)]
mod tests {
    use super::*;

    #[test]
    fn each_entry_is_found_at_its_row() {
        for entries in (1..300).chain([1023, 1024, 1025, 4095, 4096, 4097]) {
            let rows: Vec<Row> = (0..2 * entries).map(|row| [9, row + 2, 0, 0, 0, 0]).collect();
            let mut registry = Registry::of(entries);
            for number in 0..entries {
                assert_eq!(registry.force(), number);
                registry.enter(2 * number as usize);
                assert_eq!(registry.row(&rows, number), 2 * number);
            }
            for number in 0..entries {
                assert_eq!(registry.row(&rows, number), 2 * number);
            }
        }
        Registry::of(u32::MAX).enter(1);
        Registry::of(0);
    }
}
