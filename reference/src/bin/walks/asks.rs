//! A table, and what is asked of a walker over it.

use reference::rows::{lent, Row};
use reference::walk::{along, on, start, step_in, Standing};
use std::collections::HashSet;

/// The calls, under their numbers.
#[derive(Clone, Copy, PartialEq, Eq, Hash, Debug)]
#[repr(u8)]
pub enum Op {
    In = 0,
    On = 1,
    Along = 2,
    Resolve = 3,
    Payload = 4,
}

pub const STEPS: [Op; 3] = [Op::In, Op::On, Op::Along];

/// One call from a row, with a bound where it is a step, and the number it has to answer, where its maker knows.
#[derive(Clone, Copy, PartialEq, Eq, Hash, Debug)]
pub struct Ask {
    pub op: Op,
    pub row: u32,
    pub bound: u32,
    pub meant: Option<u32>,
}

impl Ask {
    pub fn new(op: Op, row: u32, bound: u32) -> Self {
        Ask { op, row, bound, meant: None }
    }

    pub fn meaning(self, number: u32) -> Self {
        Ask { meant: Some(number), ..self }
    }
}

/// A table with n, its data, and the asks over it.
#[derive(Clone, Debug)]
pub struct Case {
    pub table: Vec<u32>,
    pub n: u32,
    pub data: Vec<u8>,
    pub asks: Vec<Ask>,
}

pub type Cases = Vec<Case>;

impl Case {
    /// The table of these rows, all of them used, without data.
    pub fn new(rows: &[Row], asks: Vec<Ask>) -> Self {
        Case { table: rows.as_flattened().to_vec(), n: rows.len() as u32, data: Vec::new(), asks }
    }

    /// The same with another n.
    pub fn of(self, n: usize) -> Self {
        Case { n: n as u32, ..self }
    }

    /// The same case with at most so many asks at once.
    pub fn parted(&self, most: usize) -> impl Iterator<Item = Case> + '_ {
        self.asks.chunks(most).map(|asks| Case { asks: asks.to_vec(), ..self.clone() })
    }
}

/// Each step from a standing.
pub fn steps(row: usize, bound: usize) -> [Ask; 3] {
    STEPS.map(|op| Ask::new(op, row as u32, bound as u32))
}

/// Each step from a standing that is good, or forged: 12.
pub fn judged(row: usize, bound: usize, good: bool) -> [Ask; 3] {
    steps(row, bound).map(|ask| if good { ask } else { ask.meaning(12) })
}

pub fn resolving(row: usize) -> Ask {
    Ask::new(Op::Resolve, row as u32, 0)
}

pub fn payload_of(row: usize) -> Ask {
    Ask::new(Op::Payload, row as u32, 0)
}

/// Every standing that a walk from the start comes to, by steps of any sort in any order.
pub fn reached(table: &[u32], n: usize) -> Vec<Standing> {
    let mut reached = vec![start(n)];
    let mut seen = HashSet::from([(0, n)]);
    let mut at = 0;
    while at < reached.len() {
        for step in [step_in, on, along] {
            if let Ok(to) = step(table, n, reached[at]) {
                if seen.insert((to.row, to.bound)) {
                    reached.push(to);
                }
            }
        }
        at += 1;
    }
    reached
}

/// Each step from every standing that a walk comes to; resolving from every row, and from rows that are none.
pub fn walked(table: &[u32], n: usize) -> Vec<Ask> {
    let standings = reached(table, n);
    let steps = standings.iter().flat_map(|at| steps(at.row, at.bound));
    steps.chain(rows_and_beyond(table, n).into_iter().map(resolving)).collect()
}

/// The same, and the payload of every such row.
pub fn everything(table: &[u32], n: usize) -> Vec<Ask> {
    let payloads = rows_and_beyond(table, n).into_iter().map(payload_of);
    walked(table, n).into_iter().chain(payloads).collect()
}

/// Every row below n, then n and n + 1, the last row lent, the first ones not lent, and the largest numbers.
pub fn rows_and_beyond(table: &[u32], n: usize) -> Vec<usize> {
    let lent = lent(table).len();
    let used = n.min(lent);
    let most = u32::MAX as usize;
    let mut beyond = vec![n, n + 1, lent.saturating_sub(1), lent, lent + 1, most];
    beyond.retain(|row| *row >= used && *row <= most);
    beyond.sort();
    beyond.dedup();
    (0..used).chain(beyond).collect()
}
