//! The cases of `walks`: each answered as its maker meant, as the plainest walker answers, and right tables as trees.

#[allow(dead_code)]
#[path = "../src/bin/walks.rs"]
mod walks;

use reference::check::check;
use reference::rows::{kind, lent, Row};
use std::collections::{BTreeMap, BTreeSet, HashMap};
use walks::{answer, Ask, Case, Op};

const RIGHT: &str = "right tables";
const STEPS: [Op; 3] = [Op::In, Op::On, Op::Along];

/// Every case with each of its asks.
fn all() -> Vec<(&'static str, Case, Ask)> {
    let mut all = Vec::new();
    for (group, cases) in walks::groups() {
        for case in cases {
            let alone = Case { asks: Vec::new(), ..case.clone() };
            all.extend(case.asks.iter().map(|ask| (group, alone.clone(), *ask)));
        }
    }
    all
}

/// The first number of a line: what a call answers, or the size of a payload.
fn first(line: &str) -> u32 {
    line.split_whitespace().next().unwrap().parse().unwrap()
}

#[test]
fn each_answer_is_the_one_meant() {
    let mut meant = 0;
    for (group, case, ask) in all() {
        if let Some(number) = ask.meant {
            assert_eq!(first(&answer(&case, &ask)), number, "{group}: {case:?} {ask:?}");
            meant += 1;
        }
    }
    assert!(meant > 10_000, "{meant}");
}

/// The paper's section, sentence by sentence, over the rows that the table lends.
struct Plain<'a> {
    rows: &'a [Row],
    n: u64,
    data: &'a [u8],
}

impl Plain<'_> {
    fn word(&self, row: u64, word: usize) -> u64 {
        self.rows[row as usize][word] as u64
    }

    fn end(&self, row: u64) -> u64 {
        self.word(row, 1)
    }

    fn forged(&self, row: u64, bound: u64) -> bool {
        let fewer = (self.rows.len() as u64) < self.n;
        fewer || row >= self.n || !(row + 1..=self.n).contains(&bound) || !(row + 1..=bound).contains(&self.end(row))
    }

    fn step(&self, op: Op, row: u64, bound: u64) -> String {
        if self.forged(row, bound) {
            return "12 0 0\n".into();
        }
        let end = self.end(row);
        match op {
            Op::In if row + 1 < end => format!("0 {} {end}\n", row + 1),
            Op::On if end < bound => format!("0 {end} {bound}\n"),
            Op::Along if self.word(row, 0) == 14 => match self.word(row, 3) {
                entry if entry < row => format!("0 {entry} {}\n", self.end(entry)),
                _ => "12 0 0\n".into(),
            },
            _ => "14 0 0\n".into(),
        }
    }

    fn resolve(&self, row: u64, moves: u64) -> String {
        let bad = "12 0 0 0\n".to_string();
        if (self.rows.len() as u64) < self.n || row >= self.n {
            return bad;
        }
        let moved = match self.word(row, 0) {
            14 => Some(self.word(row, 3)).filter(|entry| *entry < row),
            15 => self.value(row),
            _ => return format!("0 {row} {} {moves}\n", self.end(row)),
        };
        match moved {
            Some(to) if moves + 1 < self.n => self.resolve(to, moves + 1),
            _ => bad,
        }
    }

    /// The row behind all entries, also where some are behind n.
    fn value(&self, declaration: u64) -> Option<u64> {
        let last = self.end(declaration);
        let mut row = declaration + 1;
        for _ in 0..self.word(declaration, 2) {
            let end = self.rows.get(row as usize)?[1] as u64;
            if end <= row || end > last {
                return None;
            }
            row = end;
        }
        (row < self.n && row < last).then_some(row)
    }

    fn payload(&self, row: u64) -> String {
        match self.rows.get(row as usize) {
            Some(&[7 | 8 | 12 | 17, _, place, size, ..]) if place as u64 + size as u64 <= self.data.len() as u64 => {
                let bytes = (place..place + size).map(|at| format!(" {:02x}", self.data[at as usize]));
                format!("{size}{}\n", bytes.collect::<String>())
            }
            _ => "0\n".into(),
        }
    }
}

#[test]
fn each_answer_is_that_of_the_plainest_walker() {
    for (_, case, ask) in all() {
        let plain = Plain { rows: lent(&case.table), n: case.n as u64, data: &case.data };
        let line = match ask.op {
            Op::Resolve => plain.resolve(ask.row as u64, 0),
            Op::Payload => plain.payload(ask.row as u64),
            op => plain.step(op, ask.row as u64, ask.bound as u64),
        };
        assert_eq!(answer(&case, &ask), line, "{case:?} {ask:?}");
    }
}

/// A row in its tree: its end, the rows of its children, and where it is a reference the entry's row.
struct Spot {
    end: usize,
    children: Vec<usize>,
    entry: Option<usize>,
}

/// The tree from a row on, by the counts alone: no end and no entry's row is looked at.
fn grow(rows: &[Row], row: usize, force: &[usize], tree: &mut BTreeMap<usize, Spot>) -> usize {
    let [kind, _, w0, _, w2, _] = rows[row];
    let count = match kind {
        kind::ARRAY => w0 as usize,
        kind::RECORD | kind::MAP => 2 * w0 as usize,
        kind::DECLARATION => w0 as usize + 1,
        kind::FOREIGN if w2 == 0 => 1,
        _ => 0,
    };
    let entry = (kind == kind::REFERENCE).then(|| force[w0 as usize]);
    let (mut children, mut next) = (Vec::new(), row + 1);
    for _ in 0..count {
        let before = children.clone();
        children.push(next);
        next = grow(rows, next, if kind == kind::DECLARATION { &before } else { force }, tree);
    }
    tree.insert(row, Spot { end: next, children, entry });
    next
}

/// Every step from every standing on a tree, with its line.
fn steps_of(tree: &BTreeMap<usize, Spot>) -> BTreeSet<(u8, usize, usize, String)> {
    let mut standings = vec![(0, tree[&0].end, None)];
    for holder in tree.values() {
        let nexts = holder.children.iter().skip(1).map(Some).chain([None]);
        standings.extend(holder.children.iter().zip(nexts).map(|(row, next)| (*row, holder.end, next)));
    }
    // An entry that was come to along a reference has nothing behind it.
    standings.extend(tree.values().filter_map(|spot| spot.entry).map(|entry| (entry, tree[&entry].end, None)));
    let line = |to: Option<(usize, usize)>| to.map_or("14 0 0\n".into(), |(row, bound)| format!("0 {row} {bound}\n"));
    let mut steps = BTreeSet::new();
    for (row, bound, next) in standings {
        let spot = &tree[&row];
        steps.insert((0, row, bound, line(spot.children.first().map(|child| (*child, spot.end)))));
        steps.insert((1, row, bound, line(next.map(|next| (*next, bound)))));
        steps.insert((2, row, bound, line(spot.entry.map(|entry| (entry, tree[&entry].end)))));
    }
    steps
}

/// Where a row of a tree leads, and in how many moves.
fn end_of(rows: &[Row], tree: &BTreeMap<usize, Spot>, row: usize) -> (usize, usize) {
    let spot = &tree[&row];
    let moved = match rows[row][0] {
        kind::DECLARATION => spot.children.last().copied(),
        _ => spot.entry,
    };
    moved.map_or((row, 0), |to| {
        let (end, moves) = end_of(rows, tree, to);
        (end, moves + 1)
    })
}

#[test]
fn right_tables_are_walked_as_their_trees() {
    let mut tables: HashMap<(Vec<u32>, u32, Vec<u8>), Vec<Ask>> = HashMap::new();
    for (_, case, ask) in all().into_iter().filter(|(group, ..)| *group == RIGHT) {
        tables.entry((case.table, case.n, case.data)).or_default().push(ask);
    }
    assert!(tables.len() > 300, "{}", tables.len());
    for ((table, n, data), asks) in tables {
        let case = Case { table, n, data, asks: Vec::new() };
        let (rows, n) = (lent(&case.table), n as usize);
        check(&case.table, n, &case.data).unwrap();
        let mut tree = BTreeMap::new();
        assert_eq!((grow(rows, 0, &[], &mut tree), tree.len()), (n, n));
        let lines = |op: Op| asks.iter().filter(move |ask| ask.op == op).map(|ask| (ask, answer(&case, ask)));
        let steps = STEPS.into_iter().flat_map(lines);
        let steps = steps.map(|(ask, line)| (ask.op as u8, ask.row as usize, ask.bound as usize, line));
        assert_eq!(steps.collect::<BTreeSet<_>>(), steps_of(&tree));
        let mut resolved = BTreeSet::new();
        for (ask, line) in lines(Op::Resolve) {
            let row = ask.row as usize;
            let (end, moves) = if row < n { end_of(rows, &tree, row) } else { (0, 0) };
            let right = if row < n { format!("0 {end} {} {moves}\n", tree[&end].end) } else { "12 0 0 0\n".into() };
            assert_eq!(line, right);
            resolved.insert(row);
        }
        let beyond = [n, n + 1, rows.len() - 1, rows.len(), u32::MAX as usize];
        assert!((0..n).chain(beyond).all(|row| resolved.contains(&row)));
        assert_eq!(lines(Op::Payload).map(|(ask, _)| ask.row as usize).collect::<BTreeSet<_>>(), resolved);
    }
}

/// How often each call gave each number, or a payload that is empty (0) or not (1).
fn met(asked: &[(&'static str, Case, Ask)]) -> BTreeMap<(u8, u32), usize> {
    let mut met = BTreeMap::new();
    for (_, case, ask) in asked {
        let number = first(&answer(case, ask));
        let told = if ask.op == Op::Payload { number.min(1) } else { number };
        *met.entry((ask.op as u8, told)).or_default() += 1;
    }
    met
}

#[test]
fn every_answer_is_met_often() {
    let all = all();
    for part in all.chunk_by(|a, b| a.0 == b.0) {
        println!("{}: {} asks, {:?}", part[0].0, part.len(), met(part));
    }
    let met = met(&all);
    let numbers = |op: Op| Vec::from_iter(met.keys().filter(|told| told.0 == op as u8).map(|told| told.1));
    assert!(STEPS.into_iter().all(|op| numbers(op) == [0, 12, 14]));
    assert_eq!((numbers(Op::Resolve), numbers(Op::Payload)), (vec![0, 12], vec![0, 1]));
    assert!(met.values().all(|times| *times >= 500), "{met:?}");
}

#[test]
fn cases_fit_their_bounds() {
    let groups = walks::groups();
    groups.iter().for_each(|(group, cases)| println!("{group}: {} cases", cases.len()));
    let cases: Vec<Case> = groups.into_iter().flat_map(|(_, cases)| cases).collect();
    assert!(cases.iter().all(|case| case.table.len() <= 1_536 && case.data.len() <= 4_096 && case.asks.len() <= 512));
    assert!(cases.iter().any(|case| case.table.len() == 1_536) && cases.iter().any(|case| case.data.len() == 4_096));
    assert!(cases.iter().any(|case| case.asks.len() == 512) && cases.iter().any(|case| case.n == 0));
    assert!(walks::inputs().len() < 2_000_000, "{}", walks::inputs().len());
    assert_eq!(walks::expected().lines().count(), cases.iter().map(|case| case.asks.len()).sum::<usize>());
}

#[test]
fn the_papers_example_is_asked() {
    let table = [[15, 4, 2, 0, 0, 0], [4, 2, 5, 0, 0, 0], [14, 3, 0, 1, 0, 0], [14, 4, 1, 2, 0, 0]].concat();
    let asked =
        all().into_iter().find(|(_, case, ask)| (&case.table, case.n, ask.op, ask.row) == (&table, 4, Op::Resolve, 3));
    let (_, case, ask) = asked.unwrap();
    assert_eq!(answer(&case, &ask), "0 1 2 2\n");
}
