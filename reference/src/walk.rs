//! The walker over a lent table, checked or not.

use crate::refusal::{Fault, Refusal};
use crate::rows::{end, kind, lent, Row};

/// A row, and the end of the holder around it.
#[derive(Clone, Copy, PartialEq, Eq, Debug)]
pub struct Standing {
    pub row: usize,
    pub bound: usize,
}

/// Where resolving stopped: the row, its end, and the moves it took.
#[derive(Clone, Copy, PartialEq, Eq, Debug)]
pub struct Resolved {
    pub row: usize,
    pub bound: usize,
    pub moves: usize,
}

const BAD_TABLE: Refusal = Refusal { fault: Fault::BadTable, beside: 0 };
const NO_STEP: Refusal = Refusal { fault: Fault::NoStep, beside: 0 };

/// The standing on row 0 of n.
pub fn start(n: usize) -> Standing {
    Standing { row: 0, bound: n }
}

/// To the row's first child.
pub fn step_in(table: &[u32], n: usize, standing: Standing) -> Result<Standing, Refusal> {
    let row = stood_on(table, n, standing)?;
    let child = standing.row + 1;
    if child < end(row) {
        Ok(Standing { row: child, bound: end(row) })
    } else {
        Err(NO_STEP)
    }
}

/// To the row behind this one and its children.
pub fn on(table: &[u32], n: usize, standing: Standing) -> Result<Standing, Refusal> {
    let row = stood_on(table, n, standing)?;
    if end(row) < standing.bound {
        Ok(Standing { row: end(row), bound: standing.bound })
    } else {
        Err(NO_STEP)
    }
}

/// To the entry of a reference.
pub fn along(table: &[u32], n: usize, standing: Standing) -> Result<Standing, Refusal> {
    let row = stood_on(table, n, standing)?;
    if row[0] != kind::REFERENCE {
        return Err(NO_STEP);
    }
    let entry = entry(row, standing.row).ok_or(BAD_TABLE)?;
    Ok(Standing { row: entry, bound: end(&lent(table)[entry]) })
}

/// Along references and from declarations to their values, to a row that is neither.
pub fn resolve(table: &[u32], n: usize, row: usize) -> Result<Resolved, Refusal> {
    let rows = lent(table).get(..n).ok_or(BAD_TABLE)?;
    let mut at = row;
    for moves in 0..n {
        let row = rows.get(at).ok_or(BAD_TABLE)?;
        let moved = match row[0] {
            kind::REFERENCE => entry(row, at),
            kind::DECLARATION => value(rows, at),
            _ => return Ok(Resolved { row: at, bound: end(row), moves }),
        };
        at = moved.ok_or(BAD_TABLE)?;
    }
    Err(BAD_TABLE)
}

/// The row's part of the data; for a row without one, the empty part at the front.
pub fn payload<'a>(table: &[u32], row: usize, data: &'a [u8]) -> &'a [u8] {
    match lent(table).get(row) {
        Some(&[kind::FLOAT | kind::TEXT | kind::BINARY | kind::KEY, _, place, size, ..]) => {
            let part = data.get(place as usize..).and_then(|rest| rest.get(..size as usize));
            part.unwrap_or(&data[..0])
        }
        _ => &data[..0],
    }
}

/// The row stood on, unless the standing is forged.
fn stood_on(table: &[u32], n: usize, Standing { row, bound }: Standing) -> Result<&Row, Refusal> {
    let stood = lent(table).get(..n).and_then(|rows| rows.get(row)).ok_or(BAD_TABLE)?;
    if bound <= n && row < end(stood) && end(stood) <= bound {
        Ok(stood)
    } else {
        Err(BAD_TABLE)
    }
}

/// The row of a reference's entry, if below the reference.
fn entry(reference: &Row, row: usize) -> Option<usize> {
    let entry = reference[3] as usize;
    (entry < row).then_some(entry)
}

/// The row of a declaration's value, if it and the entries before it lie in the declaration.
fn value(rows: &[Row], declaration: usize) -> Option<usize> {
    let [_, last, entries, ..] = rows[declaration];
    let within = |row: &usize| *row < rows.len() && *row < last as usize;
    let mut next = Some(declaration + 1).filter(within)?;
    for _ in 0..entries {
        next = Some(end(&rows[next])).filter(|behind| *behind > next).filter(within)?;
    }
    Some(next)
}
