//! The paper's rules in the plainest words: one pass, rows in a list, taken back when a body is damaged.

// each file of tests has its own use of it
#![allow(dead_code)]

use reference::rows::Row;

type Place = usize;

/// The rows of a document, or the refusal's number and place.
pub fn rows(document: &[u8]) -> Result<Vec<Row>, (u32, Place)> {
    if document.len() > 16_777_215 {
        return Err((1, 0));
    }
    let mut rows = Vec::new();
    whole(document, 0, 0, &mut rows)?;
    Ok(rows)
}

/// How many rows a document needs, or the refusal's number and place.
pub fn measure(document: &[u8]) -> Result<usize, (u32, Place)> {
    rows(document).map(|rows| rows.len())
}

/// The rows used of a table of so many words, or the refusal's number and what stands beside it; and the table.
pub fn fill(document: &[u8], words: usize) -> (Result<usize, (u32, usize)>, Vec<u32>) {
    let fitting = match rows(document) {
        Ok(rows) if 6 * rows.len() > words => Err((11, rows.len())),
        answer => answer,
    };
    let answer = fitting.as_ref().map(Vec::len).map_err(|refusal| *refusal);
    let mut table = fitting.unwrap_or_default().concat();
    table.resize(words, 0);
    (answer, table)
}

fn whole(data: &[u8], at: Place, depth: u32, rows: &mut Vec<Row>) -> Result<(), (u32, Place)> {
    match value(data, at, depth, &[], rows)? {
        next if next == data.len() => Ok(()),
        next => Err((10, next)),
    }
}

fn part(data: &[u8], at: Place, size: usize) -> Result<&[u8], u32> {
    if size > data.len() - at {
        return Err(2);
    }
    Ok(&data[at..at + size])
}

fn little(body: &[u8]) -> u128 {
    (0..body.len()).map(|at| (body[at] as u128) << (8 * at)).sum()
}

const SIZES: [usize; 8] = [1, 2, 3, 4, 6, 8, 12, 16];

fn number(data: &[u8], at: Place) -> Result<(usize, Place), u32> {
    let first = part(data, at, 1)?[0] as usize;
    let (number, size) = match first {
        0xf8.. => (little(part(data, at + 1, SIZES[first - 0xf8])?), SIZES[first - 0xf8]),
        _ => (first as u128, 0),
    };
    if number > 16_777_215 {
        return Err(4);
    }
    Ok((number as usize, at + 1 + size))
}

fn integer(value: i128, kind: u32) -> Row {
    let small = if kind == 6 { (0..=64).contains(&value) } else { (-31..=64).contains(&value) };
    let word = |at: u32| (value >> (32 * at)) as u32;
    [if small { 4 } else { kind }, 0, word(0), word(1), word(2), word(3)]
}

/// What holds positions: how many, with keys or not, and whether each may see the ones before it.
enum Inside {
    Nothing,
    Positions(usize),
    Entries(usize),
    Declared(usize),
    Body(usize),
}

fn value(data: &[u8], at: Place, depth: u32, entries: &[usize], rows: &mut Vec<Row>) -> Result<Place, (u32, Place)> {
    if depth == 33 {
        return Err((9, at));
    }
    let own = rows.len();
    let (row, mut next, inside) = front(data, at, entries).map_err(|number| (number, at))?;
    rows.push(row);
    match inside {
        Inside::Nothing => {}
        Inside::Positions(count) => {
            for _ in 0..count {
                next = value(data, next, depth + 1, entries, rows)?;
            }
        }
        Inside::Entries(count) => {
            for _ in 0..count {
                let (size, place) = number(data, next).map_err(|number| (number, next))?;
                let text = part(data, place, size).map_err(|number| (number, next))?;
                std::str::from_utf8(text).map_err(|_| (5, next))?;
                rows.push([17, rows.len() as u32 + 1, place as u32, size as u32, 0, 0]);
                next = value(data, place + size, depth + 1, entries, rows)?;
            }
        }
        Inside::Declared(count) => {
            let mut declared = Vec::new();
            for _ in 0..count {
                let row = rows.len();
                next = value(data, next, depth + 1, &declared, rows)?;
                declared.push(row);
            }
            next = value(data, next, depth + 1, &declared, rows)?;
        }
        Inside::Body(size) => {
            let place = next;
            next += size;
            if let Err((verdict, _)) = whole(&data[..next], place, depth + 1, rows) {
                rows.truncate(own + 1);
                rows[own] = [16, 0, place as u32, size as u32, verdict, 0];
            }
        }
    }
    rows[own][1] = rows.len() as u32;
    Ok(next)
}

/// The row of a position without its end, the place behind its own bytes, and what it holds.
fn front(data: &[u8], at: Place, entries: &[usize]) -> Result<(Row, Place, Inside), u32> {
    let marker = part(data, at, 1)?[0] as usize;
    let behind = at + 1;
    let leaf = |row, next| Ok((row, next, Inside::Nothing));
    let body = |kind, place: Place, size: usize| {
        part(data, place, size)?;
        leaf([kind, 0, place as u32, size as u32, 0, 0], place + size)
    };
    let text = |place: Place, size: usize| {
        std::str::from_utf8(part(data, place, size)?).map_err(|_| 5u32)?;
        body(8, place, size)
    };
    let holder = |kind, count: usize, next, inside| Ok(([kind, 0, count as u32, 0, 0, 0], next, inside));
    let reference = |number: usize, next| match entries.get(number) {
        Some(row) => leaf([14, 0, number as u32, *row as u32, 0, 0], next),
        None => Err(7),
    };
    match marker {
        0 => leaf([1, 0, 0, 0, 0, 0], behind),
        1 => leaf([2, 0, 0, 0, 0, 0], behind),
        2 => leaf([3, 0, 0, 0, 0, 0], behind),
        3..=7 => body(7, behind, [2, 4, 8, 16, 32][marker - 3]),
        8 => number(data, behind).and_then(|(size, place)| text(place, size)),
        9 => number(data, behind).and_then(|(count, next)| holder(9, count, next, Inside::Positions(count))),
        10 => number(data, behind).and_then(|(count, next)| holder(10, count, next, Inside::Entries(count))),
        11 => number(data, behind).and_then(|(count, next)| holder(11, count, next, Inside::Positions(2 * count))),
        12 => number(data, behind).and_then(|(size, place)| body(12, place, size)),
        13 => match part(data, behind, 1)?[0] {
            0x0d => match number(data, behind + 1)? {
                (0, _) => Err(8),
                (count, next) => holder(15, count, next, Inside::Declared(count)),
            },
            0x00 => {
                let (size, place) = number(data, behind + 1)?;
                part(data, place, size)?;
                holder(16, 0, place, Inside::Body(size))
            }
            _ => Err(3),
        },
        14 | 15 => Err(3),
        0x10..=0x1f => {
            let size = SIZES[marker % 8];
            let value = little(part(data, behind, size)?) as i128;
            let top = 1i128.checked_shl(8 * size as u32 - 1).unwrap();
            let negative = marker < 0x18 && size < 16 && value >= top;
            let (value, kind) =
                if negative { (value - 2 * top, 5) } else { (value, if marker < 0x18 { 5 } else { 6 }) };
            leaf(integer(value, kind), behind + size)
        }
        0x20..=0x7f => leaf(integer(marker as i128 - 63, 4), behind),
        0x80..=0x9f => text(behind, marker - 0x80 + 1),
        0xa0..=0xaf => holder(9, marker - 0xa0 + 1, behind, Inside::Positions(marker - 0xa0 + 1)),
        0xb0..=0xb7 => holder(10, marker - 0xb0 + 1, behind, Inside::Entries(marker - 0xb0 + 1)),
        0xb8..=0xbf => holder(11, marker - 0xb8 + 1, behind, Inside::Positions(2 * (marker - 0xb8 + 1))),
        0xc0 => match char::from_u32(little(part(data, behind, 3)?) as u32) {
            Some(char) => leaf([13, 0, char as u32, 0, 0, 0], behind + 3),
            None => Err(6),
        },
        0xc1..=0xfe => reference(marker - 0xc1, behind),
        _ => number(data, behind).and_then(|(number, next)| reference(number, next)),
    }
}

/// Whether the rows are those of some document, places aside: they are put into bytes and read.
pub fn check(rows: &[Row], data: &[u8]) -> bool {
    let mut document = Vec::new();
    let Some(_) = put(rows, 0, 0, data, &mut document) else { return false };
    let Ok(read) = self::rows(&document) else { return false };
    let payload = |row: &Row, data: &[u8]| body(row).map(|(place, size)| data[place..place + size].to_vec());
    let words = |row: &Row| match body(row) {
        Some(_) => [row[0], row[1], 0, row[3], row[4], row[5]],
        None => *row,
    };
    read.len() == rows.len()
        && read.iter().zip(rows).all(|(a, b)| words(a) == words(b) && payload(a, &document) == payload(b, data))
}

/// Place and size of the bytes that a row carries.
pub fn body(row: &Row) -> Option<(usize, usize)> {
    let carries = matches!(row[0], 7 | 8 | 12 | 17) || row[0] == 16 && row[4] != 0;
    carries.then_some((row[2] as usize, row[3] as usize))
}

/// Puts a row and what it holds into bytes, its ends unread; the row behind.
fn put(rows: &[Row], at: usize, depth: u32, data: &[u8], out: &mut Vec<u8>) -> Option<usize> {
    let row = rows.get(at).filter(|_| depth < 40)?;
    let [kind, _, w0, w1, w2, _] = *row;
    let number = |number: u32| [&[0xfb], &number.to_le_bytes()[..]].concat();
    let part = |(place, size): (usize, usize)| data.get(place..)?.get(..size);
    let body = body(row).map_or(Some(&[][..]), part)?;
    let front = match kind {
        1..=3 => vec![kind as u8 - 1],
        4..=6 => [
            &[if kind == 6 { 0x1f } else { 0x17 }],
            &row[2..].iter().flat_map(|word| word.to_le_bytes()).collect::<Vec<u8>>()[..],
        ]
        .concat(),
        7 => vec![3 + [2, 4, 8, 16, 32].iter().position(|size| *size == w1)? as u8],
        8 => [vec![0x08], number(w1)].concat(),
        9..=11 => [vec![kind as u8], number(w0)].concat(),
        12 => [vec![0x0c], number(w1)].concat(),
        13 if w0 < 1 << 24 => [&[0xc0], &w0.to_le_bytes()[..3]].concat(),
        14 => [vec![0xff], number(w0)].concat(),
        15 => [vec![0x0d, 0x0d], number(w0)].concat(),
        16 if w2 != 0 => [vec![0x0d, 0x00], number(w1)].concat(),
        16 => {
            let mut body = Vec::new();
            let next = put(rows, at + 1, depth + 1, data, &mut body)?;
            out.extend([vec![0x0d, 0x00], number(body.len() as u32), body].concat());
            return Some(next);
        }
        17 => number(w1),
        _ => return None,
    };
    out.extend(front);
    out.extend(body);
    let children = match kind {
        9 => w0 as u64,
        10 | 11 => 2 * w0 as u64,
        15 => 1 + w0 as u64,
        _ => 0,
    };
    let mut next = at + 1;
    for child in 0..children {
        let is_key = rows.get(next)?[0] == 17;
        if is_key != (kind == 10 && child % 2 == 0) {
            return None;
        }
        next = put(rows, next, depth + 1, data, out)?;
    }
    Some(next)
}
