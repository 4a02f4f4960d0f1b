//! Tables that no reader made: payloads that overlap, run backwards or share bytes, rows and words behind the last.

use super::cases::{in_rooms, Case, Cases};
use super::examples::integer;
use super::parts::{array, bytes, damaged, declare, holder, key, leaf, none, refer, rows_of};
use reference::rows::{kind, Row};

pub fn writes() -> Cases {
    let mut cases = Vec::new();
    for (rows, document) in tables() {
        let document = bytes(document);
        // Plain text, in which each byte is also a document of its own, with bytes behind it that no row names.
        cases.extend(in_rooms(&rows, b"abcdef", &document));
        cases.push(Case::becoming(&rows, b"abcdefghijkl", &document, document.len()));
        cases.extend(behind(&rows, b"abcdef", &document));
    }
    cases.extend(lent_rows());
    cases.extend(order());
    cases
}

fn text(place: u32, size: u32) -> Vec<Row> {
    leaf(kind::TEXT, [place, size, 0, 0])
}

fn binary(place: u32, size: u32) -> Vec<Row> {
    leaf(kind::BINARY, [place, size, 0, 0])
}

/// Tables over the data `abcdef`.
fn tables() -> Vec<(Vec<Row>, &'static str)> {
    let record = |children: &[Vec<Row>]| holder(kind::RECORD, children);
    vec![
        (text(5, 1), "80 66"),
        (text(6, 0), "08 00"),
        (array(&[text(0, 3), text(0, 3)]), "a1 82 61 62 63 82 61 62 63"),
        (array(&[text(4, 2), text(2, 2), text(0, 2)]), "a2 81 65 66 81 63 64 81 61 62"),
        (array(&[text(0, 2), text(1, 2), text(0, 6)]), "a2 81 61 62 81 62 63 85 61 62 63 64 65 66"),
        (array(&[binary(5, 1), binary(6, 0), binary(0, 2)]), "a2 0c 01 66 0c 00 0c 02 61 62"),
        (array(&[leaf(kind::FLOAT, [2, 4, 0, 0]), leaf(kind::FLOAT, [1, 2, 0, 0])]), "a1 04 63 64 65 66 03 62 63"),
        (record(&[key(4, 2), binary(4, 2), key(4, 2), text(0, 1)]), "b1 02 65 66 0c 02 65 66 02 65 66 80 61"),
        (record(&[key(6, 0), none(), key(0, 0), none()]), "b1 00 02 00 02"),
        (holder(kind::MAP, &[text(1, 1), text(0, 1)]), "b8 80 62 80 61"),
        (
            array(&[damaged(0, 6, 10), damaged(3, 0, 2), damaged(1, 2, 10)]),
            "a2 0d 00 06 61 62 63 64 65 66 0d 00 00 0d 00 02 62 63",
        ),
        (holder(kind::FOREIGN, &[array(&[text(3, 2), text(2, 2)])]), "0d 00 07 a1 81 64 65 81 63 64"),
        (
            declare(&[text(3, 2)], array(&[refer(0, 1), text(0, 3), refer(0, 1)])),
            "0d 0d 01 81 64 65 a2 c1 82 61 62 63 c1",
        ),
        (array(&[integer(kind::SIGNED, -33), integer(kind::UNSIGNED, 300)]), "a1 10 df 19 2c 01"),
    ]
}

/// The table with words behind it, which no rule asks about: part of a row, whole ones, right ones, rubbish.
fn behind(rows: &[Row], data: &[u8], document: &[u8]) -> Cases {
    let end = rows.len() as u32;
    let other = [kind::NONE, end + 1, 0, 0, 0, 0];
    let rubbish = [kind::ARRAY, end, u32::MAX, 7, 7, 7, 18, 0, u32::MAX, 9];
    let parts = [&other[..1], &other[..5], &other[..], &rubbish[..6], &rubbish[..], &[0; 6][..]];
    let room = document.len() + 2;
    parts.map(|words| Case::becoming(rows, data, document, room).lending(words)).to_vec()
}

/// "n is 1 to 16,777,215 and the table holds n rows": each n with each number of words.
fn lent_rows() -> Cases {
    let mut cases = Vec::new();
    // Each row is a document of its own, but only the first ends where it must.
    let rows = [none(), array(&[]), none()].concat();
    let table = rows.as_flattened();
    for (words, n) in
        (0..=table.len()).flat_map(|words| [0, 1, 2, 3, 16_777_215, 16_777_216, u32::MAX].map(|n| (words, n)))
    {
        let one = Case::becoming(&rows[..1], b"k", &[0x02], 3);
        let meant = if n == 1 && words >= 6 { one.meant } else { Some(Err((12, 0))) };
        cases.push(Case { table: table[..words].to_vec(), n, meant, ..one });
    }
    cases
}

/// "The writer asks 12, 1, 13": a broken table is refused as one in any room.
fn order() -> Cases {
    let document = bytes("a3 80 6b 18 41 0c 02 00 ff 0d 00 02 a0 02");
    let rows = rows_of(&document);
    let mut cases = in_rooms(&rows, &document, &document);
    for (row, word) in (0..rows.len()).flat_map(|row| (0..6).map(move |word| (row, word))) {
        let mut broken = rows.clone();
        broken[row][word] = broken[row][word].wrapping_add(1 << 31);
        // An unsigned integer may have any words but few.
        if rows[row][0] != kind::UNSIGNED || word < 2 {
            cases.extend([0, 8, 64].map(|room| Case::bad(&broken, &document, room)));
        }
    }
    cases
}
