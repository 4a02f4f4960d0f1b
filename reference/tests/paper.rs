//! Every example of the paper and of the requests that have landed, and the readings decided for open places.

use reference::check::check;
use reference::fill::fill;
use reference::listing::listing;
use reference::measure::measure;
use reference::refusal::{Fault, Refusal};
use reference::rows::{lent, Row};
use reference::walk::{along, on, payload, resolve, start, step_in, Resolved, Standing};
use reference::write::write;

fn bytes(hex: &str) -> Vec<u8> {
    hex.split_whitespace().map(|pair| u8::from_str_radix(pair, 16).unwrap()).collect()
}

/// Rows, or the refusal's number and the number beside it.
type Answer = Result<usize, (u32, u64)>;

fn plain(answer: Result<usize, Refusal>) -> Answer {
    answer.map_err(|refusal| (refusal.number(), refusal.beside))
}

/// Fills a table of so many words; all that stands behind the used rows must be 0. Measuring must have said the same,
/// or the rows needed where they are not lent.
fn filled(document: &[u8], words: usize) -> (Answer, Vec<u32>) {
    let mut table = vec![0xdead_beef; words];
    let answer = plain(fill(document, &mut table));
    let used = 6 * answer.unwrap_or(0);
    assert!(table[used..].iter().all(|word| *word == 0));
    match plain(measure(document)) {
        Ok(rows) if rows > words / 6 => assert_eq!(answer, Err((11, rows as u64))),
        measured => assert_eq!(answer, measured),
    }
    (answer, table)
}

fn rows(hex: &str) -> Vec<Row> {
    let document = bytes(hex);
    let (answer, table) = filled(&document, 6 * document.len() + 5);
    let n = answer.unwrap_or_else(|refusal| panic!("{hex}: {refusal:?}"));
    check(&table, n, &document).unwrap();
    lent(&table)[..n].to_vec()
}

fn refused(document: &[u8]) -> (u32, u64) {
    filled(document, 6 * 64 + 3).0.unwrap_err()
}

fn refused_hex(hex: &str) -> (u32, u64) {
    refused(&bytes(hex))
}

/// The words of the only row, with its kind.
fn only(hex: &str) -> (u32, [u32; 4]) {
    match rows(hex)[..] {
        [[kind, 1, w0, w1, w2, w3]] => (kind, [w0, w1, w2, w3]),
        ref rows => panic!("{hex}: {rows:?}"),
    }
}

fn integer(hex: &str) -> (u32, i128) {
    let (kind, words) = only(hex);
    (kind, reference::varint::value(words) as i128)
}

fn written(table: &[u32], n: usize, data: &[u8]) -> Vec<u8> {
    let mut out = vec![0xaa; 600];
    let used = write(table, n, data, &mut out).unwrap();
    assert!(out[used..].iter().all(|byte| *byte == 0xaa));
    out.truncate(used);
    out
}

/// What the document is written as after reading.
fn rewritten(hex: &str) -> Vec<u8> {
    let rows = rows(hex);
    written(rows.as_flattened(), rows.len(), &bytes(hex))
}

#[test]
fn whole_documents() {
    assert_eq!(refused_hex(""), (2, 0));
    assert_eq!(rows("02"), [[3, 1, 0, 0, 0, 0]]);
    assert_eq!(refused_hex("02 02"), (10, 1));
    assert_eq!(rows("00"), [[1, 1, 0, 0, 0, 0]]);
    assert_eq!(rows("01"), [[2, 1, 0, 0, 0, 0]]);
}

#[test]
fn integers() {
    for (hex, value) in [("20", -31), ("3f", 0), ("40", 1), ("7f", 64), ("18 40", 64)] {
        assert_eq!(integer(hex), (4, value));
    }
    assert_eq!(rewritten("18 40"), bytes("7f"));
    assert_eq!(integer("18 41"), (6, 65));
    for (hex, kind, value) in [
        ("12 70 11 01", 5, 70_000),
        ("1a 70 11 01", 6, 70_000),
        ("11 c8 00", 5, 200),
        ("18 c8", 6, 200),
        ("10 e0", 5, -32),
    ] {
        assert_eq!(integer(hex), (kind, value));
        assert_eq!(rewritten(hex), bytes(hex));
    }
    assert_eq!(integer("1f ff ff ff ff ff ff ff ff ff ff ff ff ff ff ff ff"), (6, -1));
    assert_eq!(integer("17 ff ff ff ff ff ff ff ff ff ff ff ff ff ff ff ff"), (4, -1));
}

#[test]
fn references_and_declarations() {
    let document = "0d 0d 01 80 61 a2 c1 c1 c1";
    let expected = [
        [15, 6, 1, 0, 0, 0],
        [8, 2, 4, 1, 0, 0],
        [9, 6, 3, 0, 0, 0],
        [14, 4, 0, 1, 0, 0],
        [14, 5, 0, 1, 0, 0],
        [14, 6, 0, 1, 0, 0],
    ];
    assert_eq!(rows(document), expected);
    assert_eq!(filled(&bytes(document), 30).0, Err((11, 6)));
    assert_eq!(filled(&bytes(document), 35).0, Err((11, 6)));
    assert_eq!(filled(&bytes(document), 36).0, Ok(6));
    assert_eq!(filled(&bytes(document), 0).0, Err((11, 6)));
    assert_eq!(refused_hex("c1"), (7, 0));
    assert_eq!(refused_hex("0d 0d 01 c1 02"), (7, 3));
    assert_eq!(refused_hex("0d 0d 00 02"), (8, 0));
    // Nothing outside the innermost declaration is in force, and the outer is in force behind it.
    assert_eq!(refused_hex("0d 0d 01 02 0d 0d 01 c1 02"), (7, 7));
    assert_eq!(refused_hex("0d 0d 02 02 02 0d 0d 01 02 c2"), (7, 9));
    assert_eq!(refused_hex("0d 0d 02 02 0d 0d 01 c1 02 02"), (7, 7));
    assert_eq!(rows("0d 0d 02 02 02 a1 0d 0d 01 01 c1 c2").last(), Some(&[14, 8, 1, 2, 0, 0]));
}

#[test]
fn foreign_documents() {
    let expected = [[9, 3, 2, 0, 0, 0], [16, 2, 4, 2, 2, 0], [2, 3, 0, 0, 0, 0]];
    assert_eq!(rows("a1 0d 00 02 81 61 01"), expected);
    assert_eq!(only("0d 00 02 02 02"), (16, [3, 2, 10, 0]));
    assert_eq!(refused_hex("0d 00 05 02"), (2, 0));
}

/// Request §2.
#[test]
fn a_foreign_body_starts_with_nothing() {
    let expected = [[15, 3, 1, 0, 0, 0], [4, 2, 5, 0, 0, 0], [16, 3, 7, 1, 7, 0]];
    assert_eq!(rows("0d 0d 01 44 0d 00 01 c1"), expected);
    // A document inlined without the header is unchanged.
    assert_eq!(rows("0d 0d 01 44 c1")[2], [14, 3, 0, 1, 0, 0]);
    // A body that declares for itself; behind it the entry outside is in force again.
    let expected = [
        [15, 8, 1, 0, 0, 0],
        [4, 2, 5, 0, 0, 0],
        [9, 8, 2, 0, 0, 0],
        [16, 7, 0, 0, 0, 0],
        [15, 7, 1, 0, 0, 0],
        [4, 6, 6, 0, 0, 0],
        [14, 7, 0, 5, 0, 0],
        [14, 8, 0, 1, 0, 0],
    ];
    assert_eq!(rows("0d 0d 01 44 a1 0d 00 05 0d 0d 01 45 c1 c1"), expected);
    // In a body in a body, as the first entry, and behind one.
    assert_eq!(rows("0d 00 08 0d 0d 01 44 0d 00 01 c1")[3], [16, 4, 10, 1, 7, 0]);
    assert_eq!(rows("0d 0d 01 0d 00 01 c1 02")[1], [16, 2, 6, 1, 7, 0]);
    assert_eq!(rows("0d 0d 02 44 0d 00 01 c1 02")[2], [16, 3, 7, 1, 7, 0]);
}

#[test]
fn chars_and_text() {
    assert_eq!(only("c0 ff d7 00"), (13, [0xd7ff, 0, 0, 0]));
    assert_eq!(only("c0 ff ff 10"), (13, [0x10ffff, 0, 0, 0]));
    assert_eq!(only("c0 00 e0 00"), (13, [0xe000, 0, 0, 0]));
    for hex in ["c0 00 d8 00", "c0 00 00 11", "c0 ff df 00", "c0 ff ff ff"] {
        assert_eq!(refused_hex(hex), (6, 0));
    }
    assert_eq!(refused_hex("81 c0 80"), (5, 0));
}

#[test]
fn depth() {
    let nested = |levels: usize, leaf: &[u8]| [&vec![0xa0; levels], leaf].concat();
    assert_eq!(filled(&nested(32, &[2]), 6 * 33).0, Ok(33));
    assert_eq!(refused(&nested(33, &[2])), (9, 33));
    assert_eq!(refused(&nested(33, &[])), (9, 33));
    assert_eq!(refused(&nested(32, &[])), (2, 32));
    // A foreign body one level too deep, empty or not; one level higher it is right.
    let (answer, table) = filled(&nested(32, &[0x0d, 0x00, 0x00]), 6 * 33);
    assert_eq!((answer, lent(&table)[32]), (Ok(33), [16, 33, 35, 0, 9, 0]));
    let (answer, table) = filled(&nested(32, &[0x0d, 0x00, 0x01, 0x02]), 6 * 33);
    assert_eq!((answer, lent(&table)[32]), (Ok(33), [16, 33, 35, 1, 9, 0]));
    assert_eq!(filled(&nested(31, &[0x0d, 0x00, 0x01, 0x02]), 6 * 33).0, Ok(33));
    // A record at depth 32 reports its key first; a map's key is a position.
    assert_eq!(refused(&nested(32, &[0xb0])), (2, 33));
    assert_eq!(refused(&nested(32, &[0xb0, 0x01])), (2, 33));
    assert_eq!(refused(&nested(32, &[0xb0, 0xfb, 0, 0, 0, 1])), (4, 33));
    assert_eq!(refused(&nested(32, &[0xb0, 0x01, 0xff])), (5, 33));
    assert_eq!(refused(&nested(32, &[0xb0, 0x01, 0x61])), (9, 35));
    assert_eq!(refused(&nested(32, &[0xb8])), (9, 33));
    assert_eq!(refused(&nested(32, &[0x0d, 0x0d, 0x01])), (9, 35));
    assert_eq!(filled(&nested(32, &[0x09, 0x00]), 6 * 33).0, Ok(33));
    assert_eq!(filled(&nested(32, &[0x0a, 0x00]), 6 * 33).0, Ok(33));
}

#[test]
fn longest_short_forms() {
    let declared =
        |entries: u8, value: &str| [&[0x0d, 0x0d, entries], &vec![2; entries as usize][..], &bytes(value)].concat();
    for (value, number) in [("fe", 61), ("ff 3e", 62), ("ff 3d", 61)] {
        let document = declared(63, value);
        let (answer, table) = filled(&document, 6 * 65);
        assert_eq!((answer, lent(&table)[64]), (Ok(65), [14, 65, number, number + 1, 0, 0]));
        let shortest = if number == 61 { "fe" } else { "ff 3e" };
        assert_eq!(written(&table, 65, &document), declared(63, shortest));
    }
    for (size, front) in [(32, "9f"), (33, "08 21"), (247, "08 f7"), (248, "08 f8 f8"), (0, "08 00"), (1, "80")] {
        let text = vec![0x6b; size];
        let table = [8, 1, 0, size as u32, 0, 0];
        assert_eq!(written(&table, 1, &text), [bytes(front), text].concat());
    }
    for (count, front) in [(0, "09 00"), (1, "a0"), (16, "af"), (17, "09 11"), (255, "09 f8 ff"), (256, "09 f9 00 01")]
    {
        let mut table = vec![9, count + 1, count, 0, 0, 0];
        (0..count).for_each(|row| table.extend([3, row + 2, 0, 0, 0, 0]));
        let document = [bytes(front), vec![2; count as usize]].concat();
        assert_eq!(written(&table, count as usize + 1, &[]), document);
    }
}

#[test]
fn longer_forms_are_read() {
    assert_eq!(rows("08 01 61"), [[8, 1, 2, 1, 0, 0]]);
    assert_eq!(rows("09 01 02"), [[9, 2, 1, 0, 0, 0], [3, 2, 0, 0, 0, 0]]);
    assert_eq!(rows("0d 0d 01 02 ff 00").last(), Some(&[14, 3, 0, 1, 0, 0]));
    assert_eq!(rows("0d 0d 01 02 ff ff 00 00 00 00 00 00 00 00 00 00 00 00 00 00 00 00").len(), 3);
    assert_eq!(rows("0d 00 fc 01 00 00 00 00 00 02").len(), 2);
}

#[test]
fn order_at_one_position() {
    assert_eq!(refused_hex("09 fa ff ff ff"), (2, 5));
    assert_eq!(refused_hex("a1 02"), (2, 2));
    assert_eq!(refused_hex("0d"), (2, 0));
    assert_eq!(refused_hex("0d 0d"), (2, 0));
    assert_eq!(refused_hex("0d 0d f8"), (2, 0));
    assert_eq!(refused_hex("0d 0d f8 00"), (8, 0));
    assert_eq!(refused_hex("0d 0d 00"), (8, 0));
    assert_eq!(refused_hex("0d 01"), (3, 0));
    assert_eq!(refused_hex("0e"), (3, 0));
    assert_eq!(refused_hex("0f"), (3, 0));
    // 2 for the number before 4; 4 before the body's 2, before 7 and 8.
    assert_eq!(refused_hex("08 fb 00 00 00"), (2, 0));
    assert_eq!(refused_hex("08 fb 00 00 00 01"), (4, 0));
    assert_eq!(refused_hex("08 fa ff ff ff"), (2, 0));
    assert_eq!(refused_hex("0c fb 00 00 00 01"), (4, 0));
    assert_eq!(refused_hex("09 fb 00 00 00 01"), (4, 0));
    assert_eq!(refused_hex("ff fb 00 00 00 01"), (4, 0));
    assert_eq!(refused_hex("ff fa ff ff ff"), (7, 0));
    assert_eq!(refused_hex("0d 0d fb 00 00 00 01"), (4, 0));
    assert_eq!(refused_hex("0d 0d ff 00 00 00 00 00 00 00 00 00 00 00 00 00 00 00 01"), (4, 0));
    assert_eq!(refused_hex("0d 00 fb 00 00 00 01"), (4, 0));
    // 2 for the body before 5 and 6.
    assert_eq!(refused_hex("82 c0 80"), (2, 0));
    assert_eq!(refused_hex("c0 00 d8"), (2, 0));
    // The bytes around end with the innermost foreign body.
    assert_eq!(rows("a1 0d 00 02 82 61 01")[1], [16, 2, 4, 2, 2, 0]);
    assert_eq!(rows("a1 0d 00 03 0d 00 01 01")[1], [16, 2, 4, 3, 2, 0]);
    assert_eq!(only("0d 00 00"), (16, [3, 0, 2, 0]));
    // 10 comes before 11.
    assert_eq!(filled(&bytes("a0 02 02"), 6).0, Err((10, 2)));
    assert_eq!(filled(&bytes("a1 02 0e"), 6).0, Err((3, 2)));
}

#[test]
fn a_full_table_in_a_foreign_body_is_full() {
    let document = bytes("a1 0d 00 04 a2 02 02 02 01");
    for rows in 0..7 {
        assert_eq!(filled(&document, 6 * rows + 5).0, Err((11, 7)), "{rows}");
    }
    assert_eq!(filled(&document, 6 * 7).0, Ok(7));
    // A damaged body takes one row, whatever it would have needed.
    assert_eq!(filled(&bytes("a1 0d 00 05 a3 02 02 02 0e 01"), 6 * 3).0, Ok(3));
}

/// Measuring asks for no table: it gives the rows where filling is refused with 11.
#[test]
fn measuring_is_never_full() {
    for (hex, rows) in [("02", 1), ("a1 0d 00 04 a2 02 02 02 01", 7), ("0d 0d 01 80 61 a2 c1 c1 c1", 6)] {
        let document = bytes(hex);
        assert_eq!(measure(&document), Ok(rows));
        for words in [0, 5, 6 * rows - 6, 6 * rows - 1] {
            assert_eq!(filled(&document, words), (Err((11, rows as u64)), vec![0; words]));
        }
        assert_eq!(filled(&document, 6 * rows).0, Ok(rows));
    }
}

/// The same refusal whatever is lent, and a table of zeros.
#[test]
fn a_refusal_is_the_same_from_both() {
    for (hex, refusal) in [
        ("", (2, 0)),
        ("0f", (3, 0)),
        ("08 fb 00 00 00 01", (4, 0)),
        ("a1 02 81 c0 80", (5, 2)),
        ("c0 00 d8 00", (6, 0)),
        ("0d 0d 01 c1 02", (7, 3)),
        ("0d 0d 00 02", (8, 0)),
        ("02 02", (10, 1)),
    ] {
        let document = bytes(hex);
        assert_eq!(plain(measure(&document)), Err(refusal), "{hex}");
        for words in [0, 1, 5, 6, 11, 60] {
            assert_eq!(filled(&document, words), (Err(refusal), vec![0; words]), "{hex}");
        }
    }
    assert_eq!(plain(measure(&[0xa0; 33])), Err((9, 33)));
    assert_eq!(filled(&[0xa0; 33], 5), (Err((9, 33)), vec![0; 5]));
}

#[test]
fn too_long() {
    let limit = 16_777_215;
    let mut document = vec![0x61; limit];
    document[..5].copy_from_slice(&bytes("08 fa fa ff ff"));
    assert_eq!(measure(&document), Ok(1));
    assert_eq!(filled(&document, 8), (Ok(1), vec![8, 1, 5, limit as u32 - 5, 0, 0, 0, 0]));
    document.push(0x61);
    assert_eq!(measure(&document), Err(Refusal { fault: Fault::TooLong, beside: 0 }));
    for words in [0, 5, 6, 8] {
        assert_eq!(filled(&document, words), (Err((1, 0)), vec![0; words]));
    }
    // Above the limit nothing else is asked.
    assert_eq!(refused(&vec![0x0e; limit + 1]), (1, 0));
    assert_eq!(refused(&vec![0x0e; limit]), (3, 0));
    let row = [8, 1, 5, 1, 0, 0];
    assert_eq!(check(&row, 1, &document), Err(Refusal { fault: Fault::BadTable, beside: 0 }));
    assert_eq!(write(&row, 1, &document, &mut []), Err(Refusal { fault: Fault::BadTable, beside: 0 }));
}

#[test]
fn the_listing() {
    let expected = "read 4\n15 4 2 0 0 0\n4 2 5 0 0 0\n14 3 0 1 0 0\n14 4 1 2 0 0\n";
    assert_eq!(listing(&bytes("0d 0d 02 44 c1 c2")), expected);
    assert_eq!(listing(&bytes("c1")), "refused 7 0\n");
    assert_eq!(listing(&[2; 16_385]), "input too long\n");
    assert_eq!(listing(&[2; 16_384]), "refused 10 1\n");
    let many = |count: u16| [&[0x09, 0xf9], &count.to_le_bytes()[..], &vec![2; count as usize]].concat();
    assert!(listing(&many(1023)).starts_with("read 1024\n9 1024 1023 0 0 0\n3 2 0 0 0 0\n"));
    assert_eq!(listing(&many(1024)), "refused 11 1025\n");
}

#[test]
fn walking() {
    let rows = rows("0d 0d 02 44 c1 c2");
    let table = rows.as_flattened();
    assert_eq!(resolve(table, 4, 3), Ok(Resolved { row: 1, bound: 2, moves: 2 }));
    assert_eq!(resolve(table, 4, 0), Ok(Resolved { row: 1, bound: 2, moves: 3 }));
    assert_eq!(resolve(table, 4, 1), Ok(Resolved { row: 1, bound: 2, moves: 0 }));
    assert_eq!(start(4), Standing { row: 0, bound: 4 });
    let inside = step_in(table, 4, start(4)).unwrap();
    assert_eq!(inside, Standing { row: 1, bound: 4 });
    assert_eq!(on(table, 4, start(4)).unwrap_err().number(), 14);
    assert_eq!(along(table, 4, start(4)).unwrap_err().number(), 14);
    assert_eq!(step_in(table, 4, inside).unwrap_err().number(), 14);
    let next = on(table, 4, inside).unwrap();
    assert_eq!(next, Standing { row: 2, bound: 4 });
    assert_eq!(along(table, 4, next), Ok(Standing { row: 1, bound: 2 }));
    let last = on(table, 4, next).unwrap();
    assert_eq!(along(table, 4, last), Ok(Standing { row: 2, bound: 3 }));
    assert_eq!(on(table, 4, last).unwrap_err().number(), 14);
}

#[test]
fn forged_standings() {
    let rows = rows("a1 a0 02 01");
    let table = rows.as_flattened();
    for (n, row, bound) in [(5, 0, 4), (4, 4, 5), (4, 0, 0), (4, 0, 5), (4, 1, 1), (4, 1, 2), (4, 1, 0), (0, 0, 0)] {
        for step in [step_in, on, along] {
            let refusal = step(table, n, Standing { row, bound }).unwrap_err();
            assert_eq!((refusal.number(), refusal.beside), (12, 0), "{n} {row} {bound}");
        }
    }
    let huge = Standing { row: usize::MAX, bound: usize::MAX };
    assert_eq!(step_in(table, usize::MAX, huge).unwrap_err().number(), 12);
    assert_eq!(on(table, 4, huge).unwrap_err().number(), 12);
    // Row 1 may be stood on with any bound from its end to n.
    assert_eq!(on(table, 4, Standing { row: 1, bound: 3 }).unwrap_err().number(), 14);
    assert_eq!(on(table, 4, Standing { row: 1, bound: 4 }), Ok(Standing { row: 3, bound: 4 }));
}

#[test]
fn walking_an_unchecked_table() {
    // Along lands on a row whose end is nonsense; the next step says 12.
    let table = [[3, 77, 0, 0, 0, 0], [14, 2, 0, 0, 0, 0], [14, 3, 0, 2, 0, 0]].concat();
    let landed = along(&table, 3, Standing { row: 1, bound: 3 }).unwrap();
    assert_eq!(landed, Standing { row: 0, bound: 77 });
    assert_eq!(on(&table, 3, landed).unwrap_err().number(), 12);
    assert_eq!(along(&table, 3, Standing { row: 2, bound: 3 }).unwrap_err().number(), 12);
    assert_eq!(resolve(&table, 3, 1), Ok(Resolved { row: 0, bound: 77, moves: 1 }));
    for (n, row) in [(3, 2), (3, 3), (4, 0), (0, 0)] {
        assert_eq!(resolve(&table, n, row).unwrap_err().number(), 12);
    }
    // In does not ask the kind.
    let table = [[3, 2, 0, 0, 0, 0], [3, 2, 0, 0, 0, 0]].concat();
    assert_eq!(step_in(&table, 2, start(2)), Ok(Standing { row: 1, bound: 2 }));
    // A declaration of 0 has its value at row + 1.
    let table = [[15, 2, 0, 0, 0, 0], [3, 2, 0, 0, 0, 0]].concat();
    assert_eq!(resolve(&table, 2, 0), Ok(Resolved { row: 1, bound: 2, moves: 1 }));
    // The n-th move is 12; n - 1 are allowed.
    let table = [[3, 1, 0, 0, 0, 0], [14, 2, 0, 0, 0, 0], [14, 3, 0, 1, 0, 0]].concat();
    assert_eq!(resolve(&table, 3, 2), Ok(Resolved { row: 0, bound: 1, moves: 2 }));
    let table = [[15, 2, 0, 0, 0, 0], [14, 2, 0, 0, 0, 0]].concat();
    assert_eq!(resolve(&table, 2, 0).unwrap_err().number(), 12);
}

#[test]
fn resolving_to_a_broken_value() {
    let resolved = |declaration: [u32; 2], entry: u32, n| {
        let [last, entries] = declaration;
        let rows = [[15, last, entries, 0, 0, 0], [3, entry, 0, 0, 0, 0], [3, 3, 0, 0, 0, 0], [3, 4, 0, 0, 0, 0]];
        resolve(&rows.concat(), n, 0).map(|resolved| resolved.row).map_err(|refusal| refusal.number())
    };
    assert_eq!(resolved([3, 1], 2, 4), Ok(2));
    assert_eq!(resolved([4, 1], 3, 4), Ok(3));
    assert_eq!(resolved([9, 1], 2, 4), Ok(2));
    assert_eq!(resolved([9, 2], 2, 4), Ok(3));
    assert_eq!(resolved([9, 3], 2, 4), Err(12));
    assert_eq!(resolved([3, 2], 2, 4), Err(12));
    assert_eq!(resolved([3, 1], 1, 4), Err(12));
    assert_eq!(resolved([3, 1], 0, 4), Err(12));
    assert_eq!(resolved([3, 1], 3, 4), Err(12));
    assert_eq!(resolved([3, 1], 4, 4), Err(12));
    assert_eq!(resolved([9, 1], 3, 3), Err(12));
    assert_eq!(resolved([1, 0], 2, 4), Err(12));
    assert_eq!(resolved([0, 1], 2, 4), Err(12));
    assert_eq!(resolved([9, u32::MAX], 2, 4), Err(12));
}

#[test]
fn payloads() {
    let data = b"0123456789";
    let table = [
        [7, 1, 2, 4, 0, 0],
        [8, 2, 10, 0, 0, 0],
        [12, 3, 0, 10, 0, 0],
        [17, 4, 9, 1, 0, 0],
        [8, 5, 9, 2, 0, 0],
        [8, 6, u32::MAX, u32::MAX, 0, 0],
        [16, 7, 1, 2, 2, 0],
        [9, 8, 1, 2, 0, 0],
    ];
    let table = [table.as_flattened(), &[8, 1, 0]].concat();
    let expected: [&[u8]; 9] = [b"2345", b"", b"0123456789", b"9", b"", b"", b"", b"", b""];
    for (row, expected) in expected.into_iter().enumerate() {
        assert_eq!(payload(&table, row, data), expected);
    }
    assert_eq!(payload(&table, usize::MAX, data), b"");
    assert_eq!(payload(&table, 4, data).as_ptr(), data.as_ptr());
}

#[test]
fn row_rules() {
    let good = |rows: &[Row], data: &[u8]| check(rows.as_flattened(), rows.len(), data).is_ok();
    let one = |kind, words: [u32; 4], data: &[u8]| {
        let [w0, w1, w2, w3] = words;
        good(&[[kind, 1, w0, w1, w2, w3]], data)
    };
    let m = u32::MAX;
    assert!(!good(&[], &[]));
    for kind in 1..=3 {
        assert!(one(kind, [0; 4], &[]) && !one(kind, [0, 0, 0, 1], &[]) && !one(kind, [1, 0, 0, 0], &[]));
    }
    assert!(!one(0, [0; 4], &[]) && !one(18, [0; 4], &[]));
    // Kinds 5 and 6 hold nothing small, kind 4 nothing else.
    for (words, small, signed, unsigned) in [
        ([0, 0, 0, 0], true, false, false),
        ([64, 0, 0, 0], true, false, false),
        ([65, 0, 0, 0], false, true, true),
        ([m - 30, m, m, m], true, false, true),
        ([m - 31, m, m, m], false, true, true),
        ([m, m, m, m], true, false, true),
        ([0, 1, 0, 0], false, true, true),
    ] {
        assert_eq!((one(4, words, &[]), one(5, words, &[]), one(6, words, &[])), (small, signed, unsigned));
    }
    for size in 0..40 {
        assert_eq!(one(7, [0, size, 0, 0], &[0xff; 40]), [2, 4, 8, 16, 32].contains(&size));
        assert!(one(12, [40 - size, size, 0, 0], &[0xff; 40]) && !one(12, [41 - size, size, 0, 0], &[0xff; 40]));
    }
    assert!(
        one(8, [0, 2, 0, 0], b"\xc3\xa9") && !one(8, [0, 1, 0, 0], b"\xc3\xa9") && one(8, [2, 0, 0, 0], b"\xc3\xa9")
    );
    assert!(!one(8, [3, 0, 0, 0], b"ab") && !one(12, [m, m, 0, 0], b"ab") && !one(12, [1, m, 0, 0], b"ab"));
    assert!(!one(12, [0, 1, 1, 0], b"ab") && !one(8, [0, 1, 0, 1], b"ab"));
    assert!(
        one(13, [0x10ffff, 0, 0, 0], &[]) && !one(13, [0x110000, 0, 0, 0], &[]) && !one(13, [0xd800, 0, 0, 0], &[])
    );
    assert!(!one(17, [0, 1, 0, 0], b"a"));
    assert!(!one(14, [0, 0, 0, 0], &[]) && !one(15, [0, 0, 0, 0], &[]) && !one(16, [0; 4], &[2]));
    // A verdict is what reading those bytes there gives.
    assert!(one(16, [0, 1, 7, 0], &[0xc1]) && !one(16, [0, 1, 2, 0], &[0xc1]) && !one(16, [0, 1, 7, 1], &[0xc1]));
    assert!(!one(16, [0, 1, 7, 0], &[2]) && !one(16, [0, 1, 0, 0], &[2]) && !one(16, [0, 2, 7, 0], &[0xc1]));
    assert!(one(16, [1, 0, 2, 0], &[0xc1]) && !one(16, [2, 0, 2, 0], &[0xc1]));
    // A body sees no entry around it: one that refers to it is damaged, and a right one does not refer to it.
    let declared = |verdict| [[15, 3, 1, 0, 0, 0], [3, 2, 0, 0, 0, 0], [16, 3, 0, 1, verdict, 0]];
    assert!(good(&declared(7), &[0xc1]) && !good(&declared(0), &[0xc1]) && good(&declared(7), &[0xc2]));
    let body = |row| [[15, 4, 1, 0, 0, 0], [3, 2, 0, 0, 0, 0], [16, 4, 0, 0, 0, 0], row];
    assert!(!good(&body([14, 4, 0, 1, 0, 0]), &[]) && good(&body([3, 4, 0, 0, 0, 0]), &[]));
    // Holders: children back to back, in the number said.
    let none = |end| [3, end, 0, 0, 0, 0];
    assert!(good(&[[9, 3, 2, 0, 0, 0], none(2), none(3)], &[]));
    assert!(!good(&[[9, 3, 1, 0, 0, 0], none(2), none(3)], &[]) && !good(&[[9, 3, 3, 0, 0, 0], none(2), none(3)], &[]));
    assert!(!good(&[[9, 2, 1, 0, 0, 0], none(2), none(3)], &[]) && !good(&[[9, 3, 2, 0, 0, 0], none(3), none(3)], &[]));
    assert!(!good(&[[9, 4, 2, 0, 0, 0], none(2), none(3)], &[]) && !good(&[[9, 3, 2, 1, 0, 0], none(2), none(3)], &[]));
    assert!(
        good(&[[11, 3, 1, 0, 0, 0], none(2), none(3)], &[]) && !good(&[[11, 3, 2, 0, 0, 0], none(2), none(3)], &[])
    );
    assert!(!good(&[[11, 1, 0x8000_0000, 0, 0, 0]], &[]) && good(&[[11, 1, 0, 0, 0, 0]], &[]));
    let key = [17, 2, 0, 1, 0, 0];
    assert!(good(&[[10, 3, 1, 0, 0, 0], key, none(3)], b"k") && !good(&[[10, 3, 1, 0, 0, 0], none(2), none(3)], b"k"));
    assert!(!good(&[[10, 3, 1, 0, 0, 0], key, none(3)], b"") && !good(&[[10, 3, 1, 0, 0, 0], key, none(3)], b"\xff"));
    assert!(
        !good(&[[9, 3, 2, 0, 0, 0], key, none(3)], b"k")
            && !good(&[[10, 3, 1, 0, 0, 0], key, [17, 3, 0, 1, 0, 0]], b"k")
    );
    assert!(!good(&[[10, 2, 1, 0, 0, 0], key], b"k"));
    // Rows behind n are not looked at; a table of fewer rows is refused.
    let table = [none(1), [99; 6]].concat();
    assert!(check(&table, 1, &[]).is_ok() && check(&table, 2, &[]).is_err() && check(&table[..5], 1, &[]).is_err());
    assert!(check(&table, 0, &[]).is_err() && check(&table, usize::MAX, &[]).is_err());
    // References carry the row of an entry in force.
    let declared = |number, entry| [[15, 4, 2, 0, 0, 0], none(2), none(3), [14, 4, number, entry, 0, 0]];
    for (number, entry, right) in
        [(0, 1, true), (1, 2, true), (1, 1, false), (0, 2, false), (2, 3, false), (0, 0, false)]
    {
        assert_eq!(good(&declared(number, entry), &[]), right);
    }
}

#[test]
fn deep_tables() {
    let nested = |levels: u32| {
        let mut rows: Vec<Row> = (0..levels).map(|_| [9, levels + 1, 1, 0, 0, 0]).collect();
        rows.push([3, levels + 1, 0, 0, 0, 0]);
        check(rows.as_flattened(), rows.len(), &[]).is_ok()
    };
    assert!(nested(32) && !nested(33) && !nested(1000));
}

#[test]
fn writing_refused() {
    let data = vec![0x61; 16_777_215];
    let mut out = [0xaa; 16];
    // Bodies of all the data in an array, in a foreign document: its length takes four bytes, then six.
    let refusal = |count: u32, foreign: bool, out: &mut [u8]| {
        let mut rows = vec![];
        let n = 1 + count + foreign as u32;
        if foreign {
            rows.push([16, n, 0, 0, 0, 0]);
        }
        rows.push([9, n, count, 0, 0, 0]);
        (n - count..n).for_each(|row| rows.push([12, row + 1, 0, 16_777_215, 0, 0]));
        write(rows.as_flattened(), rows.len(), &data, out).map_err(|refusal| (refusal.number(), refusal.beside))
    };
    let body = 1 + 4 + 16_777_215;
    assert_eq!(refusal(1, false, &mut out), Err((1, 1 + body)));
    assert_eq!(refusal(10, false, &mut out), Err((1, 1 + 10 * body)));
    assert_eq!(refusal(10, true, &mut out), Err((1, 2 + 5 + 1 + 10 * body)));
    assert_eq!(refusal(300, true, &mut out), Err((1, 2 + 7 + 4 + 300 * body)));
    let full = [12, 1, 0, 16_777_210, 0, 0];
    assert_eq!(write(&full, 1, &data, &mut out), Err(Refusal { fault: Fault::NoRoom, beside: 16_777_215 }));
    let over = [12, 1, 0, 16_777_211, 0, 0];
    assert_eq!(write(&over, 1, &data, &mut out), Err(Refusal { fault: Fault::TooLong, beside: 16_777_216 }));
    assert_eq!(
        write(&[12, 1, 0, 11, 0, 0], 1, &data, &mut out[..12]),
        Err(Refusal { fault: Fault::NoRoom, beside: 13 })
    );
    assert_eq!(write(&[12, 2, 0, 11, 0, 0], 1, &data, &mut out), Err(Refusal { fault: Fault::BadTable, beside: 0 }));
    assert_eq!(out, [0xaa; 16]);
    assert_eq!(write(&[12, 1, 0, 11, 0, 0], 1, &data, &mut out), Ok(13));
    assert_eq!(out[11..], [0x61, 0x61, 0xaa, 0xaa, 0xaa]);
}
