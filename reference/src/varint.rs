//! The two variable integers, and the integer bodies they share with the markers.

use crate::refusal::{Fault, Refusal};

/// 128 bits, low word first.
pub type Words = [u32; 4];

/// The body sizes of integers, by form.
pub const SIZES: [usize; 8] = [1, 2, 3, 4, 6, 8, 12, 16];

/// The first form with a body of at least so many bytes.
const FORMS: [u8; 17] = [0, 0, 1, 2, 3, 4, 4, 5, 5, 6, 6, 6, 6, 7, 7, 7, 7];

const UNSIGNED_MARKER: u8 = 0xf8;
const SIGNED_MARKER: u8 = 0x7c;

#[inline]
pub fn words(value: u128) -> Words {
    [value as u32, (value >> 32) as u32, (value >> 64) as u32, (value >> 96) as u32]
}

#[inline]
pub fn value(words: Words) -> u128 {
    let [w0, w1, w2, w3] = words.map(u128::from);
    w0 | w1 << 32 | w2 << 64 | w3 << 96
}

/// The words of a number in 32 bits, two's complement.
#[inline]
pub fn small_words(number: i32) -> Words {
    let sign = (number >> 31) as u32;
    [number as u32, sign, sign, sign]
}

/// The value of an unsigned body of at most 16 bytes, little endian.
#[inline]
pub fn unsigned_body(body: &[u8]) -> u128 {
    match *body {
        [a] => a as u128,
        [a, b] => u16::from_le_bytes([a, b]) as u128,
        [a, b, c] => u32::from_le_bytes([a, b, c, 0]) as u128,
        [a, b, c, d] => u32::from_le_bytes([a, b, c, d]) as u128,
        _ => {
            let mut bytes = [0; 16];
            bytes[..body.len()].copy_from_slice(body);
            u128::from_le_bytes(bytes)
        }
    }
}

/// The value of a signed body of 1 to 16 bytes, two's complement.
#[inline]
pub fn signed_body(body: &[u8]) -> i128 {
    let unused = 128 - 8 * body.len() as u32;
    (unsigned_body(body) << unused) as i128 >> unused
}

/// The shortest form whose unsigned body holds the value.
#[inline]
pub fn unsigned_form(value: u128) -> usize {
    let bits = 128 - value.leading_zeros();
    FORMS[bits.div_ceil(8) as usize] as usize
}

/// The shortest form whose signed body holds the value.
#[inline]
pub fn signed_form(value: i128) -> usize {
    let bits = 129 - (value ^ value >> 127).leading_zeros();
    FORMS[bits.div_ceil(8) as usize] as usize
}

/// Reads an unsigned variable integer from the front: its value and the bytes used.
pub fn read_unsigned(bytes: &[u8]) -> Result<(Words, usize), Refusal> {
    match bytes {
        [marker @ UNSIGNED_MARKER..=0xff, rest @ ..] => {
            let body = body(rest, marker - UNSIGNED_MARKER)?;
            Ok((words(unsigned_body(body)), 1 + body.len()))
        }
        [byte, ..] => Ok(([*byte as u32, 0, 0, 0], 1)),
        [] => Err(Refusal::bare(Fault::Short)),
    }
}

/// Reads a signed variable integer from the front: its value and the bytes used.
pub fn read_signed(bytes: &[u8]) -> Result<(Words, usize), Refusal> {
    match bytes {
        [marker @ SIGNED_MARKER..=0x83, rest @ ..] => {
            let body = body(rest, marker - SIGNED_MARKER)?;
            Ok((words(signed_body(body) as u128), 1 + body.len()))
        }
        [byte, ..] => Ok((small_words(*byte as i8 as i32), 1)),
        [] => Err(Refusal::bare(Fault::Short)),
    }
}

fn body(bytes: &[u8], form: u8) -> Result<&[u8], Refusal> {
    bytes.get(..SIZES[form as usize]).ok_or(Refusal::bare(Fault::Short))
}

/// Writes the shortest unsigned form at the front; the bytes needed when there is no room.
pub fn write_unsigned(out: &mut [u8], number: Words) -> Result<usize, usize> {
    match number {
        [low @ 0..=0xf7, 0, 0, 0] => put_byte(out, low as u8),
        _ => {
            let form = unsigned_form(value(number));
            put_body(out, UNSIGNED_MARKER + form as u8, SIZES[form], value(number))
        }
    }
}

/// Writes the shortest signed form at the front; the bytes needed when there is no room.
pub fn write_signed(out: &mut [u8], number: Words) -> Result<usize, usize> {
    let value = value(number) as i128;
    match value {
        -124..=123 => put_byte(out, value as u8),
        _ => {
            let form = signed_form(value);
            put_body(out, SIGNED_MARKER + form as u8, SIZES[form], value as u128)
        }
    }
}

fn put_byte(out: &mut [u8], byte: u8) -> Result<usize, usize> {
    *out.first_mut().ok_or(1usize)? = byte;
    Ok(1)
}

fn put_body(out: &mut [u8], marker: u8, size: usize, value: u128) -> Result<usize, usize> {
    let out = out.get_mut(..1 + size).ok_or(1 + size)?;
    out[0] = marker;
    out[1..].copy_from_slice(&value.to_le_bytes()[..size]);
    Ok(1 + size)
}

#[cfg(test)]
mod tests {
    use super::*;

    fn edges() -> Vec<i128> {
        let mut edges = vec![0, i128::MAX, i128::MIN, 0xf7, 123, -124];
        for bits in 1..128 {
            let limit = 1u128 << (bits - 1);
            edges.extend([limit as i128, -(limit as i128)]);
        }
        edges.extend(edges.clone().iter().flat_map(|edge| [edge.wrapping_sub(1), edge.wrapping_add(1)]));
        edges
    }

    /// The shortest form, found by trying each.
    fn shortest(marker: u8, value: u128, fits: impl Fn(usize) -> bool) -> Vec<u8> {
        let form = (0..8).find(|&form| fits(8 * SIZES[form])).unwrap();
        let mut bytes = vec![marker + form as u8];
        bytes.extend(&value.to_le_bytes()[..SIZES[form]]);
        bytes
    }

    fn written(write: fn(&mut [u8], Words) -> Result<usize, usize>, number: Words) -> Vec<u8> {
        let mut out = [0xaa; 20];
        let used = write(&mut out, number).unwrap();
        assert!(out[used..].iter().all(|&byte| byte == 0xaa));
        let mut less = vec![0xaa; used - 1];
        assert_eq!(write(&mut less, number), Err(used));
        assert_eq!(write(&mut [], number), Err(used));
        assert!(less.iter().all(|&byte| byte == 0xaa));
        out[..used].to_vec()
    }

    #[test]
    fn values_are_written_shortest_and_read_back() {
        for edge in edges() {
            let unsigned = edge as u128;
            let expected = match unsigned {
                0..=0xf7 => vec![unsigned as u8],
                _ => shortest(0xf8, unsigned, |bits| bits == 128 || unsigned >> bits == 0),
            };
            assert_eq!(written(write_unsigned, words(unsigned)), expected);
            assert_eq!(read_unsigned(&expected), Ok((words(unsigned), expected.len())));

            let expected = match edge {
                -124..=123 => vec![edge as u8],
                _ => shortest(0x7c, unsigned, |bits| edge >> (bits - 1) == edge >> 127),
            };
            assert_eq!(written(write_signed, words(unsigned)), expected);
            assert_eq!(read_signed(&expected), Ok((words(unsigned), expected.len())));
        }
    }

    #[test]
    fn every_form_is_read_and_no_shorter_part_of_it() {
        for (form, size) in SIZES.into_iter().enumerate() {
            for fill in [0x00, 0x05, 0x7f, 0x80, 0xff] {
                let mut bytes = vec![fill; 1 + size];
                let mut low = [0; 16];
                low[..size].fill(fill);
                let mut signed = if fill < 0x80 { [0; 16] } else { [0xff; 16] };
                signed[..size].fill(fill);
                for (marker, body, read) in [
                    (0xf8, low, read_unsigned as fn(&[u8]) -> Result<(Words, usize), Refusal>),
                    (0x7c, signed, read_signed),
                ] {
                    bytes[0] = marker + form as u8;
                    let value = words(u128::from_le_bytes(body));
                    assert_eq!(read(&bytes), Ok((value, 1 + size)));
                    assert_eq!(read(&[&bytes[..], &[9, 9]].concat()), Ok((value, 1 + size)));
                    for less in 0..=size {
                        assert_eq!(read(&bytes[..less]), Err(Refusal::bare(Fault::Short)));
                    }
                }
            }
        }
    }

    #[test]
    fn direct_bytes() {
        for byte in 0..=0xf7u8 {
            assert_eq!(read_unsigned(&[byte, 1]), Ok((words(byte as u128), 1)));
        }
        for byte in (0x00..=0x7b).chain(0x84..=0xff) {
            let number = if byte < 0x80 { byte as i128 } else { byte as i128 - 256 };
            assert_eq!(read_signed(&[byte, 1]), Ok((words(number as u128), 1)));
        }
    }

    #[test]
    fn examples_of_the_paper() {
        assert_eq!(written(write_signed, small_words(124)), [0x7c, 0x7c]);
        assert_eq!(written(write_signed, small_words(-125)), [0x7c, 0x83]);
        assert_eq!(written(write_signed, small_words(128)), [0x7d, 0x80, 0x00]);
        assert_eq!(written(write_signed, small_words(123)), [0x7b]);
        assert_eq!(written(write_signed, small_words(-124)), [0x84]);
    }
}
