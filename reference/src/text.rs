//! Text by RFC 3629, section 4.

/// Whether the bytes are UTF8-octets; the patterns are those of the grammar.
pub fn is_text(bytes: &[u8]) -> bool {
    let mut rest = bytes;
    loop {
        rest = match behind_ascii(rest) {
            [] => return true,
            [0xc2..=0xdf, 0x80..=0xbf, rest @ ..] => rest,
            [0xe0, 0xa0..=0xbf, 0x80..=0xbf, rest @ ..] => rest,
            [0xe1..=0xec, 0x80..=0xbf, 0x80..=0xbf, rest @ ..] => rest,
            [0xed, 0x80..=0x9f, 0x80..=0xbf, rest @ ..] => rest,
            [0xee..=0xef, 0x80..=0xbf, 0x80..=0xbf, rest @ ..] => rest,
            [0xf0, 0x90..=0xbf, 0x80..=0xbf, 0x80..=0xbf, rest @ ..] => rest,
            [0xf1..=0xf3, 0x80..=0xbf, 0x80..=0xbf, 0x80..=0xbf, rest @ ..] => rest,
            [0xf4, 0x80..=0x8f, 0x80..=0xbf, 0x80..=0xbf, rest @ ..] => rest,
            _ => return false,
        };
    }
}

/// The part from the first byte above 7f, eight bytes at a time.
#[inline]
fn behind_ascii(mut bytes: &[u8]) -> &[u8] {
    while let Some((eight, rest)) = bytes.split_first_chunk() {
        if u64::from_ne_bytes(*eight) & 0x8080_8080_8080_8080 != 0 {
            break;
        }
        bytes = rest;
    }
    while let [0x00..=0x7f, rest @ ..] = bytes {
        bytes = rest;
    }
    bytes
}

#[cfg(test)]
mod tests {
    use super::*;

    fn agrees(bytes: &[u8]) {
        assert_eq!(is_text(bytes), std::str::from_utf8(bytes).is_ok(), "{bytes:02x?}");
    }

    #[test]
    fn up_to_three_bytes_agree_with_std() {
        agrees(&[]);
        for number in 0..1u32 << 24 {
            let [a, b, c, _] = number.to_le_bytes();
            if b == 0 && c == 0 {
                agrees(&[a]);
            }
            if c == 0 {
                agrees(&[a, b]);
            }
            agrees(&[a, b, c]);
        }
    }

    #[test]
    fn four_bytes_agree_with_std() {
        const EDGES: [u8; 12] = [0, 0x41, 0x7f, 0x80, 0x8f, 0x90, 0x9f, 0xa0, 0xbf, 0xc0, 0xf0, 0xff];
        for lead in 0..=255 {
            for second in 0..=255 {
                for third in EDGES {
                    for fourth in EDGES {
                        agrees(&[lead, second, third, fourth]);
                        agrees(&[lead, second, third, fourth, 0x61]);
                    }
                }
            }
        }
    }

    #[test]
    fn every_place_in_a_longer_text_is_looked_at() {
        for size in 0..40 {
            for at in 0..size {
                for part in [&[0xff][..], &[0xc3], &[0xc3, 0xa9], &[0xe2, 0x82, 0xac], &[0xf0, 0x9f, 0x8f, 0x81]] {
                    let mut bytes = vec![0x61; size];
                    let end = size.min(at + part.len());
                    bytes[at..end].copy_from_slice(&part[..end - at]);
                    agrees(&bytes);
                }
            }
        }
    }
}
