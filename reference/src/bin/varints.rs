//! Vectors for the variable integers. Each input is read as unsigned and as signed.
//!
//! `varints` prints one line for each reading, `varints inputs` the inputs (a byte of length, then the
//! bytes), `varints expected` what a program that reads those inputs has to print.

use reference::generate::{number_forms, signed_number_forms, Random};
use reference::refusal::Refusal;
use reference::varint::{read_signed, read_unsigned, write_signed, write_unsigned, Words, SIZES};
use std::fmt::Write as _;
use std::io::{stdout, Write as _};

/// Name, reader and writer of each variable integer.
type Integer =
    (&'static str, fn(&[u8]) -> Result<(Words, usize), Refusal>, fn(&mut [u8], Words) -> Result<usize, usize>);

const INTEGERS: [Integer; 2] = [("u", read_unsigned, write_unsigned), ("s", read_signed, write_signed)];

fn main() -> std::io::Result<()> {
    let inputs = inputs();
    match std::env::args().nth(1).as_deref() {
        None => stdout().write_all(vectors(&inputs).as_bytes()),
        Some("inputs") => stdout().write_all(&prefixed(&inputs)),
        Some("expected") => stdout().write_all(expected(&inputs).as_bytes()),
        Some(_) => {
            eprintln!("usage: varints [inputs | expected]");
            std::process::exit(2)
        }
    }
}

fn inputs() -> Vec<Vec<u8>> {
    let mut inputs = vec![vec![]];
    inputs.extend((0..=255).map(|byte| vec![byte]));
    inputs.extend((0..=255).step_by(5).map(|byte| vec![byte, 0x0d, 0xf8]));
    inputs.extend(edges());
    inputs.extend(truncations());
    let mut random = Random::new(11);
    inputs.extend((0..500).map(|_| random_input(&mut random)));
    inputs
}

/// The limits of every size, and one beyond, in every form that holds them.
fn edges() -> Vec<Vec<u8>> {
    let mut unsigned = vec![0, 1, 0xf6, 0xf7, 0xf8, 0xf9, 0xff];
    let mut signed = vec![0, 1, -1, 122, 123, 124, -123, -124, -125, -126, i128::MAX, i128::MIN];
    for size in SIZES {
        let half = 1u128 << (8 * size - 1);
        unsigned.extend([half - 1, half, half + (half - 1)]);
        unsigned.extend(half.checked_mul(2));
        signed.extend([(half - 1) as i128, (half as i128).wrapping_neg()]);
        if size < 16 {
            signed.extend([half as i128, -(half as i128) - 1]);
        }
    }
    let unsigned = unsigned.into_iter().flat_map(number_forms);
    unsigned.chain(signed.into_iter().flat_map(signed_number_forms)).collect()
}

/// Every form with a body cut short, whole, and with a byte behind it.
fn truncations() -> Vec<Vec<u8>> {
    let mut inputs = Vec::new();
    for (form, size) in SIZES.into_iter().enumerate() {
        for marker in [0xf8, 0x7c] {
            for body in 0..=size + 1 {
                inputs.push([vec![marker + form as u8], vec![0x91; body]].concat());
            }
        }
    }
    inputs
}

/// A marker, mostly of a form with a body, and a body of any size with a run of equal bytes at its end.
fn random_input(random: &mut Random) -> Vec<u8> {
    let marker = match random.below(8) {
        0 => random.number() as u8,
        1..=3 => 0x7c + random.below(8) as u8,
        _ => 0xf8 + random.below(8) as u8,
    };
    let size = if random.below(6) == 0 { random.below(20) } else { 16 + random.below(3) };
    let mut body = random.bytes(size);
    let run = random.below(size + 1);
    let byte = random.one_of(&[0x00, 0xff, 0x7f, 0x80]);
    body[run..].fill(byte);
    [vec![marker], body].concat()
}

fn prefixed(inputs: &[Vec<u8>]) -> Vec<u8> {
    inputs.iter().flat_map(|input| [&[input.len() as u8], &input[..]].concat()).collect()
}

/// A space and two digits for each byte.
fn hex(bytes: &[u8]) -> String {
    bytes.iter().map(|byte| format!(" {byte:02x}")).collect()
}

/// The shortest form of a value, and what its writer says one byte short of it.
fn written(write: fn(&mut [u8], Words) -> Result<usize, usize>, value: Words) -> (Vec<u8>, usize) {
    let mut out = [0; 17];
    let used = write(&mut out, value).expect("seventeen bytes hold every form");
    let needed = write(&mut out[..used - 1].to_vec(), value).expect_err("one byte short");
    (out[..used].to_vec(), needed)
}

fn vectors(inputs: &[Vec<u8>]) -> String {
    let mut lines = String::new();
    for input in inputs {
        for (name, read, write) in INTEGERS {
            match read(input) {
                Ok((value @ [w0, w1, w2, w3], used)) => {
                    let shortest = hex(&written(write, value).0);
                    writeln!(lines, "{name}{} -> {w0} {w1} {w2} {w3} used {used} written{shortest}", hex(input))
                }
                Err(refusal) => writeln!(lines, "{name}{} -> refused {}", hex(input), refusal.number()),
            }
            .unwrap();
        }
    }
    lines
}

fn expected(inputs: &[Vec<u8>]) -> String {
    let mut lines = String::new();
    for input in inputs {
        for (name, read, write) in INTEGERS {
            match read(input) {
                Ok((value @ [w0, w1, w2, w3], used)) => {
                    let (shortest, needed) = written(write, value);
                    writeln!(lines, "{name}{}: {w0} {w1} {w2} {w3} {used}", hex(input)).unwrap();
                    writeln!(lines, "  ->{}\n  13 {needed}", hex(&shortest))
                }
                Err(refusal) => writeln!(lines, "{name}{}: refused {}", hex(input), refusal.number()),
            }
            .unwrap();
        }
    }
    lines
}

#[cfg(test)]
mod tests {
    use super::*;

    #[test]
    fn lines() {
        let lines = expected(&[vec![], vec![0xf8, 0x05], vec![0x7d, 0x80, 0x00, 0x09]]);
        let wanted = "u: refused 2\ns: refused 2\n\
            u f8 05: 5 0 0 0 2\n  -> 05\n  13 1\n\
            s f8 05: 4294967288 4294967295 4294967295 4294967295 1\n  -> f8\n  13 1\n\
            u 7d 80 00 09: 125 0 0 0 1\n  -> 7d\n  13 1\n\
            s 7d 80 00 09: 128 0 0 0 3\n  -> 7d 80 00\n  13 3\n";
        assert_eq!(lines, wanted);
        assert_eq!(vectors(&[vec![0xf8, 0x05]]).lines().next(), Some("u f8 05 -> 5 0 0 0 used 2 written 05"));
        assert_eq!(prefixed(&[vec![], vec![0xf8, 0x05]]), [0, 2, 0xf8, 0x05]);
    }

    #[test]
    fn every_form_and_every_refusal_is_met() {
        let inputs = inputs();
        assert!(inputs.len() < 2_500 && inputs.iter().all(|input| input.len() < 32));
        for (_, read, write) in INTEGERS {
            let mut shortest = [0; 18];
            for (value, _) in inputs.iter().filter_map(|input| read(input).ok()) {
                shortest[written(write, value).0.len()] += 1;
            }
            assert!([1, 2, 3, 4, 5, 7, 9, 13, 17].iter().all(|size| shortest[*size] > 10), "{shortest:?}");
        }
    }
}
