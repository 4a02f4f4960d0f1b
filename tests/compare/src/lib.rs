//! Every operation of the proved library beside the same one of the reference implementation. What is lent to be
//! written stands between guards, is filled with a pattern beforehand, and is compared whole afterwards. What fill
//! answers is also compared with what measure answered. A difference is printed with all that the call was given, and
//! stops the program.

pub mod input;
mod report;

use native::{beside, number, packed};
use reference::refusal::{Fault, Refusal};
use reference::varint::{self, Words};
use reference::walk::{self, Standing};
use reference::{check, fill, measure, write, LIMIT};
pub use report::Tally;
use report::{Call, Lent};

/// Words or bytes on both sides of what is lent.
const GUARD: usize = 8;

/// More rows than the limit: the library for C refuses to walk them, since its answers have no room for them.
const TOO_MANY: Refusal = Refusal { fault: Fault::BadTable, beside: 0 };

/// One step of a walk.
#[derive(Clone, Copy)]
pub enum Way {
    In,
    On,
    Along,
}

/// Compares calls, and counts their answers.
#[derive(Default)]
pub struct Compare {
    /// Where the present case comes from, said with a difference.
    pub origin: String,
    pub tally: Tally,
}

impl Compare {
    /// Measures the data.
    pub fn measure(&mut self, data: &[u8]) -> u64 {
        let answer = native::measure(data);
        let expected = packed_count(measure::measure(data));
        self.same::<u8>(
            &Call { what: "measure", data, table: &[], arguments: format_args!("") },
            (answer, expected),
            (&[], &[]),
        );
        answer
    }

    /// Fills a table of so many words with the data, which were measured before; the answer and the table.
    pub fn fill(&mut self, data: &[u8], measured: u64, words: usize) -> (u64, Vec<u32>) {
        let mut ours = Lent::numbers(words);
        let mut theirs = ours.clone();
        let answer = native::fill(data, ours.part());
        let expected = packed_count(fill::fill(data, theirs.part()));
        let call = Call { what: "fill", data, table: &[], arguments: format_args!("words={words}") };
        self.same(&call, (answer, expected), (&ours.all, &theirs.all));
        let rows = beside(measured);
        let fitting = if number(measured) == 0 && rows > words as u64 / 6 { packed(11, rows) } else { measured };
        if answer != fitting {
            report::differ::<u8>(&call, &self.origin, [("fill", answer), ("as measured", fitting)], (&[], &[]));
        }
        (answer, ours.part().to_vec())
    }

    /// Checks n rows of a table over the data.
    pub fn check(&mut self, table: &[u32], n: usize, data: &[u8]) -> u64 {
        let answer = native::check(table, n, data);
        let expected = packed_count(check::check(table, n, data).map(|()| n));
        self.same::<u8>(
            &Call { what: "check", data, table, arguments: format_args!("n={n}") },
            (answer, expected),
            (&[], &[]),
        );
        answer
    }

    /// Writes n rows of a table over the data into so much room; the answer and the output.
    pub fn write(&mut self, table: &[u32], n: usize, data: &[u8], room: usize) -> (u64, Vec<u8>) {
        let mut ours = Lent::bytes(room);
        let mut theirs = ours.clone();
        let answer = native::write(table, n, data, ours.part());
        let expected = packed_count(write::write(table, n, data, theirs.part()));
        self.same(
            &Call { what: "write", data, table, arguments: format_args!("n={n} room={room}") },
            (answer, expected),
            (&ours.all, &theirs.all),
        );
        (answer, ours.part().to_vec())
    }

    /// Steps from a standing.
    pub fn step(&mut self, way: Way, table: &[u32], n: usize, row: usize, bound: usize) -> u64 {
        let standing = Standing { row, bound };
        let (what, answer, expected) = match way {
            Way::In => ("in", native::step_in(table, n, row, bound), walk::step_in(table, n, standing)),
            Way::On => ("on", native::on(table, n, row, bound), walk::on(table, n, standing)),
            Way::Along => ("along", native::along(table, n, row, bound), walk::along(table, n, standing)),
        };
        let expected = match expected {
            _ if n > LIMIT as usize => packed_refusal(TOO_MANY),
            Ok(standing) => packed(0, (standing.row as u64) << 32 | standing.bound as u64),
            Err(refusal) => packed_refusal(refusal),
        };
        self.same::<u8>(
            &Call { what, data: &[], table, arguments: format_args!("n={n} row={row} bound={bound}") },
            (answer, expected),
            (&[], &[]),
        );
        answer
    }

    /// Resolves a row, with a list of so many numbers lent for the answer.
    pub fn resolve(&mut self, table: &[u32], n: usize, row: usize, numbers: usize) -> u64 {
        let mut ours = Lent::numbers(numbers);
        let mut theirs = ours.clone();
        let answer = native::resolve(table, n, row, ours.part());
        let expected = fixed(theirs.part(), |out: &mut [u32; 3]| match walk::resolve(table, n, row) {
            _ if n > LIMIT as usize => {
                *out = [0; 3];
                packed_refusal(TOO_MANY)
            }
            Ok(resolved) => {
                *out = [resolved.row as u32, resolved.bound as u32, resolved.moves as u32];
                packed(0, 0)
            }
            Err(refusal) => {
                *out = [0; 3];
                packed_refusal(refusal)
            }
        });
        self.same(
            &Call { what: "resolve", data: &[], table, arguments: format_args!("n={n} row={row} numbers={numbers}") },
            (answer, expected),
            (&ours.all, &theirs.all),
        );
        answer
    }

    /// A row's payload, with a list of so many numbers lent for the answer.
    pub fn payload(&mut self, table: &[u32], row: usize, data: &[u8], numbers: usize) -> u64 {
        let mut ours = Lent::numbers(numbers);
        let mut theirs = ours.clone();
        let answer = native::payload(table, row, data, ours.part());
        let expected = fixed(theirs.part(), |out: &mut [u32; 2]| {
            let part = walk::payload(table, row, data);
            *out = [(part.as_ptr() as usize - data.as_ptr() as usize) as u32, part.len() as u32];
            packed(0, 0)
        });
        self.same(
            &Call { what: "payload", data, table, arguments: format_args!("row={row} numbers={numbers}") },
            (answer, expected),
            (&ours.all, &theirs.all),
        );
        answer
    }

    /// Reads a variable integer, with a list of so many numbers lent for its words.
    pub fn read_integer(&mut self, signed: bool, data: &[u8], numbers: usize) -> u64 {
        let mut ours = Lent::numbers(numbers);
        let mut theirs = ours.clone();
        let (what, answer, read) = match signed {
            false => ("read_unsigned", native::read_unsigned(data, ours.part()), varint::read_unsigned(data)),
            true => ("read_signed", native::read_signed(data, ours.part()), varint::read_signed(data)),
        };
        let expected = fixed(theirs.part(), |out: &mut Words| {
            *out = read.map_or([0; 4], |(words, _)| words);
            packed_count(read.map(|(_, used)| used))
        });
        self.same(
            &Call { what, data, table: &[], arguments: format_args!("numbers={numbers}") },
            (answer, expected),
            (&ours.all, &theirs.all),
        );
        answer
    }

    /// Writes a variable integer into so much room.
    pub fn write_integer(&mut self, signed: bool, words: Words, room: usize) -> u64 {
        let mut ours = Lent::bytes(room);
        let mut theirs = ours.clone();
        let (what, answer, written) = match signed {
            false => {
                let written = varint::write_unsigned(theirs.part(), words);
                ("write_unsigned", native::write_unsigned(ours.part(), words), written)
            }
            true => {
                let written = varint::write_signed(theirs.part(), words);
                ("write_signed", native::write_signed(ours.part(), words), written)
            }
        };
        let expected = match written {
            Ok(used) => packed(0, used as u64),
            Err(needed) => packed(Fault::NoRoom as u32, needed as u64),
        };
        self.same(
            &Call { what, data: &[], table: &[], arguments: format_args!("words={words:x?} room={room}") },
            (answer, expected),
            (&ours.all, &theirs.all),
        );
        answer
    }

    #[inline]
    fn same<T: PartialEq + std::fmt::LowerHex>(&mut self, call: &Call, answers: (u64, u64), lent: (&[T], &[T])) {
        if answers.0 != answers.1 || lent.0 != lent.1 {
            report::differ(call, &self.origin, [("library", answers.0), ("reference", answers.1)], lent);
        }
        self.tally.count(call.what, number(answers.0));
    }
}

fn packed_count(answer: Result<usize, Refusal>) -> u64 {
    answer.map_or_else(packed_refusal, |count| packed(0, count as u64))
}

fn packed_refusal(refusal: Refusal) -> u64 {
    packed(refusal.number(), refusal.beside)
}

/// A list shorter than its fixed length is refused with 13 and that length, and stays as it is.
fn fixed<const N: usize>(out: &mut [u32], answer: impl FnOnce(&mut [u32; N]) -> u64) -> u64 {
    match out.first_chunk_mut() {
        Some(out) => answer(out),
        None => packed(Fault::NoRoom as u32, N as u64),
    }
}
