//! Measures a document, fills a table of just its rows, checks it, walks it and prints an indented listing, then writes
//! it back.

use std::{env, fs, process};

/// The proved library, as include/panxidell.h has it.
mod c {
    extern "C" {
        pub fn panxidell_measure(data: *const u8, len: usize) -> u64;
        pub fn panxidell_fill(data: *const u8, len: usize, table: *mut u32, words: usize) -> u64;
        pub fn panxidell_check(table: *const u32, words: usize, n: usize, data: *const u8, len: usize) -> u64;
        pub fn panxidell_write(
            table: *const u32,
            words: usize,
            n: usize,
            data: *const u8,
            len: usize,
            out: *mut u8,
            room: usize,
        ) -> u64;
        pub fn panxidell_in(table: *const u32, words: usize, n: usize, row: usize, bound: usize) -> u64;
        pub fn panxidell_on(table: *const u32, words: usize, n: usize, row: usize, bound: usize) -> u64;
        pub fn panxidell_along(table: *const u32, words: usize, n: usize, row: usize, bound: usize) -> u64;
        pub fn panxidell_resolve(
            table: *const u32,
            words: usize,
            n: usize,
            row: usize,
            out: *mut u32,
            three: usize,
        ) -> u64;
        pub fn panxidell_payload(
            table: *const u32,
            words: usize,
            row: usize,
            data: *const u8,
            len: usize,
            out: *mut u32,
            two: usize,
        ) -> u64;
    }
}

/// The number beside 0, or the refusal's number and the number beside it.
type Answer = Result<usize, (u32, usize)>;

const NO_STEP: u32 = 14;

fn answer(packed: u64) -> Answer {
    let (number, beside) = ((packed >> 56) as u32, (packed & ((1 << 56) - 1)) as usize);
    if number == 0 {
        Ok(beside)
    } else {
        Err((number, beside))
    }
}

/// A row, and the end of the holder around it.
#[derive(Clone, Copy)]
struct Standing {
    row: usize,
    bound: usize,
}

/// A step: the new standing, or none that way.
fn step(packed: u64) -> Option<Standing> {
    match answer(packed) {
        Ok(beside) => Some(Standing { row: beside >> 32, bound: beside & 0xffff_ffff }),
        Err((NO_STEP, _)) => None,
        Err(refused) => fail("step", refused),
    }
}

fn fail(what: &str, (number, beside): (u32, usize)) -> ! {
    eprintln!("{what}: refused {number} {beside}");
    process::exit(1)
}

// Every call lends whole slices, and the library is proved to stay inside them.

fn measure(data: &[u8]) -> Answer {
    answer(unsafe { c::panxidell_measure(data.as_ptr(), data.len()) })
}

fn fill(data: &[u8], table: &mut [u32]) -> Answer {
    answer(unsafe { c::panxidell_fill(data.as_ptr(), data.len(), table.as_mut_ptr(), table.len()) })
}

struct Document<'a> {
    data: &'a [u8],
    table: &'a [u32],
    rows: usize,
}

impl<'a> Document<'a> {
    fn check(&self) -> Answer {
        let (table, data) = (self.table, self.data);
        answer(unsafe { c::panxidell_check(table.as_ptr(), table.len(), self.rows, data.as_ptr(), data.len()) })
    }

    fn write(&self, out: &mut [u8]) -> Answer {
        let (table, data) = (self.table, self.data);
        answer(unsafe {
            let (room, out) = (out.len(), out.as_mut_ptr());
            c::panxidell_write(table.as_ptr(), table.len(), self.rows, data.as_ptr(), data.len(), out, room)
        })
    }

    fn step_in(&self, at: Standing) -> Option<Standing> {
        step(unsafe { c::panxidell_in(self.table.as_ptr(), self.table.len(), self.rows, at.row, at.bound) })
    }

    fn on(&self, at: Standing) -> Option<Standing> {
        step(unsafe { c::panxidell_on(self.table.as_ptr(), self.table.len(), self.rows, at.row, at.bound) })
    }

    fn along(&self, at: Standing) -> Option<Standing> {
        step(unsafe { c::panxidell_along(self.table.as_ptr(), self.table.len(), self.rows, at.row, at.bound) })
    }

    /// The row behind references and declarations.
    fn resolve(&self, row: usize) -> usize {
        let mut out = [0; 3];
        let packed = unsafe {
            c::panxidell_resolve(self.table.as_ptr(), self.table.len(), self.rows, row, out.as_mut_ptr(), out.len())
        };
        answer(packed).unwrap_or_else(|refused| fail("resolve", refused));
        out[0] as usize
    }

    fn payload(&self, row: usize) -> &'a [u8] {
        let (table, data) = (self.table, self.data);
        let mut out = [0; 2];
        unsafe {
            c::panxidell_payload(
                table.as_ptr(),
                table.len(),
                row,
                data.as_ptr(),
                data.len(),
                out.as_mut_ptr(),
                out.len(),
            );
        }
        let [place, size] = out.map(|number| number as usize);
        &data[place..place + size]
    }

    /// One row, its children aside.
    fn line(&self, row: usize) -> String {
        let words = &self.table[6 * row..6 * row + 6];
        let wide = words[2..].iter().rev().fold(0u128, |number, &word| number << 32 | word as u128);
        match words[0] {
            1 => "false".to_string(),
            2 => "true".to_string(),
            3 => "none".to_string(),
            4 | 5 => format!("integer {}", wide as i128),
            6 => format!("integer {wide}"),
            7 => format!("float {}", digits(self.payload(row))),
            8 => format!("text {:?}", String::from_utf8_lossy(self.payload(row))),
            9 => "array".to_string(),
            10 => "record".to_string(),
            11 => "map".to_string(),
            12 => format!("binary {}", digits(self.payload(row))),
            13 => format!("char U+{:04X}", words[2]),
            14 => {
                let entry = self.along(Standing { row, bound: row + 1 }).expect("a reference leads to its entry");
                format!("reference {}, row {}, which is {}", words[2], entry.row, self.line(self.resolve(row)))
            }
            15 => format!("declaration of {}", words[2]),
            16 if words[4] > 0 => {
                format!("foreign, damaged: {} bytes at {}, verdict {}", words[3], words[2], words[4])
            }
            16 => "foreign".to_string(),
            _ => format!("key {:?}", String::from_utf8_lossy(self.payload(row))),
        }
    }

    /// A row and what stands behind it in the same holder. Depth goes no further than the paper's 32.
    fn walk(&self, from: Standing, depth: usize) {
        let mut at = Some(from);
        while let Some(here) = at {
            println!("{:1$}{2}", "", 2 * depth, self.line(here.row));
            if let Some(child) = self.step_in(here) {
                self.walk(child, depth + 1);
            }
            at = self.on(here);
        }
    }
}

fn digits(bytes: &[u8]) -> String {
    bytes.iter().map(|byte| format!("{byte:02x}")).collect()
}

fn main() {
    let path = env::args().nth(1).unwrap_or("examples/twin-panel".to_string());
    let data = fs::read(&path).unwrap_or_else(|error| {
        eprintln!("{path}: {error}");
        process::exit(1)
    });

    // the rows that were measured are lent, and no more: that is never too small
    let rows = measure(&data).unwrap_or_else(|refused| fail("measure", refused));
    let mut table = vec![0; 6 * rows];
    fill(&data, &mut table).unwrap_or_else(|refused| fail("fill", refused));
    let document = Document { data: &data, table: &table, rows };
    document.check().unwrap_or_else(|refused| fail("check", refused));
    println!("{} bytes, {rows} rows", data.len());

    document.walk(Standing { row: 0, bound: rows }, 0);

    // shortest forms: never longer than what was read
    let mut out = vec![0; data.len()];
    let written = document.write(&mut out).unwrap_or_else(|refused| fail("write", refused));
    if out[..written] == data[..] {
        println!("written back: the same bytes");
    } else {
        println!("written back: {written} bytes, since the document was not in its shortest forms");
    }
}
