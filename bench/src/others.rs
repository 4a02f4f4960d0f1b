//! msgpack-c and libcbor behind others.c, and the same content in their bytes.

use reference::generate::Node;
use std::ffi::{c_char, c_void, CStr};

extern "C" {
    fn others_msgpack_read(data: *const u8, length: usize) -> i32;
    fn others_msgpack_prepare(data: *const u8, length: usize) -> *mut c_void;
    fn others_msgpack_free(packing: *mut c_void);
    fn others_msgpack_write(packing: *mut c_void) -> usize;
    fn others_cbor_read(data: *const u8, length: usize) -> i32;
    fn others_cbor_prepare(data: *const u8, length: usize) -> *mut c_void;
    fn others_cbor_free(item: *mut c_void);
    fn others_cbor_write(item: *mut c_void) -> usize;
    fn others_msgpack_version() -> *const c_char;
    fn others_cbor_version() -> *const c_char;
    fn others_seconds() -> f64;
}

pub fn versions() -> [String; 2] {
    unsafe { [others_msgpack_version(), others_cbor_version()] }
        .map(|version| unsafe { CStr::from_ptr(version) }.to_string_lossy().into_owned())
}

/// The seconds that this thread has had a processor for.
pub fn seconds() -> f64 {
    unsafe { others_seconds() }
}

/// One of the two formats.
#[derive(Clone, Copy, PartialEq)]
pub enum Format {
    Msgpack,
    Cbor,
}

/// A document of one of them, and what its writer writes from.
pub struct Other {
    format: Format,
    pub data: Vec<u8>,
    prepared: *mut c_void,
}

impl Other {
    pub fn new(format: Format, content: &Node) -> Self {
        let mut data = Vec::new();
        encode(format, content, &[], &mut data);
        let prepared = match format {
            Format::Msgpack => unsafe { others_msgpack_prepare(data.as_ptr(), data.len()) },
            Format::Cbor => unsafe { others_cbor_prepare(data.as_ptr(), data.len()) },
        };
        let other = Other { format, data, prepared };
        assert!(other.read() && other.write() == other.data.len());
        other
    }

    pub fn read(&self) -> bool {
        let (data, length) = (self.data.as_ptr(), self.data.len());
        match self.format {
            Format::Msgpack => unsafe { others_msgpack_read(data, length) == 1 },
            Format::Cbor => unsafe { others_cbor_read(data, length) == 1 },
        }
    }

    pub fn write(&self) -> usize {
        match self.format {
            Format::Msgpack => unsafe { others_msgpack_write(self.prepared) },
            Format::Cbor => unsafe { others_cbor_write(self.prepared) },
        }
    }
}

impl Drop for Other {
    fn drop(&mut self) {
        match self.format {
            Format::Msgpack => unsafe { others_msgpack_free(self.prepared) },
            Format::Cbor => unsafe { others_cbor_free(self.prepared) },
        }
    }
}

/// The content in the format's shortest bytes. Neither has references: the entry stands in each place.
fn encode(format: Format, node: &Node, entries: &[Node], out: &mut Vec<u8>) {
    match node {
        Node::None => out.push(if format == Format::Msgpack { 0xc0 } else { 0xf6 }),
        Node::False => out.push(if format == Format::Msgpack { 0xc2 } else { 0xf4 }),
        Node::True => out.push(if format == Format::Msgpack { 0xc3 } else { 0xf5 }),
        Node::Signed(value) => integer(format, *value, out),
        Node::Unsigned(value) => integer(format, *value as i128, out),
        Node::Text(text) => {
            sized(format, [0xa0, 0xd9], 0x60, text.len(), out);
            out.extend(text.as_bytes());
        }
        Node::Binary(body) => {
            sized(format, [0, 0xc4], 0x40, body.len(), out);
            out.extend(body);
        }
        Node::Array(elements) => {
            sized(format, [0x90, 0xdc], 0x80, elements.len(), out);
            elements.iter().for_each(|element| encode(format, element, entries, out));
        }
        Node::Record(fields) => {
            sized(format, [0x80, 0xde], 0xa0, fields.len(), out);
            for (key, value) in fields {
                encode(format, &Node::Text(key.clone()), entries, out);
                encode(format, value, entries, out);
            }
        }
        Node::Declaration(entries, value) => encode(format, value, entries, out),
        Node::Reference(number) => encode(format, &entries[*number as usize], entries, out),
        _ => unimplemented!("no content has it"),
    }
}

fn integer(format: Format, value: i128, out: &mut Vec<u8>) {
    if format == Format::Cbor {
        match value {
            0.. => head(0x00, value as u64, out),
            _ => head(0x20, (-1 - value) as u64, out),
        }
        return;
    }
    let (marker, size) = match value {
        -32..=127 => return out.push(value as u8),
        128..=0xff => (0xcc, 1),
        0x100..=0xffff => (0xcd, 2),
        0x1_0000..=0xffff_ffff => (0xce, 4),
        0x1_0000_0000.. => (0xcf, 8),
        -0x80..=-33 => (0xd0, 1),
        -0x8000..=-0x81 => (0xd1, 2),
        -0x8000_0000..=-0x8001 => (0xd2, 4),
        _ => (0xd3, 8),
    };
    out.push(marker);
    out.extend(&value.to_be_bytes()[16 - size..]);
}

/// A length or count. For msgpack: the marker with the smallest ones in it, and the first of those with a size behind.
fn sized(format: Format, [fixed, long]: [u8; 2], major: u8, size: usize, out: &mut Vec<u8>) {
    if format == Format::Cbor {
        return head(major, size as u64, out);
    }
    let most = match fixed {
        0xa0 => 32,
        0 => 0,
        _ => 16,
    };
    // arrays and maps have no form with one byte
    let first = if long < 0xdc { 1 } else { 2 };
    match size {
        _ if size < most => out.push(fixed + size as u8),
        0..=0xff if first == 1 => out.extend([long, size as u8]),
        0..=0xffff => {
            out.push(long + 2 - first);
            out.extend((size as u16).to_be_bytes());
        }
        _ => {
            out.push(long + 3 - first);
            out.extend((size as u32).to_be_bytes());
        }
    }
}

/// A head of CBOR.
fn head(major: u8, number: u64, out: &mut Vec<u8>) {
    let (more, size) = match number {
        0..=23 => return out.push(major + number as u8),
        24..=0xff => (24, 1),
        0x100..=0xffff => (25, 2),
        0x1_0000..=0xffff_ffff => (26, 4),
        _ => (27, 8),
    };
    out.push(major + more);
    out.extend(&number.to_be_bytes()[8 - size..]);
}
