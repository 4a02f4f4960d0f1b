//! Refusal numbers, and the number beside each.

/// Every refusal of the paper, under its number.
#[derive(Clone, Copy, PartialEq, Eq, Debug)]
#[repr(u32)]
pub enum Fault {
    TooLong = 1,
    Short = 2,
    Marker = 3,
    Huge = 4,
    Text = 5,
    Char = 6,
    NoEntry = 7,
    EmptyRegistry = 8,
    Deep = 9,
    Extra = 10,
    Full = 11,
    BadTable = 12,
    NoRoom = 13,
    NoStep = 14,
}

/// A fault and the number beside it: a place, rows or bytes needed, or 0.
#[derive(Clone, Copy, PartialEq, Eq, Debug)]
pub struct Refusal {
    pub fault: Fault,
    pub beside: u64,
}

impl Refusal {
    /// A refusal with nothing named beside it.
    pub fn bare(fault: Fault) -> Self {
        Refusal { fault, beside: 0 }
    }

    /// A refusal with a place beside it.
    pub fn at(fault: Fault, place: usize) -> Self {
        Refusal { fault, beside: place as u64 }
    }

    /// The paper's number.
    pub fn number(self) -> u32 {
        self.fault as u32
    }
}
