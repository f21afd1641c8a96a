//! What a call is lent, and what it has to leave there.

/// What stands in the lent slices before a call.
pub const ENTRY: u16 = 65535;
pub const BYTE: u8 = 255;

/// How much longer than it must be each lent slice is.
pub const MORE: usize = 2;

/// The two tables of a call.
pub struct Tables {
    pub lent: [Vec<u16>; 2],
    /// The entries that each of them must have.
    entries: usize,
}

impl Tables {
    /// The tables for m letters in the normal forms of all factors, and t in the target's.
    pub fn new(m: usize, t: usize) -> Tables {
        let side = m + 2 * t + 1;
        let entries = side * side;
        Tables {
            lent: [(); 2].map(|()| vec![ENTRY; entries + MORE]),
            entries,
        }
    }

    /// The entries that a call asks for are 0, and the others are as they were.
    pub fn are_zeroed(&self) -> bool {
        self.lent.iter().all(|table| {
            let (zeros, rest) = table.split_at(self.entries);
            zeros.iter().all(|&entry| entry == 0) && rest.iter().all(|&entry| entry == ENTRY)
        })
    }
}

/// Bytes that are lent, of which a call must write none, or the front.
pub fn bytes(needed: usize) -> Vec<u8> {
    vec![BYTE; needed + MORE]
}

/// The front is what was to be written, and the rest is as it was.
pub fn begins_with(lent: &[u8], written: &[u8]) -> bool {
    let (front, rest) = lent.split_at(written.len());
    front == written && rest.iter().all(|&byte| byte == BYTE)
}
