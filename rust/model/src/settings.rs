//! 'Settings and areas', with the key width that document 02, U7, adds.

use crate::records::CLASS_BYTES;

/// The width of a key of document 01: two 4-byte addresses, two ports and the protocol.
pub const IPV4_WIDTH: u64 = 13;

/// "A 37-byte key holds two 16-byte addresses, two ports and the next header" (document 02, U7).
pub const IPV6_WIDTH: u64 = 37;

/// "The key width is a seventh setting, 13 or 37".
pub const WIDTHS: [u64; 2] = [IPV4_WIDTH, IPV6_WIDTH];

/// p, k, B, T, N, S and the width.
pub const SETTINGS_COUNT: usize = 7;

/// Seven settings, in or out of range, by the papers' letters.
#[derive(Clone, Copy, Debug, PartialEq, Eq)]
pub struct Settings {
    pub p: u64,
    pub k: u64,
    pub b: u64,
    pub t: u64,
    pub n: u64,
    pub s: u64,
    pub width: u64,
}

/// The least and the most of each setting but the width, in the paper's order.
pub const LIMITS: [(u64, u64); 6] = [(4, 12), (1, 4), (1, 4), (2, 15), (1, 4096), (0, 64)];

impl Settings {
    pub fn of(numbers: [u64; SETTINGS_COUNT]) -> Settings {
        let [p, k, b, t, n, s, width] = numbers;
        Settings {
            p,
            k,
            b,
            t,
            n,
            s,
            width,
        }
    }

    pub fn numbers(&self) -> [u64; SETTINGS_COUNT] {
        [self.p, self.k, self.b, self.t, self.n, self.s, self.width]
    }

    /// Each setting is in its range, and the width is one of the two.
    pub fn allowed(&self) -> bool {
        (4..=12).contains(&self.p)
            && (1..=4).contains(&self.k)
            && (1..=4).contains(&self.b)
            && (2..=15).contains(&self.t)
            && (1..=4096).contains(&self.n)
            && self.s <= 64
            && WIDTHS.contains(&self.width)
    }

    /// m, the number of buckets.
    pub fn m(&self) -> u64 {
        2u64.pow(self.p as u32)
    }

    /// The bytes of a key.
    pub fn key_bytes(&self) -> usize {
        self.width as usize
    }

    /// "a record is four bytes longer".
    pub fn record_bytes(&self) -> usize {
        self.key_bytes() + CLASS_BYTES
    }

    /// The lengths of ledger, true counts, clipped counts, buckets, side store and work.
    pub fn area_lengths(&self) -> [u64; 6] {
        let (m, record) = (self.m(), self.record_bytes() as u64);
        [
            2 + record * self.n,
            m,
            m / 2,
            m * (1 + record * self.b),
            2 + record * self.s,
            2 * m,
        ]
    }
}
