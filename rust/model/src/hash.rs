//! 'Hash', for keys of any width, and the tables of document 02, U7.

use crate::settings::{Settings, IPV6_WIDTH, WIDTHS};
use std::cell::RefCell;

/// One step of xorshift64.
pub fn xorshift64(mut s: u64) -> u64 {
    s ^= s << 13;
    s ^= s >> 7;
    s ^= s << 17;
    s
}

/// The rows of a key of so many bytes, 8 for each: row i is s after i + 1 steps. Those of a wider key go on.
pub fn rows(width: usize) -> Vec<u64> {
    let mut s = 88172645463325252;
    let mut rows = Vec::new();
    for _ in 0..8 * width {
        s = xorshift64(s);
        rows.push(s);
    }
    rows
}

/// H: the xor of the rows of the set bits, bit by bit.
pub fn h(rows: &[u64], key: &[u8]) -> u64 {
    let mut h = 0;
    for (a, byte) in key.iter().enumerate() {
        for b in 0..8 {
            if byte >> b & 1 == 1 {
                h ^= rows[8 * a + b];
            }
        }
    }
    h
}

/// The entry of the table by byte for value v at byte a: H of the key that has v there and zeros elsewhere.
pub fn byte_entry(rows: &[u64], a: usize, v: u8) -> u64 {
    let mut key = vec![0; a + 1];
    key[a] = v;
    h(rows, &key)
}

/// The entry of the table by half-byte for value v at half-byte i, of which 2a is the low four bits of byte a and 2a + 1 the high ones: H of
/// the key that has v there and zeros elsewhere.
pub fn half_byte_entry(rows: &[u64], i: usize, v: u8) -> u64 {
    let mut key = vec![0; i / 2 + 1];
    key[i / 2] = if i % 2 == 0 { v } else { 16 * v };
    h(rows, &key)
}

/// How a table is read.
#[derive(Clone, Copy, Debug, PartialEq, Eq)]
pub enum By {
    /// One entry for each byte of a key: 256 a + v for value v of byte a.
    Byte,
    /// Two for each byte: 16 i + v for value v of half-byte i.
    HalfByte,
}

/// The tables for a width: "13 byte positions and 256 byte values", "a table by half-byte, 74 × 16 entries", and, as was asked for beside the
/// papers, one of 37 × 256.
pub fn tables(width: u64) -> &'static [By] {
    match width {
        IPV6_WIDTH => &[By::HalfByte, By::Byte],
        _ => &[By::Byte],
    }
}

/// The entries of a table for keys of this width.
pub fn entries(width: u64, by: By) -> usize {
    match by {
        By::Byte => width as usize * 256,
        By::HalfByte => 2 * width as usize * 16,
    }
}

/// How a table of so many entries is read for keys of this width; None where it has not the length of one.
pub fn read_by(width: u64, length: usize) -> Option<By> {
    let mut allowed = tables(width).iter().copied();
    allowed.find(|&by| entries(width, by) == length)
}

/// A whole table, by the rows.
pub fn table(width: u64, by: By) -> Vec<u64> {
    let rows = rows(width as usize);
    let whole = 0..entries(width, by);
    match by {
        By::Byte => whole
            .map(|at| byte_entry(&rows, at / 256, (at % 256) as u8))
            .collect(),
        By::HalfByte => whole
            .map(|at| half_byte_entry(&rows, at / 16, (at % 16) as u8))
            .collect(),
    }
}

/// What a table gives for a key, whatever it holds: the xor of the entries that are read.
pub fn h_by(table: &[u64], key: &[u8]) -> u64 {
    match read_by(key.len() as u64, table.len()).expect("a table for this width") {
        By::Byte => (0..key.len()).fold(0, |h, a| h ^ table[256 * a + usize::from(key[a])]),
        By::HalfByte => (0..key.len()).fold(0, |h, a| {
            let (low, high) = (usize::from(key[a] % 16), usize::from(key[a] / 16));
            h ^ table[16 * (2 * a) + low] ^ table[16 * (2 * a + 1) + high]
        }),
    }
}

/// H with one read a byte, for a key of any width: the entries for a byte are made when a key first has that byte.
pub fn h_by_table(key: &[u8]) -> u64 {
    thread_local! {
        static TABLE: RefCell<Vec<[u64; 256]>> = const { RefCell::new(Vec::new()) };
    }
    TABLE.with(|table| {
        let mut table = table.borrow_mut();
        if table.len() < key.len() {
            let rows = rows(key.len());
            for a in table.len()..key.len() {
                let mut of_byte = [0; 256];
                for (v, entry) in of_byte.iter_mut().enumerate() {
                    *entry = byte_entry(&rows, a, v as u8);
                }
                table.push(of_byte);
            }
        }
        key.iter()
            .zip(table.iter())
            .fold(0, |h, (&v, of_byte)| h ^ of_byte[usize::from(v)])
    })
}

/// What a door that fills a table answers for one of so many numbers: 1, 2 or 0.
pub fn table_verdict(width: u64, length: usize) -> u32 {
    if !WIDTHS.contains(&width) {
        1
    } else if read_by(width, length).is_none() {
        2
    } else {
        0
    }
}

/// What a door that hashes a key answers, lent so many numbers for H and perhaps a table of so many: 1, 2, 3 or 0.
pub fn hash_verdict(width: u64, table: Option<usize>, key: &[u8], for_h: usize) -> u32 {
    let of_table = table.map_or(0, |length| table_verdict(width, length));
    if !WIDTHS.contains(&width) {
        1
    } else if of_table != 0 || for_h != 1 {
        2
    } else if key.len() as u64 != width {
        3
    } else {
        0
    }
}

/// Hash j of a key whose H is h.
pub fn hash_j(settings: &Settings, h: u64, j: u32) -> u64 {
    (h / 2u64.pow(16 * j)) % settings.m()
}

/// The bucket numbers of a key whose H is h: its first k hashes, repeats dropped.
pub fn bucket_numbers(settings: &Settings, h: u64) -> Vec<u64> {
    let mut numbers = Vec::new();
    for j in 0..settings.k as u32 {
        let number = hash_j(settings, h, j);
        if !numbers.contains(&number) {
            numbers.push(number);
        }
    }
    numbers
}
