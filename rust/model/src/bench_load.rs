//! Document 02, 'A load for the bench': the generator, the calls made of its numbers, and the program's whole output.

use crate::flowrun::CALL_BYTES;
use crate::hash::xorshift64;
use crate::records::Record;
use crate::settings::IPV4_WIDTH;

/// s, w, F and the count of calls, in eight bytes each.
pub const INPUT_BYTES: usize = 4 * 8;

/// "A generator holds a 64-bit s [..] and a 64-bit w".
#[derive(Clone, Copy, Debug, PartialEq, Eq)]
pub struct Generator {
    pub s: u64,
    pub w: u64,
}

impl Generator {
    /// "it steps both, then gives s + w modulo 2^64": s by xorshift64, w by 362437 modulo 2^64.
    pub fn number(&mut self) -> u64 {
        self.s = xorshift64(self.s);
        self.w = self.w.wrapping_add(362437);
        self.s.wrapping_add(self.w)
    }
}

/// Two numbers as a call of flowrun. "the first mod 4, from 0, picks add, change, remove or search", the letters I, C, D and S; the key is
/// the second mod F in eight bytes, high byte first, then five zero bytes; the class is the low 32 bits of the first, whatever the kind.
pub fn call_of(first: u64, second: u64, f: u64) -> [u8; CALL_BYTES] {
    let mut key = vec![0; IPV4_WIDTH as usize];
    for (i, byte) in key[..8].iter_mut().enumerate() {
        *byte = (second % f / 256u64.pow(7 - i as u32) % 256) as u8;
    }
    let class = (first % 2u64.pow(32)) as u32;
    let mut call = [0; CALL_BYTES];
    call[0] = [b'I', b'C', b'D', b'S'][(first % 4) as usize];
    call[1..].copy_from_slice(&Record { key, class }.bytes());
    call
}

/// What the program is asked for.
#[derive(Clone, Copy, Debug, PartialEq, Eq)]
pub struct Load {
    pub generator: Generator,
    /// The flow count F.
    pub f: u64,
    /// Any 64-bit number.
    pub count: u64,
}

impl Load {
    /// "s, w, F and a count of calls [..], eight bytes each, high byte first"; or 15, "s zero, F outside its range or an input not of 32
    /// bytes".
    pub fn of(input: &[u8]) -> Result<Load, u32> {
        if input.len() != INPUT_BYTES {
            return Err(15);
        }
        let number = |i: usize| {
            let bytes = &input[8 * i..8 * i + 8];
            bytes.iter().fold(0, |n, &byte| 256 * n + u64::from(byte))
        };
        let [s, w, f, count] = [0, 1, 2, 3].map(number);
        if s == 0 || !(1..=4096).contains(&f) {
            return Err(15);
        }
        let generator = Generator { s, w };
        Ok(Load {
            generator,
            f,
            count,
        })
    }

    /// The calls one by one, each of two numbers in the order in which the generator gives them.
    pub fn calls(self) -> impl Iterator<Item = [u8; CALL_BYTES]> {
        let mut generator = self.generator;
        (0..self.count).map(move |_| {
            let first = generator.number();
            let second = generator.number();
            call_of(first, second, self.f)
        })
    }
}

/// All that the program writes; with 15, nothing.
pub fn output(input: &[u8]) -> Result<Vec<u8>, u32> {
    Ok(Load::of(input)?.calls().flatten().collect())
}
