//! H of a key, the tables that give it, and a key's bucket numbers.

use std::fmt;

use crate::{accepted, doors, Refusal, Settings, IPV4_WIDTH, IPV6_WIDTH};

/// What gives H of keys of one width by reads: the numbers that flow_hash_table fills, by byte, with one read for each byte of a key, or at width 37 by
/// half-byte, with two for each byte in an eighth of the memory. A call that is lent one for keys of another width refuses it as
/// [`Refusal::AreaLength`]. A [`Table`](crate::Table) has one of its own.
///
/// ```
/// use flow::{hash, KeyHasher, Refusal, IPV6_WIDTH};
///
/// let key = [7; 37];
/// let h = hash(IPV6_WIDTH, &key)?;
/// assert_eq!(KeyHasher::ipv6_by_byte().hash(&key), Ok(h));
/// assert_eq!(KeyHasher::ipv6_by_half_byte().hash(&key), Ok(h));
/// assert_eq!(KeyHasher::ipv4().hash(&key), Err(Refusal::KeyLength));
/// # Ok::<(), Refusal>(())
/// ```
#[derive(Clone)]
pub struct KeyHasher {
    width: u64,
    entries: Vec<u64>,
}

impl KeyHasher {
    /// For keys of 13 bytes: by byte, 26,624 bytes.
    pub fn ipv4() -> KeyHasher {
        KeyHasher::filled(IPV4_WIDTH, 256 * IPV4_WIDTH as usize)
    }

    /// For keys of 37 bytes: by byte, 75,776 bytes.
    pub fn ipv6_by_byte() -> KeyHasher {
        KeyHasher::filled(IPV6_WIDTH, 256 * IPV6_WIDTH as usize)
    }

    /// For keys of 37 bytes: by half-byte, 9,472 bytes.
    pub fn ipv6_by_half_byte() -> KeyHasher {
        KeyHasher::filled(IPV6_WIDTH, 16 * 2 * IPV6_WIDTH as usize)
    }

    /// For the keys of a table with these settings: by byte, of either width.
    pub fn of(settings: &Settings) -> KeyHasher {
        match settings.width {
            IPV4_WIDTH => KeyHasher::ipv4(),
            _ => KeyHasher::ipv6_by_byte(),
        }
    }

    fn filled(width: u64, length: usize) -> KeyHasher {
        let mut entries = vec![0; length];
        accepted(doors::hash_table(width, &mut entries))
            .expect("a table of a width and of a length for it is filled");
        KeyHasher { width, entries }
    }

    /// H of a key. [`Refusal::KeyLength`] where the key is not of its width.
    pub fn hash(&self, key: &[u8]) -> Result<u64, Refusal> {
        let mut h = [0];
        accepted(doors::hash_lent(self.width, &self.entries, key, &mut h))?;
        Ok(h[0])
    }

    /// The width of the keys that it is for.
    pub fn width(&self) -> u64 {
        self.width
    }

    /// The entries. By byte, 256 * a + v is that of value v at key byte a. By half-byte, 16 * i + v is that of value v at half-byte i, of which
    /// 2 * a is the low four bits of key byte a.
    pub fn entries(&self) -> &[u64] {
        &self.entries
    }
}

impl fmt::Debug for KeyHasher {
    fn fmt(&self, f: &mut fmt::Formatter<'_>) -> fmt::Result {
        let (width, numbers) = (self.width, self.entries.len());
        write!(f, "KeyHasher {{ width: {width}, numbers: {numbers} }}")
    }
}

/// H of a key, with no table. [`Refusal::Setting`] where the width is not 13 or 37, [`Refusal::KeyLength`] where the key is not of the width.
pub fn hash(width: u64, key: &[u8]) -> Result<u64, Refusal> {
    let mut h = [0];
    accepted(doors::hash(width, key, &mut h))?;
    Ok(h[0])
}

/// A key's hashes and bucket numbers under some settings.
#[derive(Clone, Copy, Debug, PartialEq, Eq)]
pub struct KeyBuckets {
    hashes: [u16; 4],
    numbers: [u16; 5],
}

impl KeyBuckets {
    /// Hash 0 to hash 3.
    pub fn hashes(&self) -> &[u16; 4] {
        &self.hashes
    }

    /// The bucket numbers: the first k hashes, repeats dropped.
    pub fn numbers(&self) -> &[u16] {
        &self.numbers[1..][..usize::from(self.numbers[0])]
    }
}

/// A key's hashes and bucket numbers. [`Refusal::KeyLength`] where the key is not of the settings' width.
pub fn key_buckets(settings: &Settings, key: &[u8]) -> Result<KeyBuckets, Refusal> {
    let mut hashes = [0; 4];
    let mut numbers = [0; 5];
    accepted(doors::key_buckets(
        settings.numbers(),
        key,
        &mut hashes,
        &mut numbers,
    ))?;
    Ok(KeyBuckets { hashes, numbers })
}
