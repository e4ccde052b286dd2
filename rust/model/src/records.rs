//! 'Settings and areas': keys, records, and areas of a two-byte count and records. A key may have any width; a record has its key's.

/// The bytes, as many as the width.
pub type Key = Vec<u8>;

/// High byte first.
pub const CLASS_BYTES: usize = 4;

#[derive(Clone, Debug, PartialEq, Eq)]
pub struct Record {
    pub key: Key,
    pub class: u32,
}

impl Record {
    /// The key, then the class, high byte first.
    pub fn bytes(&self) -> Vec<u8> {
        let mut bytes = self.key.clone();
        for i in 0..CLASS_BYTES {
            bytes.push((self.class / 256u32.pow(3 - i as u32) % 256) as u8);
        }
        bytes
    }

    pub fn of_bytes(bytes: &[u8]) -> Record {
        let (key, class_bytes) = bytes.split_at(bytes.len() - CLASS_BYTES);
        let mut class = 0;
        for byte in class_bytes {
            class = 256 * class + u32::from(*byte);
        }
        Record {
            key: key.to_vec(),
            class,
        }
    }
}

/// The order of keys of one width: byte by byte from the first, unsigned.
pub fn below(a: &[u8], b: &[u8]) -> bool {
    assert_eq!(a.len(), b.len());
    for i in 0..a.len() {
        if a[i] != b[i] {
            return a[i] < b[i];
        }
    }
    false
}

/// Strictly rising key order.
pub fn rising(list: &[Record]) -> bool {
    (1..list.len()).all(|i| below(&list[i - 1].key, &list[i].key))
}

/// The two-byte count that an area starts with, high byte first.
pub fn count(area: &[u8]) -> u64 {
    256 * u64::from(area[0]) + u64::from(area[1])
}

/// The first n records of so many bytes in what stands in these places.
pub fn first_records(places: &[u8], record_bytes: usize, n: u64) -> Vec<Record> {
    places
        .chunks_exact(record_bytes)
        .take(n as usize)
        .map(Record::of_bytes)
        .collect()
}

/// Count, records, zeros: an area with so many places for records of so many bytes.
pub fn counted_area(list: &[Record], record_bytes: usize, places: u64) -> Vec<u8> {
    let mut area = vec![(list.len() / 256) as u8, (list.len() % 256) as u8];
    for record in list {
        area.extend(record.bytes());
    }
    area.resize(2 + record_bytes * places as usize, 0);
    area
}
