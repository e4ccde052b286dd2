//! Source document 001, section 2.1: the listing SearchItem of the Basic Fast Hash Table, its seven lines in their order, on the lookup areas of
//! document 01. A search a second time, apart from `lookup`, of which it takes the types and the refusals 1, 2, 3. What the listing does not have
//! is marked 'Added'.

use crate::card::Card;
use crate::lookup::{refused_at_once, Answer, Lookup};
use crate::records::{count, first_records, Record};

/// Counter C_i with its index i.
#[derive(Clone, Copy)]
pub struct Counter {
    pub i: u64,
    pub c: u64,
}

/// C_h1(x), .., C_hk(x): one for each hash, a repeated hash again. "bucket b in byte b / 2, an even b in the low four bits".
pub fn counters(card: &Card, areas: Lookup, x: &[u8]) -> Vec<Counter> {
    let c = |i: u64| u64::from(areas.clipped[i as usize / 2] >> (4 * (i % 2)) & 15);
    let hashes = card.hashes(x);
    hashes.into_iter().map(|i| Counter { i, c: c(i) }).collect()
}

/// "We break this tie by simply picking the minimum value counter with the smallest index": the lowest bucket number.
pub fn smallest_index_of(c_min: u64, counters: &[Counter]) -> u64 {
    let least = counters.iter().filter(|counter| counter.c == c_min);
    least.map(|counter| counter.i).min().unwrap()
}

/// False is 100. Added: the counts.
const FALSE: Answer = Answer {
    number: 100,
    class: 0,
    buckets_read: 0,
    compared: 0,
    side_compared: 0,
};

/// SearchItem(x) for the item with this key.
pub fn search_item(card: &Card, areas: Lookup, key: &[u8]) -> Answer {
    // Added: the refusals 1, 2 and 3.
    if let Some(number) = refused_at_once(card, areas, key) {
        return Answer::refused(number);
    }
    let x = key;
    let counters = counters(card, areas, x);
    // Added: a counter above T is 5, judged before the test for zero.
    if counters.iter().any(|counter| counter.c > card.settings.t) {
        return Answer::refused(5);
    }
    // 1. C_min = min{C_h1(x), .., C_hk(x)}
    let c_min = counters.iter().map(|counter| counter.c).min().unwrap();
    // 2. if (C_min == 0)
    if c_min == 0 {
        // 3. return false
        return FALSE;
    }
    // 4. else
    // 5. i = SmallestIndexOf(C_min)
    let i = smallest_index_of(c_min, &counters);
    // Added: a least of T goes to the side store (document 02, U6), and no bucket is read.
    if c_min == card.settings.t {
        return is_in_side_store(x, card, areas, 0);
    }
    let bucket = &areas.buckets[i as usize * card.bucket_bytes()..];
    let mark = u64::from(bucket[0]);
    // Added: a mark 255 goes to the side store (document 02, U6), and one bucket is read.
    if mark == 255 {
        return is_in_side_store(x, card, areas, 1);
    }
    // Added: another mark above B is 5.
    if mark > card.settings.b {
        return Answer::refused(5);
    }
    // 6. if (x ∈ X^i) return true
    // 7. else return false
    let record_bytes = card.settings.record_bytes();
    is_in(x, &first_records(&bucket[1..], record_bytes, mark), 1, 0)
}

/// Added: membership of the side store; a side count above S is 5.
fn is_in_side_store(x: &[u8], card: &Card, areas: Lookup, buckets_read: u64) -> Answer {
    let side_count = count(areas.side);
    if side_count > card.settings.s {
        return Answer::refused(5);
    }
    let records = first_records(&areas.side[2..], card.settings.record_bytes(), side_count);
    is_in(x, &records, buckets_read, 1)
}

/// Membership of a list of records: true is 0 with the record's class. Added: the counts; "Records are compared from the first up to the equal one
/// or the last".
fn is_in(x: &[u8], records: &[Record], buckets_read: u64, side_compared: u64) -> Answer {
    let equal = records.iter().position(|record| record.key == x);
    let (number, class) = equal.map_or((FALSE.number, 0), |at| (0, records[at].class));
    Answer {
        number,
        class,
        buckets_read,
        compared: equal.map_or(records.len(), |at| at + 1) as u64,
        side_compared,
    }
}
