//! The window's area, number by number, on any contents and lengths, as `include/flow.h` says it: a ring of entries with counts beside it.
//! The plain window is elsewhere ([`crate::window`]).

use crate::lookup::Answer;
use crate::window::{Counts, Entry, MOST_COMPARED, SEARCHES};

/// The place in the ring of the oldest entry.
pub const OLDEST: usize = 0;
/// How many entries there are.
pub const ENTRIES: usize = 1;
/// How many of them are held answers.
pub const HELD: usize = 2;
/// How many compared the side store.
pub const SIDE_COMPARED: usize = 3;
/// How many compared 0, 1, .. 64 records.
pub const COMPARED: usize = 4;
/// The ring.
pub const RING: usize = 69;
/// All numbers.
pub const NUMBERS: usize = 1093;

/// 1 for a held answer, and 2 where the search compared the side store, and 4 times the records compared.
fn number_of(entry: Entry) -> u16 {
    (entry.held + 2 * entry.side_compared + 4 * entry.compared) as u16
}

/// Any number of the ring as an entry: with more than 64 records compared it is one with 64.
fn entry_of(number: u16) -> Entry {
    let number = u32::from(number);
    Entry {
        held: number % 2,
        side_compared: number / 2 % 2,
        compared: (number / 4).min(MOST_COMPARED),
    }
}

/// The entries as the ring holds them, from the oldest on.
pub fn entries(area: &[u16]) -> Vec<Entry> {
    let place = |i| (usize::from(area[OLDEST]) + i) % SEARCHES;
    (0..usize::from(area[ENTRIES]))
        .map(|i| entry_of(area[RING + place(i)]))
        .collect()
}

/// A count with so much more, modulo 2^16; with 65,535 more it is one less.
fn count_on(area: &mut [u16], at: usize, more: u32) {
    area[at] = ((u32::from(area[at]) + more) % 65536) as u16;
}

/// The counts with so much more for each that the entry is counted in.
fn count_entry(area: &mut [u16], entry: Entry, more: u32) {
    count_on(area, ENTRIES, more);
    count_on(area, HELD, more * entry.held);
    count_on(area, SIDE_COMPARED, more * entry.side_compared);
    count_on(area, COMPARED + entry.compared as usize, more);
}

/// The oldest entry goes out of the counts; its number stays in the ring.
fn take_oldest_out(area: &mut [u16]) {
    let place = usize::from(area[OLDEST]) % SEARCHES;
    area[OLDEST] = ((place + 1) % SEARCHES) as u16;
    count_entry(area, entry_of(area[RING + place]), 65535);
}

/// The entry comes in after the latest.
fn put_in(area: &mut [u16], entry: Entry) {
    let place = (usize::from(area[OLDEST]) + usize::from(area[ENTRIES])) % SEARCHES;
    area[RING + place] = number_of(entry);
    count_entry(area, entry, 1);
}

/// The answer whose number and counts the search doors give so.
pub fn answer_of(found: u64, counts: &[u32]) -> Answer {
    Answer {
        number: (found / 2u64.pow(32)) as u32,
        class: (found % 2u64.pow(32)) as u32,
        buckets_read: u64::from(counts[0]),
        compared: u64::from(counts[1]),
        side_compared: u64::from(counts[2]),
    }
}

/// 0 and zeros, or 2 for a wrong length, and then nothing altered.
pub fn clear(area: &mut [u16]) -> u32 {
    if area.len() != NUMBERS {
        return 2;
    }
    area.fill(0);
    0
}

/// 0 with the search entered, or for a refused one as it was; or 2 for a wrong length, and then nothing altered.
pub fn enter(area: &mut [u16], found: u64, counts: &[u32]) -> u32 {
    if area.len() != NUMBERS || counts.len() != 3 {
        return 2;
    }
    if let Some(entry) = Entry::of(&answer_of(found, counts)) {
        if usize::from(area[ENTRIES]) >= SEARCHES {
            take_oldest_out(area);
        }
        put_in(area, entry);
    }
    0
}

/// 0 without the oldest entry, where there is one; or 2 for a wrong length, and then nothing altered.
pub fn remove(area: &mut [u16]) -> u32 {
    if area.len() != NUMBERS {
        return 2;
    }
    if area[ENTRIES] != 0 {
        take_oldest_out(area);
    }
    0
}

/// The counts as the area has them: the greatest is the highest that some entry compared.
fn told(area: &[u16]) -> Counts {
    let compared = &area[COMPARED..RING];
    let greatest = compared.iter().rposition(|&entries| entries != 0);
    Counts {
        held: u32::from(area[HELD]),
        side_compared: u32::from(area[SIDE_COMPARED]),
        greatest: greatest.unwrap_or(0) as u32,
    }
}

/// 0 with the three counts, or 2 for a wrong length, and then nothing altered.
pub fn counts(area: &[u16], counts: &mut [u32]) -> u32 {
    if area.len() != NUMBERS || counts.len() != 3 {
        return 2;
    }
    let Counts {
        held,
        side_compared,
        greatest,
    } = told(area);
    counts.copy_from_slice(&[held, side_compared, greatest]);
    0
}
