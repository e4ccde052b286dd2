//! 'The calls' that only read, on areas with any contents and lengths: search, the second search call, search with its
//! counts, a burst of searches, tally.

use crate::card::Card;
use crate::hash::read_by;
use crate::layout::Areas;
use crate::ledger;
use crate::placing::ClippedCount;
use crate::records::{count, first_records};
use crate::settings::Settings;

/// The three lookup areas.
#[derive(Clone, Copy)]
pub struct Lookup<'a> {
    pub clipped: &'a [u8],
    pub buckets: &'a [u8],
    pub side: &'a [u8],
}

impl Lookup<'_> {
    /// Each has its length under the settings.
    fn fit(&self, settings: &Settings) -> bool {
        let lengths = settings.area_lengths();
        let lent = [self.clipped.len(), self.buckets.len(), self.side.len()];
        (0..3).all(|i| lent[i] as u64 == lengths[2 + i])
    }
}

impl Areas {
    pub fn lookup(&self) -> Lookup<'_> {
        Lookup {
            clipped: &self.clipped,
            buckets: &self.buckets,
            side: &self.side,
        }
    }
}

/// 0 held, 100 absent, or a refusal; class and counts are zero where they say nothing.
#[derive(Clone, Copy, Debug, PartialEq, Eq)]
pub struct Answer {
    pub number: u32,
    pub class: u32,
    pub buckets_read: u64,
    pub compared: u64,
    /// "searches that compared the side store (1, else 0, now a third count in search's answer)" (document 02, U5): 1 where the side store is the
    /// place compared, whether or not it holds a record.
    pub side_compared: u64,
}

impl Answer {
    pub fn refused(number: u32) -> Answer {
        Answer {
            number,
            class: 0,
            buckets_read: 0,
            compared: 0,
            side_compared: 0,
        }
    }

    /// What the forwarding driver gets: no count is in it.
    pub fn door(&self) -> u64 {
        u64::from(self.number) * 2u64.pow(32) + u64::from(self.class)
    }

    /// Buckets read, records compared, side store compared.
    pub fn counts(&self) -> [u32; 3] {
        [self.buckets_read, self.compared, self.side_compared].map(|count| count as u32)
    }
}

/// Where a search looks.
#[derive(Clone, Copy, Debug, PartialEq, Eq)]
pub enum Place {
    /// What was read is damaged: 5.
    Damaged,
    /// A counter of the key is zero.
    Nowhere,
    /// So many records of this bucket.
    Bucket { b: u64, records: u64 },
    /// So many records of the side store, all counters being T.
    SideByCounters { records: u64 },
    /// So many records of the side store, this bucket's mark being 255.
    SideByMark { b: u64, records: u64 },
}

/// What the second search call hands back: a record's bytes from byte `at` of one of two areas, or the empty part.
#[derive(Clone, Debug, PartialEq, Eq)]
pub enum Part {
    Empty,
    OfBuckets { at: usize, bytes: Vec<u8> },
    OfSide { at: usize, bytes: Vec<u8> },
}

/// Refusals 1, 2 and 3 of a search, the lowest that applies.
pub fn refused_at_once(card: &Card, areas: Lookup, key: &[u8]) -> Option<u32> {
    if !card.settings.allowed() {
        return Some(1);
    }
    if !areas.fit(&card.settings) {
        return Some(2);
    }
    if key.len() as u64 != card.settings.width {
        return Some(3);
    }
    None
}

fn counter(areas: Lookup, b: u64) -> ClippedCount {
    let byte = areas.clipped[(b / 2) as usize];
    ClippedCount(u64::from(if b % 2 == 0 { byte % 16 } else { byte / 16 }))
}

/// The bucket that a search goes to, by the counters alone: None where it reads no bucket.
pub fn chosen_bucket(card: &Card, areas: Lookup, key: &[u8]) -> Option<u64> {
    let t = card.settings.t;
    let numbers = card.numbers(key);
    let counters: Vec<u64> = numbers.iter().map(|&b| counter(areas, b).0).collect();
    if counters.iter().any(|&c| c > t || c == 0) || counters.iter().all(|&c| c == t) {
        return None;
    }
    let least = numbers.iter().map(|&b| counter(areas, b)).min();
    numbers
        .into_iter()
        .filter(|&b| Some(counter(areas, b)) == least)
        .min()
}

/// All counters of the key are read, then at most one bucket, then perhaps the side count.
pub fn place(card: &Card, areas: Lookup, key: &[u8]) -> Place {
    let settings = &card.settings;
    let numbers = card.numbers(key);
    if numbers.iter().any(|&b| counter(areas, b).0 > settings.t) {
        return Place::Damaged;
    }
    if numbers.iter().any(|&b| counter(areas, b).0 == 0) {
        return Place::Nowhere;
    }
    let side_records = count(areas.side);
    match chosen_bucket(card, areas, key) {
        None if side_records > settings.s => Place::Damaged,
        None => Place::SideByCounters {
            records: side_records,
        },
        Some(b) => {
            let mark = u64::from(areas.buckets[b as usize * card.bucket_bytes()]);
            if mark == 255 && side_records > settings.s {
                Place::Damaged
            } else if mark == 255 {
                Place::SideByMark {
                    b,
                    records: side_records,
                }
            } else if mark > settings.b {
                Place::Damaged
            } else {
                Place::Bucket { b, records: mark }
            }
        }
    }
}

/// The area and byte at which the records of a place start, and how many there are.
fn span(card: &Card, place: Place) -> Option<(bool, usize, u64)> {
    match place {
        Place::Damaged | Place::Nowhere => None,
        Place::Bucket { b, records } => Some((true, b as usize * card.bucket_bytes() + 1, records)),
        Place::SideByCounters { records } | Place::SideByMark { records, .. } => {
            Some((false, 2, records))
        }
    }
}

pub fn search(card: &Card, areas: Lookup, key: &[u8]) -> Answer {
    if let Some(number) = refused_at_once(card, areas, key) {
        return Answer::refused(number);
    }
    let place = place(card, areas, key);
    if place == Place::Damaged {
        return Answer::refused(5);
    }
    let mut answer = Answer {
        number: 100,
        class: 0,
        buckets_read: match place {
            Place::Bucket { .. } | Place::SideByMark { .. } => 1,
            _ => 0,
        },
        compared: 0,
        side_compared: match place {
            Place::SideByCounters { .. } | Place::SideByMark { .. } => 1,
            _ => 0,
        },
    };
    if let Some((in_buckets, from, n)) = span(card, place) {
        let area = if in_buckets {
            areas.buckets
        } else {
            areas.side
        };
        for record in first_records(&area[from..], card.settings.record_bytes(), n) {
            answer.compared += 1;
            if record.key == key {
                answer.number = 0;
                answer.class = record.class;
                break;
            }
        }
    }
    answer
}

pub fn second_search(card: &Card, areas: Lookup, key: &[u8]) -> Part {
    let answer = search(card, areas, key);
    if answer.number != 0 {
        return Part::Empty;
    }
    // held: the last record compared is the one
    let place = place(card, areas, key);
    let (in_buckets, from, _) = span(card, place).unwrap();
    let record_bytes = card.settings.record_bytes();
    let at = from + record_bytes * (answer.compared as usize - 1);
    let part = |area: &[u8]| area[at..at + record_bytes].to_vec();
    if in_buckets {
        Part::OfBuckets {
            at,
            bytes: part(areas.buckets),
        }
    } else {
        Part::OfSide {
            at,
            bytes: part(areas.side),
        }
    }
}

/// The search, and in two lent numbers where the record lies that the second search call hands back: 1 in the buckets or 2 in the side store,
/// and the byte where it starts; 0, 0 where the flow is absent. Refused, the lent numbers stay; 2 also where they are not two.
pub fn search_place(card: &Card, areas: Lookup, key: &[u8], place: &mut [u64]) -> Answer {
    let answer = search(card, areas, key);
    if answer.number == 1 {
        return answer;
    }
    if place.len() != 2 {
        return Answer::refused(2);
    }
    if answer.number == 0 || answer.number == 100 {
        place.copy_from_slice(&match second_search(card, areas, key) {
            Part::Empty => [0, 0],
            Part::OfBuckets { at, .. } => [1, at as u64],
            Part::OfSide { at, .. } => [2, at as u64],
        });
    }
    answer
}

/// The search, and in three lent numbers its counts. Refused, the lent numbers stay; 2 also where they are not three.
pub fn search_counts(card: &Card, areas: Lookup, key: &[u8], counts: &mut [u32]) -> Answer {
    let answer = search(card, areas, key);
    if answer.number == 1 {
        return answer;
    }
    if counts.len() != 3 {
        return Answer::refused(2);
    }
    if answer.number == 0 || answer.number == 100 {
        counts.copy_from_slice(&answer.counts());
    }
    answer
}

/// The search, and a lent hash table of so many entries: 2 also where that is not the length of one for the width.
pub fn search_lent(card: &Card, table: usize, areas: Lookup, key: &[u8]) -> Answer {
    if card.settings.allowed() && read_by(card.settings.width, table).is_none() {
        return Answer::refused(2);
    }
    search(card, areas, key)
}

/// The search with its counts, and a lent hash table as for [`search_lent`].
pub fn search_counts_lent(
    card: &Card,
    table: usize,
    areas: Lookup,
    key: &[u8],
    counts: &mut [u32],
) -> Answer {
    if card.settings.allowed() && read_by(card.settings.width, table).is_none() {
        return Answer::refused(2);
    }
    search_counts(card, areas, key, counts)
}

/// Many searches at once: a key of the width for each answer, and a lent hash table as for [`search_lent`]. 0 with what the driver gets for each
/// key, or the lowest of 1, 2 and 3 that applies and the answers as they were.
pub fn burst(card: &Card, table: usize, areas: Lookup, keys: &[u8], answers: &mut [u64]) -> u32 {
    if !card.settings.allowed() {
        return 1;
    }
    let key_bytes = card.settings.key_bytes();
    if read_by(card.settings.width, table).is_none() || !areas.fit(&card.settings) {
        return 2;
    }
    if keys.len() != key_bytes * answers.len() {
        return 3;
    }
    for (i, answer) in answers.iter_mut().enumerate() {
        let key = &keys[key_bytes * i..key_bytes * (i + 1)];
        *answer = search(card, areas, key).door();
    }
    0
}

/// Tally's four numbers.
#[derive(Clone, Copy, Debug, PartialEq, Eq)]
pub struct Totals {
    pub in_buckets: u64,
    pub in_side: u64,
    pub marked_255: u64,
    pub fill: u64,
}

/// Of the two whole numbers beside the fraction 100 × count / m, the nearer one; where both are as near, the even one (document 02, U4).
pub fn fill(count: u64, m: u64) -> u64 {
    let below = 100 * count / m;
    // as fractions over m
    let distance = |whole: u64| (whole * m).abs_diff(100 * count);
    [below, below + 1]
        .into_iter()
        .min_by_key(|&whole| (distance(whole), whole % 2))
        .unwrap()
}

/// The four numbers, or 1, 2, 4 or 5.
pub fn tally(card: &Card, ledger_area: &[u8], areas: Lookup) -> Result<Totals, u32> {
    let settings = &card.settings;
    if !settings.allowed() {
        return Err(1);
    }
    if ledger_area.len() as u64 != settings.area_lengths()[0] || !areas.fit(settings) {
        return Err(2);
    }
    if !ledger::valid(settings, ledger_area) {
        return Err(4);
    }
    let marks: Vec<u64> = areas
        .buckets
        .chunks(card.bucket_bytes())
        .map(|bucket| u64::from(bucket[0]))
        .collect();
    if (0..settings.m()).any(|b| counter(areas, b).0 > settings.t)
        || marks.iter().any(|&mark| mark > settings.b && mark != 255)
        || count(areas.side) > settings.s
    {
        return Err(5);
    }
    Ok(Totals {
        in_buckets: marks.iter().filter(|&&mark| mark != 255).sum(),
        in_side: count(areas.side),
        marked_255: marks.iter().filter(|&&mark| mark == 255).count() as u64,
        fill: fill(count(ledger_area), settings.m()),
    })
}
