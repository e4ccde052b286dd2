//! The layout of a list of records: the five areas, byte by byte.

use crate::card::Card;
use crate::placing::Placing;
use crate::records::{counted_area, Record};
use crate::settings::Settings;

/// The five areas that calls share.
#[derive(Clone, Debug, PartialEq, Eq)]
pub struct Areas {
    pub ledger: Vec<u8>,
    pub true_counts: Vec<u16>,
    pub clipped: Vec<u8>,
    pub buckets: Vec<u8>,
    pub side: Vec<u8>,
}

impl Areas {
    /// Not 2: each has its length under the settings, and so has the work area of a call that takes one.
    pub fn fit(&self, settings: &Settings, work: Option<usize>) -> bool {
        let lengths = settings.area_lengths();
        let lent = [
            self.ledger.len(),
            self.true_counts.len(),
            self.clipped.len(),
            self.buckets.len(),
            self.side.len(),
        ];
        (0..5).all(|i| lent[i] as u64 == lengths[i])
            && work.map_or(true, |length| length as u64 == lengths[5])
    }
}

/// Where the records of a list in rising key order belong.
pub fn placing(card: &Card, list: &[Record]) -> Placing {
    let numbers: Vec<Vec<u64>> = list.iter().map(|r| card.numbers(&r.key)).collect();
    Placing::of(&card.settings, &numbers)
}

/// The layout of a list in rising key order, if it is defined: at most N records, and a side need of at most S.
pub fn layout(card: &Card, list: &[Record]) -> Option<Areas> {
    let settings = &card.settings;
    let placing = placing(card, list);
    if list.len() as u64 > settings.n || placing.side_need() > settings.s {
        return None;
    }
    let record_bytes = settings.record_bytes();
    let side: Vec<Record> = placing.side.iter().map(|&i| list[i].clone()).collect();
    Some(Areas {
        ledger: counted_area(list, record_bytes, settings.n),
        true_counts: placing.true_counts.iter().map(|c| c.0 as u16).collect(),
        clipped: clipped(card, &placing),
        buckets: buckets(card, &placing, list),
        side: counted_area(&side, record_bytes, settings.s),
    })
}

/// Bucket b in byte b / 2, an even b in the low four bits.
fn clipped(card: &Card, placing: &Placing) -> Vec<u8> {
    let mut area = vec![0; (card.settings.m() / 2) as usize];
    for b in 0..card.settings.m() {
        let count = placing.clipped(&card.settings, b).0 as u8;
        area[(b / 2) as usize] += if b % 2 == 0 { count } else { 16 * count };
    }
    area
}

/// Of each bucket the mark, the records of its choosers unless the mark is 255, and zeros.
fn buckets(card: &Card, placing: &Placing, list: &[Record]) -> Vec<u8> {
    let mut area = Vec::new();
    for b in 0..card.settings.m() {
        let mut bucket = vec![placing.mark(&card.settings, b)];
        if bucket[0] != 255 {
            for &i in &placing.choosers[b as usize] {
                bucket.extend(list[i].bytes());
            }
        }
        bucket.resize(card.bucket_bytes(), 0);
        area.extend(bucket);
    }
    area
}
