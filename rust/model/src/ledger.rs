//! 'The plain ledger', and what makes a ledger area valid.

use crate::card::Card;
use crate::layout::placing;
use crate::lookup::{fill, Answer, Totals};
use crate::placing::ClippedCount;
use crate::records::{below, count, first_records, rising, Record};
use crate::settings::Settings;

/// The records of a ledger area, as its count says.
pub fn list_of(settings: &Settings, area: &[u8]) -> Vec<Record> {
    first_records(&area[2..], settings.record_bytes(), count(area))
}

/// Not 4: a count of at most N, rising keys, and zeros after the last record.
pub fn valid(settings: &Settings, area: &[u8]) -> bool {
    if count(area) > settings.n {
        return false;
    }
    let list = list_of(settings, area);
    rising(&list)
        && area[2 + settings.record_bytes() * list.len()..]
            .iter()
            .all(|&x| x == 0)
}

/// A list of records in rising key order. Updates answer 0 or a refusal, and a refused one leaves the list.
#[derive(Clone, Debug, Default, PartialEq, Eq)]
pub struct Ledger {
    pub list: Vec<Record>,
}

impl Ledger {
    pub fn position(&self, key: &[u8]) -> Option<usize> {
        self.list.iter().position(|r| r.key == key)
    }

    pub fn clear(&mut self) -> u32 {
        self.list.clear();
        0
    }

    pub fn add(&mut self, card: &Card, key: &[u8], class: u32) -> u32 {
        if key.len() as u64 != card.settings.width {
            return 3;
        }
        if self.position(key).is_some() {
            return 6;
        }
        if self.list.len() as u64 >= card.settings.n {
            return 8;
        }
        let mut new = self.list.clone();
        let before = new.iter().filter(|r| below(&r.key, key)).count();
        let key = key.to_vec();
        new.insert(before, Record { key, class });
        self.become_if_side_suffices(card, new)
    }

    pub fn change(&mut self, card: &Card, key: &[u8], class: u32) -> u32 {
        if key.len() as u64 != card.settings.width {
            return 3;
        }
        let i = match self.position(key) {
            None => return 7,
            Some(i) => i,
        };
        let mut new = self.list.clone();
        new[i].class = class;
        self.become_if_side_suffices(card, new)
    }

    pub fn remove(&mut self, card: &Card, key: &[u8]) -> u32 {
        if key.len() as u64 != card.settings.width {
            return 3;
        }
        let i = match self.position(key) {
            None => return 7,
            Some(i) => i,
        };
        let mut new = self.list.clone();
        new.remove(i);
        self.become_if_side_suffices(card, new)
    }

    // 9 is judged on the list that the call would make.
    fn become_if_side_suffices(&mut self, card: &Card, new: Vec<Record>) -> u32 {
        if placing(card, &new).side_need() > card.settings.s {
            return 9;
        }
        self.list = new;
        0
    }

    /// 3, or held or absent by the list, with counts by the list's layout.
    pub fn search(&self, card: &Card, key: &[u8]) -> Answer {
        if key.len() as u64 != card.settings.width {
            return Answer::refused(3);
        }
        let held = self.position(key);
        let (buckets_read, compared, side_compared) = self.counts(card, key);
        Answer {
            number: if held.is_some() { 0 } else { 100 },
            class: held.map_or(0, |i| self.list[i].class),
            buckets_read,
            compared,
            side_compared,
        }
    }

    /// Buckets read, records compared, and 1 where the side store is the place compared.
    fn counts(&self, card: &Card, key: &[u8]) -> (u64, u64, u64) {
        let settings = &card.settings;
        let placing = placing(card, &self.list);
        let numbers = card.numbers(key);
        let clipped = |b: u64| placing.clipped(settings, b);
        if numbers.iter().any(|&b| clipped(b) == ClippedCount(0)) {
            return (0, 0, 0);
        }
        let all_t = numbers.iter().all(|&b| clipped(b).0 == settings.t);
        let chosen = numbers
            .iter()
            .copied()
            .min_by_key(|&b| (clipped(b).0, b))
            .unwrap();
        let at_side = all_t || placing.mark(settings, chosen) == 255;
        let compared_place = if at_side {
            &placing.side
        } else {
            &placing.choosers[chosen as usize]
        };
        let position = compared_place.iter().position(|&i| self.list[i].key == key);
        let compared = match position {
            Some(i) => i + 1,
            None => compared_place.len(),
        };
        (u64::from(!all_t), compared as u64, u64::from(at_side))
    }

    /// The second search call: the record itself.
    pub fn second_search(&self, key: &[u8]) -> Option<Record> {
        self.position(key).map(|i| self.list[i].clone())
    }

    pub fn tally(&self, card: &Card) -> Totals {
        let settings = &card.settings;
        let placing = placing(card, &self.list);
        let marks: Vec<u8> = (0..settings.m())
            .map(|b| placing.mark(settings, b))
            .collect();
        Totals {
            in_buckets: marks
                .iter()
                .filter(|&&mark| mark != 255)
                .map(|&mark| u64::from(mark))
                .sum(),
            in_side: placing.side_need(),
            marked_255: marks.iter().filter(|&&mark| mark == 255).count() as u64,
            fill: fill(self.list.len() as u64, settings.m()),
        }
    }
}
