//! Settings with the hash: what placing, layout and search go by.

use crate::hash;
use crate::settings::Settings;

pub struct Card {
    pub settings: Settings,
    /// What H is read from, if not from the paper's table.
    other_table: Option<Vec<u64>>,
}

impl Card {
    pub fn new(settings: Settings) -> Card {
        Card {
            settings,
            other_table: None,
        }
    }

    /// A card that reads what it takes for H from this table, which has the length of one for its width.
    pub fn with_table(settings: Settings, table: Vec<u64>) -> Card {
        Card {
            settings,
            other_table: Some(table),
        }
    }

    fn h(&self, key: &[u8]) -> u64 {
        match &self.other_table {
            None => hash::h_by_table(key),
            Some(table) => hash::h_by(table, key),
        }
    }

    /// A key's first k hashes.
    pub fn hashes(&self, key: &[u8]) -> Vec<u64> {
        let h = self.h(key);
        (0..self.settings.k as u32)
            .map(|j| hash::hash_j(&self.settings, h, j))
            .collect()
    }

    /// A key's bucket numbers: those hashes, repeats dropped.
    pub fn numbers(&self, key: &[u8]) -> Vec<u64> {
        hash::bucket_numbers(&self.settings, self.h(key))
    }

    /// The bytes of one bucket: a mark, then B places.
    pub fn bucket_bytes(&self) -> usize {
        1 + self.settings.record_bytes() * self.settings.b as usize
    }
}
