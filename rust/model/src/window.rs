//! Document 02, U5: "a window over the latest 1,024 accepted searches", as a list of what it holds, with a fresh count. It belongs to no table.

use crate::lookup::Answer;
use std::collections::VecDeque;

/// "the latest 1,024 accepted searches".
pub const SEARCHES: usize = 1024;

/// No search compares more records than a side store has places.
pub const MOST_COMPARED: u32 = 64;

/// What the window keeps of an accepted search.
#[derive(Clone, Copy, Debug, PartialEq, Eq)]
pub struct Entry {
    /// 1 for a held answer, 0 for an absent one.
    pub held: u32,
    /// 1 where the search compared the side store, else 0.
    pub side_compared: u32,
    pub compared: u32,
}

impl Entry {
    /// Accepted are the answers 0 and 100; a refused search has no entry. What no search gives is entered too: more than 64 records compared as 64,
    /// and a third count that is not 0 as 1.
    pub fn of(answer: &Answer) -> Option<Entry> {
        if answer.number != 0 && answer.number != 100 {
            return None;
        }
        Some(Entry {
            held: u32::from(answer.number == 0),
            side_compared: u32::from(answer.side_compared != 0),
            compared: answer.compared.min(u64::from(MOST_COMPARED)) as u32,
        })
    }
}

/// "held answers, searches that compared the side store .., greatest records compared".
#[derive(Clone, Copy, Debug, Default, PartialEq, Eq)]
pub struct Counts {
    pub held: u32,
    pub side_compared: u32,
    pub greatest: u32,
}

/// The entries, the oldest first: "empty at the start".
#[derive(Clone, Debug, Default, PartialEq, Eq)]
pub struct Window {
    pub entries: VecDeque<Entry>,
}

impl Window {
    pub fn clear(&mut self) {
        self.entries.clear();
    }

    /// "the oldest dropped for good".
    pub fn enter(&mut self, answer: &Answer) {
        self.entries.extend(Entry::of(answer));
        if self.entries.len() > SEARCHES {
            self.entries.pop_front();
        }
    }

    /// "a removal from it alters nothing" where the window is empty.
    pub fn remove_oldest(&mut self) {
        self.entries.pop_front();
    }

    /// "a fresh count over what the window holds"; "The greatest is zero for an empty window".
    pub fn counts(&self) -> Counts {
        let (first, second) = self.entries.as_slices();
        let mut counts = Counts::default();
        for entry in first.iter().chain(second) {
            counts.held += entry.held;
            counts.side_compared += entry.side_compared;
            counts.greatest = counts.greatest.max(entry.compared);
        }
        counts
    }
}
