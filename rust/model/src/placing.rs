//! 'Placing', on the bucket numbers of the held keys in key order: no key or hash comes in here.

use crate::settings::Settings;

/// How many held keys have a bucket's number among theirs.
#[derive(Clone, Copy, Debug, PartialEq, Eq, PartialOrd, Ord)]
pub struct TrueCount(pub u64);

/// The smaller of the true count and T.
#[derive(Clone, Copy, Debug, PartialEq, Eq, PartialOrd, Ord)]
pub struct ClippedCount(pub u64);

impl TrueCount {
    pub fn clipped(self, settings: &Settings) -> ClippedCount {
        ClippedCount(self.0.min(settings.t))
    }
}

/// Where the held keys belong. Keys are meant by their positions in the list.
#[derive(Clone, Debug, PartialEq, Eq)]
pub struct Placing {
    pub true_counts: Vec<TrueCount>,
    /// The keys that chose each bucket.
    pub choosers: Vec<Vec<usize>>,
    /// The keys that belong to the side.
    pub side: Vec<usize>,
}

impl Placing {
    pub fn of(settings: &Settings, numbers: &[Vec<u64>]) -> Placing {
        let true_counts = true_counts(settings, numbers);
        let mut choosers = vec![Vec::new(); settings.m() as usize];
        let choices: Vec<Option<u64>> = numbers
            .iter()
            .map(|own| choice(settings, &true_counts, own))
            .collect();
        for (i, choice) in choices.iter().enumerate() {
            if let Some(b) = choice {
                choosers[*b as usize].push(i);
            }
        }
        let mut side = Vec::new();
        for (i, choice) in choices.iter().enumerate() {
            match choice {
                None => side.push(i),
                Some(b) if crowded(settings, &choosers[*b as usize]) => side.push(i),
                Some(_) => {}
            }
        }
        Placing {
            true_counts,
            choosers,
            side,
        }
    }

    /// How many keys belong to the side.
    pub fn side_need(&self) -> u64 {
        self.side.len() as u64
    }

    /// A bucket's mark: how many keys chose it, or 255 for more than B.
    pub fn mark(&self, settings: &Settings, b: u64) -> u8 {
        let choosers = &self.choosers[b as usize];
        if crowded(settings, choosers) {
            255
        } else {
            choosers.len() as u8
        }
    }

    pub fn clipped(&self, settings: &Settings, b: u64) -> ClippedCount {
        self.true_counts[b as usize].clipped(settings)
    }
}

fn crowded(settings: &Settings, choosers: &[usize]) -> bool {
    choosers.len() as u64 > settings.b
}

fn true_counts(settings: &Settings, numbers: &[Vec<u64>]) -> Vec<TrueCount> {
    let mut counts = vec![TrueCount(0); settings.m() as usize];
    for own in numbers {
        for &b in own {
            counts[b as usize].0 += 1;
        }
    }
    counts
}

/// The bucket that a key chooses: of its numbers with the least count, the lowest. None where all its true counts are T or more.
fn choice(settings: &Settings, counts: &[TrueCount], own: &[u64]) -> Option<u64> {
    let count = |b: u64| counts[b as usize];
    if own.iter().all(|&b| count(b).0 >= settings.t) {
        return None;
    }
    let least = own.iter().map(|&b| count(b)).min();
    own.iter()
        .copied()
        .filter(|&b| Some(count(b)) == least)
        .min()
}
