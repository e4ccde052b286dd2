//! How often each kind of call gave each answer, and how often a fill met a half.

use std::collections::BTreeMap;

#[derive(Default)]
pub struct Seen {
    answers: BTreeMap<(&'static str, u32), u64>,
}

impl Seen {
    pub fn note(&mut self, kind: &'static str, answer: u32) {
        *self.answers.entry((kind, answer)).or_default() += 1;
    }

    pub fn total(&self) -> u64 {
        self.answers.values().sum()
    }

    /// Prints the counts; fails where one of these answers of a kind never occurred.
    pub fn report(&self, what: &str, expected: &[(&'static str, &[u32])]) {
        println!("{} {what}:", self.total());
        for ((kind, answer), times) in &self.answers {
            println!("  {kind} {answer}: {times}");
        }
        for (kind, answers) in expected {
            for answer in answers.iter() {
                let seen = self.answers.contains_key(&(*kind, *answer));
                assert!(seen, "{what}: {kind} never answered {answer}");
            }
        }
    }
}

/// Tallies whose 100 × count / m was a half above an even number, and above an odd one.
#[derive(Default)]
pub struct Halves {
    above_even: u64,
    above_odd: u64,
}

impl Halves {
    pub fn note(&mut self, count: u64, m: u64) {
        if 200 * count % (2 * m) == m {
            match 100 * count / m % 2 {
                0 => self.above_even += 1,
                _ => self.above_odd += 1,
            }
        }
    }

    /// Prints the counts; fails where one is below 50.
    pub fn report(&self) {
        let Halves {
            above_even,
            above_odd,
        } = self;
        println!(
            "fills at a half: {above_even} above an even number, {above_odd} above an odd one"
        );
        assert!(*above_even >= 50 && *above_odd >= 50);
    }
}
