//! Ten million calls through the doors at each width, or as many as the first argument says: a random walk of adds, changes, removals, searches and
//! bursts of searches near what each table can hold. Every answer is compared with the model's, and after every 10,000 calls all areas with the model's layout.

use flow::{doors, KeyHasher};
use model::calls::Call;
use model::card::Card;
use model::layout::{layout, Areas};
use model::ledger::Ledger;
use model::records::Key;
use model::settings::{Settings as Model, WIDTHS};
use std::time::Instant;
use testing::lending::{assert_areas, door, kind};
use testing::made::{random_areas, random_class, random_key, random_work};
use testing::random::Random;
use testing::seen::Seen;
use testing::widths::tables;

const CALLS: u64 = 10_000_000;
const CALLS_BETWEEN_COMPARISONS: u64 = 10_000;
const MOST_KEYS_OF_A_BURST: u64 = 32;

// Settings but the width, and how many of a hundred calls go to them.
const TABLES: [([u64; 6], u64); 5] = [
    // the side store is exhausted long before the capacity is reached
    ([4, 2, 1, 3, 24, 2], 25),
    ([6, 3, 2, 4, 128, 8], 25),
    // the capacity is reached
    ([6, 3, 4, 15, 64, 16], 25),
    ([8, 3, 4, 15, 256, 64], 24),
    ([12, 3, 4, 15, 4096, 64], 1),
];

// A table as the doors have it, beside the plain ledger.
struct Walk {
    card: Card,
    areas: Areas,
    work: Vec<u16>,
    ledger: Ledger,
    // every table for the width
    hash_tables: Vec<KeyHasher>,
    // four times as many as the capacity
    keys: Vec<Key>,
    // of a hundred calls so many are searches or adds
    adds: u64,
}

impl Walk {
    fn start(random: &mut Random, card: Card) -> Walk {
        let settings = card.settings;
        let width = settings.width;
        let mut walk = Walk {
            areas: random_areas(random, &settings),
            work: random_work(random, &settings),
            card,
            ledger: Ledger::default(),
            hash_tables: tables(width),
            keys: (0..4 * settings.n)
                .map(|_| random_key(random, width))
                .collect(),
            adds: 0,
        };
        assert_eq!(walk.update(&Call::Clear), 0);
        walk
    }

    // A key that is mostly held, or one of the walk's, or another.
    fn key(&self, random: &mut Random, of_held: u64) -> Vec<u8> {
        let held = self.ledger.list.len() as u64;
        let way = random.between(0, 99);
        if way < of_held && held > 0 {
            let some = random.between(0, held - 1) as usize;
            self.ledger.list[some].key.clone()
        } else if way < 99 {
            self.keys[random.between(0, self.keys.len() as u64 - 1) as usize].clone()
        } else {
            random_key(random, self.card.settings.width)
        }
    }

    fn update(&mut self, call: &Call) -> u32 {
        let settings = &self.card.settings;
        let answer = door(settings, &mut self.areas, &mut self.work, call);
        assert_eq!(answer, self.ledger.step(&self.card, call), "{call:?}");
        answer
    }

    fn hash_table(&self, random: &mut Random) -> &[u64] {
        let last = self.hash_tables.len() as u64 - 1;
        self.hash_tables[random.between(0, last) as usize].entries()
    }

    fn search(&self, key: &[u8], table: Option<&[u64]>) -> u32 {
        let numbers = self.card.settings.numbers();
        let Areas {
            clipped,
            buckets,
            side,
            ..
        } = &self.areas;
        let found = match table {
            Some(table) => doors::search_lent(table, numbers, clipped, buckets, side, key),
            None => doors::search(numbers, clipped, buckets, side, key),
        };
        let by_paper = self.ledger.search(&self.card, key);
        assert_eq!(found, by_paper.door(), "search of {key:?}");
        by_paper.number
    }

    // Some keys at once: each is held, with its class, or absent, as the ledger has it.
    fn burst(&self, random: &mut Random) -> u32 {
        let count = random.between(0, MOST_KEYS_OF_A_BURST);
        let keys: Vec<Vec<u8>> = (0..count).map(|_| self.key(random, 50)).collect();
        let numbers = self.card.settings.numbers();
        let Areas {
            clipped,
            buckets,
            side,
            ..
        } = &self.areas;
        let table = self.hash_table(random);
        // what no door answers
        let mut answers = vec![u64::MAX; keys.len()];
        let lent = &keys.concat();
        let answer =
            doors::search_burst(table, numbers, clipped, buckets, side, lent, &mut answers);
        assert_eq!(answer, 0);
        for (key, found) in keys.iter().zip(answers) {
            let held = self.ledger.second_search(key);
            let by_paper = held.map_or(100 << 32, |record| u64::from(record.class));
            assert_eq!(found, by_paper, "search of {key:?} in a burst");
        }
        answer
    }

    // One call. Adds mostly outnumber removals, and now and then their chances alter.
    fn step(&mut self, random: &mut Random) -> (&'static str, u32) {
        if self.adds == 0 || random.between(0, 499) == 0 {
            self.adds = [60, 70, 80][random.between(0, 2) as usize];
        }
        let way = random.between(0, 99);
        if way < 10 {
            return ("burst", self.burst(random));
        }
        if way < 30 {
            let key = self.key(random, 50);
            if way < 20 {
                let table = self.hash_table(random);
                return ("search lent", self.search(&key, Some(table)));
            }
            return ("search", self.search(&key, None));
        }
        let call = if way < self.adds {
            Call::Add(self.key(random, 5), random_class(random))
        } else if way < 90 {
            Call::Remove(self.key(random, 90))
        } else {
            Call::Change(self.key(random, 80), random_class(random))
        };
        (kind(&call), self.update(&call))
    }

    fn compare(&self) {
        let expected = layout(&self.card, &self.ledger.list).expect("a held list has a layout");
        let settings = &self.card.settings;
        assert_areas(&self.areas, &expected, settings, &"a comparison of areas");
    }
}

fn main() {
    let calls = std::env::args().nth(1).map_or(CALLS, |word| {
        word.parse().expect("the argument is a number of calls")
    });
    let mut random = Random::new(81);
    let before = Instant::now();
    for width in WIDTHS {
        walks_at(&mut random, width, calls);
    }
    println!("{:.0} s", before.elapsed().as_secs_f64());
}

// So many calls at a width.
fn walks_at(random: &mut Random, width: u64, calls: u64) {
    let mut seen = Seen::default();
    let mut comparisons = 0;
    for ([p, k, b, t, n, s], share) in TABLES {
        let start = Instant::now();
        let settings = Model::of([p, k, b, t, n, s, width]);
        let mut walk = Walk::start(random, Card::new(settings));
        let (mut held, mut most) = (0, 0);
        let calls = calls * share / 100;
        for i in 1..=calls {
            let (kind, answer) = walk.step(random);
            seen.note(kind, answer);
            held += walk.ledger.list.len() as u64;
            most = most.max(walk.ledger.list.len());
            if i % CALLS_BETWEEN_COMPARISONS == 0 || i == calls {
                walk.compare();
                comparisons += 1;
            }
        }
        println!(
            "settings {:?}: {calls} calls, {} flows held on average, at most {most}, {:.0} s",
            settings.numbers(),
            held / calls.max(1),
            start.elapsed().as_secs_f64()
        );
    }
    seen.report(&format!("calls at width {width}, by answer"), &[]);
    println!(
        "width {width}: all answers as the model's, and all areas in {comparisons} comparisons"
    );
}
