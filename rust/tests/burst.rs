//! The door for a burst of searches against the model, at both widths and with every hash table, and key by key against the door for one: with every number of keys from 0 to 70, on
//! layouts that the model makes, on damaged areas, with wrong lengths and settings, and with hash tables of any contents.

use flow::{doors, LookupAreas, Refusal, Settings, Table};
use model::card::Card;
use model::layout::{layout, Areas};
use model::lookup::{self as paper, Lookup};
use model::records::{Key, Record};
use model::settings::Settings as Model;
use testing::at_both_widths;
use testing::made::{
    damage_lookup, each_out_of_range, filled, other_width, random_card, random_class, random_key,
    random_table, spoiled, turn_a_bit, wrong_length, wrong_table_lengths,
};
use testing::random::Random;
use testing::seen::Seen;
use testing::widths::{settings_of, tables};

// Bursts of each test have so many keys, from none, and each number occurs.
const MOST_KEYS: usize = 70;

// Tables of each test, each with a burst of every number of keys.
const LAYOUTS: u64 = 300;
const DAMAGED: u64 = 400;
const OTHER_TABLES: u64 = 300;

// Bursts of a test.
const ON_WRONG_LENGTHS: u64 = 60_000;

// What an answer holds before a call, which no door answers.
fn before(i: usize) -> u64 {
    u64::MAX - i as u64
}

// What a test calls the door with.
struct Doors {
    // the right tables, which take turns
    tables: Vec<Vec<u64>>,
    turn: usize,
    seen: Seen,
    // bursts in which some keys have the answer 5, and others have not
    partly_damaged: u64,
}

impl Doors {
    fn new(width: u64) -> Doors {
        let tables = tables(width);
        Doors {
            tables: tables.iter().map(|t| t.entries().to_vec()).collect(),
            turn: 0,
            seen: Seen::default(),
            partly_damaged: 0,
        }
    }

    // A right table, another at each turn where there are more.
    fn table(&mut self) -> Vec<u64> {
        self.turn += 1;
        self.tables[self.turn % self.tables.len()].clone()
    }

    // A burst with a right table.
    fn burst(&mut self, card: &Card, areas: Lookup, keys: &[u8], n: usize) -> (u32, Vec<u64>) {
        let table = self.table();
        self.burst_by(&table, card, areas, keys, n)
    }

    // A burst of n answers: the door agrees with the model, a refusal leaves the answers, and else each is what the door for one key answers.
    fn burst_by(
        &mut self,
        table: &[u64],
        card: &Card,
        areas: Lookup,
        keys: &[u8],
        n: usize,
    ) -> (u32, Vec<u64>) {
        let numbers = card.settings.numbers();
        let Lookup {
            clipped,
            buckets,
            side,
        } = areas;
        let mut answers: Vec<u64> = (0..n).map(before).collect();
        let mut expected = answers.clone();
        let by_paper = paper::burst(card, table.len(), areas, keys, &mut expected);
        let answer =
            doors::search_burst(table, numbers, clipped, buckets, side, keys, &mut answers);
        assert_eq!(answer, by_paper, "{numbers:?}, {n} answers, {keys:?}");
        assert_eq!(answers, expected, "{numbers:?}, {n} answers, {keys:?}");
        self.seen.note("burst", answer);
        if answer != 0 {
            assert!((0..n).all(|i| answers[i] == before(i)));
            return (answer, answers);
        }
        for (key, &found) in keys.chunks(card.settings.key_bytes()).zip(&answers) {
            let alone = doors::search_lent(table, numbers, clipped, buckets, side, key);
            assert_eq!(found, alone, "{numbers:?}, {key:?}");
            self.seen.note("key of a burst", (found >> 32) as u32);
        }
        let damaged = answers.iter().filter(|&found| found >> 32 == 5).count();
        if damaged > 0 && damaged < n {
            self.partly_damaged += 1;
        }
        (answer, answers)
    }
}

// So many keys: held ones, held ones with a bit turned, the one before again, and random ones.
fn random_keys(random: &mut Random, width: u64, list: &[Record], n: usize) -> Vec<Key> {
    let mut keys: Vec<Key> = Vec::new();
    while keys.len() < n {
        let mut key = random_key(random, width);
        let way = random.between(0, 9);
        if way < 6 && !list.is_empty() {
            key.clone_from(&list[random.between(0, list.len() as u64 - 1) as usize].key);
        }
        if way == 5 {
            turn_a_bit(random, &mut key);
        }
        if let (6, Some(last)) = (way, keys.last()) {
            key.clone_from(last);
        }
        keys.push(key);
    }
    keys
}

// What a plain list says: held with its class, or absent.
fn by_list(list: &[Record], key: &Key) -> u64 {
    match list.iter().find(|r| r.key == *key) {
        None => 100 << 32,
        Some(record) => u64::from(record.class),
    }
}

// A burst of every number of keys on a layout, with what the list says of each key.
fn bursts_of_each_size(
    random: &mut Random,
    doors: &mut Doors,
    table: &[u64],
    card: &Card,
    list: &[Record],
    areas: &Areas,
) {
    for n in 0..=MOST_KEYS {
        let keys = random_keys(random, card.settings.width, list, n);
        let (answer, answers) = doors.burst_by(table, card, areas.lookup(), &keys.concat(), n);
        let expected: Vec<u64> = keys.iter().map(|key| by_list(list, key)).collect();
        assert_eq!((answer, answers), (0, expected));
    }
}

fn bursts_on_layouts(width: u64) {
    let mut random = Random::new(101);
    let mut doors = Doors::new(width);
    let mut in_side = 0;
    for _ in 0..LAYOUTS {
        let card = random_card(&mut random, width);
        let (list, areas) = random_table(&mut random, &card);
        in_side += model::records::count(&areas.side);
        let table = doors.table();
        bursts_of_each_size(&mut random, &mut doors, &table, &card, &list, &areas);
    }
    doors.seen.report(
        "bursts on layouts, and their keys",
        &[("burst", &[0]), ("key of a burst", &[0, 100])],
    );
    println!("{in_side} records in side stores");
    assert!(in_side > 0);
}

// The card's largest settings: every flow in one burst, and more keys than flows.
fn large_bursts(width: u64) {
    let mut random = Random::new(102);
    let mut doors = Doors::new(width);
    let card = Card::new(Model::of([12, 3, 4, 15, 4096, 64, width]));
    let (list, areas) = filled(&mut random, &card, 4000);
    let keys: Vec<Key> = list.iter().map(|r| r.key.clone()).collect();
    let (answer, answers) = doors.burst(&card, areas.lookup(), &keys.concat(), keys.len());
    assert_eq!(answer, 0);
    assert!(list
        .iter()
        .zip(answers)
        .all(|(r, found)| found == u64::from(r.class)));
    for n in [4_096, 65_536] {
        let keys = random_keys(&mut random, width, &list, n);
        let (answer, answers) = doors.burst(&card, areas.lookup(), &keys.concat(), n);
        assert_eq!(answer, 0);
        for (key, found) in keys.iter().zip(answers) {
            let place = list.binary_search_by(|r| r.key.cmp(key));
            let expected = place.map_or(100 << 32, |i| u64::from(list[i].class));
            assert_eq!(found, expected);
        }
    }
    doors.seen.report(
        "large bursts, and their keys",
        &[("burst", &[0]), ("key of a burst", &[0, 100])],
    );
}

fn bursts_on_damaged_areas(width: u64) {
    let mut random = Random::new(103);
    let mut doors = Doors::new(width);
    for _ in 0..DAMAGED {
        let card = random_card(&mut random, width);
        let (list, mut areas) = random_table(&mut random, &card);
        let planted = random_keys(&mut random, width, &list, 4);
        damage_lookup(&mut random, &card, &mut areas, &planted);
        for n in 0..=MOST_KEYS {
            let mut keys = random_keys(&mut random, width, &list, n);
            if n > 0 {
                keys[random.between(0, n as u64 - 1) as usize].clone_from(&planted[n % 4]);
            }
            let (answer, _) = doors.burst(&card, areas.lookup(), &keys.concat(), n);
            assert_eq!(answer, 0);
        }
    }
    doors.seen.report(
        "bursts on damaged areas, and their keys",
        &[("burst", &[0]), ("key of a burst", &[0, 100, 5])],
    );
    println!("{} bursts with 5 for some keys only", doors.partly_damaged);
    assert!(doors.partly_damaged > 0);
}

// Bytes that are not n keys: a byte less or more, a key less or more, n keys of the other width, or any other number of bytes.
fn wrong_keys(random: &mut Random, width: u64, n: usize) -> usize {
    let key_bytes = width as usize;
    let right = key_bytes * n;
    match random.between(0, 6) {
        0 if n > 0 => right - 1,
        1 => right + 1,
        2 if n > 0 => right - key_bytes,
        3 => right + key_bytes,
        // whole keys, but not n of them
        4 => key_bytes * (n + 1 + random.between(0, 40) as usize),
        5 if n > 0 => other_width(width) as usize * n,
        _ => wrong_length(random, right),
    }
}

// Some of: a setting out of range, a table or areas of wrong lengths, keys that are not n, damage. The lowest that applies is given.
fn bursts_with_wrong_lengths_and_settings(width: u64) {
    let mut random = Random::new(104);
    let mut doors = Doors::new(width);
    let wrong_tables = wrong_table_lengths(width);
    let mut faults = Seen::default();
    while faults.total() < ON_WRONG_LENGTHS {
        let card = random_card(&mut random, width);
        let (list, areas) = random_table(&mut random, &card);
        for n in 0..=MOST_KEYS {
            let mut areas = areas.clone();
            let mut settings = card.settings;
            let mut table = doors.table();
            let mut keys = random_keys(&mut random, width, &list, n).concat();
            let [mut of_settings, mut of_lengths, mut of_keys] = [false; 3];
            if random.between(0, 3) == 0 {
                damage_lookup(&mut random, &card, &mut areas, &[]);
            }
            if random.between(0, 3) == 0 {
                keys.resize(wrong_keys(&mut random, width, n), 7);
                of_keys = true;
            }
            for area in [&mut areas.clipped, &mut areas.buckets, &mut areas.side] {
                if random.between(0, 11) == 0 {
                    area.resize(wrong_length(&mut random, area.len()), 0);
                    of_lengths = true;
                }
            }
            if random.between(0, 11) == 0 {
                let some = random.between(0, wrong_tables.len() as u64 - 1) as usize;
                table.resize(wrong_tables[some], 0);
                of_lengths = true;
            }
            if random.between(0, 3) == 0 {
                settings = spoiled(&mut random, settings);
                of_settings = true;
            }
            let lent = areas.lookup();
            let (answer, _) = doors.burst_by(&table, &Card::new(settings), lent, &keys, n);
            let (kind, expected) = match [of_settings, of_lengths, of_keys] {
                [false, false, false] => ("no fault", 0),
                [false, false, true] => ("keys", 3),
                [false, true, false] => ("a length", 2),
                [false, true, true] => ("a length, keys", 2),
                [true, false, false] => ("a setting", 1),
                [true, false, true] => ("a setting, keys", 1),
                [true, true, false] => ("a setting, a length", 1),
                [true, true, true] => ("a setting, a length, keys", 1),
            };
            assert_eq!(answer, expected, "{kind}");
            faults.note(kind, answer);
        }
    }
    faults.report(
        "bursts, by their faults",
        &[
            ("no fault", &[0]),
            ("keys", &[3]),
            ("a length", &[2]),
            ("a length, keys", &[2]),
            ("a setting", &[1]),
            ("a setting, keys", &[1]),
            ("a setting, a length", &[1]),
            ("a setting, a length, keys", &[1]),
        ],
    );
    doors.seen.report(
        "bursts and keys, some with wrong lengths and settings",
        &[("burst", &[0, 1, 2, 3]), ("key of a burst", &[0, 100, 5])],
    );
}

// Each wrong length by itself, with every number of keys: of the keys, of the table, and of each area; then with keys that are wrong too.
fn each_wrong_length(width: u64) {
    let mut random = Random::new(105);
    let card = Card::new(Model::of([4, 3, 2, 4, 60, 8, width]));
    let (list, right) = filled(&mut random, &card, 30);
    let mut doors = Doors::new(width);
    for n in 0..=MOST_KEYS {
        let keys = random_keys(&mut random, width, &list, n).concat();
        let most = width as usize * (MOST_KEYS + 3);
        for length in (0..=most).filter(|&length| length != keys.len()) {
            let mut keys = keys.clone();
            keys.resize(length, 7);
            assert_eq!(doors.burst(&card, right.lookup(), &keys, n).0, 3);
        }
        let mut other_keys = keys.clone();
        other_keys.push(7);
        for keys in [&keys, &other_keys] {
            for length in wrong_table_lengths(width) {
                let mut table = doors.table();
                table.resize(length, 1);
                let (answer, _) = doors.burst_by(&table, &card, right.lookup(), keys, n);
                assert_eq!(answer, 2);
            }
            for area in 0..3 {
                for change in [-41, -17, -1, 1, 17, 41] {
                    let mut areas = right.clone();
                    let area = match area {
                        0 => &mut areas.clipped,
                        1 => &mut areas.buckets,
                        _ => &mut areas.side,
                    };
                    // the clipped counts are of 8 bytes
                    let length = (area.len() as i64 + change).max(0) as usize;
                    area.resize(length, 0);
                    assert_eq!(doors.burst(&card, areas.lookup(), keys, n).0, 2);
                }
            }
        }
        let (answer, answers) = doors.burst(&card, right.lookup(), &keys, n);
        assert_eq!((answer, answers.len()), (0, n));
    }
    doors.seen.report(
        "bursts with one wrong length, and keys of those without",
        &[("burst", &[0, 2, 3]), ("key of a burst", &[0, 100])],
    );
}

// Every setting around its limits, each by itself, also where all else is wrong.
fn each_setting_out_of_range(width: u64) {
    let mut random = Random::new(106);
    let card = Card::new(Model::of([6, 3, 2, 4, 128, 8, width]));
    let (list, areas) = filled(&mut random, &card, 60);
    let empty = Lookup {
        clipped: &[],
        buckets: &[],
        side: &[],
    };
    let mut doors = Doors::new(width);
    for (_, settings) in each_out_of_range(&card.settings) {
        let other = Card::new(settings);
        for n in [0, 1, 2, 32] {
            let keys = random_keys(&mut random, width, &list, n).concat();
            assert_eq!(doors.burst(&other, areas.lookup(), &keys, n).0, 1);
            assert_eq!(doors.burst(&other, areas.lookup(), &keys, n + 1).0, 1);
            assert_eq!(doors.burst_by(&[], &other, empty, &keys, n + 1).0, 1);
        }
    }
}

// A table of a right length that the door for it did not fill: random, alike, or the right one with some entries altered.
fn other_table(random: &mut Random, right: &[u64]) -> Vec<u64> {
    match random.between(0, 5) {
        0 => vec![0; right.len()],
        1 => vec![u64::MAX; right.len()],
        2 | 3 => {
            let mut table = right.to_vec();
            for _ in 0..random.between(1, 2000) {
                let at = random.between(0, right.len() as u64 - 1) as usize;
                table[at] = random.number();
            }
            table
        }
        _ => right.iter().map(|_| random.number()).collect(),
    }
}

// With any table of a right length: the search by the xor of the entries that are read, by both doors that are lent one. On a layout by that
// table each flow is found.
fn tables_of_any_contents(width: u64) {
    let mut random = Random::new(107);
    let mut doors = Doors::new(width);
    let (mut laid_out, mut differ) = (0, 0);
    for _ in 0..OTHER_TABLES {
        let table = other_table(&mut random, &doors.table());
        let right_card = random_card(&mut random, width);
        let card = Card::with_table(right_card.settings, table.clone());
        let (list, mut areas) = random_table(&mut random, &right_card);
        if random.between(0, 1) == 0 {
            let planted = random_keys(&mut random, width, &list, 4);
            damage_lookup(&mut random, &card, &mut areas, &planted);
        }
        for n in 0..=MOST_KEYS {
            let keys = random_keys(&mut random, width, &list, n).concat();
            let (answer, answers) = doors.burst_by(&table, &card, areas.lookup(), &keys, n);
            assert_eq!(answer, 0);
            for found in &answers {
                assert!([0, 5, 100].contains(&(found >> 32)));
                assert!(found >> 32 == 0 || *found as u32 == 0);
            }
            let with_right = doors.burst(&right_card, areas.lookup(), &keys, n);
            if with_right != (answer, answers) {
                differ += 1;
            }
        }
        if let Some(areas) = layout(&card, &list) {
            bursts_of_each_size(&mut random, &mut doors, &table, &card, &list, &areas);
            laid_out += 1;
        }
    }
    doors.seen.report(
        "bursts with tables of any contents, and their keys",
        &[("burst", &[0]), ("key of a burst", &[0, 100, 5])],
    );
    println!("{laid_out} layouts by such a table; {differ} bursts differ from those with the right table");
    assert!(laid_out > 0 && differ > 0);
}

// The safe crate hands on what the door says.
fn safe_wrappers(width: u64) {
    let mut random = Random::new(108);
    let tables = tables(width);
    let mut seen = Seen::default();
    for _ in 0..300 {
        let card = random_card(&mut random, width);
        let settings = settings_of(&card.settings);
        let (list, mut areas) = random_table(&mut random, &card);
        if random.between(0, 1) == 0 {
            damage_lookup(&mut random, &card, &mut areas, &[]);
        }
        if random.between(0, 9) == 0 {
            areas.side.push(0);
        }
        let lent = LookupAreas {
            clipped_counts: &areas.clipped,
            buckets: &areas.buckets,
            side_store: &areas.side,
        };
        for n in 0..=MOST_KEYS {
            let mut keys = random_keys(&mut random, width, &list, n).concat();
            if random.between(0, 9) == 0 {
                keys.resize(wrong_keys(&mut random, width, n), 7);
            }
            let mut numbers: Vec<u64> = (0..n).map(before).collect();
            let mut expected = numbers.clone();
            let table = &tables[n % tables.len()];
            let length = table.entries().len();
            let by_paper = paper::burst(&card, length, areas.lookup(), &keys, &mut expected);
            seen.note("burst", by_paper);
            let answers = flow::search_burst(table, &settings, &lent, &keys, &mut numbers);
            match Refusal::from_number(by_paper) {
                Some(refusal) => assert_eq!(answers.err(), Some(refusal)),
                None => {
                    let answers = answers.unwrap();
                    assert_eq!(answers.len(), n);
                    let alone = keys
                        .chunks(width as usize)
                        .map(|key| flow::search_lent(table, &settings, &lent, key));
                    assert!(answers.clone().eq(alone));
                    for answer in answers {
                        seen.note("key of a burst", answer.map_or(5, |c| c.map_or(100, |_| 0)));
                    }
                }
            }
            assert_eq!(numbers, expected);
        }
    }
    seen.report(
        "bursts through the safe crate, and their keys",
        &[("burst", &[0, 2, 3]), ("key of a burst", &[0, 100, 5])],
    );
}

// A table that owns its areas: what it holds, and nothing else, also after removals.
fn bursts_of_a_safe_table(width: u64) {
    let mut random = Random::new(109);
    let tables = tables(width);
    for round in 0..40 {
        let hash_table = &tables[round % tables.len()];
        let mut table = Table::new(Settings::new(6, 3, 2, 4, 128, 8, width).unwrap());
        let mut list: Vec<Record> = Vec::new();
        for n in 0..=MOST_KEYS {
            let key = random_key(&mut random, width);
            let class = random_class(&mut random);
            if table.add(&key, class).is_ok() {
                list.push(Record { key, class });
            }
            if n % 5 == 4 && !list.is_empty() {
                let i = random.between(0, list.len() as u64 - 1) as usize;
                if table.remove(&list[i].key).is_ok() {
                    list.remove(i);
                }
            }
            let keys = random_keys(&mut random, width, &list, n);
            let mut numbers: Vec<u64> = (0..n + 1).map(before).collect();
            let refused = table.search_burst(hash_table, &keys.concat(), &mut numbers);
            assert_eq!(refused.err(), Some(Refusal::KeyLength));
            assert!((0..n + 1).all(|i| numbers[i] == before(i)));
            let answers = table
                .search_burst(hash_table, &keys.concat(), &mut numbers[..n])
                .unwrap();
            let expected = keys
                .iter()
                .map(|key| Ok(list.iter().find(|r| r.key == *key).map(|r| r.class)));
            assert!(answers.eq(expected));
            assert_eq!(numbers[n], before(n));
        }
    }
}

at_both_widths!(
    bursts_on_layouts,
    large_bursts,
    bursts_on_damaged_areas,
    bursts_with_wrong_lengths_and_settings,
    each_wrong_length,
    each_setting_out_of_range,
    tables_of_any_contents,
    safe_wrappers,
    bursts_of_a_safe_table,
);
