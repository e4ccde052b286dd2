//! The doors that write against the model, at both widths: lists of calls with all five areas compared after every call, areas that no call left behind,
//! damaged ledgers, wrong lengths and settings, and lists that end with the same flows.

use flow::{doors, KeyHasher, Refusal, Table, Tally};
use model::calls::{perform, Call};
use model::card::Card;
use model::layout::{layout, placing, Areas};
use model::ledger::{list_of, Ledger};
use model::lookup as paper;
use model::records::{counted_area, Key, Record};
use model::settings::Settings as Model;
use std::collections::BTreeMap;
use testing::at_both_widths;
use testing::lending::{assert_areas, door, kind};
use testing::made::{
    damage_ledger, each_out_of_range, filled, other_width, random_areas, random_bytes,
    random_class, random_key, random_list, random_work, resize, small_card, spoiled, wrong_key,
    wrong_length,
};
use testing::random::Random;
use testing::seen::{Halves, Seen};
use testing::widths::{settings_of, tables};

const LISTS: u64 = 4_000;
const CALLS_OF_A_LIST: u64 = 200;
const LISTS_THROUGH_TABLE: u64 = 200;
const PAIRS: u64 = 2_000;
const ON_FOREIGN_AREAS: u64 = 20_000;
const ON_DAMAGED_LEDGERS: u64 = 30_000;
const ON_WRONG_LENGTHS: u64 = 30_000;
const _: () = assert!(LISTS >= 2_000 && CALLS_OF_A_LIST >= 200 && PAIRS >= 1_000);

// What a list of calls goes by.
struct Mix {
    width: u64,
    keys: Vec<Key>,
    // of a hundred updates so many are adds
    adds: u64,
}

impl Mix {
    fn of(random: &mut Random, width: u64, keys: Vec<Key>) -> Mix {
        let adds = [30, 50, 60, 70, 85][random.between(0, 4) as usize];
        Mix { width, keys, adds }
    }

    // About as many keys as the table holds.
    fn new(random: &mut Random, card: &Card) -> Mix {
        let most = (card.settings.n + 6).min(2 * card.settings.m()).min(150);
        let count = random.between(2, most.max(2));
        let width = card.settings.width;
        let keys = (0..count).map(|_| random_key(random, width)).collect();
        Mix::of(random, width, keys)
    }

    // One of the keys, or another, or one of a wrong length.
    fn key(&self, random: &mut Random) -> Vec<u8> {
        let key = &self.keys[random.between(0, self.keys.len() as u64 - 1) as usize];
        match random.between(0, 49) {
            0 => random_key(random, self.width),
            1 => wrong_key(random, key, self.width),
            _ => key.clone(),
        }
    }

    fn update(&self, random: &mut Random) -> Call {
        let key = self.key(random);
        let class = random_class(random);
        match random.between(0, 99) {
            way if way < self.adds => Call::Add(key, class),
            way if way < self.adds + 6 => Call::Change(key, class),
            99 if random.between(0, 1) == 0 => Call::Clear,
            _ => Call::Remove(key),
        }
    }
}

// A table as the doors have it, beside the plain ledger, which never sees an area.
struct Beside {
    card: Card,
    areas: Areas,
    ledger: Ledger,
    expected: Areas,
}

impl Beside {
    // A clear on random bytes.
    fn cleared(random: &mut Random, card: Card) -> Beside {
        let mut areas = random_areas(random, &card.settings);
        assert_eq!(door(&card.settings, &mut areas, &mut [], &Call::Clear), 0);
        let expected = layout(&card, &[]).unwrap();
        assert_areas(&areas, &expected, &card.settings, &"the first clear");
        Beside {
            card,
            areas,
            ledger: Ledger::default(),
            expected,
        }
    }

    // One update on work with any contents: the answer and all areas agree with the plain ledger.
    fn update(&mut self, random: &mut Random, call: &Call) -> u32 {
        let settings = &self.card.settings;
        let mut work = random_work(random, settings);
        let answer = door(settings, &mut self.areas, &mut work, call);
        let by_paper = self.ledger.step(&self.card, call);
        assert_eq!(answer, by_paper, "{settings:?}, {call:?}");
        if answer == 0 {
            self.expected = layout(&self.card, &self.ledger.list).unwrap();
        }
        self.compare(call);
        answer
    }

    fn compare(&self, call: &dyn std::fmt::Debug) {
        assert_areas(&self.areas, &self.expected, &self.card.settings, call);
    }

    // With no table, or with one.
    fn search(&self, table: Option<&KeyHasher>, key: &[u8]) -> u32 {
        let numbers = self.card.settings.numbers();
        let paper::Lookup {
            clipped,
            buckets,
            side,
        } = self.areas.lookup();
        let answer = match table {
            Some(table) => {
                doors::search_lent(table.entries(), numbers, clipped, buckets, side, key)
            }
            None => doors::search(numbers, clipped, buckets, side, key),
        };
        let by_paper = self.ledger.search(&self.card, key);
        assert_eq!(answer, by_paper.door(), "{:?}", self.card.settings);
        // with its counts, as the areas show them
        assert_eq!(
            paper::search(&self.card, self.areas.lookup(), key),
            by_paper
        );
        self.compare(&key);
        by_paper.number
    }

    fn tally(&self) -> u32 {
        let mut totals = [7; 4];
        let answer = doors::tally(
            self.card.settings.numbers(),
            &self.areas.ledger,
            &self.areas.clipped,
            &self.areas.buckets,
            &self.areas.side,
            &mut totals,
        );
        let paper::Totals {
            in_buckets,
            in_side,
            marked_255,
            fill,
        } = self.ledger.tally(&self.card);
        assert_eq!(
            totals.map(u64::from),
            [in_buckets, in_side, marked_255, fill]
        );
        self.compare(&"tally");
        answer
    }
}

fn lists_of_calls(width: u64) {
    let mut random = Random::new(41);
    let tables = tables(width);
    let mut seen = Seen::default();
    let (mut in_side, mut marked, mut clipped, mut most) = (0, 0, 0, 0);
    let mut halves = Halves::default();
    for _ in 0..LISTS {
        let card = small_card(&mut random, width);
        let mix = Mix::new(&mut random, &card);
        let mut beside = Beside::cleared(&mut random, card);
        for _ in 0..CALLS_OF_A_LIST {
            let way = random.between(0, 99);
            let (kind, answer) = if way < 12 {
                let key = mix.key(&mut random);
                ("search", beside.search(None, &key))
            } else if way < 24 {
                let key = mix.key(&mut random);
                let table = &tables[way as usize % tables.len()];
                ("search lent", beside.search(Some(table), &key))
            } else if way < 28 {
                halves.note(beside.ledger.list.len() as u64, beside.card.settings.m());
                ("tally", beside.tally())
            } else {
                let call = mix.update(&mut random);
                (kind(&call), beside.update(&mut random, &call))
            };
            seen.note(kind, answer);
        }
        let settings = &beside.card.settings;
        let places = placing(&beside.card, &beside.ledger.list);
        in_side += places.side_need();
        marked += (0..settings.m())
            .filter(|&b| places.mark(settings, b) == 255)
            .count();
        clipped += places
            .true_counts
            .iter()
            .filter(|c| c.0 > settings.t)
            .count();
        most = most.max(beside.ledger.list.len());
    }
    seen.report(
        &format!("calls in {LISTS} lists"),
        &[
            ("clear", &[0]),
            ("add", &[0, 3, 6, 8, 9]),
            ("change", &[0, 3, 7]),
            ("remove", &[0, 3, 7, 9]),
            ("search", &[0, 3, 100]),
            ("search lent", &[0, 3, 100]),
            ("tally", &[0]),
        ],
    );
    println!(
        "at the lists' ends {in_side} records in side stores, {marked} buckets marked 255, {clipped} counters clipped below the true \
         count, at most {most} flows"
    );
    halves.report();
    assert_eq!(seen.total(), LISTS * CALLS_OF_A_LIST);
    assert!(in_side > 0 && marked > 0 && clipped > 0);
}

// The card's largest settings, near and at the capacity.
fn calls_on_a_large_table(width: u64) {
    let mut random = Random::new(42);
    let mut seen = Seen::default();
    let card = Card::new(Model::of([12, 3, 4, 15, 4096, 64, width]));
    let (list, expected) = filled(&mut random, &card, 4090);
    assert!(list.len() > 4000);
    let keys = list.iter().map(|r| r.key.clone()).collect();
    let mix = Mix::of(&mut random, width, keys);
    let mut beside = Beside {
        card,
        areas: expected.clone(),
        ledger: Ledger { list },
        expected,
    };
    for i in 0..200 {
        let call = match i {
            0..=99 => Call::Add(random_key(&mut random, width), random_class(&mut random)),
            _ => mix.update(&mut random),
        };
        seen.note(kind(&call), beside.update(&mut random, &call));
    }
    seen.report("updates of a large table", &[("add", &[0, 8])]);
}

// One update on areas as they stand. The model and the door agree in the answer and in all areas; refused, nothing is altered but work.
fn update_as_they_stand(card: &Card, areas: &Areas, work: &mut [u16], call: &Call) -> (u32, Areas) {
    let mut expected = areas.clone();
    let by_paper = perform(card, &mut expected, work.len(), call);
    let mut after = areas.clone();
    let answer = door(&card.settings, &mut after, work, call);
    assert_eq!(answer, by_paper, "{:?}, {call:?}", card.settings);
    assert!(answer == 0 || expected == *areas);
    assert_areas(&after, &expected, &card.settings, call);
    (answer, after)
}

// Areas that no call left behind: a valid ledger, also one whose list has no layout, beside random bytes. An accepted update repairs all
// from the ledger alone.
fn updates_on_foreign_areas(width: u64) {
    let mut random = Random::new(43);
    let mut seen = Seen::default();
    let (mut no_layout, mut repaired) = (0, 0);
    while seen.total() < ON_FOREIGN_AREAS {
        let card = small_card(&mut random, width);
        let settings = card.settings;
        let most = settings.n.min(2 * settings.m()).min(300);
        let count = match random.between(0, 2) {
            0 => most,
            _ => random.between(0, most),
        };
        let list = random_list(&mut random, width, count);
        let mut areas = random_areas(&mut random, &settings);
        areas.ledger = counted_area(&list, settings.record_bytes(), settings.n);
        if placing(&card, &list).side_need() > settings.s {
            no_layout += 1;
        }
        let mut keys: Vec<Key> = list.iter().map(|r| r.key.clone()).collect();
        keys.push(random_key(&mut random, width));
        let mix = Mix::of(&mut random, width, keys);
        for _ in 0..6 {
            let call = mix.update(&mut random);
            let mut work = random_work(&mut random, &settings);
            let (answer, after) = update_as_they_stand(&card, &areas, &mut work, &call);
            seen.note(kind(&call), answer);
            if answer == 0 {
                // the same bytes from the same ledger beside others
                let mut others = random_areas(&mut random, &settings);
                others.ledger = areas.ledger.clone();
                let mut work = random_work(&mut random, &settings);
                assert_eq!(door(&settings, &mut others, &mut work, &call), 0);
                assert_areas(&others, &after, &settings, &call);
                repaired += 1;
            }
        }
    }
    seen.report(
        "updates on foreign areas",
        &[
            ("add", &[0, 3, 6, 8, 9]),
            ("change", &[0, 3, 7, 9]),
            ("remove", &[0, 3, 7, 9]),
        ],
    );
    println!("{no_layout} ledgers whose list has no layout; {repaired} updates repaired all areas");
    assert!(no_layout > 0 && repaired > 0);
}

// A single fault of a ledger that is right otherwise, by its kind.
fn fault(random: &mut Random, settings: &Model, ledger: &mut [u8]) -> Option<&'static str> {
    let n = list_of(settings, ledger).len();
    let (key_bytes, record) = (settings.key_bytes(), settings.record_bytes());
    let end = 2 + record * n;
    match random.between(0, 3) {
        0 => {
            let count = settings.n + random.between(1, 65535 - settings.n);
            ledger[0] = (count / 256) as u8;
            ledger[1] = (count % 256) as u8;
            Some("count above N")
        }
        1 if n > 1 => {
            let at = 2 + record * random.between(0, n as u64 - 2) as usize;
            let (first, second) = ledger[at..at + 2 * record].split_at_mut(record);
            first.swap_with_slice(second);
            Some("falling keys")
        }
        2 if n > 1 => {
            let at = 2 + record * random.between(0, n as u64 - 2) as usize;
            ledger.copy_within(at..at + key_bytes, at + record);
            Some("equal keys")
        }
        3 if end < ledger.len() => {
            let at = match random.between(0, 2) {
                0 => end as u64,
                1 => ledger.len() as u64 - 1,
                _ => random.between(end as u64, ledger.len() as u64 - 1),
            };
            ledger[at as usize] = random.between(1, 255) as u8;
            Some("byte after the last record")
        }
        _ => None,
    }
}

fn updates_on_damaged_ledgers(width: u64) {
    let mut random = Random::new(44);
    let mut seen = Seen::default();
    let mut faults = BTreeMap::new();
    while seen.total() < ON_DAMAGED_LEDGERS {
        let card = small_card(&mut random, width);
        let settings = card.settings;
        let count = random.between(0, settings.n.min(100));
        let (list, right) = filled(&mut random, &card, count);
        let mut keys: Vec<Key> = list.iter().map(|r| r.key.clone()).collect();
        keys.push(random_key(&mut random, width));
        let mix = Mix::of(&mut random, width, keys);
        for i in 0..16 {
            let mut areas = right.clone();
            let single = if i % 2 == 0 {
                fault(&mut random, &settings, &mut areas.ledger)
            } else {
                damage_ledger(&mut random, &card, &mut areas.ledger);
                None
            };
            let call = mix.update(&mut random);
            let mut work = random_work(&mut random, &settings);
            let (answer, _) = update_as_they_stand(&card, &areas, &mut work, &call);
            seen.note(kind(&call), answer);
            if let (Some(fault), Some(key)) = (single, call.key()) {
                assert_eq!(
                    answer,
                    if key.len() as u64 == width { 4 } else { 3 },
                    "{fault}"
                );
                *faults.entry((fault, kind(&call))).or_insert(0) += 1;
            }
        }
    }
    seen.report(
        "updates on damaged ledgers",
        &[
            ("clear", &[0]),
            ("add", &[0, 3, 4]),
            ("change", &[3, 4]),
            ("remove", &[3, 4]),
        ],
    );
    println!("single faults: {faults:?}");
    assert_eq!(faults.len(), 4 * 3);
}

// Some of: settings out of range, areas of wrong lengths, work of a wrong length, a key of a wrong length, a damaged ledger. The lowest that
// applies is given.
fn updates_with_wrong_lengths_and_settings(width: u64) {
    let mut random = Random::new(45);
    let mut seen = Seen::default();
    while seen.total() < ON_WRONG_LENGTHS {
        let card = small_card(&mut random, width);
        let count = random.between(0, card.settings.n.min(100));
        let (list, right) = filled(&mut random, &card, count);
        let mut keys: Vec<Key> = list.iter().map(|r| r.key.clone()).collect();
        keys.push(random_key(&mut random, width));
        let mix = Mix::of(&mut random, width, keys);
        for _ in 0..16 {
            let mut areas = right.clone();
            let mut work = random_work(&mut random, &card.settings);
            let mut settings = card.settings;
            if random.between(0, 3) == 0 {
                damage_ledger(&mut random, &card, &mut areas.ledger);
            }
            let Areas {
                ledger,
                clipped,
                buckets,
                side,
                ..
            } = &mut areas;
            for area in [ledger, clipped, buckets, side] {
                if random.between(0, 9) == 0 {
                    area.resize(wrong_length(&mut random, area.len()), 0);
                }
            }
            for area in [&mut areas.true_counts, &mut work] {
                if random.between(0, 9) == 0 {
                    area.resize(wrong_length(&mut random, area.len()), 0);
                }
            }
            if random.between(0, 3) == 0 {
                settings = spoiled(&mut random, settings);
            }
            let call = match random.between(0, 3) {
                0 => Call::Clear,
                _ => mix.update(&mut random),
            };
            let card = Card::new(settings);
            let (answer, _) = update_as_they_stand(&card, &areas, &mut work, &call);
            seen.note(kind(&call), answer);
        }
    }
    seen.report(
        "updates with wrong lengths and settings",
        &[
            ("clear", &[0, 1, 2]),
            ("add", &[0, 1, 2, 3, 4]),
            ("change", &[0, 1, 2, 3, 4]),
            ("remove", &[0, 1, 2, 3, 4]),
        ],
    );
}

// Each area by itself of each of some wrong lengths, and each setting by itself out of range, on calls that are right otherwise.
fn each_wrong_length_and_setting(width: u64) {
    let mut random = Random::new(46);
    let (mut lengths_wrong, mut settings_wrong) = (0, 0);
    for _ in 0..100 {
        let card = small_card(&mut random, width);
        let count = card.settings.n.min(20);
        let (list, right) = filled(&mut random, &card, count);
        let held = match list.first() {
            Some(record) => record.key.clone(),
            None => random_key(&mut random, width),
        };
        let other = random_bytes(&mut random, width);
        let calls = [
            Call::Clear,
            Call::Add(other, 7),
            Call::Change(held.clone(), 7),
            Call::Remove(held),
        ];
        for call in &calls {
            for area in 0..if *call == Call::Clear { 5 } else { 6 } {
                let mut areas = right.clone();
                let mut work = random_work(&mut random, &card.settings);
                match area {
                    0 => resize(&mut random, &mut areas.ledger),
                    1 => resize(&mut random, &mut areas.true_counts),
                    2 => resize(&mut random, &mut areas.clipped),
                    3 => resize(&mut random, &mut areas.buckets),
                    4 => resize(&mut random, &mut areas.side),
                    _ => resize(&mut random, &mut work),
                }
                let (answer, _) = update_as_they_stand(&card, &areas, &mut work, call);
                assert_eq!(answer, 2, "area {area}, {call:?}");
                lengths_wrong += 1;
            }
            for (i, settings) in each_out_of_range(&card.settings) {
                let card = Card::new(settings);
                let mut work = vec![7; 32];
                let (answer, _) = update_as_they_stand(&card, &right, &mut work, call);
                assert_eq!(answer, 1, "setting {i}: {settings:?}, {call:?}");
                settings_wrong += 1;
            }
            // under the other width the areas that hold records are no longer of their lengths
            let mut settings = card.settings;
            settings.width = other_width(width);
            let mut work = random_work(&mut random, &settings);
            let (answer, _) = update_as_they_stand(&Card::new(settings), &right, &mut work, call);
            assert_eq!(answer, 2, "{settings:?}, {call:?}");
            // and on areas of its lengths a key of this width is refused
            let mut areas = layout(&Card::new(settings), &[]).unwrap();
            let answer = door(&settings, &mut areas, &mut work, call);
            assert_eq!(answer, if *call == Call::Clear { 0 } else { 3 });
        }
    }
    println!("2 for {lengths_wrong} wrong lengths, 1 for {settings_wrong} settings out of range");
}

// Calls through the doors alone; which flows are held is read from the ledger area.
struct Alone<'a> {
    card: &'a Card,
    areas: Areas,
    accepted: u64,
}

impl Alone<'_> {
    fn cleared<'a>(random: &mut Random, card: &'a Card) -> Alone<'a> {
        let mut areas = random_areas(random, &card.settings);
        assert_eq!(door(&card.settings, &mut areas, &mut [], &Call::Clear), 0);
        Alone {
            card,
            areas,
            accepted: 0,
        }
    }

    fn call(&mut self, random: &mut Random, call: &Call) {
        let mut work = random_work(random, &self.card.settings);
        if door(&self.card.settings, &mut self.areas, &mut work, call) == 0 {
            self.accepted += 1;
        }
    }

    fn list(&self) -> Vec<Record> {
        list_of(&self.card.settings, &self.areas.ledger)
    }

    // Calls in random order that lead to these flows, as long as one is accepted.
    fn lead_to(&mut self, random: &mut Random, flows: &[Record]) -> bool {
        loop {
            let now = self.list();
            if now == flows {
                return true;
            }
            let mut calls = Vec::new();
            for r in flows {
                match now.iter().find(|other| other.key == r.key) {
                    None => calls.push(Call::Add(r.key.clone(), r.class)),
                    Some(other) if other.class != r.class => {
                        calls.push(Call::Change(r.key.clone(), r.class))
                    }
                    Some(_) => {}
                }
            }
            for r in &now {
                if !flows.iter().any(|other| other.key == r.key) {
                    calls.push(Call::Remove(r.key.clone()));
                }
            }
            for i in (1..calls.len()).rev() {
                calls.swap(i, random.between(0, i as u64) as usize);
            }
            let before = self.accepted;
            for call in &calls {
                self.call(random, call);
            }
            if self.accepted == before {
                return false;
            }
        }
    }
}

// Two different lists of calls that end with the same flows leave the same bytes in all five areas.
fn same_flows_same_bytes(width: u64) {
    let mut random = Random::new(47);
    let (mut pairs, mut stuck, mut flows, mut in_side, mut moved) = (0, 0, 0, 0, 0);
    while pairs < PAIRS {
        let card = small_card(&mut random, width);
        let mix = Mix::new(&mut random, &card);
        let mut one = Alone::cleared(&mut random, &card);
        for _ in 0..random.between(1, 80) {
            let call = mix.update(&mut random);
            one.call(&mut random, &call);
        }
        let list = one.list();
        // another list: other calls first, then whatever leads to the same flows
        let mut other = Alone::cleared(&mut random, &card);
        for _ in 0..random.between(1, 80) {
            let call = mix.update(&mut random);
            other.call(&mut random, &call);
        }
        if !other.lead_to(&mut random, &list) {
            stuck += 1;
            continue;
        }
        assert_areas(&other.areas, &one.areas, &card.settings, &list);
        // and a third: adds alone, in random order
        let mut third = Alone::cleared(&mut random, &card);
        if third.lead_to(&mut random, &list) {
            assert_areas(&third.areas, &one.areas, &card.settings, &list);
        }
        pairs += 1;
        flows += list.len();
        in_side += placing(&card, &list).side_need();
        if other.accepted > list.len() as u64 {
            moved += 1;
        }
    }
    println!(
        "{pairs} pairs with {flows} flows at their ends, {in_side} in side stores; {moved} with accepted calls beyond one for each flow; \
         {stuck} more did not come to the same flows"
    );
    assert!(in_side > 0 && moved > PAIRS / 2);
}

// The safe table hands on what the doors say, and owns the areas that they leave.
fn safe_table(width: u64) {
    let mut random = Random::new(48);
    let tables = tables(width);
    let mut seen = Seen::default();
    for _ in 0..LISTS_THROUGH_TABLE {
        let card = small_card(&mut random, width);
        let settings = settings_of(&card.settings);
        let mix = Mix::new(&mut random, &card);
        let mut table = Table::new(settings);
        assert_eq!(*table.settings(), settings);
        let mut ledger = Ledger::default();
        for _ in 0..CALLS_OF_A_LIST {
            let call = mix.update(&mut random);
            let answer = match &call {
                Call::Clear => {
                    table.clear();
                    Ok(())
                }
                Call::Add(key, class) => table.add(key, *class),
                Call::Change(key, class) => table.change(key, *class),
                Call::Remove(key) => table.remove(key),
            };
            let by_paper = ledger.step(&card, &call);
            assert_eq!(answer.err(), Refusal::from_number(by_paper));
            seen.note(kind(&call), by_paper);
            let expected = layout(&card, &ledger.list).unwrap();
            let areas = table.areas();
            assert!(areas.ledger == expected.ledger);
            assert!(areas.true_counts == expected.true_counts);
            assert!(areas.clipped_counts == expected.clipped);
            assert!(areas.buckets == expected.buckets);
            assert!(areas.side_store == expected.side);
            let key = mix.key(&mut random);
            let answer = ledger.search(&card, &key);
            let found = match answer.number {
                0 => Ok(Some(answer.class)),
                100 => Ok(None),
                number => Err(Refusal::from_number(number).unwrap()),
            };
            assert_eq!(table.search(&key), found);
            for hash_table in &tables {
                assert_eq!(table.search_lent(hash_table, &key), found);
            }
        }
        let totals = ledger.tally(&card);
        assert_eq!(
            table.tally(),
            Tally {
                in_buckets: totals.in_buckets as u32,
                in_side_store: totals.in_side as u32,
                marked_255: totals.marked_255 as u32,
                fill: totals.fill as u32,
            }
        );
    }
    seen.report(
        "calls of safe tables",
        &[
            ("clear", &[0]),
            ("add", &[0, 3, 6, 8, 9]),
            ("change", &[0, 3, 7]),
            ("remove", &[0, 3, 7, 9]),
        ],
    );
}

at_both_widths!(
    lists_of_calls,
    calls_on_a_large_table,
    updates_on_foreign_areas,
    updates_on_damaged_ledgers,
    updates_with_wrong_lengths_and_settings,
    each_wrong_length_and_setting,
    same_flows_same_bytes,
    safe_table,
);
