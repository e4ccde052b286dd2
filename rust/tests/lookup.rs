//! Both search doors and tally against the model, at both widths and with every hash table: on layouts that the model makes, on damaged areas, on wrong lengths and settings. The listing of
//! source document 001 is compared with them in every search: the doors' number, and the model's whole answer.

use flow::{doors, KeyHasher, LookupAreas, Refusal, Store, Tally};
use model::card::Card;
use model::layout::{layout, Areas};
use model::ledger::Ledger;
use model::listing::{self, Counter};
use model::lookup::{self as paper, Answer, Lookup, Part, Place};
use model::records::{Key, Record};
use model::settings::Settings as Model;
use testing::at_both_widths;
use testing::made::{
    anywhere, damage_ledger, damage_lookup, each_out_of_range, filled, other_width, random_card,
    random_key, random_table, set_count, spoiled, turn_a_bit, wrong_length, wrong_search,
    wrong_table_lengths,
};
use testing::random::Random;
use testing::seen::{Halves, Seen};
use testing::widths::{settings_of, tables};

// Searches of each test at each width, each through both doors and by the listing.
const ON_LAYOUTS: u64 = 400_000;
const ON_LARGE_LAYOUTS: u64 = 100_000;
const ON_DAMAGED_AREAS: u64 = 700_000;
const ON_WRONG_LENGTHS: u64 = 100_000;
const BY_LOCALITY: u64 = 100_000;
const _: () = assert!(ON_LAYOUTS + ON_LARGE_LAYOUTS + ON_DAMAGED_AREAS >= 1_000_000);

// Tallies of a test.
const TALLIES: u64 = 60_000;

// What a test calls the doors with.
struct Doors {
    tables: Vec<KeyHasher>,
    seen: Seen,
    places: Seen,
    cases: Seen,
}

impl Doors {
    fn new(width: u64) -> Doors {
        Doors {
            tables: tables(width),
            seen: Seen::default(),
            places: Seen::default(),
            cases: Seen::default(),
        }
    }

    // A search through both doors, by the listing, and through the door that gives the record's place; they agree with the model.
    fn search(&mut self, card: &Card, areas: Lookup, key: &[u8]) -> Answer {
        let expected = paper::search(card, areas, key);
        let numbers = card.settings.numbers();
        let Lookup {
            clipped,
            buckets,
            side,
        } = areas;
        let whole = doors::search(numbers, clipped, buckets, side, key);
        assert_eq!(whole, expected.door(), "{:?} {key:?}", card.settings);
        for table in &self.tables {
            let table = table.entries();
            let lent = doors::search_lent(table, numbers, clipped, buckets, side, key);
            assert_eq!(
                lent,
                paper::search_lent(card, table.len(), areas, key).door(),
                "{} entries: {:?} {key:?}",
                table.len(),
                card.settings
            );
        }
        let listed = listing::search_item(card, areas, key);
        assert_eq!(
            (listed.door(), listed),
            (whole, expected),
            "the listing: {:?} {key:?}",
            card.settings
        );
        self.seen.note("search", expected.number);
        note_cases(&mut self.cases, card, areas, key, expected.number);
        self.search_place(card, areas, key, 2);
        expected
    }

    // A search with so many numbers for the record's place: the door agrees with the model, and where the flow is held its record lies there.
    fn search_place(&mut self, card: &Card, areas: Lookup, key: &[u8], numbers: usize) -> Answer {
        let mut place: Vec<u64> = (0..numbers as u64).map(|i| u64::MAX - i).collect();
        let mut by_paper = place.clone();
        let expected = paper::search_place(card, areas, key, &mut by_paper);
        let Lookup {
            clipped,
            buckets,
            side,
        } = areas;
        let settings = card.settings.numbers();
        let found = doors::search_place(settings, clipped, buckets, side, key, &mut place);
        assert_eq!(
            (found, &place),
            (expected.door(), &by_paper),
            "{settings:?} {key:?}"
        );
        if expected.number == 0 {
            let area = if place[0] == 1 { buckets } else { side };
            let record = &area[place[1] as usize..][..card.settings.record_bytes()];
            let (its_key, its_class) = record.split_at(key.len());
            assert_eq!(its_key, key);
            assert_eq!(its_class, expected.class.to_be_bytes());
        }
        self.places.note("place", expected.number);
        expected
    }

    // A tally; the door agrees with the model, and on a refusal the totals stay.
    fn tally(&mut self, card: &Card, ledger: &[u8], areas: Lookup) -> Result<paper::Totals, u32> {
        const BEFORE: [u32; 4] = [91, 92, 93, 94];
        let mut totals = BEFORE;
        let answer = doors::tally(
            card.settings.numbers(),
            ledger,
            areas.clipped,
            areas.buckets,
            areas.side,
            &mut totals,
        );
        let expected = paper::tally(card, ledger, areas);
        match expected {
            Ok(numbers) => {
                let paper::Totals {
                    in_buckets,
                    in_side,
                    marked_255,
                    fill,
                } = numbers;
                assert_eq!(answer, 0, "{:?}", card.settings);
                assert_eq!(
                    totals.map(u64::from),
                    [in_buckets, in_side, marked_255, fill],
                    "{:?}",
                    card.settings
                );
            }
            Err(number) => {
                assert_eq!((answer, totals), (number, BEFORE), "{:?}", card.settings);
            }
        }
        self.seen.note("tally", answer);
        expected
    }
}

// What a search not refused at once meets on its way through the listing: one of seven cases, and perhaps repeated hashes or a tie.
fn note_cases(cases: &mut Seen, card: &Card, areas: Lookup, key: &[u8], answer: u32) {
    if [1, 2, 3].contains(&answer) {
        return;
    }
    let Model { b, t, .. } = card.settings;
    let counters = listing::counters(card, areas, key);
    let first_with = |i: u64| counters.iter().position(|counter| counter.i == i);
    if (0..counters.len()).any(|j| first_with(counters[j].i) != Some(j)) {
        cases.note("repeated hashes", answer);
    }
    let c_min = least(&counters);
    let above = counters.iter().any(|counter| counter.c > t);
    if above || c_min == 0 || c_min == t {
        let case = match c_min {
            0 if above => "a counter above T, another zero",
            _ if above => "a counter above T, none zero",
            0 => "a least of zero",
            _ => "a least of T",
        };
        cases.note(case, answer);
        return;
    }
    let i = listing::smallest_index_of(c_min, &counters);
    match u64::from(areas.buckets[i as usize * card.bucket_bytes()]) {
        255 => cases.note("mark 255", answer),
        mark if mark > b => cases.note("mark above B", answer),
        _ => cases.note("mark of at most B", answer),
    }
    let mut least = counters.iter().filter(|counter| counter.c == c_min);
    let first = least.next().unwrap().i;
    if first > i {
        cases.note("tie, the smallest index not first", answer);
    } else if least.any(|counter| counter.i > i) {
        cases.note("tie, the smallest index first", answer);
    }
}

// The cases that layouts have, with their answers.
const CASES_ON_LAYOUTS: [(&str, &[u32]); 6] = [
    ("repeated hashes", &[0, 100]),
    ("a least of zero", &[100]),
    ("a least of T", &[0, 100]),
    ("mark 255", &[0, 100]),
    ("mark of at most B", &[0, 100]),
    ("tie, the smallest index not first", &[0, 100]),
];

// Those that areas with any contents have. 5 for a least of T or a mark 255 is a side count above S.
const CASES: [(&str, &[u32]); 9] = [
    ("repeated hashes", &[0, 100, 5]),
    ("a counter above T, another zero", &[5]),
    ("a counter above T, none zero", &[5]),
    ("a least of zero", &[100]),
    ("a least of T", &[0, 100, 5]),
    ("mark 255", &[0, 100, 5]),
    ("mark above B", &[5]),
    ("mark of at most B", &[0, 100]),
    ("tie, the smallest index not first", &[0, 100, 5]),
];

fn least(counters: &[Counter]) -> u64 {
    counters.iter().map(|counter| counter.c).min().unwrap()
}

// Figure 2 and section 2.1.1 of source document 001, as far as the text has their numbers, with the hashes in every order.
#[test]
fn published_choices() {
    let chosen = |item: [(u64, u64); 3]| {
        let orders = [
            [0, 1, 2],
            [0, 2, 1],
            [1, 0, 2],
            [1, 2, 0],
            [2, 0, 1],
            [2, 1, 0],
        ];
        let by_order = orders.map(|order| {
            let counters = order.map(|j| item[j]).map(|(i, c)| Counter { i, c });
            listing::smallest_index_of(least(&counters), &counters)
        });
        assert_eq!(by_order, [by_order[0]; 6], "{item:?}");
        by_order[0]
    };
    // "the item y maps to the lists {X^3, X^6, X^11} with counter values {3, 2, 1}"; "we need to access only the list X^11"
    assert_eq!(chosen([(3, 3), (6, 2), (11, 1)]), 11);
    // a new item shares bucket 11, whose counter becomes 2: "the minimum counter value bucket with smallest index associated with y is no longer the 11 but
    // now it is 6"
    assert_eq!(chosen([(3, 3), (6, 2), (11, 2)]), 6);
    // "item x has two bucket counters set to 2, which is also the smallest value. In this case, we always access the bucket X^1": the text does not have
    // the other two buckets of x, nor its third counter
    for second in 2..=16 {
        for third in (2..=16).filter(|&third| third != second) {
            assert_eq!(chosen([(1, 2), (second, 2), (third, 3)]), 1);
            assert_eq!(chosen([(1, 2), (second, 2), (third, 4)]), 1);
        }
    }
}

// Where the searches on layouts came.
#[derive(Debug, Default)]
struct Places {
    nowhere: u64,
    records_of_a_bucket: u64,
    empty_bucket: u64,
    side_by_counters: u64,
    side_by_mark: u64,
}

impl Places {
    fn note(&mut self, place: Place) {
        *match place {
            Place::Damaged => panic!("a layout is not damaged"),
            Place::Nowhere => &mut self.nowhere,
            Place::Bucket { records: 0, .. } => &mut self.empty_bucket,
            Place::Bucket { .. } => &mut self.records_of_a_bucket,
            Place::SideByCounters { .. } => &mut self.side_by_counters,
            Place::SideByMark { .. } => &mut self.side_by_mark,
        } += 1;
    }
}

// Every held key is found with its class, and the plain ledger agrees with the areas.
fn search_layout(
    doors: &mut Doors,
    places: &mut Places,
    card: &Card,
    list: &[Record],
    areas: &Areas,
    absent: &[Key],
) {
    for record in list {
        let answer = doors.search(card, areas.lookup(), &record.key);
        assert_eq!((answer.number, answer.class), (0, record.class));
        assert!(answer.buckets_read <= 1);
        places.note(paper::place(card, areas.lookup(), &record.key));
        let part = match paper::second_search(card, areas.lookup(), &record.key) {
            Part::Empty => panic!("{record:?} is held"),
            Part::OfBuckets { bytes, .. } | Part::OfSide { bytes, .. } => bytes,
        };
        assert_eq!(part, record.bytes());
    }
    for key in absent {
        let held = list.iter().find(|r| r.key == *key);
        let answer = doors.search(card, areas.lookup(), key);
        assert_eq!(
            (answer.number, answer.class),
            held.map_or((100, 0), |r| (0, r.class))
        );
        places.note(paper::place(card, areas.lookup(), key));
    }
}

fn searches_on_layouts(width: u64) {
    let mut random = Random::new(11);
    let mut doors = Doors::new(width);
    let mut places = Places::default();
    let mut clipped_below_true = 0;
    let mut tables = 0;
    while doors.seen.total() < ON_LAYOUTS {
        let card = random_card(&mut random, width);
        let (list, areas) = random_table(&mut random, &card);
        clipped_below_true += areas
            .true_counts
            .iter()
            .filter(|&&count| u64::from(count) > card.settings.t)
            .count();
        // absent keys: random ones, and held ones with a bit turned
        let mut absent: Vec<Key> = (0..20).map(|_| random_key(&mut random, width)).collect();
        for record in list.iter().take(10) {
            let mut key = record.key.clone();
            turn_a_bit(&mut random, &mut key);
            absent.push(key);
        }
        search_layout(&mut doors, &mut places, &card, &list, &areas, &absent);
        tables += 1;
    }
    doors
        .seen
        .report("searches on layouts", &[("search", &[0, 100])]);
    doors
        .places
        .report("records' places on layouts", &[("place", &[0, 100])]);
    doors
        .cases
        .report("cases of the listing on layouts", &CASES_ON_LAYOUTS);
    println!(
        "{tables} tables, {clipped_below_true} counters clipped below the true count, {places:?}"
    );
    assert!(clipped_below_true > 0);
    assert!(places.nowhere > 0 && places.records_of_a_bucket > 0 && places.empty_bucket > 0);
    assert!(places.side_by_counters > 0 && places.side_by_mark > 0);
}

// The card's largest settings, and random large ones.
fn searches_on_large_layouts(width: u64) {
    let mut random = Random::new(12);
    let mut doors = Doors::new(width);
    let mut places = Places::default();
    let mut largest = 0;
    let mut card = Card::new(Model::of([12, 3, 4, 15, 4096, 64, width]));
    while doors.seen.total() < ON_LARGE_LAYOUTS {
        let (list, areas) = filled(&mut random, &card, 4000.min(card.settings.n));
        let absent: Vec<Key> = (0..4000).map(|_| random_key(&mut random, width)).collect();
        search_layout(&mut doors, &mut places, &card, &list, &areas, &absent);
        largest = largest.max(list.len());
        let p = random.between(9, 12);
        card = Card::new(Model {
            p,
            ..anywhere(&mut random, width)
        });
    }
    doors
        .seen
        .report("searches on large layouts", &[("search", &[0, 100])]);
    doors
        .cases
        .report("cases of the listing on large layouts", &CASES_ON_LAYOUTS);
    println!("at most {largest} flows, {places:?}");
    assert_eq!(largest, 4000);
}

fn searches_on_damaged_areas(width: u64) {
    let mut random = Random::new(13);
    let mut doors = Doors::new(width);
    let (mut held_of_side, mut held_of_buckets) = (0, 0);
    while doors.seen.total() < ON_DAMAGED_AREAS {
        let card = random_card(&mut random, width);
        let (list, areas) = random_table(&mut random, &card);
        let mut keys: Vec<Key> = list.iter().take(40).map(|r| r.key.clone()).collect();
        keys.extend((0..20).map(|_| random_key(&mut random, width)));
        for _ in 0..4 {
            let mut areas = areas.clone();
            let some = random.between(0, keys.len() as u64 - 4) as usize;
            damage_lookup(&mut random, &card, &mut areas, &keys[some..some + 4]);
            for key in &keys {
                doors.search(&card, areas.lookup(), key);
                match paper::second_search(&card, areas.lookup(), key) {
                    Part::Empty => {}
                    Part::OfBuckets { .. } => held_of_buckets += 1,
                    Part::OfSide { .. } => held_of_side += 1,
                }
            }
        }
    }
    doors
        .seen
        .report("searches on damaged areas", &[("search", &[0, 100, 5])]);
    doors.places.report(
        "records' places on damaged areas",
        &[("place", &[0, 100, 5])],
    );
    doors
        .cases
        .report("cases of the listing on damaged areas", &CASES);
    println!("held: {held_of_buckets} out of the buckets, {held_of_side} out of the side store");
    assert!(held_of_buckets > 0 && held_of_side > 0);
}

// Some of: settings out of range, areas of wrong lengths, a key of a wrong length, damage. The lowest that applies is given.
fn searches_with_wrong_lengths_and_settings(width: u64) {
    let mut random = Random::new(14);
    let mut doors = Doors::new(width);
    while doors.seen.total() < ON_WRONG_LENGTHS {
        let card = random_card(&mut random, width);
        let (list, areas) = random_table(&mut random, &card);
        for _ in 0..50 {
            let (settings, areas, key) = wrong_search(&mut random, &card, &list, &areas);
            doors.search(&Card::new(settings), areas.lookup(), &key);
            let numbers = wrong_length(&mut random, 2);
            let card = Card::new(settings);
            doors.search_place(&card, areas.lookup(), &key, numbers);
        }
    }
    doors.seen.report(
        "searches, some with wrong lengths and settings",
        &[("search", &[0, 100, 1, 2, 3, 5])],
    );
    doors.places.report(
        "records' places, some with wrong lengths and settings",
        &[("place", &[0, 100, 1, 2, 3, 5])],
    );
}

// Each length by itself, and the lent table's, which is judged with the areas'.
fn each_wrong_length(width: u64) {
    let mut random = Random::new(15);
    let card = Card::new(Model::of([6, 3, 2, 4, 128, 8, width]));
    let (list, areas) = filled(&mut random, &card, 60);
    let numbers = card.settings.numbers();
    let key = &list[0].key;
    let right = [areas.clipped.len(), areas.buckets.len(), areas.side.len()];
    let mut doors = Doors::new(width);
    for i in 0..3 {
        for n in (0..=2 * right[i] + 2).filter(|&n| n != right[i]) {
            let mut lengths = right;
            lengths[i] = n;
            let mut areas = areas.clone();
            areas.clipped.resize(lengths[0], 0);
            areas.buckets.resize(lengths[1], 0);
            areas.side.resize(lengths[2], 0);
            assert_eq!(doors.search(&card, areas.lookup(), key).number, 2);
            assert_eq!(doors.search(&card, areas.lookup(), &key[1..]).number, 2);
        }
    }
    for n in (0..=80).filter(|&n| n as u64 != width) {
        let key = vec![7; n];
        assert_eq!(doors.search(&card, areas.lookup(), &key).number, 3);
    }
    // the numbers for the record's place are judged with the other lengths: after the settings, before the key
    for n in [0, 1, 3, 4, 13, 65_536] {
        for key in [&key[..], &key[1..]] {
            let found = doors.search_place(&card, areas.lookup(), key, n);
            assert_eq!(found.number, 2);
        }
        let mut spoiled = numbers;
        spoiled[3] = 16;
        let other = Card::new(Model::of(spoiled));
        let found = doors.search_place(&other, areas.lookup(), key, n);
        assert_eq!(found.number, 1);
    }
    let Lookup {
        clipped,
        buckets,
        side,
    } = areas.lookup();
    for n in wrong_table_lengths(width) {
        let other = vec![1; n];
        for key in [&key[..], &key[1..]] {
            assert_eq!(
                doors::search_lent(&other, numbers, clipped, buckets, side, key),
                2 << 32
            );
        }
        let mut spoiled = numbers;
        spoiled[3] = 16;
        assert_eq!(
            doors::search_lent(&other, spoiled, clipped, buckets, side, key),
            1 << 32
        );
    }
    for table in tables(width) {
        assert_eq!(
            doors::search_lent(table.entries(), numbers, clipped, buckets, side, key),
            u64::from(list[0].class)
        );
    }
    // the other width: its tables are no longer of its length, and neither are the areas that hold records
    let mut other = card.settings;
    other.width = other_width(width);
    for table in tables(other.width) {
        let refused = doors::search_lent(table.entries(), numbers, clipped, buckets, side, key);
        assert_eq!(refused, 2 << 32);
    }
    let other = Card::new(other);
    assert_eq!(doors.search(&other, areas.lookup(), key).number, 2);
    let (_, areas) = filled(&mut random, &other, 60);
    let mut of_other = Doors::new(other.settings.width);
    assert_eq!(of_other.search(&other, areas.lookup(), key).number, 3);
}

// Every setting at and around its limits, each by itself.
fn each_setting_out_of_range(width: u64) {
    let mut random = Random::new(16);
    let card = Card::new(Model::of([6, 3, 2, 4, 128, 8, width]));
    let (list, areas) = filled(&mut random, &card, 60);
    let mut doors = Doors::new(width);
    for (_, settings) in each_out_of_range(&card.settings) {
        let other = Card::new(settings);
        assert_eq!(doors.search(&other, areas.lookup(), &list[0].key).number, 1);
        assert_eq!(doors.search(&other, areas.lookup(), &[]).number, 1);
        let tallied = doors.tally(&other, &areas.ledger, areas.lookup());
        assert_eq!(tallied, Err(1));
    }
}

// On a lent table with other contents the search goes by the entries that it reads.
fn lent_table_of_any_contents(width: u64) {
    let mut random = Random::new(17);
    let mut seen = Seen::default();
    let rights = tables(width);
    for round in 0..400 {
        let right = rights[round % rights.len()].entries();
        let card = random_card(&mut random, width);
        let (list, mut areas) = random_table(&mut random, &card);
        damage_lookup(&mut random, &card, &mut areas, &[]);
        let mut table: Vec<u64> = right.iter().map(|_| random.number()).collect();
        if random.between(0, 1) == 0 {
            // but for one entry the right one, so that flows are found too
            let entry = random.between(0, table.len() as u64 - 1) as usize;
            table = right.to_vec();
            table[entry] = random.number();
        }
        let numbers = card.settings.numbers();
        let by_table = Card::with_table(card.settings, table.clone());
        for record in &list {
            let answer = doors::search_lent(
                &table,
                numbers,
                &areas.clipped,
                &areas.buckets,
                &areas.side,
                &record.key,
            );
            let expected = paper::search(&by_table, areas.lookup(), &record.key);
            assert_eq!(answer, expected.door());
            let listed = listing::search_item(&by_table, areas.lookup(), &record.key);
            assert_eq!(
                (listed.door(), listed),
                (answer, expected),
                "the listing: {numbers:?} {:?}",
                record.key
            );
            seen.note("search", expected.number);
        }
    }
    seen.report("searches by other tables", &[("search", &[0, 100, 5])]);
}

// At most one bucket is read: with other bytes in all other buckets the answer is the same. Where no bucket is read, in all buckets.
fn other_buckets_do_not_count(width: u64) {
    let mut random = Random::new(18);
    let mut doors = Doors::new(width);
    let (mut one, mut none) = (0, 0);
    while doors.seen.total() < BY_LOCALITY {
        let card = random_card(&mut random, width);
        let (list, mut areas) = random_table(&mut random, &card);
        let mut keys: Vec<Key> = list.iter().take(10).map(|r| r.key.clone()).collect();
        keys.extend((0..10).map(|_| random_key(&mut random, width)));
        if random.between(0, 1) == 0 {
            damage_lookup(&mut random, &card, &mut areas, &keys[..4]);
        }
        for key in &keys {
            let answer = doors.search(&card, areas.lookup(), key);
            let chosen = paper::chosen_bucket(&card, areas.lookup(), key);
            match chosen {
                Some(_) => one += 1,
                None => none += 1,
            }
            let mut other = areas.clone();
            for (b, bucket) in other.buckets.chunks_mut(card.bucket_bytes()).enumerate() {
                if Some(b as u64) != chosen {
                    for byte in bucket {
                        *byte = random.number() as u8;
                    }
                }
            }
            assert_eq!(doors.search(&card, other.lookup(), key), answer);
        }
    }
    doors
        .seen
        .report("searches by locality", &[("search", &[0, 100, 5])]);
    println!("one bucket read by {one}, none by {none}");
    assert!(one > 0 && none > 0);
}

fn tallies(width: u64) {
    let mut random = Random::new(19);
    let mut doors = Doors::new(width);
    let (mut in_side, mut marked, mut of_layouts) = (0, 0, 0);
    while doors.seen.total() < TALLIES {
        let card = random_card(&mut random, width);
        let (list, areas) = random_table(&mut random, &card);
        // a layout: the plain ledger's numbers
        let totals = doors.tally(&card, &areas.ledger, areas.lookup()).unwrap();
        of_layouts += 1;
        assert_eq!(totals, Ledger { list: list.clone() }.tally(&card));
        assert_eq!(totals.in_buckets + totals.in_side, list.len() as u64);
        in_side += totals.in_side;
        marked += totals.marked_255;
        for _ in 0..12 {
            let mut areas = areas.clone();
            let mut settings = card.settings;
            if random.between(0, 1) == 0 {
                let keys = [random_key(&mut random, width)];
                damage_lookup(&mut random, &card, &mut areas, &keys);
            }
            if random.between(0, 1) == 0 {
                damage_ledger(&mut random, &card, &mut areas.ledger);
            }
            for area in [
                &mut areas.ledger,
                &mut areas.clipped,
                &mut areas.buckets,
                &mut areas.side,
            ] {
                if random.between(0, 19) == 0 {
                    area.resize(wrong_length(&mut random, area.len()), 0);
                }
            }
            if random.between(0, 9) == 0 {
                settings = spoiled(&mut random, settings);
            }
            let _ = doors.tally(&Card::new(settings), &areas.ledger, areas.lookup());
        }
    }
    doors.seen.report("tallies", &[("tally", &[0, 1, 2, 4, 5])]);
    println!("{of_layouts} on layouts, with {in_side} records in side stores and {marked} buckets marked 255");
    assert!(in_side > 0 && marked > 0);
}

// The fill of every count of a ledger, for every p. The lookup areas are those of an empty table: tally does not compare them with the ledger.
fn every_fill(width: u64) {
    const MOST: u64 = 4_096;
    let mut doors = Doors::new(width);
    let mut halves = Halves::default();
    for p in 4..=12 {
        let card = Card::new(Model::of([p, 1, 1, 2, MOST, 0, width]));
        let mut areas = layout(&card, &[]).unwrap();
        for count in 0..=MOST {
            if count > 0 {
                let at = 2 + card.settings.record_bytes() * (count as usize - 1);
                let record = &mut areas.ledger[at..];
                record[..8].copy_from_slice(&count.to_be_bytes());
                set_count(&mut areas.ledger, count);
            }
            let totals = doors.tally(&card, &areas.ledger, areas.lookup()).unwrap();
            assert_eq!(totals.fill, paper::fill(count, card.settings.m()));
            halves.note(count, card.settings.m());
        }
    }
    doors.seen.report("fills", &[("tally", &[0])]);
    assert_eq!(doors.seen.total(), 9 * (MOST + 1));
    halves.report();
}

// Each single fault of areas that are right otherwise, so that no other can hide it.
fn each_fault_of_a_tally(width: u64) {
    let mut random = Random::new(20);
    let mut doors = Doors::new(width);
    for _ in 0..60 {
        let card = random_card(&mut random, width);
        let settings = card.settings;
        let (_, right) = random_table(&mut random, &card);
        let tally =
            |doors: &mut Doors, areas: &Areas| doors.tally(&card, &areas.ledger, areas.lookup());
        // of many buckets every third, fifth or ninth: even and odd ones
        let m = settings.m() as usize;
        for b in (0..m).step_by(if m > 512 { m / 512 + 1 } else { 1 }) {
            let mut areas = right.clone();
            let low = b % 2 == 0;
            for count in 0..16 {
                let byte = &mut areas.clipped[b / 2];
                *byte = if low {
                    *byte / 16 * 16 + count
                } else {
                    *byte % 16 + 16 * count
                };
                let expected = u64::from(count) <= settings.t;
                assert_eq!(tally(&mut doors, &areas).is_ok(), expected);
            }
            if b % 7 == 0 {
                let mut areas = right.clone();
                let mark = b * card.bucket_bytes();
                for value in [0, settings.b as u8, settings.b as u8 + 1, 5, 128, 254, 255] {
                    areas.buckets[mark] = value;
                    let expected = u64::from(value) <= settings.b || value == 255;
                    assert_eq!(tally(&mut doors, &areas).is_ok(), expected);
                }
            }
        }
        let mut areas = right.clone();
        for count in [0, settings.s, settings.s + 1, 256, 65535] {
            set_count(&mut areas.side, count);
            assert_eq!(tally(&mut doors, &areas).is_ok(), count <= settings.s);
        }
    }
    // totals of another length
    let card = Card::new(Model::of([4, 1, 1, 2, 1, 0, width]));
    let areas = layout(&card, &[]).unwrap();
    for n in (0..=10).filter(|&n| n != 4) {
        let mut totals = vec![7; n];
        let mut call = |numbers| {
            doors::tally(
                numbers,
                &areas.ledger,
                &areas.clipped,
                &areas.buckets,
                &areas.side,
                &mut totals,
            )
        };
        assert_eq!(call([4, 1, 1, 2, 1, 0, width]), 2);
        assert_eq!(call([4, 1, 1, 1, 1, 0, width]), 1);
        assert_eq!(call([4, 1, 1, 2, 1, 0, width + 1]), 1);
        assert_eq!(totals, vec![7; n]);
    }
    doors
        .seen
        .report("tallies with one fault", &[("tally", &[0, 5])]);
}

// The safe crate hands on what the doors say.
fn safe_wrappers(width: u64) {
    let mut random = Random::new(21);
    let tables = tables(width);
    for _ in 0..300 {
        let card = random_card(&mut random, width);
        let settings = settings_of(&card.settings);
        let (list, mut areas) = random_table(&mut random, &card);
        if random.between(0, 2) == 0 {
            damage_lookup(&mut random, &card, &mut areas, &[]);
        }
        if random.between(0, 2) == 0 {
            damage_ledger(&mut random, &card, &mut areas.ledger);
        }
        let lent = LookupAreas {
            clipped_counts: &areas.clipped,
            buckets: &areas.buckets,
            side_store: &areas.side,
        };
        let mut keys: Vec<Key> = list.iter().map(|r| r.key.clone()).collect();
        keys.extend((0..40).map(|n| vec![7; n]));
        for key in &keys {
            let answer = paper::search(&card, areas.lookup(), key);
            let expected = match answer.number {
                0 => Ok(Some(answer.class)),
                100 => Ok(None),
                number => Err(Refusal::from_number(number).unwrap()),
            };
            assert_eq!(flow::search(&settings, &lent, key), expected);
            for table in &tables {
                assert_eq!(flow::search_lent(table, &settings, &lent, key), expected);
            }
            let place = flow::search_place(&settings, &lent, key);
            assert_eq!(place.map(|p| p.map(|p| p.class)), expected);
            let bytes = match paper::second_search(&card, areas.lookup(), key) {
                Part::Empty => None,
                Part::OfBuckets { at, bytes } => Some((Store::Buckets, at, bytes)),
                Part::OfSide { at, bytes } => Some((Store::SideStore, at, bytes)),
            };
            let place = place.ok().flatten();
            assert_eq!(
                place.map(|p| (p.store, p.start)),
                bytes.as_ref().map(|b| (b.0, b.1))
            );
            if let (Some(place), Some((_, _, bytes))) = (place, bytes) {
                assert_eq!(place.record(&lent), bytes);
            }
        }
        let expected = paper::tally(&card, &areas.ledger, areas.lookup())
            .map(|totals| Tally {
                in_buckets: totals.in_buckets as u32,
                in_side_store: totals.in_side as u32,
                marked_255: totals.marked_255 as u32,
                fill: totals.fill as u32,
            })
            .map_err(|number| Refusal::from_number(number).unwrap());
        assert_eq!(flow::tally(&settings, &areas.ledger, &lent), expected);
    }
}

at_both_widths!(
    searches_on_layouts,
    searches_on_large_layouts,
    searches_on_damaged_areas,
    searches_with_wrong_lengths_and_settings,
    each_wrong_length,
    each_setting_out_of_range,
    lent_table_of_any_contents,
    other_buckets_do_not_count,
    tallies,
    every_fill,
    each_fault_of_a_tally,
    safe_wrappers,
);
