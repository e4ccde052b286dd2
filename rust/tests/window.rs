//! The window over the latest searches, and at both widths the searches that give their counts, through their doors against the model: lists of calls with
//! the whole area and a fresh count compared after every one, areas of any contents, wrong lengths, searches of tables that enter windows.

use flow::{doors, KeyHasher, LookupAreas, Refusal, SearchAnswer, SearchCounts, Settings, Table};
use model::card::Card;
use model::layout::{layout, Areas};
use model::ledger::Ledger;
use model::lookup::{self as paper, Answer, Lookup, Place};
use model::records::{Key, Record};
use model::settings::Settings as Model;
use model::window::{Window, SEARCHES};
use model::window_area::{self, ENTRIES, HELD, NUMBERS, OLDEST, RING};
use testing::at_both_widths;
use testing::made::{
    damage_lookup, filled, random_card, random_class, random_key, random_numbers, random_table,
    set_count, wrong_length, wrong_search, wrong_table_lengths,
};
use testing::random::Random;
use testing::seen::Seen;
use testing::widths::{settings_of, tables};
use testing::windows::BesideModel;

// Calls of windows: each enters a search, removes the oldest or clears.
const WINDOWS: u64 = 100;
const CALLS_OF_A_WINDOW: u64 = 10_000;
const MOST_REMOVALS: u64 = 2_000;
const _: () = assert!(WINDOWS * CALLS_OF_A_WINDOW >= 1_000_000);

// Areas of any contents, and calls of each.
const ANY_AREAS: u64 = 10_000;
const CALLS_OF_AN_AREA: u64 = 40;

// Searches of each test, each through both doors.
const ON_LAYOUTS: u64 = 100_000;
const ON_DAMAGED_AREAS: u64 = 150_000;
const ON_WRONG_LENGTHS: u64 = 50_000;
const _: () = assert!(ON_LAYOUTS + ON_DAMAGED_AREAS >= 200_000);

// What three numbers hold before a call.
const BEFORE: [u32; 3] = [91, 92, 93];

// What the calls of windows met.
#[derive(Debug, Default)]
struct Met {
    entered: u64,
    dropped: u64,
    refused: u64,
    above_64_compared: u64,
    third_above_1: u64,
    removed: u64,
    removed_from_empty: u64,
    filled: u64,
    emptied: u64,
    greatest_fell: u64,
    greatest_64: u64,
}

// A window that is called, and what that met.
struct Called {
    window: BesideModel,
    greatest: u32,
    // how often the oldest entry's place came back to the ring's start
    wraps: u64,
    calls: u64,
}

impl Called {
    // Cleared, whatever the area held before.
    fn start(random: &mut Random) -> Called {
        let mut window = BesideModel::of(random_numbers(random, NUMBERS as u64));
        assert_eq!(window.clear(), 0);
        assert_eq!(window.area, [0; NUMBERS]);
        let mut called = Called {
            window,
            greatest: 0,
            wraps: 0,
            calls: 0,
        };
        called.compare(&mut Met::default());
        called
    }

    fn length(&self) -> usize {
        self.window.plain.as_ref().unwrap().entries.len()
    }

    fn enter(&mut self, met: &mut Met, found: u64, counts: &[u32]) {
        self.calls += 1;
        let (before, oldest) = (self.length(), self.window.area[OLDEST]);
        assert_eq!(self.window.enter(found, counts), 0);
        if let 0 | 100 = found >> 32 {
            met.entered += 1;
            met.dropped += u64::from(before == SEARCHES);
            met.filled += u64::from(before == SEARCHES - 1);
            met.above_64_compared += u64::from(counts[1] > 64);
            met.third_above_1 += u64::from(counts[2] > 1);
            assert_eq!(self.length(), SEARCHES.min(before + 1));
        } else {
            met.refused += 1;
            assert_eq!(self.length(), before);
        }
        self.wraps += u64::from(self.window.area[OLDEST] < oldest);
        self.compare(met);
    }

    fn remove(&mut self, met: &mut Met) {
        self.calls += 1;
        let (before, oldest) = (self.length(), self.window.area[OLDEST]);
        let area = self.window.area.clone();
        assert_eq!(self.window.remove(), 0);
        met.removed += u64::from(before > 0);
        met.emptied += u64::from(before == 1);
        if before == 0 {
            met.removed_from_empty += 1;
            assert_eq!(self.window.area, area);
        }
        self.wraps += u64::from(self.window.area[OLDEST] < oldest);
        self.compare(met);
    }

    fn clear(&mut self, met: &mut Met) {
        self.calls += 1;
        assert_eq!(self.window.clear(), 0);
        assert_eq!(self.length(), 0);
        self.compare(met);
    }

    // The counts are a fresh count.
    fn compare(&mut self, met: &mut Met) {
        let mut counts = BEFORE;
        assert_eq!(self.window.counts(&mut counts), 0);
        assert!(self.length() > 0 || counts == [0; 3]);
        met.greatest_fell += u64::from(counts[2] < self.greatest);
        met.greatest_64 += u64::from(counts[2] == 64);
        self.greatest = counts[2];
    }

    // The ring's entries are those of the plain window.
    fn compare_ring(&self) {
        let plain = self.window.plain.as_ref().unwrap();
        assert!(plain.entries == window_area::entries(&self.window.area));
    }
}

// Numbers of searches that do not enter: a search's refusals, and such as no search gives.
const REFUSED: [u32; 9] = [1, 2, 3, 5, 4, 99, 101, 356, u32::MAX];

// A search's number and counts, of every kind, also such that no search gives; mostly with at most so many records compared.
fn random_search(random: &mut Random, most: u32) -> (u64, [u32; 3]) {
    let number = match random.between(0, 19) {
        0 => REFUSED[random.between(0, REFUSED.len() as u64 - 1) as usize],
        1..=9 => 100,
        _ => 0,
    };
    let compared = match random.between(0, 4999) {
        0 => 64,
        1 => 65,
        2 => random.between(60, 300) as u32,
        3 => u32::MAX,
        4 => random.number() as u32,
        _ => random.between(0, u64::from(most)) as u32,
    };
    let side_compared = match random.between(0, 19) {
        0 => 2,
        1 => 1 << random.between(0, 31),
        2..=7 => 1,
        _ => 0,
    };
    let found = u64::from(number) << 32 | u64::from(random_class(random));
    (
        found,
        [random.between(0, 1) as u32, compared, side_compared],
    )
}

#[test]
fn windows() {
    let mut random = Random::new(111);
    let mut met = Met::default();
    let mut seen = Seen::default();
    let (mut calls, mut wraps, mut longest_removal) = (0, Vec::new(), 0);
    for _ in 0..WINDOWS {
        let mut called = Called::start(&mut random);
        while called.calls < CALLS_OF_A_WINDOW {
            let left = CALLS_OF_A_WINDOW - called.calls;
            let most = [0, 1, 4, 20, 40, 70][random.between(0, 5) as usize];
            match random.between(0, 99) {
                0 => called.clear(&mut met),
                1..=24 => {
                    let run = random.between(0, MOST_REMOVALS).min(left);
                    longest_removal = longest_removal.max(run);
                    for _ in 0..run {
                        called.remove(&mut met);
                    }
                }
                25..=39 => {
                    let removals = random.between(1, 3);
                    for _ in 0..random.between(0, 1000).min(left) {
                        if random.between(0, 3) < removals {
                            called.remove(&mut met);
                        } else {
                            let (found, counts) = random_search(&mut random, most);
                            seen.note("search", (found >> 32) as u32);
                            called.enter(&mut met, found, &counts);
                        }
                    }
                }
                _ => {
                    for _ in 0..random.between(0, 2000).min(left) {
                        let (found, counts) = random_search(&mut random, most);
                        seen.note("search", (found >> 32) as u32);
                        called.enter(&mut met, found, &counts);
                    }
                }
            }
            called.compare_ring();
        }
        calls += called.calls;
        wraps.push(called.wraps);
    }
    seen.report(
        "searches for windows",
        &[("search", &[0, 100]), ("search", &REFUSED)],
    );
    println!("{calls} calls of {WINDOWS} windows, each with its fresh count: {met:?}");
    let wrapped = |times: u64| wraps.iter().filter(|&&own| own >= times).count();
    println!(
        "the ring wrapped in {} windows, three times or more in {}; the longest run of removals had {longest_removal}",
        wrapped(1),
        wrapped(3)
    );
    assert_eq!(calls, WINDOWS * CALLS_OF_A_WINDOW);
    assert!(wrapped(1) == wraps.len() && wrapped(3) >= 50 && longest_removal > 1900);
    let Met {
        entered,
        dropped,
        refused,
        above_64_compared,
        third_above_1,
        removed,
        removed_from_empty,
        filled,
        emptied,
        greatest_fell,
        greatest_64,
    } = met;
    assert!(entered > 100_000 && dropped > 100_000 && refused > 10_000);
    assert!(above_64_compared > 0 && third_above_1 > 0);
    assert!(removed > 100_000 && removed_from_empty > 1_000);
    assert!(filled > 100 && emptied > 100);
    assert!(greatest_fell > 1_000 && greatest_64 > 0);
}

// Numbers of any kind: random ones, all alike, low ones, or those of a window that was called with some altered.
fn any_area(random: &mut Random) -> Vec<u16> {
    let mut area = match random.between(0, 3) {
        0 => random_numbers(random, NUMBERS as u64),
        1 => vec![[0, 1, 259, 260, 1024, u16::MAX][random.between(0, 5) as usize]; NUMBERS],
        2 => (0..NUMBERS)
            .map(|_| random.between(0, 300) as u16)
            .collect(),
        _ => {
            let mut window = BesideModel::of(vec![0; NUMBERS]);
            for _ in 0..random.between(0, 20) {
                let (found, counts) = random_search(random, 4);
                window.enter(found, &counts);
            }
            for _ in 0..random.between(1, 8) {
                let below = [RING, NUMBERS][random.between(0, 1) as usize];
                let at = random.between(0, below as u64 - 1) as usize;
                window.area[at] = random.number() as u16;
            }
            window.area
        }
    };
    let limits = [0, 1, 1023, 1024, 1025, 2048, u16::MAX];
    for at in [OLDEST, ENTRIES, HELD] {
        if random.between(0, 1) == 0 {
            area[at] = limits[random.between(0, 6) as usize];
        }
    }
    area
}

// Contents that no calls left behind, without a clear: the model says what each call makes of them.
#[test]
fn any_contents() {
    let mut random = Random::new(112);
    let (mut oldest_above, mut entries_above, mut above_64) = (0, 0, 0);
    let (mut below_zero, mut above_most, mut told_above, mut removed_from_empty) = (0, 0, 0, 0);
    for _ in 0..ANY_AREAS {
        let mut window = BesideModel::of(any_area(&mut random));
        for _ in 0..CALLS_OF_AN_AREA {
            let before = window.area.clone();
            let (found, counts) = random_search(&mut random, 64);
            let removal = random.between(0, 1) == 0;
            let answer = match removal {
                true => window.remove(),
                false => window.enter(found, &counts),
            };
            assert_eq!(answer, 0);
            let mut counts = BEFORE;
            assert_eq!(window.counts(&mut counts), 0);

            oldest_above += u64::from(before[OLDEST] >= 1024);
            entries_above += u64::from(before[ENTRIES] > 1024);
            removed_from_empty += u64::from(removal && before[ENTRIES] == 0);
            if before[OLDEST] != window.area[OLDEST] {
                let place = usize::from(before[OLDEST]) % SEARCHES;
                above_64 += u64::from(before[RING + place] / 4 > 64);
            }
            for counts in before.iter().zip(&window.area).take(RING).skip(ENTRIES) {
                below_zero += u64::from(counts == (&0, &u16::MAX));
                above_most += u64::from(counts == (&u16::MAX, &0));
            }
            told_above += u64::from(counts[0] > 1024 || counts[1] > 1024);
        }
    }
    println!(
        "{} calls of {ANY_AREAS} areas: oldest place above 1023 {oldest_above}, more than 1024 entries {entries_above}, entries with more \
         than 64 records taken out {above_64}, counts below zero {below_zero} and above 65535 {above_most}, counts above 1024 told \
         {told_above}, removals where there is no entry {removed_from_empty}",
        ANY_AREAS * CALLS_OF_AN_AREA
    );
    assert!(oldest_above > 1_000 && entries_above > 1_000 && above_64 > 1_000);
    assert!(below_zero > 1_000 && above_most > 1_000 && told_above > 1_000);
    assert!(removed_from_empty > 1_000);
}

// Each length by itself and both, for a search that enters and for a refused one: 2, and nothing is written.
#[test]
fn wrong_lengths_of_windows() {
    let mut random = Random::new(113);
    for length in [0, 1, 2, 3, 69, 1092, 1093, 1094, 2186] {
        let area = random_numbers(&mut random, length);
        let answer = if length == 1093 { 0 } else { 2 };
        let mut window = BesideModel::of(area.clone());
        assert_eq!(window.clear(), answer);
        assert!(answer == 0 || window.area == area);
        let mut window = BesideModel::of(area.clone());
        assert_eq!(window.remove(), answer);
        assert!(answer == 0 || window.area == area);
        for lent in [0, 1, 2, 3, 4, 6] {
            let answer = if lent == 3 { answer } else { 2 };
            let counts: Vec<u32> = (0..lent).map(|_| random.number() as u32).collect();
            for number in [0, 100, 5] {
                let mut window = BesideModel::of(area.clone());
                assert_eq!(window.enter(number << 32, &counts), answer);
                assert!(answer == 0 && number != 5 || window.area == area);
            }
            let mut told = counts.clone();
            assert_eq!(BesideModel::of(area.clone()).counts(&mut told), answer);
            assert!(answer == 0 || told == counts);
        }
    }
}

// What a test calls the search doors with.
struct Doors {
    tables: Vec<KeyHasher>,
    seen: Seen,
    places: Places,
}

// Where the searches came.
#[derive(Debug, Default)]
struct Places {
    damaged: u64,
    nowhere: u64,
    bucket: u64,
    side_by_counters: u64,
    side_by_mark: u64,
    empty_side_by_counters: u64,
    empty_side_by_mark: u64,
}

impl Places {
    fn note(&mut self, place: Place) {
        *match place {
            Place::Damaged => &mut self.damaged,
            Place::Nowhere => &mut self.nowhere,
            Place::Bucket { .. } => &mut self.bucket,
            Place::SideByCounters { records: 0 } => &mut self.empty_side_by_counters,
            Place::SideByCounters { .. } => &mut self.side_by_counters,
            Place::SideByMark { records: 0, .. } => &mut self.empty_side_by_mark,
            Place::SideByMark { .. } => &mut self.side_by_mark,
        } += 1;
    }
}

// What the doors gave for a search, and the model's whole answer.
struct Found {
    number: u64,
    counts: Vec<u32>,
    by_paper: Answer,
}

impl Doors {
    fn new(width: u64) -> Doors {
        Doors {
            tables: tables(width),
            seen: Seen::default(),
            places: Places::default(),
        }
    }

    // A search through both doors with so many numbers for its counts: number, class and counts are the model's, and refused the counts stay.
    fn search(&mut self, card: &Card, areas: Lookup, key: &[u8], lent: usize) -> Found {
        let found = search_counts(card, areas, key, lent);
        for table in &self.tables {
            let by_table = search_counts_lent(card, table.entries(), areas, key, lent);
            assert_eq!(
                (by_table.number, &by_table.counts),
                (found.number, &found.counts)
            );
        }
        let number = found.by_paper.number;
        self.seen.note("search", number);
        if let 0 | 5 | 100 = number {
            self.places.note(paper::place(card, areas, key));
        }
        found
    }
}

// So many numbers, as no search gives them.
fn numbers_before(lent: usize) -> Vec<u32> {
    BEFORE.into_iter().cycle().take(lent).collect()
}

fn search_counts(card: &Card, areas: Lookup, key: &[u8], lent: usize) -> Found {
    let mut counts = numbers_before(lent);
    let mut expected = counts.clone();
    let by_paper = paper::search_counts(card, areas, key, &mut expected);
    let numbers = card.settings.numbers();
    let Lookup {
        clipped,
        buckets,
        side,
    } = areas;
    let number = doors::search_counts(numbers, clipped, buckets, side, key, &mut counts);
    assert_eq!(
        (number, &counts),
        (by_paper.door(), &expected),
        "{numbers:?} {key:?}"
    );
    let accepted = by_paper.number == 0 || by_paper.number == 100;
    assert!(accepted || counts == numbers_before(lent));
    if lent == 3 {
        let alone = doors::search(numbers, clipped, buckets, side, key);
        assert_eq!(number, alone, "{numbers:?} {key:?}");
    }
    Found {
        number,
        counts,
        by_paper,
    }
}

// The same with a lent table; the card goes by it too, where its contents are others.
fn search_counts_lent(card: &Card, table: &[u64], areas: Lookup, key: &[u8], lent: usize) -> Found {
    let mut counts = numbers_before(lent);
    let mut expected = counts.clone();
    let by_paper = paper::search_counts_lent(card, table.len(), areas, key, &mut expected);
    let numbers = card.settings.numbers();
    let Lookup {
        clipped,
        buckets,
        side,
    } = areas;
    let number =
        doors::search_counts_lent(table, numbers, clipped, buckets, side, key, &mut counts);
    assert_eq!(
        (number, &counts),
        (by_paper.door(), &expected),
        "{numbers:?} {key:?}"
    );
    Found {
        number,
        counts,
        by_paper,
    }
}

// A window that searches enter by what the doors gave, beside a plain window that gets the model's answers; the oldest go now and then.
struct Fed {
    window: BesideModel,
    plain: Window,
    side_compared: u64,
    greatest_64: u64,
    full: u64,
}

impl Fed {
    fn start(random: &mut Random) -> Fed {
        let mut window = BesideModel::of(random_numbers(random, NUMBERS as u64));
        assert_eq!(window.clear(), 0);
        Fed {
            window,
            plain: Window::default(),
            side_compared: 0,
            greatest_64: 0,
            full: 0,
        }
    }

    fn enter(&mut self, random: &mut Random, found: &Found) {
        assert_eq!(self.window.enter(found.number, &found.counts), 0);
        self.plain.enter(&found.by_paper);
        self.compare();
        if random.between(0, 1999) == 0 {
            for _ in 0..random.between(0, MOST_REMOVALS) {
                assert_eq!(self.window.remove(), 0);
                self.plain.remove_oldest();
                self.compare();
            }
        }
    }

    fn compare(&mut self) {
        let mut counts = BEFORE;
        assert_eq!(self.window.counts(&mut counts), 0);
        let fresh = self.plain.counts();
        assert_eq!(counts, [fresh.held, fresh.side_compared, fresh.greatest]);
        self.side_compared += u64::from(counts[1] > 0);
        self.greatest_64 += u64::from(counts[2] == 64);
        self.full += u64::from(self.plain.entries.len() == SEARCHES);
    }

    fn report(&self) {
        println!(
            "windows of these searches: full {}, some of the side store {}, greatest 64 {}",
            self.full, self.side_compared, self.greatest_64
        );
        assert!(self.full > 0 && self.side_compared > 0 && self.greatest_64 > 0);
        let plain = self.window.plain.as_ref().unwrap();
        assert!(*plain == self.plain);
    }
}

// A random card, or now and then one whose side store gets 64 records.
fn card_of_searches(random: &mut Random, width: u64) -> Card {
    match random.between(0, 9) {
        0 => Card::new(Model::of([4, random.between(1, 2), 1, 2, 200, 64, width])),
        _ => random_card(random, width),
    }
}

// Held keys, and keys that mostly are not.
fn keys_of_searches(random: &mut Random, width: u64, held: &[Record]) -> Vec<Key> {
    let mut keys: Vec<Key> = held.iter().take(100).map(|r| r.key.clone()).collect();
    keys.extend((0..20).map(|_| random_key(random, width)));
    keys
}

// The counts are also those of the plain ledger, and one window is over the searches of all tables.
fn searches_on_layouts(width: u64) {
    let mut random = Random::new(114);
    let mut doors = Doors::new(width);
    let mut fed = Fed::start(&mut random);
    while doors.seen.total() < ON_LAYOUTS {
        let card = card_of_searches(&mut random, width);
        let (list, areas) = random_table(&mut random, &card);
        let keys = keys_of_searches(&mut random, width, &list);
        let ledger = Ledger { list };
        for key in keys {
            let found = doors.search(&card, areas.lookup(), &key, 3);
            if random.between(0, 3) == 0 {
                assert_eq!(found.by_paper, ledger.search(&card, &key));
            }
            fed.enter(&mut random, &found);
        }
    }
    doors
        .seen
        .report("searches with counts on layouts", &[("search", &[0, 100])]);
    println!("{:?}", doors.places);
    fed.report();
    let places = doors.places;
    assert!(places.nowhere > 0 && places.bucket > 0);
    assert!(places.side_by_counters > 0 && places.side_by_mark > 0);
    assert!(places.empty_side_by_counters > 0);
    // on a layout the flows that chose a bucket marked 255 are in the side store
    assert_eq!((places.damaged, places.empty_side_by_mark), (0, 0));
}

fn searches_on_damaged_areas(width: u64) {
    let mut random = Random::new(115);
    let mut doors = Doors::new(width);
    let mut fed = Fed::start(&mut random);
    while doors.seen.total() < ON_DAMAGED_AREAS {
        let card = card_of_searches(&mut random, width);
        let (list, areas) = random_table(&mut random, &card);
        let keys = keys_of_searches(&mut random, width, &list);
        for _ in 0..4 {
            let mut areas = areas.clone();
            let some = random.between(0, keys.len() as u64 - 4) as usize;
            damage_lookup(&mut random, &card, &mut areas, &keys[some..some + 4]);
            if random.between(0, 3) == 0 {
                set_count(&mut areas.side, 0);
            }
            for key in &keys {
                let found = doors.search(&card, areas.lookup(), key, 3);
                fed.enter(&mut random, &found);
            }
        }
    }
    doors.seen.report(
        "searches with counts on damaged areas",
        &[("search", &[0, 100, 5])],
    );
    println!("{:?}", doors.places);
    fed.report();
    let places = doors.places;
    assert!(places.nowhere > 0 && places.bucket > 0 && places.damaged > 0);
    assert!(places.side_by_counters > 0 && places.side_by_mark > 0);
    assert!(places.empty_side_by_counters > 0 && places.empty_side_by_mark > 0);
}

// Some of: settings out of range, areas or counts of wrong lengths, a key of a wrong length, damage. The lowest that applies is given, and
// no counts; a refused search does not enter a window.
fn searches_with_wrong_lengths_and_settings(width: u64) {
    let mut random = Random::new(116);
    let mut doors = Doors::new(width);
    let mut window = BesideModel::of(vec![7; NUMBERS]);
    assert_eq!(window.clear(), 0);
    let (mut entered, mut refused) = (0, 0);
    while doors.seen.total() < ON_WRONG_LENGTHS {
        let card = random_card(&mut random, width);
        let (list, areas) = random_table(&mut random, &card);
        for _ in 0..50 {
            let (settings, areas, key) = wrong_search(&mut random, &card, &list, &areas);
            let lent = match random.between(0, 3) {
                0 => wrong_length(&mut random, 3),
                _ => 3,
            };
            let found = doors.search(&Card::new(settings), areas.lookup(), &key, lent);
            if lent == 3 {
                let before = window.area.clone();
                assert_eq!(window.enter(found.number, &found.counts), 0);
                match found.by_paper.number {
                    0 | 100 => entered += 1,
                    _ => {
                        assert_eq!(window.area, before);
                        refused += 1;
                    }
                }
            }
        }
    }
    doors.seen.report(
        "searches with counts, some with wrong lengths and settings",
        &[("search", &[0, 100, 1, 2, 3, 5])],
    );
    println!("{entered} entered a window, {refused} did not");
    assert!(entered > 0 && refused > 0);
}

// Each length by itself: of an area, of the counts, of the lent table. Settings are judged before, the key after.
fn each_wrong_length(width: u64) {
    let mut random = Random::new(117);
    let card = Card::new(Model::of([6, 3, 2, 4, 128, 8, width]));
    let other = Card::new(Model::of([6, 3, 2, 16, 128, 8, width]));
    let (list, areas) = filled(&mut random, &card, 60);
    let key = &list[0].key;
    let mut doors = Doors::new(width);
    let mut refused = |areas: &Areas, lent: usize| {
        for key in [&key[..], &key[1..]] {
            let found = doors.search(&card, areas.lookup(), key, lent);
            assert_eq!(found.by_paper.number, 2);
            let found = doors.search(&other, areas.lookup(), key, lent);
            assert_eq!(found.by_paper.number, 1);
        }
    };
    let right = [areas.clipped.len(), areas.buckets.len(), areas.side.len()];
    for i in 0..3 {
        for n in [
            0,
            1,
            right[i] - 1,
            right[i] + 1,
            right[i] + 17,
            2 * right[i],
        ] {
            let mut areas = areas.clone();
            [&mut areas.clipped, &mut areas.buckets, &mut areas.side][i].resize(n, 0);
            refused(&areas, 3);
        }
    }
    for lent in [0, 1, 2, 4, 5, 65_536] {
        refused(&areas, lent);
    }
    for n in (0..=80).filter(|&n| n as u64 != width) {
        let found = doors.search(&card, areas.lookup(), &vec![7; n], 3);
        assert_eq!(found.by_paper.number, 3);
    }
    for n in wrong_table_lengths(width) {
        let table = vec![1; n];
        for key in [&key[..], &key[1..]] {
            for lent in [3, 2] {
                let found = search_counts_lent(&card, &table, areas.lookup(), key, lent);
                assert_eq!(found.number, 2 << 32);
                assert_eq!(found.counts, BEFORE[..lent]);
                let found = search_counts_lent(&other, &table, areas.lookup(), key, lent);
                assert_eq!(found.number, 1 << 32);
                assert_eq!(found.counts, BEFORE[..lent]);
            }
        }
    }
    let found = doors.search(&card, areas.lookup(), key, 3);
    assert_eq!(found.number, u64::from(list[0].class));
}

// On a lent table with other contents the search goes by the entries that it reads, and so do its counts.
fn lent_table_of_any_contents(width: u64) {
    let mut random = Random::new(118);
    let mut seen = Seen::default();
    let mut side_compared = 0;
    let rights = tables(width);
    for round in 0..400 {
        let right = rights[round % rights.len()].entries();
        let card = card_of_searches(&mut random, width);
        let (list, mut areas) = random_table(&mut random, &card);
        damage_lookup(&mut random, &card, &mut areas, &[]);
        let mut table: Vec<u64> = right.iter().map(|_| random.number()).collect();
        if random.between(0, 1) == 0 {
            // but for one entry the right one, so that flows are found too
            let entry = random.between(0, table.len() as u64 - 1) as usize;
            table = right.to_vec();
            table[entry] = random.number();
        }
        let by_table = Card::with_table(card.settings, table.clone());
        for record in &list {
            let found = search_counts_lent(&by_table, &table, areas.lookup(), &record.key, 3);
            seen.note("search", found.by_paper.number);
            side_compared += found.by_paper.side_compared;
        }
    }
    seen.report(
        "searches with counts by other tables",
        &[("search", &[0, 100, 5])],
    );
    println!("{side_compared} compared the side store");
    assert!(side_compared > 0);
}

// Where a search can come to, by hand. With k 1 the zero key has bucket 0 alone.
fn each_place_by_hand(width: u64) {
    let card = Card::new(Model::of([4, 1, 2, 3, 9, 4, width]));
    let mut doors = Doors::new(width);
    let key = vec![0; width as usize];
    // counter of bucket 0, its mark, the side count, how many records of other flows stand before the key's own in the side store
    let mut search = |counter: u8, mark: u8, side_count: u64, others: usize| {
        let mut areas = layout(&card, &[]).unwrap();
        areas.clipped[0] = counter;
        areas.buckets[0] = mark;
        set_count(&mut areas.side, side_count);
        for other in 0..others {
            areas.side[2 + (width as usize + 4) * other] = 1;
        }
        let found = doors.search(&card, areas.lookup(), &key, 3);
        (found.number >> 32, found.counts)
    };
    // a zero counter, whatever else there is
    assert_eq!(search(0, 255, 2, 0), (100, vec![0, 0, 0]));
    // a bucket: with no record, and with the key's
    assert_eq!(search(1, 0, 2, 0), (100, vec![1, 0, 0]));
    assert_eq!(search(2, 1, 2, 0), (0, vec![1, 1, 0]));
    // the side store, by the mark and by the counter: with no record, with the key's, and with others'
    for (counter, mark, buckets_read) in [(2, 255, 1), (3, 0, 0), (3, 255, 0)] {
        assert_eq!(search(counter, mark, 0, 0), (100, vec![buckets_read, 0, 1]));
        assert_eq!(search(counter, mark, 3, 0), (0, vec![buckets_read, 1, 1]));
        assert_eq!(search(counter, mark, 3, 2), (0, vec![buckets_read, 3, 1]));
        assert_eq!(search(counter, mark, 2, 2), (100, vec![buckets_read, 2, 1]));
    }
    // damage: counts as they were
    for (counter, mark, side_count) in [(4, 0, 0), (1, 3, 0), (1, 255, 5), (3, 0, 5)] {
        assert_eq!(search(counter, mark, side_count, 0), (5, BEFORE.to_vec()));
    }
}

// The safe crate hands on what the doors say: a table's searches enter its window.
fn safe_wrappers(width: u64) {
    let mut random = Random::new(119);
    let tables = tables(width);
    let mut window = flow::Window::new();
    let mut plain = Window::default();
    let mut seen = Seen::default();
    let compare = |window: &flow::Window, plain: &Window| {
        let (counts, fresh) = (window.counts(), plain.counts());
        assert_eq!(
            [counts.held, counts.side_compared, counts.greatest_compared],
            [fresh.held, fresh.side_compared, fresh.greatest]
        );
    };
    for _ in 0..150 {
        let card = card_of_searches(&mut random, width);
        let settings = settings_of(&card.settings);
        let mut table = Table::new(settings);
        let mut ledger = Ledger::default();
        let held = filled(&mut random, &card, card.settings.n.min(60)).0;
        for record in &held {
            let answer = ledger.add(&card, &record.key, record.class);
            let expected = Refusal::from_number(answer).map_or(Ok(()), Err);
            assert_eq!(table.add(&record.key, record.class), expected);
        }
        let mut keys = keys_of_searches(&mut random, width, &held);
        keys.extend([12, 14, 36, 38].map(|n| vec![7; n]));
        let areas = table.areas().lookup();
        for key in keys {
            let answer = ledger.search(&card, &key);
            let expected = as_result(answer);
            assert_eq!(table.search_counts(&key), expected);
            assert_eq!(flow::search_counts(&settings, &areas, &key), expected);
            for hash_table in &tables {
                assert_eq!(table.search_counts_lent(hash_table, &key), expected);
                let lent = flow::search_counts_lent(hash_table, &settings, &areas, &key);
                assert_eq!(lent, expected);
            }
            seen.note("search", answer.number);
            window.enter(expected);
            plain.enter(&answer);
            compare(&window, &plain);
        }
        for _ in 0..random.between(0, 60) {
            window.remove_oldest();
            plain.remove_oldest();
            compare(&window, &plain);
        }
        if random.between(0, 49) == 0 {
            window.clear();
            plain.clear();
            compare(&window, &plain);
        }
    }
    // damaged areas are refused, and do not enter
    let settings = Settings::new(4, 1, 1, 2, 1, 0, width).unwrap();
    let key = vec![1; width as usize];
    let areas = LookupAreas {
        clipped_counts: &[0xff; 8],
        buckets: &vec![0; 16 * (1 + settings.record_bytes())],
        side_store: &[0; 2],
    };
    let refused = flow::search_counts(&settings, &areas, &key);
    assert_eq!(refused, Err(Refusal::DamagedLookup));
    window.enter(refused);
    compare(&window, &plain);
    // numbers that no search gives
    window.clear();
    window.enter(Ok(SearchAnswer {
        class: Some(u32::MAX),
        counts: SearchCounts {
            buckets_read: 7,
            records_compared: 65,
            side_compared: 2,
        },
    }));
    let counts = window.counts();
    assert_eq!(
        (counts.held, counts.side_compared, counts.greatest_compared),
        (1, 1, 64)
    );
    seen.report("searches of tables", &[("search", &[0, 3, 100])]);
}

// What the safe crate makes of an answer.
fn as_result(answer: Answer) -> Result<SearchAnswer, Refusal> {
    let class = match answer.number {
        0 => Some(answer.class),
        100 => None,
        number => return Err(Refusal::from_number(number).unwrap()),
    };
    let [buckets_read, records_compared, side_compared] = answer.counts();
    Ok(SearchAnswer {
        class,
        counts: SearchCounts {
            buckets_read,
            records_compared,
            side_compared,
        },
    })
}

at_both_widths!(
    searches_on_layouts,
    searches_on_damaged_areas,
    searches_with_wrong_lengths_and_settings,
    each_wrong_length,
    lent_table_of_any_contents,
    each_place_by_hand,
    safe_wrappers,
);
