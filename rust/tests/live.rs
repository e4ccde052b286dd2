//! Searches beside updates, at both widths: by threads, and step by step on one thread. What a view holds, which updates it has, when readers hold no
//! older ones, and what is published where a closure is refused, panics or replaces the table.

use flow::{KeyHasher, Live, LookupAreas, Reader, Refusal, Settings, Table, View};
use model::records::Key;
use std::hint;
use std::panic::{catch_unwind, resume_unwind, AssertUnwindSafe};
use std::sync::atomic::{AtomicBool, AtomicU64, Ordering};
use std::thread;
use std::time::{Duration, Instant};
use testing::at_both_widths;
use testing::made::{other_width, random_bytes, random_card, random_class, random_key, wrong_key};
use testing::random::Random;
use testing::widths::{settings_of, tables};

type Answer = Result<Option<u32>, Refusal>;

// The flows of the tests by threads: held ones, then toggled ones, then a pair.
const HELD: usize = 40;
const TOGGLED: usize = 6;
const FLOWS: usize = HELD + TOGGLED + 2;

// The classes of toggled flows: so much and their number.
const ADDED: u32 = 1_000_000;
const CHANGED: u32 = 2_000_000;

// Threads that search.
const READERS: usize = 3;

// A test by threads ends after so many updates or so much time, when each reader has seen so many versions.
const UPDATES: usize = 3_000;
const LIMIT: Duration = Duration::from_millis(400);
const FEWEST_VERSIONS: u64 = 4;

// The writer of a test waits for a reader that is further behind, since a busy machine may leave a thread aside for long.
const BEHIND: u64 = 48;

fn bytes<'a>(areas: &LookupAreas<'a>) -> [&'a [u8]; 3] {
    [areas.clipped_counts, areas.buckets, areas.side_store]
}

fn copied(areas: &LookupAreas) -> [Vec<u8>; 3] {
    bytes(areas).map(<[u8]>::to_vec)
}

fn assert_bytes(view: &View, expected: &[Vec<u8>; 3]) {
    let names = ["clipped counts", "buckets", "side store"];
    for ((name, found), expected) in names.iter().zip(bytes(&view.areas())).zip(expected) {
        assert!(found == expected, "{name} of version {}", view.version());
    }
}

// Settings under which some flows are in the side store.
fn crowded(width: u64) -> Settings {
    Settings::new(5, 3, 2, 6, 64, 64, width).unwrap()
}

// Flows whose classes follow from the number of updates: held ones keep theirs, a pair has the number of the last update, and each update makes one
// toggled flow absent, or gives it one of its two classes.
struct Flows {
    width: u64,
    keys: Vec<Key>,
}

impl Flows {
    fn new(width: u64) -> Flows {
        let mut random = Random::new(121);
        let keys = (0..FLOWS).map(|_| random_bytes(&mut random, width));
        Flows {
            width,
            keys: keys.collect(),
        }
    }

    fn class(&self, flow: usize, version: u64) -> Option<u32> {
        if flow < HELD {
            return Some(flow as u32);
        }
        if flow >= HELD + TOGGLED {
            return Some(version as u32);
        }
        let times = (version as usize + TOGGLED - 1 - (flow - HELD)) / TOGGLED;
        [None, Some(ADDED + flow as u32), Some(CHANGED + flow as u32)][times % 3]
    }

    fn classes(&self, version: u64) -> Vec<Answer> {
        (0..FLOWS)
            .map(|flow| Ok(self.class(flow, version)))
            .collect()
    }

    // Version 0.
    fn table(&self) -> Table {
        let mut table = Table::new(crowded(self.width));
        for (flow, key) in self.keys.iter().enumerate() {
            if let Some(class) = self.class(flow, 0) {
                table.add(key, class).unwrap();
            }
        }
        table
    }

    // The pair is altered first and last.
    fn update(&self, table: &mut Table, version: u64) -> Result<(), Refusal> {
        let [first, second] = [&self.keys[FLOWS - 2], &self.keys[FLOWS - 1]];
        let flow = HELD + (version as usize - 1) % TOGGLED;
        let key = &self.keys[flow];
        table.change(first, version as u32)?;
        match (self.class(flow, version - 1), self.class(flow, version)) {
            (None, Some(class)) => table.add(key, class)?,
            (_, Some(class)) => table.change(key, class)?,
            (_, None) => table.remove(key)?,
        }
        table.change(second, version as u32)
    }

    // The lookup areas of each version, from a table that only this thread has.
    fn history(&self, updates: u64) -> Vec<[Vec<u8>; 3]> {
        let mut table = self.table();
        let mut history = vec![copied(&table.areas().lookup())];
        for version in 1..=updates {
            self.update(&mut table, version).unwrap();
            history.push(copied(&table.areas().lookup()));
        }
        // so that a copy that leaves an area out shows
        for area in 0..3 {
            let altered = history
                .windows(2)
                .filter(|two| two[0][area] != two[1][area])
                .count();
            assert!(altered as u64 > updates / 4, "area {area}: {altered}");
        }
        history
    }
}

// What a view answers for each key, by the call that takes a turn.
fn answers(view: &View, hash_table: &KeyHasher, keys: &[Key], turn: u64) -> Vec<Answer> {
    match turn % 3 {
        0 => keys.iter().map(|key| view.search(key)).collect(),
        1 => keys
            .iter()
            .map(|key| view.search_lent(hash_table, key))
            .collect(),
        _ => {
            let mut numbers = vec![0; keys.len()];
            let answers = view.search_burst(hash_table, &keys.concat(), &mut numbers);
            answers.unwrap().collect()
        }
    }
}

// What the threads of a test tell one another.
struct Told {
    start: Instant,
    // set at the end, and where a thread of the test fails, so that no other waits for it
    stop: AtomicBool,
    // the latest update that returned
    returned: AtomicU64,
    // the latest version that any reader saw
    seen: AtomicU64,
    // of each reader the version that it is done with, and how many it saw
    done: [AtomicU64; READERS],
    versions: [AtomicU64; READERS],
}

struct StopAtEnd<'a>(&'a AtomicBool);

impl Drop for StopAtEnd<'_> {
    fn drop(&mut self) {
        self.0.store(true, Ordering::Release);
    }
}

impl Told {
    fn new() -> Told {
        Told {
            start: Instant::now(),
            stop: AtomicBool::default(),
            returned: AtomicU64::default(),
            seen: AtomicU64::default(),
            done: Default::default(),
            versions: Default::default(),
        }
    }

    fn stop_at_end(&self) -> StopAtEnd<'_> {
        StopAtEnd(&self.stop)
    }

    fn stopped(&self) -> bool {
        self.stop.load(Ordering::Acquire)
    }

    fn enough(&self) -> bool {
        let few = |versions: &AtomicU64| versions.load(Ordering::Relaxed) < FEWEST_VERSIONS;
        self.stopped() || self.start.elapsed() > LIMIT && !self.versions.iter().any(few)
    }

    fn update_returned(&self, version: u64) {
        self.returned.store(version, Ordering::Release);
    }

    fn wait(&self, version: u64, behind: u64) {
        let late = |done: &AtomicU64| done.load(Ordering::Acquire) + behind < version;
        while self.done.iter().any(late) && !self.stopped() {
            thread::yield_now();
        }
    }

    // Takes views until the end, and hands each to the check with its turn. None lacks an update that had returned, or goes back, also behind the other
    // readers.
    fn read(&self, me: usize, mut reader: Reader, mut check: impl FnMut(&View, u64)) {
        let _stop = self.stop_at_end();
        let mut last = 0;
        for turn in 0.. {
            let stopped = self.stopped();
            let returned = self.returned.load(Ordering::Acquire);
            let seen = self.seen.load(Ordering::Acquire);
            let view = reader.view();
            let version = view.version();
            assert!(version >= returned, "{version} after {returned} returned");
            assert!(version >= seen, "{version} after a reader saw {seen}");
            assert!(version >= last, "{version} after {last}");
            self.seen.fetch_max(version, Ordering::AcqRel);
            check(view, turn);
            self.done[me].store(version, Ordering::Release);
            self.versions[me].fetch_add(u64::from(version != last), Ordering::Relaxed);
            last = version;
            if stopped {
                return;
            }
        }
    }
}

// Each view has the bytes that its update left and answers for each flow as it did: held flows have their class, toggled ones are absent or in one of their
// states, the pair agrees. The view is checked twice, with a pause in which the writer goes on.
fn readers_beside_a_writer(width: u64) {
    let flows = Flows::new(width);
    let history = flows.history(UPDATES as u64);
    let mut live = Live::from(flows.table());
    let told = Told::new();
    let check = |hash_table: &KeyHasher, view: &View, turn: u64| {
        let version = view.version();
        for pause in [true, false] {
            let turn = turn + u64::from(pause);
            let found = answers(view, hash_table, &flows.keys, turn);
            assert_eq!(found, flows.classes(version), "version {version}");
            assert_bytes(view, &history[version as usize]);
            if pause && turn % 4 == 0 {
                thread::yield_now();
            }
        }
    };
    let mut updates = 0;
    thread::scope(|threads| {
        let _stop = told.stop_at_end();
        for me in 0..READERS {
            let (told, check, reader) = (&told, &check, live.reader());
            let hash_tables = tables(width);
            let hash_table = hash_tables[me % hash_tables.len()].clone();
            threads
                .spawn(move || told.read(me, reader, |view, turn| check(&hash_table, view, turn)));
        }
        while updates < UPDATES as u64 && !told.enough() {
            updates += 1;
            live.update(|table| flows.update(table, updates)).unwrap();
            told.update_returned(updates);
            told.wait(updates, BEHIND);
        }
    });
    println!("{updates} updates, versions seen: {:?}", told.versions);
    assert_eq!(told.seen.into_inner(), updates);
}

// Updates that alter nothing and readers that search nothing, so that views are taken in every part of a publish.
#[test]
fn what_returned_is_seen() {
    let mut live = Live::new(Settings::new(4, 1, 1, 2, 1, 0, 13).unwrap());
    let told = Told::new();
    let mut updates = 0;
    thread::scope(|threads| {
        let _stop = told.stop_at_end();
        for me in 0..READERS {
            let (told, reader) = (&told, live.reader());
            threads.spawn(move || told.read(me, reader, |_, _| ()));
        }
        while !told.enough() {
            updates += 1;
            live.update(|_| ());
            told.update_returned(updates);
            // now and then long enough for a reader to look between two updates
            (0..updates % 64).for_each(|_| hint::spin_loop());
        }
    });
    println!("{updates} updates, versions seen: {:?}", told.versions);
    assert_eq!(told.seen.into_inner(), updates);
}

// A class names what its flows refer to, which is freed once no view can have the class.
#[test]
fn settled_ends_the_use_of_older_views() {
    let mut live = Live::new(Settings::new(6, 3, 2, 4, 128, 8, 13).unwrap());
    live.update(|table| table.add(&[1; 13], 0)).unwrap();
    let freed: Vec<AtomicBool> = (0..=UPDATES).map(|_| AtomicBool::new(false)).collect();
    let told = Told::new();
    let mut class = 0;
    thread::scope(|threads| {
        let _stop = told.stop_at_end();
        for me in 0..READERS {
            let (told, freed, reader) = (&told, &freed, live.reader());
            let check = |view: &View, turn: u64| {
                let class = view.search(&[1; 13]).unwrap().unwrap() as usize;
                for _ in 0..=turn % 3 {
                    thread::yield_now();
                    assert!(!freed[class].load(Ordering::Relaxed), "class {class}");
                }
            };
            threads.spawn(move || told.read(me, reader, check));
        }
        while class < UPDATES && !told.enough() {
            class += 1;
            live.update(|table| table.change(&[1; 13], class as u32))
                .unwrap();
            let version = class as u64 + 1;
            told.update_returned(version);
            while !live.settled() && !told.stopped() {
                thread::yield_now();
            }
            freed[class - 1].store(true, Ordering::Relaxed);
            told.wait(version, 1);
        }
    });
    println!("{class} updates, versions seen: {:?}", told.versions);
}

// Views of versions 1, 3, 6, 10 and so on are kept while updates go on, beside a reader that takes each.
fn kept_views_stay(width: u64) {
    const KEPT: usize = 8;
    let flows = Flows::new(width);
    let history = flows.history(240);
    let hash_table = tables(width).remove(0);
    let check = |view: &View, version: u64| {
        let found = answers(view, &hash_table, &flows.keys, version);
        assert_eq!(found, flows.classes(version), "version {version}");
        assert_bytes(view, &history[version as usize]);
        assert_eq!(view.version(), version);
    };
    let mut live = Live::from(flows.table());
    let mut readers: Vec<Reader> = (0..KEPT).map(|_| live.reader()).collect();
    let mut readers = readers.iter_mut();
    let mut follower = live.reader();
    let mut kept: Vec<(&View, u64)> = Vec::new();
    let mut next = 1;
    for version in 1..=240 {
        live.update(|table| flows.update(table, version)).unwrap();
        if version == next {
            kept.extend(readers.next().map(|reader| (reader.view(), version)));
            next += 1 + kept.len() as u64;
        }
        kept.iter().for_each(|&(view, taken)| check(view, taken));
        check(follower.view(), version);
        // the readers to come have version 0
        assert!(!live.settled());
    }
    assert_eq!(kept.len(), KEPT);
}

// Every answer and refusal of a view is that of the table, on random tables.
fn a_view_answers_as_its_table(width: u64) {
    let mut random = Random::new(122);
    let mut right_tables = tables(width);
    let other_tables = tables(other_width(width));
    let (mut held, mut absent, mut refused) = (0, 0, 0);
    for _ in 0..300 {
        let card = random_card(&mut random, width);
        let mut live = Live::new(settings_of(&card.settings));
        let mut reader = live.reader();
        let mut keys: Vec<Key> = (0..40).map(|_| random_key(&mut random, width)).collect();
        live.update(|table| {
            // some are refused, as the card is small
            let added = keys[..30]
                .iter()
                .map(|key| table.add(key, random_class(&mut random)));
            refused += added.filter(Result::is_err).count();
        });
        keys.push(wrong_key(&mut random, &keys[0], width));
        let (table, view) = (live.table(), reader.view());
        assert_eq!((view.version(), view.settings()), (1, table.settings()));
        assert_bytes(view, &copied(&table.areas().lookup()));
        right_tables.rotate_left(1);
        for key in &keys {
            let answer = table.search(key);
            assert_eq!(view.search(key), answer);
            assert_eq!(view.search_lent(&right_tables[0], key), answer);
            let by_other = view.search_lent(&other_tables[0], key);
            assert_eq!(by_other, table.search_lent(&other_tables[0], key));
            assert_eq!(by_other, Err(Refusal::AreaLength));
            held += u64::from(matches!(answer, Ok(Some(_))));
            absent += u64::from(answer == Ok(None));
        }
        assert_eq!(view.search(&keys[40]), Err(Refusal::KeyLength));
        bursts_as_the_table(table, view, &right_tables[0], &other_tables[0], &keys[..40]);
    }
    println!("{held} held, {absent} absent, {refused} adds refused");
    assert!(held > 1_000 && absent > 1_000 && refused > 100);
}

// A burst of every number of keys, one of a wrong length, and one with a hash table for the other width; refused ones leave the numbers.
fn bursts_as_the_table(
    table: &Table,
    view: &View,
    hash_table: &KeyHasher,
    other: &KeyHasher,
    keys: &[Key],
) {
    let burst = |hash_table: &KeyHasher, keys: &[u8], n: usize| {
        let (mut by_view, mut by_table) = (vec![7; n], vec![7; n]);
        let found = view.search_burst(hash_table, keys, &mut by_view);
        let found = found.map(|answers| answers.collect::<Vec<Answer>>());
        let expected = table.search_burst(hash_table, keys, &mut by_table);
        let expected = expected.map(|answers| answers.collect::<Vec<Answer>>());
        assert_eq!(found, expected);
        assert_eq!(by_view, by_table);
        (found, by_view)
    };
    for n in 0..=keys.len() {
        let one_by_one = keys[..n].iter().map(|key| view.search(key)).collect();
        let (found, _) = burst(hash_table, &keys[..n].concat(), n);
        assert_eq!(found, Ok(one_by_one));
    }
    let all = keys.concat();
    let left = vec![7; keys.len()];
    for (hash_table, length, refusal) in [
        (hash_table, all.len() - 1, Refusal::KeyLength),
        (other, all.len(), Refusal::AreaLength),
    ] {
        let (found, numbers) = burst(hash_table, &all[..length], keys.len());
        assert_eq!((found, numbers), (Err(refusal), left.clone()));
    }
}

fn key(width: u64, byte: u8) -> Key {
    vec![byte; width as usize]
}

// An empty table at version 0, and a reader.
fn live_and_reader(width: u64) -> (Live, Reader) {
    let live = Live::new(Settings::new(6, 3, 2, 4, 128, 8, width).unwrap());
    let reader = live.reader();
    (live, reader)
}

fn settled_says_when_older_views_are_let_go(width: u64) {
    let (mut live, mut first) = live_and_reader(width);
    assert!(live.settled());
    let mut second = live.reader();
    let third = first.clone();
    live.update(|table| table.add(&key(width, 1), 7)).unwrap();
    assert!(!live.settled());
    assert!(!live.settled());
    first.view();
    assert!(!live.settled());
    drop(third);
    assert!(!live.settled());
    second.view();
    assert!(live.settled());
    // readers of several versions, and a clone of an older one
    live.update(|table| table.remove(&key(width, 1))).unwrap();
    first.view();
    live.update(|table| table.add(&key(width, 2), 7)).unwrap();
    assert!(!live.settled());
    first.view();
    assert!(!live.settled());
    let mut clone = second.clone();
    drop(second);
    assert!(!live.settled());
    assert_eq!(clone.view().version(), 3);
    assert!(live.settled());
    // readers of the latest view do not count
    let _last = live.reader();
    assert!(live.settled());
    live.update(|_| ());
    assert!(!live.settled());
}

fn what_was_accepted_before_a_refusal_is_published(width: u64) {
    let (mut live, mut reader) = live_and_reader(width);
    let [one, two] = [key(width, 1), key(width, 2)];
    let answer = live.update(|table| {
        table.add(&one, 7)?;
        table.add(&one, 8)?;
        table.add(&two, 9)
    });
    assert_eq!(answer, Err(Refusal::Held));
    let view = reader.view();
    assert_eq!(view.version(), 1);
    assert_eq!(
        [&one, &two].map(|key| view.search(key)),
        [Ok(Some(7)), Ok(None)]
    );
    // a refused call alone alters nothing, and counts as an update
    let before = copied(&view.areas());
    let answer = live.update(|table| table.change(&two, 9));
    assert_eq!(answer, Err(Refusal::NotHeld));
    assert_eq!(reader.view().version(), 2);
    assert_bytes(reader.view(), &before);
    assert_eq!(live.update(|table| table.search(&one)), Ok(Some(7)));
}

fn a_panic_publishes_nothing(width: u64) {
    let (mut live, mut reader) = live_and_reader(width);
    let [one, two] = [key(width, 1), key(width, 2)];
    live.update(|table| table.add(&one, 7)).unwrap();
    let before = copied(&reader.view().areas());
    // without a message, as it is meant
    let half = |table: &mut Table| {
        table.change(&one, 8).unwrap();
        table.add(&two, 8).unwrap();
        resume_unwind(Box::new("in a closure"));
    };
    let panicked = catch_unwind(AssertUnwindSafe(|| live.update(half)));
    assert!(panicked.is_err());
    assert_eq!(reader.view().version(), 1);
    assert_bytes(reader.view(), &before);
    assert_bytes(live.reader().view(), &before);
    assert!(live.settled());
    // the table has the half, and the next update publishes it
    assert_eq!(live.table().search(&one), Ok(Some(8)));
    live.update(|_| ());
    let view = reader.view();
    assert_eq!(view.version(), 2);
    assert_eq!([&one, &two].map(|key| view.search(key)), [Ok(Some(8)); 2]);
    assert_bytes(view, &copied(&live.table().areas().lookup()));
    // a writer that ends so leaves its readers the last update
    let writer = thread::spawn(move || {
        live.update(|table| {
            table.clear();
            resume_unwind(Box::new("in a thread"));
        })
    });
    assert!(writer.join().is_err());
    assert_eq!(reader.view().search(&one), Ok(Some(8)));
}

// Replaces the table by a loaded one, after a file that is refused, and goes on with it: in a view that is made, and in such as are written again.
fn load_in_updates(live: &mut Live, reader: &mut Reader, p: u64, width: u64) {
    let settings = Settings::new(p, 3, 2, 4, 128, 8, width).unwrap();
    let mut saved = Table::new(settings);
    saved.add(&key(width, 2), p as u32).unwrap();
    let file = saved.save();
    for (length, answer) in [(20, Err(Refusal::FileLength)), (file.len(), Ok(()))] {
        let loaded = live.update(|table| {
            *table = Table::load(&file[..length])?;
            table.add(&key(width, 3), 0)
        });
        assert_eq!(loaded, answer);
    }
    for class in 1..4 {
        let view = reader.view();
        assert_eq!(view.settings(), &settings);
        assert_eq!(view.search(&key(width, 2)), Ok(Some(p as u32)));
        assert_eq!(view.search(&key(width, 3)), Ok(Some(class - 1)));
        let by_other = view.search(&key(other_width(width), 2));
        assert_eq!(by_other, Err(Refusal::KeyLength));
        assert_bytes(view, &copied(&live.table().areas().lookup()));
        live.update(|table| table.change(&key(width, 3), class))
            .unwrap();
    }
}

// By one with more buckets, by such as have the other width, and by one with the first settings; a view of the first is kept.
fn a_closure_may_replace_the_table(width: u64) {
    let (mut live, mut early) = live_and_reader(width);
    live.update(|table| table.add(&key(width, 1), 7)).unwrap();
    let kept = early.view();
    let before = copied(&kept.areas());
    let mut reader = live.reader();
    let other = other_width(width);
    for (p, now) in [(8, width), (8, other), (4, other), (6, width)] {
        load_in_updates(&mut live, &mut reader, p, now);
        assert_bytes(kept, &before);
        assert_eq!(kept.search(&key(width, 1)), Ok(Some(7)));
    }
    reader.view();
    assert!(!live.settled());
    drop(early);
    assert!(live.settled());
}

fn a_reader_outlives_its_table(width: u64) {
    let (mut live, mut reader) = live_and_reader(width);
    live.update(|table| table.add(&key(width, 1), 7)).unwrap();
    let mut table = live.into_table();
    table.remove(&key(width, 1)).unwrap();
    assert_eq!(reader.view().search(&key(width, 1)), Ok(Some(7)));
    let mut clone = reader.clone();
    drop(reader);
    assert_eq!(clone.view().search(&key(width, 1)), Ok(Some(7)));
    // published again, it is another
    let again = Live::from(table);
    assert_eq!(again.reader().view().version(), 0);
    assert_eq!(again.reader().view().search(&key(width, 1)), Ok(None));
    assert_eq!(clone.view().search(&key(width, 1)), Ok(Some(7)));
}

#[test]
fn threads_may_have_each() {
    fn sent_and_shared<T: Send + Sync>() {}
    sent_and_shared::<Live>();
    sent_and_shared::<Reader>();
    sent_and_shared::<View>();
}

at_both_widths!(
    readers_beside_a_writer,
    kept_views_stay,
    a_view_answers_as_its_table,
    settled_says_when_older_views_are_let_go,
    what_was_accepted_before_a_refusal_is_published,
    a_panic_publishes_nothing,
    a_closure_may_replace_the_table,
    a_reader_outlives_its_table,
);
