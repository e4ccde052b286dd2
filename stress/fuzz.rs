//! The fuzzer's target: bytes are taken as settings, of either width, areas and a list of calls of every door. Each answer and every area, a window's too, is
//! compared with the model's, and the model's two searches with each other. A difference aborts, which the fuzzer reports with the bytes that led
//! there.

use flow::{doors, Generator, KeyHasher};
use model::bench_load;
use model::calls::{perform, Call};
use model::card::Card;
use model::hash;
use model::layout::Areas;
use model::ledger::{list_of, valid};
use model::listing;
use model::lookup as paper;
use model::packet::{packet6_key_into, packet_key_into};
use model::settings::{Settings as Model, IPV4_WIDTH, IPV6_WIDTH, LIMITS, WIDTHS};
use model::snapshot::{self, first_count, head_bytes, snapshot};
use model::window_area;
use std::sync::Mutex;
use testing::lending::{assert_areas, door, kind, lend};
use testing::made::NO_WIDTHS;
use testing::seen::Seen;
use testing::widths::tables;
use testing::windows::BesideModel;

// A longer list would only make a run slow.
const MOST_CALLS: usize = 48;

/// Called by libFuzzer with each of its inputs.
///
/// # Safety
/// `data` points to `size` bytes.
#[no_mangle]
pub unsafe extern "C" fn LLVMFuzzerTestOneInput(data: *const u8, size: usize) -> i32 {
    let input = if size == 0 {
        &[]
    } else {
        std::slice::from_raw_parts(data, size)
    };
    if std::panic::catch_unwind(|| run(input)).is_err() {
        std::process::abort();
    }
    0
}

/// Called by libFuzzer once: what was answered is printed at the end.
#[no_mangle]
pub extern "C" fn LLVMFuzzerInitialize(_: *mut i32, _: *mut *mut *mut u8) -> i32 {
    extern "C" {
        fn atexit(f: extern "C" fn()) -> i32;
    }
    unsafe { atexit(report) }
}

static SEEN: Mutex<Option<Seen>> = Mutex::new(None);

fn note(kind: &'static str, answer: u32) {
    let mut seen = SEEN.lock().unwrap();
    seen.get_or_insert_with(Seen::default).note(kind, answer);
}

extern "C" fn report() {
    if let Ok(Some(seen)) = SEEN.lock().as_deref() {
        seen.report("calls, by answer", &[]);
    }
}

fn run(input: &[u8]) {
    let mut bytes = Bytes(input);
    let mut trial = Trial::start(&mut bytes);
    for _ in 0..MOST_CALLS {
        if bytes.0.is_empty() {
            return;
        }
        trial.call(&mut bytes);
    }
}

// The input as far as it is not taken; zeros after its end.
struct Bytes<'a>(&'a [u8]);

impl Bytes<'_> {
    fn next(&mut self) -> u8 {
        match self.0.split_first() {
            None => 0,
            Some((&byte, rest)) => {
                self.0 = rest;
                byte
            }
        }
    }

    fn number(&mut self, most: usize) -> usize {
        let (high, low) = (self.next(), self.next());
        (256 * usize::from(high) + usize::from(low)) % (most + 1)
    }

    fn take(&mut self, length: usize) -> Vec<u8> {
        (0..length).map(|_| self.next()).collect()
    }

    // A setting: mostly small, now and then anywhere in its range, or out of it.
    fn setting(&mut self, i: usize) -> u64 {
        let (low, high) = LIMITS[i];
        let small = [6, 4, 4, 15, 40, 9][i];
        match self.next() {
            255 => [u64::MAX, high + 1, low.wrapping_sub(1), (1 << 32) + low][self.number(3)],
            254 => low + self.number((high - low) as usize) as u64,
            byte => low + u64::from(byte) % (small - low + 1),
        }
    }

    // One of the two widths, or now and then a number that is none.
    fn width(&mut self) -> u64 {
        match self.next() {
            255 => NO_WIDTHS[self.number(NO_WIDTHS.len() - 1)],
            byte => WIDTHS[usize::from(byte % 2)],
        }
    }

    fn settings(&mut self) -> Model {
        let [p, k, b, t, n, s] = [0, 1, 2, 3, 4, 5].map(|i| self.setting(i));
        Model::of([p, k, b, t, n, s, self.width()])
    }

    // One of a few keys, so that calls meet their flows again; or any; or one of a wrong length. Where the width is none, of width 13.
    fn key(&mut self, width: u64) -> Vec<u8> {
        let width = match width {
            IPV6_WIDTH => width,
            _ => IPV4_WIDTH,
        };
        match self.next() {
            255 => {
                let length = self.number(50);
                self.take(length)
            }
            254 => self.take(width as usize),
            byte => (0..width as u8)
                .map(|a| (byte % 64).wrapping_mul(2 * a + 1))
                .collect(),
        }
    }

    // How many numbers are lent: mostly as many as they should be.
    fn lent(&mut self, right: usize) -> usize {
        match self.next() {
            255 => self.number(2 * right + 1),
            _ => right,
        }
    }

    // How often a window is called: now and then so often that it gets full.
    fn times(&mut self) -> usize {
        match self.next() {
            255 => self.number(1100),
            byte => usize::from(byte % 8),
        }
    }

    fn class(&mut self) -> u32 {
        u32::from(self.next()) * 0x0101_0001
    }
}

thread_local! {
    // filled once, not for every input
    static HASH_TABLES: &'static [KeyHasher] =
        Vec::leak(WIDTHS.into_iter().flat_map(tables).collect());
}

struct Trial {
    card: Card,
    areas: Areas,
    // every hash table of either width
    hash_tables: &'static [KeyHasher],
    window: BesideModel,
}

impl Trial {
    // Areas of their lengths with a byte everywhere, or cleared; a window with that byte everywhere.
    fn start(bytes: &mut Bytes) -> Trial {
        let settings = bytes.settings();
        note(
            match settings.width {
                IPV4_WIDTH => "list of calls at width 13",
                IPV6_WIDTH => "list of calls at width 37",
                _ => "list of calls at no width",
            },
            0,
        );
        let lengths = match settings.allowed() {
            true => settings.area_lengths().map(|length| length as usize),
            false => [0, 1, 2, 3, 4, 5].map(|_| bytes.number(40)),
        };
        let byte = bytes.next();
        let mut trial = Trial {
            card: Card::new(settings),
            areas: Areas {
                ledger: vec![byte; lengths[0]],
                true_counts: vec![u16::from(byte); lengths[1]],
                clipped: vec![byte; lengths[2]],
                buckets: vec![byte; lengths[3]],
                side: vec![byte; lengths[4]],
            },
            hash_tables: HASH_TABLES.with(|tables| *tables),
            window: BesideModel::of(vec![u16::from(byte) * 257; window_area::NUMBERS]),
        };
        if byte % 8 != 1 {
            trial.update(bytes, &Call::Clear);
        }
        trial
    }

    fn call(&mut self, bytes: &mut Bytes) {
        match bytes.next() % 40 {
            0 => self.update(bytes, &Call::Clear),
            1..=8 => {
                let call = Call::Add(bytes.key(self.width()), bytes.class());
                self.update(bytes, &call);
            }
            9 | 10 => {
                let call = Call::Change(bytes.key(self.width()), bytes.class());
                self.update(bytes, &call);
            }
            11..=14 => {
                let call = Call::Remove(bytes.key(self.width()));
                self.update(bytes, &call);
            }
            15 => self.search(bytes),
            16 => self.search_place(bytes),
            17 | 18 => self.burst(bytes),
            19 => self.tally(bytes),
            20 | 21 => self.save(bytes),
            22..=24 => self.load(bytes),
            25 if bytes.next() % 2 == 0 => packet(bytes),
            25 => packet6(bytes),
            26 => self.settings(bytes),
            27 => self.hash(bytes),
            28 => self.other_length(bytes),
            29 => generator(bytes),
            30..=32 => self.search_counts(bytes),
            33..=36 => self.window(bytes),
            _ => self.other_byte(bytes),
        }
    }

    fn width(&self) -> u64 {
        self.card.settings.width
    }

    // A right hash table for the width: at 37 by half-byte or by byte. Where the width is none, any.
    fn right_table(&self, bytes: &mut Bytes) -> &[u64] {
        let width = self.width();
        let mut right: Vec<&KeyHasher> = self.hash_tables.iter().collect();
        if WIDTHS.contains(&width) {
            right.retain(|table| table.width() == width);
        }
        right[bytes.number(right.len() - 1)].entries()
    }

    // A work area of its length with the next byte everywhere, or of another length.
    fn work(&self, bytes: &mut Bytes) -> Vec<u16> {
        let length = match self.card.settings.allowed() {
            true => self.card.settings.area_lengths()[5] as usize,
            false => 8,
        };
        match bytes.next() {
            255 => vec![1; bytes.number(2 * length)],
            byte => vec![u16::from(byte) * 257; length],
        }
    }

    fn update(&mut self, bytes: &mut Bytes, call: &Call) {
        let mut work = match call {
            Call::Clear => Vec::new(),
            _ => self.work(bytes),
        };
        let mut expected = self.areas.clone();
        let by_paper = perform(&self.card, &mut expected, work.len(), call);
        let settings = &self.card.settings;
        let answer = door(settings, &mut self.areas, &mut work, call);
        assert_eq!(answer, by_paper, "{settings:?}, {call:?}");
        assert_areas(&self.areas, &expected, settings, call);
        note(kind(call), answer);
    }

    fn search(&mut self, bytes: &mut Bytes) {
        let key = bytes.key(self.width());
        let numbers = self.card.settings.numbers();
        let paper::Lookup {
            clipped,
            buckets,
            side,
        } = self.areas.lookup();
        let table = self.right_table(bytes);
        let by_paper = paper::search(&self.card, self.areas.lookup(), &key);
        let listed = listing::search_item(&self.card, self.areas.lookup(), &key);
        let whole = doors::search(numbers, clipped, buckets, side, &key);
        let lent = doors::search_lent(table, numbers, clipped, buckets, side, &key);
        assert_eq!(
            (whole, lent, listed),
            (by_paper.door(), by_paper.door(), by_paper),
            "{numbers:?}, {key:?}"
        );
        note("search", (whole >> 32) as u32);
    }

    // The search with two numbers for the record's place, or with some other number of them.
    fn search_place(&mut self, bytes: &mut Bytes) {
        let key = bytes.key(self.width());
        let length = match bytes.next() {
            255 => bytes.number(5),
            _ => 2,
        };
        let lookup = self.areas.lookup();
        let numbers = self.card.settings.numbers();
        let mut place = vec![7; length];
        let mut expected = place.clone();
        let by_paper = paper::search_place(&self.card, lookup, &key, &mut expected).door();
        let paper::Lookup {
            clipped,
            buckets,
            side,
        } = lookup;
        let found = doors::search_place(numbers, clipped, buckets, side, &key, &mut place);
        assert_eq!((found, place), (by_paper, expected), "{numbers:?}, {key:?}");
        note("search with the place", (found >> 32) as u32);
    }

    // A right hash table, one with another entry, one for the other width, or one of another length; and a card that goes by it.
    fn table(&self, bytes: &mut Bytes) -> (Vec<u64>, Card) {
        let settings = self.card.settings;
        let mut table = self.right_table(bytes).to_vec();
        let card = match bytes.next() {
            255 => {
                table.resize(bytes.number(2 * table.len()), 0);
                Card::new(settings)
            }
            253 => {
                let any = &self.hash_tables[bytes.number(self.hash_tables.len() - 1)];
                table = any.entries().to_vec();
                Card::new(settings)
            }
            254 => {
                let at = bytes.number(table.len() - 1);
                table[at] = u64::from(bytes.next()) * 0x0101_0101_0101_0101;
                Card::with_table(settings, table.clone())
            }
            _ => Card::new(settings),
        };
        (table, card)
    }

    // The search with three numbers for its counts, or with some other number of them, without and with a lent table. What it gives enters the
    // window.
    fn search_counts(&mut self, bytes: &mut Bytes) {
        let key = bytes.key(self.width());
        let (table, card) = self.table(bytes);
        let lookup = self.areas.lookup();
        let numbers = self.card.settings.numbers();
        let paper::Lookup {
            clipped,
            buckets,
            side,
        } = lookup;
        let mut counts = vec![7; bytes.lent(3)];
        let mut expected = counts.clone();
        let (mut counts_lent, mut expected_lent) = (counts.clone(), counts.clone());
        let by_paper = paper::search_counts(&self.card, lookup, &key, &mut expected).door();
        let found = doors::search_counts(numbers, clipped, buckets, side, &key, &mut counts);
        assert_eq!(
            (found, &counts),
            (by_paper, &expected),
            "{numbers:?}, {key:?}"
        );
        note("search with counts", (found >> 32) as u32);
        let n = table.len();
        let by_paper = paper::search_counts_lent(&card, n, lookup, &key, &mut expected_lent);
        let lent = &mut counts_lent;
        let found_lent =
            doors::search_counts_lent(&table, numbers, clipped, buckets, side, &key, lent);
        assert_eq!(
            (found_lent, counts_lent),
            (by_paper.door(), expected_lent),
            "{numbers:?}, {key:?}"
        );
        note("search with counts lent", (found_lent >> 32) as u32);
        note("window enter", self.window.enter(found, &counts));
    }

    // A window is cleared, its oldest entries removed, a search entered some times, also such as no search gives, or one of its numbers or its
    // length altered. Then it is counted.
    fn window(&mut self, bytes: &mut Bytes) {
        let window = &mut self.window;
        match bytes.next() % 8 {
            0 => note("window clear", window.clear()),
            1 | 2 => {
                for _ in 0..bytes.times() {
                    let answer = window.remove();
                    note("window remove", answer);
                    if answer != 0 {
                        break;
                    }
                }
            }
            3 => {
                window.area.resize(bytes.lent(window_area::NUMBERS), 0);
                if let Some(most) = window.area.len().checked_sub(1) {
                    let most = [most, most.min(window_area::RING)][bytes.number(1)];
                    window.area[bytes.number(most)] = bytes.number(65535) as u16;
                }
                window.plain = None;
            }
            _ => {
                let number = match bytes.next() {
                    255 => bytes.number(65535) as u64,
                    byte => [0, 100, 5][usize::from(byte % 3)],
                };
                let found = number << 32 | u64::from(bytes.class());
                let counts: Vec<u32> = (0..bytes.lent(3))
                    .map(|_| match bytes.next() {
                        255 => u32::MAX,
                        byte => u32::from(byte % 128),
                    })
                    .collect();
                for _ in 0..bytes.times() {
                    let answer = window.enter(found, &counts);
                    note("window enter", answer);
                    if answer != 0 {
                        break;
                    }
                }
            }
        }
        let mut counts = vec![7; bytes.lent(3)];
        note("window counts", self.window.counts(&mut counts));
    }

    // Keys for as many answers, or for some other number of them, with the right hash table, one with another entry, or one of another length.
    fn burst(&mut self, bytes: &mut Bytes) {
        let count = match bytes.next() {
            255 => bytes.number(70),
            byte => usize::from(byte % 9),
        };
        let keys: Vec<u8> = (0..count).flat_map(|_| bytes.key(self.width())).collect();
        let count = match bytes.next() {
            255 => bytes.number(70),
            _ => count,
        };
        let (table, card) = self.table(bytes);
        let numbers = card.settings.numbers();
        let paper::Lookup {
            clipped,
            buckets,
            side,
        } = self.areas.lookup();
        // what no door answers
        let mut answers = vec![u64::MAX; count];
        let mut expected = answers.clone();
        let lookup = self.areas.lookup();
        let by_paper = paper::burst(&card, table.len(), lookup, &keys, &mut expected);
        let answer =
            doors::search_burst(&table, numbers, clipped, buckets, side, &keys, &mut answers);
        assert_eq!(
            (answer, &answers),
            (by_paper, &expected),
            "{numbers:?}, {keys:?}"
        );
        note("burst", answer);
        if answer == 0 {
            for (key, found) in keys.chunks(card.settings.key_bytes()).zip(answers) {
                let alone = doors::search_lent(&table, numbers, clipped, buckets, side, key);
                assert_eq!(found, alone, "{numbers:?}, {key:?}");
                note("key of a burst", (found >> 32) as u32);
            }
        }
    }

    fn tally(&mut self, bytes: &mut Bytes) {
        let Areas {
            ledger,
            clipped,
            buckets,
            side,
            ..
        } = &self.areas;
        let length = match bytes.next() {
            255 => bytes.number(8),
            _ => 4,
        };
        let mut totals = vec![7; length];
        let numbers = self.card.settings.numbers();
        let answer = doors::tally(numbers, ledger, clipped, buckets, side, &mut totals);
        let (by_paper, expected) = match paper::tally(&self.card, ledger, self.areas.lookup()) {
            Err(1) => (1, vec![7; length]),
            _ if length != 4 => (2, vec![7; length]),
            Err(number) => (number, vec![7; 4]),
            Ok(t) => (
                0,
                [t.in_buckets, t.in_side, t.marked_255, t.fill]
                    .map(|total| total as u32)
                    .to_vec(),
            ),
        };
        assert_eq!((answer, totals), (by_paper, expected), "{numbers:?}");
        note("tally", answer);
    }

    fn save(&mut self, bytes: &mut Bytes) {
        let mut work = self.work(bytes);
        let ledger = &self.areas.ledger;
        let count = ledger.get(..2).map_or(0, model::records::count) as usize;
        let length = match bytes.next() {
            255 => bytes.number(100),
            _ if self.card.settings.allowed() => {
                let record = self.card.settings.record_bytes();
                head_bytes(first_count(self.width())) + record * count
            }
            _ => 16,
        };
        let mut target = vec![7; length];
        let mut expected = target.clone();
        let by_paper = snapshot::save(&self.card, ledger, work.len(), &mut expected);
        let numbers = self.card.settings.numbers();
        let answer = doors::save(numbers, ledger, &mut work, &mut target);
        assert_eq!((answer, target), (by_paper, expected), "{numbers:?}");
        note("save", answer);
    }

    // The snapshot of what the ledger holds, with some bytes altered, cut or extended; or any bytes. A file that loads becomes the table.
    fn load(&mut self, bytes: &mut Bytes) {
        let settings = self.card.settings;
        let mut file = match bytes.next() % 4 {
            0 => {
                let length = bytes.number(80);
                bytes.take(length)
            }
            _ if settings.allowed()
                && self.areas.fit(&settings, None)
                && valid(&settings, &self.areas.ledger) =>
            {
                snapshot(&settings, &list_of(&settings, &self.areas.ledger))
            }
            // a file has 16 bits of a setting
            _ => {
                let width = settings.width % 65536;
                snapshot(&Model { width, ..settings }, &[])
            }
        };
        // another first count, or a width put in, left out or exchanged
        match bytes.next() {
            255 if file.len() > 1 => file[1] = bytes.next() % 10,
            254 if file.len() > 15 && file[1] == 6 => {
                file.splice(14..14, [0, [13, 37, 14][bytes.number(2)]]);
                file[1] = 7;
            }
            253 if file.len() > 15 => file[15] = [13, 37, 14, 0][bytes.number(3)],
            _ => {}
        }
        for _ in 0..bytes.next() % 4 {
            let at = bytes.number(file.len());
            match bytes.next() {
                0 => file.truncate(at),
                1 => file.push(bytes.next()),
                _ if at < file.len() => file[at] = bytes.next(),
                _ => file.extend(bytes.take([17, 41][usize::from(at % 2 == 0)])),
            }
        }
        let mut work = self.work(bytes);
        let mut numbers = match bytes.next() {
            255 => vec![7; bytes.number(10)],
            _ => vec![7; 7],
        };
        let (mut told, mut told_by_paper) = (numbers.clone(), numbers.clone());
        let number = snapshot::file_settings(&file, &mut told_by_paper);
        let answer = doors::file_settings(&file, &mut told);
        assert_eq!((answer, told), (number, told_by_paper), "{file:?}");
        note("file settings", answer);
        let (mut expected, mut by_paper) = (self.areas.clone(), numbers.clone());
        let number = snapshot::load(&file, &mut expected, work.len(), &mut by_paper);
        let answer = doors::load(&file, lend(&mut self.areas), &mut work, &mut numbers);
        assert_eq!((answer, &numbers), (number, &by_paper), "{file:?}");
        assert_areas(&self.areas, &expected, &settings, &file);
        note("load", answer);
        if answer == 0 {
            self.card = Card::new(Model::of(numbers.try_into().unwrap()));
        }
    }

    // Other settings, whose areas are not made anew; and their verdict and lengths.
    fn settings(&mut self, bytes: &mut Bytes) {
        let settings = bytes.settings();
        let numbers = settings.numbers();
        let mut lengths = vec![7; bytes.number(1) + 5];
        let (check, answer) = (
            doors::settings_check(numbers),
            doors::area_lengths(numbers, &mut lengths),
        );
        let expected = match (settings.allowed(), lengths.len()) {
            (false, length) => (1, 1, vec![7; length]),
            (true, 6) => (0, 0, settings.area_lengths().to_vec()),
            (true, length) => (0, 2, vec![7; length]),
        };
        assert_eq!((check, answer, lengths), expected, "{numbers:?}");
        note("area lengths", answer);
        if bytes.next() % 4 == 0 {
            self.card = Card::new(settings);
        }
    }

    // H with no table and with one, in one number or in another number of them, and now and then a table filled; at the table's width or another.
    fn hash(&mut self, bytes: &mut Bytes) {
        let key = bytes.key(self.width());
        let width = match bytes.next() {
            255 => bytes.width(),
            _ => self.width(),
        };
        let (mut table, _) = self.table(bytes);
        let for_h = bytes.lent(1);
        let (mut h, mut h_lent) = (vec![7; for_h], vec![7; for_h]);
        let answer = doors::hash(width, &key, &mut h);
        assert_eq!(answer, hash::hash_verdict(width, None, &key, for_h));
        if answer == 0 {
            assert_eq!(h, [hash::h(&hash::rows(key.len()), &key)], "{key:?}");
        } else {
            assert_eq!(h, vec![7; for_h]);
        }
        note("hash", answer);
        let answer = doors::hash_lent(width, &table, &key, &mut h_lent);
        let by_paper = hash::hash_verdict(width, Some(table.len()), &key, for_h);
        assert_eq!(answer, by_paper, "{width}, {} entries", table.len());
        if answer == 0 {
            assert_eq!(h_lent, [hash::h_by(&table, &key)], "{key:?}");
        } else {
            assert_eq!(h_lent, vec![7; for_h]);
        }
        note("hash lent", answer);

        self.key_buckets(&key);
        // a table is filled less often: it is much work for one answer
        if bytes.next() % 8 != 0 {
            return;
        }
        let before = table.clone();
        let answer = doors::hash_table(width, &mut table);
        assert_eq!(answer, hash::table_verdict(width, before.len()));
        let filled = self
            .hash_tables
            .iter()
            .find(|right| right.width() == width && right.entries().len() == before.len());
        assert_eq!(table, filled.map_or(&before[..], |right| right.entries()));
        note("hash table", answer);
    }

    fn key_buckets(&self, key: &[u8]) {
        let settings = &self.card.settings;
        let (mut hashes, mut numbers) = ([7; 4], [7; 5]);
        let answer = doors::key_buckets(settings.numbers(), key, &mut hashes, &mut numbers);
        note("key buckets", answer);
        if !settings.allowed() || key.len() != settings.key_bytes() {
            assert_eq!(answer, if settings.allowed() { 3 } else { 1 });
            assert_eq!((hashes, numbers), ([7; 4], [7; 5]));
            return;
        }
        assert_eq!(answer, 0);
        let by_paper = hash::h(&hash::rows(key.len()), key);
        let by_j = [0, 1, 2, 3].map(|j| hash::hash_j(settings, by_paper, j));
        assert_eq!(hashes.map(u64::from), by_j);
        let mut expected = hash::bucket_numbers(settings, by_paper);
        expected.insert(0, expected.len() as u64);
        expected.resize(5, 0);
        assert!(numbers.iter().map(|&b| u64::from(b)).eq(expected));
    }

    fn other_length(&mut self, bytes: &mut Bytes) {
        let area = bytes.next() % 5;
        let other = |length: usize, bytes: &mut Bytes| match bytes.next() % 4 {
            0 => length + 1,
            1 => length.saturating_sub(1),
            _ => bytes.number(length + 20),
        };
        let Areas {
            ledger,
            true_counts,
            clipped,
            buckets,
            side,
        } = &mut self.areas;
        match area {
            0 => ledger.resize(other(ledger.len(), bytes), 0),
            1 => true_counts.resize(other(true_counts.len(), bytes), 0),
            2 => clipped.resize(other(clipped.len(), bytes), 0),
            3 => buckets.resize(other(buckets.len(), bytes), 0),
            _ => side.resize(other(side.len(), bytes), 0),
        }
    }

    // Another byte somewhere, more often at the start of the area.
    fn other_byte(&mut self, bytes: &mut Bytes) {
        let Areas {
            ledger,
            clipped,
            buckets,
            side,
            ..
        } = &mut self.areas;
        let area = [ledger, clipped, buckets, side][usize::from(bytes.next() % 4)].as_mut_slice();
        if !area.is_empty() {
            let most = match bytes.next() % 2 {
                0 => area.len().min(40) - 1,
                _ => area.len() - 1,
            };
            area[bytes.number(most)] = bytes.next();
        }
    }
}

fn packet(bytes: &mut Bytes) {
    let length = bytes.number(80);
    let mut packet = bytes.take(length);
    // mostly of version 4, often with ports
    if length >= 20 && bytes.next() % 8 != 0 {
        packet[0] = 64 + packet[0] % 16;
        packet[9] = [packet[9], 6, 17][bytes.number(2)];
        // any flags; the fragment offset as it came, zero, or one bit of it
        let came = u16::from_be_bytes([packet[6], packet[7]]);
        let offset = [came & 0x1fff, 0, 1 << bytes.number(12)][bytes.number(2)];
        packet[6..8].copy_from_slice(&(came & 0xe000 | offset).to_be_bytes());
    }
    let mut key = match bytes.next() {
        255 => vec![7; bytes.number(40)],
        _ => vec![7; IPV4_WIDTH as usize],
    };
    let mut expected = key.clone();
    let by_paper = packet_key_into(&packet, &mut expected);
    let answer = doors::packet_key(&packet, &mut key);
    assert_eq!((answer, key), (by_paper, expected), "{packet:?}");
    note("packet key", answer);
}

fn packet6(bytes: &mut Bytes) {
    let length = bytes.number(88);
    let mut packet = bytes.take(length);
    // mostly of version 6, often with ports
    if length >= 7 && bytes.next() % 8 != 0 {
        packet[0] = 96 + packet[0] % 16;
        packet[6] = [packet[6], 6, 17, 44, 0][bytes.number(4)];
    }
    let mut key = match bytes.next() {
        255 => vec![7; bytes.number(40)],
        _ => vec![7; IPV6_WIDTH as usize],
    };
    let mut expected = key.clone();
    let by_paper = packet6_key_into(&packet, &mut expected);
    let answer = doors::packet6_key(&packet, &mut key);
    assert_eq!((answer, key), (by_paper, expected), "{packet:?}");
    note("IPv6 packet key", answer);
}

// Some numbers of a generator that starts at small numbers, at any, or at the largest.
fn generator(bytes: &mut Bytes) {
    let [s, w] = [0, 1].map(|_| match bytes.next() {
        255 => u64::MAX,
        254 => u64::from_be_bytes(bytes.take(8).try_into().unwrap()),
        byte => u64::from(byte),
    });
    let mut held = Generator { s, w };
    let mut by_paper = bench_load::Generator { s, w };
    for _ in 0..=bytes.next() % 8 {
        let (number, expected) = (held.next_number(), by_paper.number());
        assert_eq!(
            (number, held.s, held.w),
            (expected, by_paper.s, by_paper.w),
            "from s {s}, w {w}"
        );
        note("generator", 0);
    }
}
