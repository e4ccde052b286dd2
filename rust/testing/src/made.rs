//! Tables, damage and wrong numbers, made at random, for keys of either width.

use crate::random::Random;
use model::card::Card;
use model::hash;
use model::layout::{layout, Areas};
use model::records::{Key, Record};
use model::settings::{Settings as Model, IPV4_WIDTH, IPV6_WIDTH, LIMITS};

/// Random bytes, or bits that stand alone, or all zeros.
pub fn random_key(random: &mut Random, width: u64) -> Key {
    match random.between(0, 19) {
        0 => vec![0; width as usize],
        1 => {
            let mut key = vec![0; width as usize];
            turn_a_bit(random, &mut key);
            key
        }
        _ => random_bytes(random, width),
    }
}

/// A key with one bit turned.
pub fn turn_a_bit(random: &mut Random, key: &mut [u8]) {
    let at = random.between(0, key.len() as u64 - 1) as usize;
    key[at] ^= 1 << random.between(0, 7);
}

/// All zeros, all ones, each single bit, and each bit missing.
pub fn special_keys(width: u64) -> Vec<Key> {
    let width = width as usize;
    let mut keys = vec![vec![0; width], vec![0xff; width]];
    for bit in 0..8 * width {
        let mut key = vec![0; width];
        key[bit / 8] = 1 << (bit % 8);
        keys.push(key.clone());
        keys.push(key.iter().map(|byte| !byte).collect());
    }
    keys
}

/// The other of the two widths.
pub fn other_width(width: u64) -> u64 {
    IPV4_WIDTH + IPV6_WIDTH - width
}

/// Numbers that are no width: around the two, zero, and such as agree with one in their low 16 or 32 bits.
pub const NO_WIDTHS: [u64; 10] = [
    0,
    12,
    14,
    36,
    38,
    (1 << 16) + IPV4_WIDTH,
    (1 << 16) + IPV6_WIDTH,
    (1 << 32) + IPV4_WIDTH,
    (1 << 32) + IPV6_WIDTH,
    u64::MAX,
];

/// Lengths that are no hash table's for keys of a width: around those that are, those for the other width, and others.
pub fn wrong_table_lengths(width: u64) -> Vec<usize> {
    let right: Vec<usize> = hash::tables(width)
        .iter()
        .map(|&by| hash::entries(width, by))
        .collect();
    let mut wrong = vec![0, 1, 13, 37, 256, 416, 1184, 3328, 9472, 65_536];
    for n in &right {
        wrong.extend([n - 256, n - 16, n - 1, n + 1, n + 16, n + 256, 2 * n]);
    }
    wrong.retain(|n| !right.contains(n));
    wrong
}

/// Settings in range, each number random, for keys of this width.
pub fn anywhere(random: &mut Random, width: u64) -> Model {
    let [p, k, b, t, n, s] = LIMITS.map(|(low, high)| random.between(low, high));
    Model::of([p, k, b, t, n, s, width])
}

/// Each setting out of its range by itself: which one, and the seven numbers.
pub fn each_out_of_range(settings: &Model) -> Vec<(usize, Model)> {
    let right = settings.numbers();
    let mut wrong = Vec::new();
    let mut put = |i: usize, value: u64| {
        let mut numbers = right;
        numbers[i] = value;
        wrong.push((i, Model::of(numbers)));
    };
    for (i, (low, high)) in LIMITS.into_iter().enumerate() {
        for value in [high + 1, (1 << 32) + low, (1 << 16) + low, u64::MAX] {
            put(i, value);
        }
        if low > 0 {
            put(i, low - 1);
            put(i, 0);
        }
    }
    for width in NO_WIDTHS {
        put(LIMITS.len(), width);
    }
    wrong
}

pub fn random_class(random: &mut Random) -> u32 {
    match random.between(0, 9) {
        0 => 0,
        1 => u32::MAX,
        _ => random.number() as u32,
    }
}

/// So many random records in rising key order.
pub fn random_list(random: &mut Random, width: u64, count: u64) -> Vec<Record> {
    let mut list: Vec<Record> = Vec::new();
    while (list.len() as u64) < count {
        let key = random_key(random, width);
        if let Err(at) = list.binary_search_by(|r| r.key.cmp(&key)) {
            let class = random_class(random);
            list.insert(at, Record { key, class });
        }
    }
    list
}

/// So many random records, taken out one by one until the rest has a layout: near what the side store allows.
pub fn filled(random: &mut Random, card: &Card, count: u64) -> (Vec<Record>, Areas) {
    let mut list = random_list(random, card.settings.width, count);
    loop {
        if let Some(areas) = layout(card, &list) {
            return (list, areas);
        }
        let some = 1 + list.len() as u64 / 64;
        for _ in 0..some {
            let at = random.between(0, list.len() as u64 - 1);
            list.remove(at as usize);
        }
    }
}

/// Allowed settings: mostly small ones, so that clipped counts, crowded buckets and the side store all occur.
pub fn random_card(random: &mut Random, width: u64) -> Card {
    let settings = if random.between(0, 9) == 0 {
        anywhere(random, width)
    } else {
        Model::of([
            random.between(4, 6),
            random.between(1, 4),
            random.between(1, 2),
            random.between(2, 4),
            random.between(1, 80),
            match random.between(0, 3) {
                0 => random.between(0, 64),
                _ => random.between(0, 4),
            },
            width,
        ])
    };
    Card::new(settings)
}

/// A list, often as long as its card can take, with its layout.
pub fn random_table(random: &mut Random, card: &Card) -> (Vec<Record>, Areas) {
    let n = card.settings.n;
    let count = match random.between(0, 3) {
        0 => random.between(0, n),
        1 => n.min(card.settings.m() * card.settings.b),
        _ => n,
    };
    filled(random, card, count.min(300))
}

/// A count that is sometimes above the most.
pub fn random_count(random: &mut Random, most: u64) -> u64 {
    match random.between(0, 19) {
        0 => random.between(0, 65535),
        1 => most + random.between(0, 2),
        // a high byte that a reader of the low one alone would miss
        2 => 256 * random.between(1, 255) + random.between(0, most),
        _ => random.between(0, most),
    }
}

pub fn set_count(area: &mut [u8], count: u64) {
    area[0] = (count / 256) as u8;
    area[1] = (count % 256) as u8;
}

/// A length other than n: near it, a record of either width away, zero, twice it, or any.
pub fn wrong_length(random: &mut Random, n: usize) -> usize {
    let other = match random.between(0, 6) {
        0 => 0,
        1 => n.saturating_sub(1),
        2 => n + 1,
        3 => n.saturating_sub(17 + 24 * random.between(0, 1) as usize),
        4 => n + 17 + 24 * random.between(0, 1) as usize,
        5 => 2 * n,
        _ => random.between(0, 2 * n as u64 + 2) as usize,
    };
    if other == n {
        n + 1
    } else {
        other
    }
}

/// A setting out of its range.
pub fn spoiled(random: &mut Random, settings: Model) -> Model {
    let mut numbers = settings.numbers();
    let i = random.between(0, LIMITS.len() as u64) as usize;
    if i == LIMITS.len() {
        numbers[i] = NO_WIDTHS[random.between(0, NO_WIDTHS.len() as u64 - 1) as usize];
        return Model::of(numbers);
    }
    let (low, high) = LIMITS[i];
    numbers[i] = match random.between(0, 4) {
        0 if low > 0 => low - 1,
        1 => (1 << 32) + numbers[i],
        2 => u64::MAX,
        3 => numbers[i] + (1 << 16),
        _ => high + 1,
    };
    Model::of(numbers)
}

/// A key of another length: now and then of the other width.
pub fn wrong_key(random: &mut Random, key: &[u8], width: u64) -> Vec<u8> {
    let length = match random.between(0, 3) {
        0 => other_width(width) as usize,
        _ => wrong_length(random, width as usize),
    };
    let mut key = key.to_vec();
    key.resize(length, 7);
    key
}

/// Damage to a ledger: count above N, keys not rising, a nonzero byte after the last record, a single byte, or all random.
pub fn damage_ledger(random: &mut Random, card: &Card, ledger: &mut [u8]) {
    let (key_bytes, record) = (card.settings.key_bytes(), card.settings.record_bytes());
    let n = 256 * usize::from(ledger[0]) + usize::from(ledger[1]);
    let end = 2 + record * n;
    match random.between(0, 5) {
        0 => set_count(ledger, card.settings.n + random.between(0, 2)),
        1 => {
            let count = random_count(random, card.settings.n);
            set_count(ledger, count);
        }
        2 if n > 1 => {
            let at = 2 + record * random.between(0, n as u64 - 2) as usize;
            // the second key becomes the first, or they change places
            let (first, second) = ledger[at..at + 2 * record].split_at_mut(record);
            if random.between(0, 1) == 0 {
                second[..key_bytes].copy_from_slice(&first[..key_bytes]);
            } else {
                first.swap_with_slice(second);
            }
        }
        3 if end < ledger.len() => {
            let at = random.between(end as u64, ledger.len() as u64 - 1) as usize;
            ledger[at] = random.between(1, 255) as u8;
        }
        4 => {
            let at = random.between(0, ledger.len() as u64 - 1) as usize;
            ledger[at] = random.number() as u8;
        }
        _ => {
            for byte in ledger.iter_mut() {
                *byte = random.number() as u8;
            }
        }
    }
}

// One record place of the area gets the key, and some class.
fn plant(random: &mut Random, card: &Card, area: &mut [u8], from: usize, key: &[u8]) {
    let record = card.settings.record_bytes();
    let places = (area.len() - from) / record;
    if places > 0 {
        let at = from + record * random.between(0, places as u64 - 1) as usize;
        area[at..at + key.len()].copy_from_slice(key);
    }
}

// A mark: mostly one that a search may go on with.
fn random_mark(random: &mut Random, room: u64) -> u8 {
    match random.between(0, 19) {
        0 => random.between(room + 1, 254) as u8,
        1 => room as u8 + 1,
        2 => 254,
        3..=6 => 255,
        _ => random.between(0, room) as u8,
    }
}

// Counters that are seldom zero or above T, or alike.
fn random_counters(random: &mut Random, clipped: &mut [u8], top: u64) {
    let way = random.between(0, 4);
    let alike = random.between(0, 15) as u8;
    for byte in clipped {
        let mut half = || match way {
            0 => random.between(0, 15) as u8,
            1 => random.between(1, top) as u8,
            2 => top as u8,
            3 => alike,
            _ => match random.between(0, 29) {
                0 => 0,
                1 => random.between(top, 15) as u8,
                _ => random.between(1, top) as u8,
            },
        };
        *byte = half() + 16 * half();
    }
}

/// Damage to lookup areas of a table, such that some searches still get far.
pub fn damage_lookup(random: &mut Random, card: &Card, areas: &mut Areas, keys: &[Key]) {
    let room = card.settings.b;
    let bucket_bytes = card.bucket_bytes();
    match random.between(0, 5) {
        // single bytes
        0 => {
            for _ in 0..random.between(1, 8) {
                for area in [&mut areas.clipped, &mut areas.buckets, &mut areas.side] {
                    let at = random.between(0, area.len() as u64 - 1) as usize;
                    area[at] = random.number() as u8;
                }
            }
        }
        // one kind of damage: counters, marks or the side count
        1 => {
            let at = random.between(0, areas.clipped.len() as u64 - 1) as usize;
            areas.clipped[at] = random.number() as u8;
        }
        2 => {
            for bucket in areas.buckets.chunks_mut(bucket_bytes) {
                if random.between(0, 3) == 0 {
                    bucket[0] = random_mark(random, room);
                }
            }
        }
        3 => {
            let count = random_count(random, card.settings.s);
            set_count(&mut areas.side, count);
        }
        // random bytes everywhere, with counters and marks that lead on
        4 => {
            for area in [&mut areas.buckets, &mut areas.side] {
                for byte in area.iter_mut() {
                    *byte = random.number() as u8;
                }
            }
            random_counters(random, &mut areas.clipped, card.settings.t);
            for bucket in areas.buckets.chunks_mut(bucket_bytes) {
                bucket[0] = random_mark(random, room);
                for key in keys {
                    plant(random, card, bucket, 1, key);
                }
            }
            let count = random_count(random, card.settings.s);
            set_count(&mut areas.side, count);
            for key in keys {
                plant(random, card, &mut areas.side, 2, key);
            }
        }
        // random bytes everywhere
        _ => {
            for area in [&mut areas.clipped, &mut areas.buckets, &mut areas.side] {
                for byte in area.iter_mut() {
                    *byte = random.number() as u8;
                }
            }
        }
    }
}

/// Mostly few buckets, low counts, few side places and a small capacity; one in twenty over the whole ranges, one in ten between.
pub fn small_card(random: &mut Random, width: u64) -> Card {
    let small = [
        4,
        random.between(1, 4),
        random.between(1, 2),
        random.between(2, 4),
        random.between(1, 24),
        random.between(0, 4),
        width,
    ];
    let settings = match random.between(0, 19) {
        0 => anywhere(random, width),
        1 | 2 => Model::of([
            random.between(4, 7),
            random.between(1, 4),
            random.between(1, 4),
            random.between(2, 15),
            random.between(1, 200),
            random.between(0, 16),
            width,
        ]),
        _ => Model::of(small),
    };
    Card::new(settings)
}

pub fn random_bytes(random: &mut Random, length: u64) -> Vec<u8> {
    (0..length).map(|_| random.number() as u8).collect()
}

pub fn random_numbers(random: &mut Random, length: u64) -> Vec<u16> {
    (0..length).map(|_| random.number() as u16).collect()
}

/// Areas of their lengths with random bytes.
pub fn random_areas(random: &mut Random, settings: &Model) -> Areas {
    let lengths = settings.area_lengths();
    Areas {
        ledger: random_bytes(random, lengths[0]),
        true_counts: random_numbers(random, lengths[1]),
        clipped: random_bytes(random, lengths[2]),
        buckets: random_bytes(random, lengths[3]),
        side: random_bytes(random, lengths[4]),
    }
}

/// Work of its length: random numbers, or all zeros, or all ones.
pub fn random_work(random: &mut Random, settings: &Model) -> Vec<u16> {
    let length = settings.area_lengths()[5];
    match random.between(0, 4) {
        0 => vec![0; length as usize],
        1 => vec![u16::MAX; length as usize],
        _ => random_numbers(random, length),
    }
}

/// Another length, with zeros where it grows.
pub fn resize<T: Clone + Default>(random: &mut Random, area: &mut Vec<T>) {
    area.resize(wrong_length(random, area.len()), T::default());
}

/// A load for the bench: s, w, F and the count of calls, in eight bytes each, high byte first.
pub fn load(s: u64, w: u64, f: u64, count: u64) -> Vec<u8> {
    [s, w, f, count].map(u64::to_be_bytes).concat()
}

/// What a search is lent, with a key of the list or another, where now and then the lookup areas are damaged, the key or an area has another length, and a setting
/// is out of its range.
pub fn wrong_search(
    random: &mut Random,
    card: &Card,
    list: &[Record],
    areas: &Areas,
) -> (Model, Areas, Vec<u8>) {
    let mut areas = areas.clone();
    let mut settings = card.settings;
    let width = settings.width;
    let mut key = match list.first() {
        Some(record) if random.between(0, 1) == 0 => record.key.clone(),
        _ => random_key(random, width),
    };
    if random.between(0, 3) == 0 {
        let keys = [random_key(random, width)];
        damage_lookup(random, card, &mut areas, &keys);
    }
    if random.between(0, 3) == 0 {
        key = wrong_key(random, &key, width);
    }
    for area in [&mut areas.clipped, &mut areas.buckets, &mut areas.side] {
        if random.between(0, 7) == 0 {
            area.resize(wrong_length(random, area.len()), 0);
        }
    }
    if random.between(0, 5) == 0 {
        settings = spoiled(random, settings);
    }
    (settings, areas, key)
}
