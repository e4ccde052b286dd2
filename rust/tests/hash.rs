//! H, the hash tables, the hashes and the bucket numbers against the model, at both widths: with no table, by byte, and at 37 by half-byte too.

use flow::{doors, KeyHasher, Refusal, Settings};
use model::hash::{self as paper, By};
use model::records::Key;
use model::settings::{Settings as Model, IPV4_WIDTH, IPV6_WIDTH};
use testing::at_both_widths;
use testing::made::{
    anywhere, each_out_of_range, other_width, random_bytes, special_keys, wrong_table_lengths,
    NO_WIDTHS,
};
use testing::random::Random;
use testing::seen::Seen;
use testing::widths::{hash_tables, settings_of, tables};

const RANDOM_KEYS: usize = 100_000;

fn keys(random: &mut Random, width: u64) -> Vec<Key> {
    let mut keys = special_keys(width);
    keys.extend((0..RANDOM_KEYS).map(|_| random_bytes(random, width)));
    keys
}

fn table_entries(width: u64) {
    for (by, table) in hash_tables(width) {
        assert_eq!(table.width(), width);
        let by_paper = paper::table(width, by);
        assert_eq!(table.entries().len(), by_paper.len(), "{by:?}");
        for (at, (entry, expected)) in table.entries().iter().zip(&by_paper).enumerate() {
            assert_eq!(entry, expected, "{by:?}, entry {at}");
        }
    }
}

#[test]
fn table_lengths() {
    let lengths = |width| -> Vec<usize> {
        let tables = tables(width);
        tables.iter().map(|table| table.entries().len()).collect()
    };
    assert_eq!(lengths(IPV4_WIDTH), [3_328]);
    assert_eq!(lengths(IPV6_WIDTH), [1_184, 9_472]);
    for width in [IPV4_WIDTH, IPV6_WIDTH] {
        let settings = Settings::new(6, 3, 2, 4, 128, 8, width).unwrap();
        let table = KeyHasher::of(&settings);
        assert_eq!(table.width(), width);
        assert_eq!(table.entries(), paper::table(width, By::Byte));
    }
}

// The entries of half-byte 2a are those of the low four bits of byte a, and of 2a + 1 those of its high four bits.
#[test]
fn half_bytes_of_a_byte() {
    let (by_half_byte, by_byte) = (KeyHasher::ipv6_by_half_byte(), KeyHasher::ipv6_by_byte());
    let (halves, bytes) = (by_half_byte.entries(), by_byte.entries());
    for a in 0..37 {
        for v in 0..256 {
            let joined = halves[16 * (2 * a) + v % 16] ^ halves[16 * (2 * a + 1) + v / 16];
            assert_eq!(bytes[256 * a + v], joined, "byte {a}, value {v}");
        }
    }
}

fn h_through_every_door(width: u64) {
    let rows = paper::rows(width as usize);
    let tables = tables(width);
    let keys = keys(&mut Random::new(1), width);
    for key in &keys {
        let h = paper::h(&rows, key);
        assert_eq!(flow::hash(width, key), Ok(h), "{key:?}");
        for table in &tables {
            let length = table.entries().len();
            assert_eq!(table.hash(key), Ok(h), "{length} entries: {key:?}");
        }
    }
    println!("{} keys, {} tables", keys.len(), tables.len());
    assert_eq!(
        flow::hash(width, &special_keys(width)[0]),
        Ok(0),
        "the zero key"
    );
    for (i, row) in rows.iter().enumerate() {
        let single_bit = &special_keys(width)[2 + 2 * i];
        assert_eq!(flow::hash(width, single_bit), Ok(*row), "bit {i}");
    }
}

// A key of 13 bytes hashes as its bytes at the front of a key of 37 whose others are zeros.
#[test]
fn shorter_key_and_zeros() {
    for key in keys(&mut Random::new(5), IPV4_WIDTH) {
        let mut longer = key.clone();
        longer.resize(IPV6_WIDTH as usize, 0);
        let h = flow::hash(IPV4_WIDTH, &key);
        assert!(h.is_ok());
        assert_eq!(flow::hash(IPV6_WIDTH, &longer), h, "{key:?}");
    }
}

fn hashes_and_bucket_numbers(width: u64) {
    let rows = paper::rows(width as usize);
    let mut random = Random::new(2);
    let mut repeats = 0;
    for key in keys(&mut random, width) {
        let model = anywhere(&mut random, width);
        let h = paper::h(&rows, &key);
        let found = flow::key_buckets(&settings_of(&model), &key).unwrap();
        let hashes = [0, 1, 2, 3].map(|j| paper::hash_j(&model, h, j));
        assert_eq!(found.hashes().map(u64::from), hashes, "{model:?} {key:?}");
        let numbers = paper::bucket_numbers(&model, h);
        let found_numbers: Vec<u64> = found.numbers().iter().map(|&b| u64::from(b)).collect();
        assert_eq!(found_numbers, numbers, "{model:?} {key:?}");
        if numbers.len() < model.k as usize {
            repeats += 1;
        }
    }
    println!("{repeats} keys with repeated hashes");
    assert!(repeats > 1000);
}

// The whole of both areas: how many numbers, these, and zeros over what stood there.
fn bucket_areas_whole(width: u64) {
    let rows = paper::rows(width as usize);
    let mut random = Random::new(3);
    for key in special_keys(width) {
        for k in 1..=4 {
            let mut model = anywhere(&mut random, width);
            model.k = k;
            let h = paper::h(&rows, &key);
            let mut hashes = [0xffff; 4];
            let mut numbers = [0xffff; 5];
            let answer = doors::key_buckets(model.numbers(), &key, &mut hashes, &mut numbers);
            assert_eq!(answer, 0);
            let mut expected = paper::bucket_numbers(&model, h);
            expected.insert(0, expected.len() as u64);
            expected.resize(5, 0);
            assert_eq!(
                numbers.map(u64::from).to_vec(),
                expected,
                "{model:?} {key:?}"
            );
        }
    }
    // the zero key: H 0, bucket 0 alone
    let settings = Settings::new(6, 3, 2, 4, 128, 8, width).unwrap();
    let zero = flow::key_buckets(&settings, &special_keys(width)[0]).unwrap();
    assert_eq!(zero.hashes(), &[0; 4]);
    assert_eq!(zero.numbers(), &[0]);
}

fn wrong_key_lengths(width: u64) {
    let tables = tables(width);
    let settings = Settings::new(6, 3, 2, 4, 128, 8, width).unwrap();
    for n in (0..=80).filter(|&n| n as u64 != width) {
        let key = vec![7; n];
        assert_eq!(
            flow::hash(width, &key),
            Err(Refusal::KeyLength),
            "{n} bytes"
        );
        assert_eq!(
            flow::key_buckets(&settings, &key),
            Err(Refusal::KeyLength),
            "{n} bytes"
        );
        let mut h = [77];
        assert_eq!(doors::hash(width, &key, &mut h), 3);
        for table in &tables {
            assert_eq!(table.hash(&key), Err(Refusal::KeyLength), "{n} bytes");
            assert_eq!(doors::hash_lent(width, table.entries(), &key, &mut h), 3);
        }
        assert_eq!(h, [77]);
        let (mut hashes, mut numbers) = ([5; 4], [6; 5]);
        let answer = doors::key_buckets(settings.numbers(), &key, &mut hashes, &mut numbers);
        assert_eq!((answer, hashes, numbers), (3, [5; 4], [6; 5]));
    }
}

// What the three doors are lent, and whatever is wrong with it: they answer as the model says, and a refusal alters nothing.
fn hash_doors(seen: &mut Seen, width: u64, table: &[u64], key: &[u8], for_h: usize) {
    let mut h = vec![77; for_h];
    let answer = doors::hash(width, key, &mut h);
    assert_eq!(answer, paper::hash_verdict(width, None, key, for_h));
    assert!(answer == 0 || h == vec![77; for_h]);
    seen.note("hash", answer);

    let mut h = vec![77; for_h];
    let answer = doors::hash_lent(width, table, key, &mut h);
    let by_paper = paper::hash_verdict(width, Some(table.len()), key, for_h);
    assert_eq!(answer, by_paper, "{} entries", table.len());
    match answer {
        0 => assert_eq!(h, [paper::h_by(table, key)]),
        _ => assert_eq!(h, vec![77; for_h]),
    }
    seen.note("hash lent", answer);

    let mut filled = table.to_vec();
    let answer = doors::hash_table(width, &mut filled);
    assert_eq!(answer, paper::table_verdict(width, table.len()));
    match paper::read_by(width, table.len()) {
        Some(by) if answer == 0 => assert_eq!(filled, paper::table(width, by)),
        _ => assert_eq!(filled, table),
    }
    seen.note("hash table", answer);
}

// Widths that are none, tables of wrong lengths and for the other width, keys of wrong lengths and of the other width, wrong areas for H: each
// by itself and together, the lowest is given.
fn faults_together(width: u64) {
    let mut seen = Seen::default();
    let mut lengths = wrong_table_lengths(width);
    assert!([width, other_width(width)]
        .iter()
        .flat_map(|&width| paper::tables(width)
            .iter()
            .map(move |&by| paper::entries(width, by)))
        .all(|n| lengths.contains(&n) != paper::read_by(width, n).is_some()));
    lengths.extend(tables(width).iter().map(|table| table.entries().len()));
    let mut widths = NO_WIDTHS.to_vec();
    widths.extend([width, other_width(width)]);
    for length in lengths {
        let table = vec![1; length];
        for &of_call in &widths {
            for key_length in [width, other_width(width), width - 1, width + 1, 0] {
                let key = vec![7; key_length as usize];
                for for_h in [0, 1, 2] {
                    hash_doors(&mut seen, of_call, &table, &key, for_h);
                }
            }
        }
    }
    seen.report(
        "calls of the hash doors with faults",
        &[
            ("hash", &[0, 1, 2, 3]),
            ("hash lent", &[0, 1, 2, 3]),
            ("hash table", &[0, 1, 2]),
        ],
    );
}

fn wrong_area_lengths(width: u64) {
    let tables = tables(width);
    let right = vec![7; width as usize];
    // a key of the wrong length as well: the lowest refusal is given
    for key in [&right[..], &right[1..]] {
        for n in (0..=40).filter(|&n| n != 1) {
            let mut h = vec![77; n];
            assert_eq!(doors::hash(width, key, &mut h), 2, "{n} numbers");
            for table in &tables {
                let answer = doors::hash_lent(width, table.entries(), key, &mut h);
                assert_eq!(answer, 2, "{n} numbers");
            }
            assert_eq!(h, vec![77; n]);
        }
        for n in wrong_table_lengths(width) {
            let other = vec![1; n];
            let mut h = [77];
            let answer = doors::hash_lent(width, &other, key, &mut h);
            assert_eq!((answer, h), (2, [77]), "{n} numbers");
        }
        for n in 0..=10 {
            for m in 0..=10 {
                if (n, m) != (4, 5) {
                    let (mut hashes, mut numbers) = (vec![5; n], vec![6; m]);
                    let settings = [6, 3, 2, 4, 128, 8, width];
                    let answer = doors::key_buckets(settings, key, &mut hashes, &mut numbers);
                    assert_eq!(answer, 2, "{n} and {m} numbers");
                    assert_eq!((hashes, numbers), (vec![5; n], vec![6; m]));
                }
            }
        }
    }
    for n in wrong_table_lengths(width) {
        let mut other = vec![1; n];
        assert_eq!(doors::hash_table(width, &mut other), 2, "{n} numbers");
        assert_eq!(other, vec![1; n]);
    }
}

// A setting out of range goes before every other refusal, and nothing is altered.
fn key_buckets_settings(width: u64) {
    let key = vec![7; width as usize];
    let good = Model::of([6, 3, 2, 4, 128, 8, width]);
    for (_, settings) in each_out_of_range(&good) {
        for (key, n, m) in [(&key[..], 4, 5), (&key[..], 3, 5), (&key[..12], 4, 5)] {
            let (mut hashes, mut numbers) = (vec![5; n], vec![6; m]);
            let answer = doors::key_buckets(settings.numbers(), key, &mut hashes, &mut numbers);
            assert_eq!(answer, 1, "{settings:?}");
            assert_eq!((hashes, numbers), (vec![5; n], vec![6; m]));
        }
    }
}

// On a table with other contents the door gives the xor of the entries that it reads.
fn lent_table_of_any_contents(width: u64) {
    let mut random = Random::new(4);
    for table in tables(width) {
        let other: Vec<u64> = table.entries().iter().map(|_| random.number()).collect();
        for key in special_keys(width) {
            let mut h = [0];
            assert_eq!(doors::hash_lent(width, &other, &key, &mut h), 0);
            assert_eq!(h, [paper::h_by(&other, &key)]);
        }
    }
}

at_both_widths!(
    table_entries,
    h_through_every_door,
    hashes_and_bucket_numbers,
    bucket_areas_whole,
    wrong_key_lengths,
    faults_together,
    wrong_area_lengths,
    key_buckets_settings,
    lent_table_of_any_contents,
);
