//! The paper's own cases, and its plain ledger beside its layout: the model against the paper. No door is called here.

use model::card::Card;
use model::hash;
use model::layout::layout;
use model::ledger::{list_of, valid, Ledger};
use model::lookup::{fill, search, second_search, tally, Part};
use model::placing::Placing;
use model::records::{Key, Record};
use model::settings::Settings;
use model::snapshot::snapshot;
use testing::at_both_widths;
use testing::made::random_bytes;
use testing::random::Random;

// k and the width are not looked at: the bucket numbers are given.
fn placed(b: u64, t: u64, numbers: &[&[u64]]) -> Placing {
    let numbers: Vec<Vec<u64>> = numbers.iter().map(|own| own.to_vec()).collect();
    Placing::of(&Settings::of([4, 4, b, t, 128, 8, 13]), &numbers)
}

// "The zero key: H 0, bucket 0 alone", of 13 bytes and of 37.
fn zero_key(width: u64) {
    let rows = hash::rows(width as usize);
    assert_eq!(rows[0], 8748534153485358512);
    let key = vec![0; width as usize];
    assert_eq!(hash::h(&rows, &key), 0);
    for k in 1..=4 {
        let card = Card::new(Settings::of([12, k, 1, 2, 1, 0, width]));
        assert_eq!(card.numbers(&key), [0]);
    }
}

// "Rows go on to 295": the rows of 13 bytes are the first of those of 37.
#[test]
fn rows_go_on() {
    let (short, long) = (hash::rows(13), hash::rows(37));
    assert_eq!((short.len(), long.len()), (104, 296));
    assert_eq!(short, long[..104]);
}

fn every_table_gives_h(width: u64) {
    let rows = hash::rows(width as usize);
    let tables = hash::tables(width);
    let lengths: Vec<usize> = tables.iter().map(|&by| hash::entries(width, by)).collect();
    assert_eq!(
        lengths,
        if width == 13 {
            vec![13 * 256]
        } else {
            vec![74 * 16, 37 * 256]
        }
    );
    let mut random = Random::new(7);
    for _ in 0..10_000 {
        let key = random_bytes(&mut random, width);
        let h = hash::h(&rows, &key);
        assert_eq!(hash::h_by_table(&key), h);
    }
    for &by in tables {
        let table = hash::table(width, by);
        for _ in 0..10_000 {
            let key = random_bytes(&mut random, width);
            assert_eq!(hash::h_by(&table, &key), hash::h(&rows, &key));
        }
    }
}

#[test]
fn buckets_1_5_and_1_6() {
    let both = placed(1, 15, &[&[1, 5], &[1, 6]]);
    assert_eq!(both.choosers[5], [0]);
    assert_eq!(both.choosers[6], [1]);
    assert_eq!(both.side_need(), 0);
    assert_eq!(placed(1, 15, &[&[1, 5]]).choosers[1], [0]);
}

#[test]
fn a_removal_moves_others() {
    let with_w: [&[u64]; 5] = [&[1, 5], &[1, 6], &[5, 8], &[6, 9], &[1, 7]];
    assert_eq!(placed(1, 15, &with_w).side_need(), 0);
    let without_w = placed(1, 15, &with_w[..4]);
    assert_eq!(without_w.choosers[1], [0, 1]);
    assert_eq!(without_w.side_need(), 2);
    assert_eq!(placed(2, 15, &with_w[..4]).side_need(), 0);
}

#[test]
fn three_keys_on_1_and_5() {
    let three: [&[u64]; 3] = [&[1, 5], &[1, 5], &[1, 5]];
    for b in 1..=4 {
        assert_eq!(placed(b, 3, &three).side_need(), 3);
    }
    assert_eq!(placed(3, 4, &three).side_need(), 0);
}

fn clipped_counts_3_and_20(width: u64) {
    let settings = Settings::of([4, 1, 4, 15, 128, 64, width]);
    let mut numbers = vec![vec![2]; 3];
    numbers.resize(23, vec![3]);
    let placing = Placing::of(&settings, &numbers);
    let byte = placing.clipped(&settings, 2).0 + 16 * placing.clipped(&settings, 3).0;
    assert_eq!(byte, 0xf3);
    // the same byte in an area: keys sought that have bucket 2 and bucket 3
    let card = Card::new(settings);
    let mut random = Random::new(5);
    let mut list = Vec::new();
    for (bucket, wanted) in [(2, 3), (3, 20)] {
        let mut found = 0;
        while found < wanted {
            let key = random_bytes(&mut random, width);
            if card.numbers(&key) == [bucket] {
                list.push(Record { key, class: 1 });
                found += 1;
            }
        }
    }
    list.sort_by(|a, b| a.key.cmp(&b.key));
    let areas = layout(&card, &list).unwrap();
    assert_eq!(areas.clipped[1], 0xf3);
    assert_eq!((areas.true_counts[2], areas.true_counts[3]), (3, 20));
}

#[test]
fn fill_for_16_buckets() {
    assert_eq!([0, 2, 6, 10].map(|n| fill(n, 16)), [0, 12, 38, 62]);
}

#[test]
fn snapshot_of_an_empty_list() {
    let file = [0, 6, 0, 4, 0, 1, 0, 1, 0, 2, 0, 1, 0, 0, 0, 0];
    assert_eq!(snapshot(&Settings::of([4, 1, 1, 2, 1, 0, 13]), &[]), file);
    // "Width 37 is saved with first count 7, the width last"
    let file = [0, 7, 0, 4, 0, 1, 0, 1, 0, 2, 0, 1, 0, 0, 0, 37, 0, 0];
    assert_eq!(snapshot(&Settings::of([4, 1, 1, 2, 1, 0, 37]), &[]), file);
}

// From a clear, a list of random calls: the layout of the plain ledger's list answers every search and tally as the plain ledger does.
fn plain_ledger_and_layout(width: u64) {
    let mut random = Random::new(6);
    let mut answers = std::collections::BTreeMap::new();
    for _ in 0..300 {
        let settings = Settings::of([
            random.between(4, 5),
            random.between(1, 4),
            random.between(1, 2),
            random.between(2, 4),
            random.between(1, 40),
            random.between(0, 6),
            width,
        ]);
        let card = Card::new(settings);
        let keys: Vec<Key> = (0..30).map(|_| random_bytes(&mut random, width)).collect();
        let mut ledger = Ledger::default();
        for _ in 0..100 {
            let key = &keys[random.between(0, 29) as usize];
            let key = match random.between(0, 50) {
                0 => &key[1..],
                _ => key,
            };
            let class = random.number() as u32;
            let before = ledger.clone();
            let answer = match random.between(0, 99) {
                0 => ledger.clear(),
                1..=69 => ledger.add(&card, key, class),
                70..=79 => ledger.change(&card, key, class),
                _ => ledger.remove(&card, key),
            };
            *answers.entry(answer).or_insert(0) += 1;
            assert!(answer == 0 || ledger == before);
            let areas = layout(&card, &ledger.list).expect("an accepted call leaves a layout");
            assert!(valid(&settings, &areas.ledger));
            assert_eq!(list_of(&settings, &areas.ledger), ledger.list);
            assert_eq!(
                tally(&card, &areas.ledger, areas.lookup()),
                Ok(ledger.tally(&card))
            );
            let key = &keys[random.between(0, 29) as usize];
            let answer = ledger.search(&card, key);
            assert_eq!(search(&card, areas.lookup(), key), answer);
            let part = second_search(&card, areas.lookup(), key);
            match ledger.second_search(key) {
                None => assert_eq!(part, Part::Empty),
                Some(record) => match part {
                    Part::Empty => panic!("{record:?} is held"),
                    Part::OfBuckets { at, bytes } => {
                        assert_eq!(bytes, record.bytes());
                        assert_eq!(bytes, areas.buckets[at..at + bytes.len()]);
                    }
                    Part::OfSide { at, bytes } => {
                        assert_eq!(bytes, record.bytes());
                        assert_eq!(bytes, areas.side[at..at + bytes.len()]);
                    }
                },
            }
        }
    }
    println!("updates by answer: {answers:?}");
    for number in [0, 3, 6, 7, 8, 9] {
        assert!(answers.contains_key(&number), "no update answered {number}");
    }
}

at_both_widths!(
    zero_key,
    every_table_gives_h,
    clipped_counts_3_and_20,
    plain_ledger_and_layout,
);
