//! What a table tells of the flows that it holds, beside a plain map of them.

use flow::{FlowKey, Refusal, Settings, Table};
use std::collections::BTreeMap;
use testing::random::Random;

fn settings(width: u64) -> Settings {
    Settings::new(6, 3, 2, 4, 64, 16, width).unwrap()
}

fn keys(width: u64, random: &mut Random) -> Vec<Vec<u8>> {
    let key = |_| (0..width).map(|_| random.between(0, 255) as u8).collect();
    (0..100).map(key).collect()
}

fn check(table: &Table, flows: &BTreeMap<Vec<u8>, u32>, keys: &[Vec<u8>]) {
    assert_eq!(
        (table.len(), table.is_empty()),
        (flows.len(), flows.is_empty())
    );
    assert_eq!(table.iter().len(), flows.len());
    let told: Vec<(FlowKey, u32)> = table.into_iter().collect();
    let held = flows
        .iter()
        .map(|(key, class)| (FlowKey::try_from(&key[..]).unwrap(), *class));
    assert_eq!(told, held.collect::<Vec<_>>());
    for key in keys {
        assert_eq!(table.get(key), flows.get(key).copied());
        assert_eq!(table.search(key), Ok(flows.get(key).copied()));
        assert_eq!(table.contains(key), flows.contains_key(key));
    }
}

#[test]
fn flows_as_in_a_map() {
    for width in [13, 37] {
        let mut random = Random::new(width);
        let keys = keys(width, &mut random);
        let (mut table, mut flows) = (Table::new(settings(width)), BTreeMap::new());
        for call in 0..600 {
            let (key, class) = (&keys[random.between(0, 99) as usize], call);
            if random.between(0, 2) > 0 {
                if table.add(key, class).is_ok() {
                    assert_eq!(flows.insert(key.clone(), class), None);
                }
            } else if table.remove(key).is_ok() {
                assert!(flows.remove(key).is_some());
            }
            if call % 20 == 0 {
                check(&table, &flows, &keys);
            }
        }
        assert!(flows.len() > 20);
        let text = format!("{table:?}");
        let numbers = settings(width).numbers();
        assert_eq!(
            text,
            format!("Table {{ settings: {numbers:?}, flows: {} }}", flows.len())
        );
        assert_eq!(table.get(&[0; 14]), None);
        assert!(format!("{:?}", table.iter()).starts_with("{FlowKey("));
    }
}

// Equal are tables of the same settings and flows, by whatever calls; a save does not alter a table, and several threads may save one.
#[test]
fn equal_tables_and_saves() {
    for width in [13, 37] {
        let mut random = Random::new(7);
        let keys = keys(width, &mut random);
        let (mut one, mut other) = (Table::new(settings(width)), Table::new(settings(width)));
        for key in &keys[..30] {
            one.add(key, 1).unwrap();
        }
        for key in keys[..31].iter().rev() {
            other.add(key, 2).unwrap();
        }
        assert!(one != other);
        other.remove(&keys[30]).unwrap();
        for key in &keys[..30] {
            assert!(one != other);
            other.change(key, 1).unwrap();
        }
        assert!(one == other && one == one.clone());
        assert!(
            Table::new(settings(width))
                != Table::new(Settings::builder().width(width).build().unwrap())
        );

        let files = std::thread::scope(|threads| {
            let saves = [(); 3].map(|()| threads.spawn(|| one.save()));
            saves.map(|save| save.join().unwrap())
        });
        for file in files {
            assert!(Table::load(&file).unwrap() == one);
        }
        assert_eq!(one.add(&keys[0], 3), Err(Refusal::Held));
        assert!(one == other);
    }
}
