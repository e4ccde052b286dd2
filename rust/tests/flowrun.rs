//! The program flowrun against the model: its whole output, on the paper's sample, on random inputs, and on input in small pieces.

use model::card::Card;
use model::flowrun::{output, settings};
use model::records::{Key, Record};
use model::settings::IPV4_WIDTH;
use std::time::Duration;
use testing::made::{random_bytes, random_class, random_key};
use testing::programs::{flowrun_compared, flowrun_compared_whole, note_lines};
use testing::random::Random;
use testing::seen::Seen;

const INPUTS: u64 = 200;
const IN_PIECES: u64 = 20;

fn call(letter: u8, key: &[u8], class: u32) -> [u8; 18] {
    let mut call = [letter; 18];
    let key = key.to_vec();
    call[1..].copy_from_slice(&Record { key, class }.bytes());
    call
}

#[test]
fn sample_of_the_paper() {
    let key = [1; 13];
    let calls = [
        (b'S', 0),
        (b'I', 7),
        (b'I', 8),
        (b'S', 0),
        (b'D', 0),
        (b'S', 0),
    ];
    let input: Vec<u8> = calls
        .iter()
        .flat_map(|&(letter, class)| call(letter, &key, class))
        .collect();
    let text = "call op answer class buckets compared\n\
                1 S 100 0 0 0\n\
                2 I 0 7 0 0\n\
                3 I 6 0 0 0\n\
                4 S 0 7 1 1\n\
                5 D 0 0 0 0\n\
                6 S 100 0 0 0\n";
    assert_eq!(output(&input), text);
    assert_eq!(flowrun_compared_whole(&input), text);
}

#[test]
fn empty_input() {
    assert_eq!(
        flowrun_compared_whole(&[]),
        "call op answer class buckets compared\n"
    );
}

// A left-over of each length, by itself and after calls, whatever its first byte.
#[test]
fn left_overs() {
    let mut random = Random::new(71);
    for length in 1..18 {
        for letter in [b'I', b'S', b'X', b'?', 0] {
            let part = call(letter, &[1; 13], 7);
            let alone = flowrun_compared_whole(&part[..length]);
            assert!(alone.ends_with("\n1 ? 14 0 0 0\n"));
            let mut input = call(b'I', &random_bytes(&mut random, IPV4_WIDTH), 1).to_vec();
            input.extend(&part[..length]);
            let after = flowrun_compared_whole(&input);
            assert!(after.ends_with("\n2 ? 14 0 0 0\n"));
        }
    }
}

// Two keys for each bucket that have it alone: all 128 are held with no need of the side store.
fn tidy_keys(random: &mut Random) -> Vec<Key> {
    let card = Card::new(settings());
    let mut found = vec![0; card.settings.m() as usize];
    let mut keys = Vec::new();
    while (keys.len() as u64) < card.settings.n {
        let key = random_bytes(random, IPV4_WIDTH);
        let numbers = card.numbers(&key);
        let times = &mut found[numbers[0] as usize];
        if numbers.len() == 1 && *times < card.settings.b {
            *times += 1;
            keys.push(key);
        }
    }
    keys
}

// The keys of an input: so few that calls meet their flows again; so many tidy ones that the capacity is reached; or others, with which the
// side store is exhausted long before.
fn some_keys(random: &mut Random, tidy: &[Key]) -> Vec<Key> {
    let (tidy_ones, others) = match random.between(0, 3) {
        0 => (0, random.between(1, 200)),
        1 => (128, random.between(0, 4)),
        2 => (random.between(64, 128), random.between(1, 40)),
        _ => (random.between(1, 20), random.between(1, 100)),
    };
    let mut keys = tidy[..tidy_ones as usize].to_vec();
    keys.extend((0..others).map(|_| random_key(random, IPV4_WIDTH)));
    keys
}

// Calls with the chances of this input, a clear now and then, and at its end a left-over or none.
fn random_input(random: &mut Random, tidy: &[Key], calls: u64) -> Vec<u8> {
    let keys = some_keys(random, tidy);
    let adds = [30, 50, 70, 85, 99][random.between(0, 4) as usize];
    let clears = random.between(0, 2);
    let mut input = Vec::new();
    for _ in 0..calls {
        let letter = match random.between(0, 999) {
            way if way < clears => b'X',
            way if way < 10 => random.number() as u8,
            way if way < 250 => b'S',
            way if way < 300 => b'C',
            _ if random.between(0, 99) < adds => b'I',
            _ => b'D',
        };
        let key = match random.between(0, 99) {
            0 => random_key(random, IPV4_WIDTH),
            _ => keys[random.between(0, keys.len() as u64 - 1) as usize].clone(),
        };
        input.extend(call(letter, &key, random_class(random)));
    }
    let left_over = random.between(0, 17);
    input.extend((0..left_over).map(|_| random.number() as u8));
    input
}

const ALL: &[(&str, &[u32])] = &[
    ("I", &[0, 6, 8, 9]),
    ("C", &[0, 7]),
    ("D", &[0, 7, 9]),
    ("S", &[0, 100]),
    ("X", &[0]),
    ("?", &[14]),
];

#[test]
fn random_inputs() {
    let mut random = Random::new(72);
    let mut seen = Seen::default();
    let tidy = tidy_keys(&mut random);
    for _ in 0..INPUTS {
        let calls = random.between(1_000, 20_000);
        let input = random_input(&mut random, &tidy, calls);
        note_lines(&mut seen, &flowrun_compared_whole(&input));
    }
    seen.report(&format!("calls in {INPUTS} inputs"), ALL);
}

// Input that arrives in small pieces: a byte, a call, a call and a byte, and random lengths.
#[test]
fn input_in_pieces() {
    let mut random = Random::new(73);
    let mut seen = Seen::default();
    let tidy = tidy_keys(&mut random);
    for i in 0..IN_PIECES {
        let pieces: Vec<usize> = match i {
            0 => vec![1],
            1 => vec![18],
            2 => vec![19],
            3 => vec![17],
            _ => (0..40).map(|_| random.between(1, 60) as usize).collect(),
        };
        let calls = random.between(20, 60);
        let input = random_input(&mut random, &tidy, calls);
        let pause = Some(Duration::from_micros(100));
        note_lines(&mut seen, &flowrun_compared(&input, &pieces, pause));
        // more calls than one buffer holds, with no pause
        let calls = random.between(4_000, 8_000);
        let input = random_input(&mut random, &tidy, calls);
        flowrun_compared(&input, &pieces, None);
    }
    seen.report(
        "calls in pieces with pauses",
        &[("I", &[0]), ("S", &[0, 100])],
    );
}
