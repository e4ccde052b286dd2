//! The trials of settings against the model: program flowtrial's whole output, what it refuses, its sums beside flowrun's lines, and each line
//! as soon as its trial is played.

use model::bench_load::{Load, INPUT_BYTES};
use model::card::Card;
use model::flowrun;
use model::settings::{Settings, LIMITS};
use model::trials::{output, MOST_CALLS, TRIAL_BYTES};
use std::io::Write;
use std::sync::mpsc::RecvTimeoutError;
use std::thread;
use std::time::Duration;
use testing::made::{load, random_bytes};
use testing::programs::{end_of, run, run_in_pieces, started, DEADLINE};
use testing::random::Random;
use testing::seen::Seen;

const LOADS: usize = 60;
const TRIALS_OF_A_LOAD: usize = 5;
const LONG_LOAD: u64 = 20_000;

// Those of flowrun.
const USUAL: [u64; 6] = [6, 3, 2, 4, 128, 8];

// A setting out of range, a ledger that is too long, buckets that are.
const UNPLAYED: [[u64; 6]; 3] = [[0; 6], [6, 3, 2, 4, 3855, 8], [12, 3, 1, 4, 128, 8]];

// Six settings of two bytes, high byte first.
fn trial(numbers: [u64; 6]) -> Vec<u8> {
    let two_bytes = numbers.map(|number| u16::try_from(number).unwrap().to_be_bytes());
    two_bytes.concat()
}

fn with_trials(load: &[u8], trials: &[[u64; 6]]) -> Vec<u8> {
    let settings = trials.iter().flat_map(|&numbers| trial(numbers));
    load.iter().copied().chain(settings).collect()
}

// The eight numbers of a line.
fn fields(line: &str) -> [u64; 8] {
    let numbers: Vec<u64> = line.split(' ').map(|n| n.parse().unwrap()).collect();
    numbers.try_into().unwrap()
}

// What flowtrial printed is the model's output: compared line by line first, so that a failure names its trial.
fn assert_output(found: Vec<u8>, input: &[u8], expected: &str) -> String {
    let found = String::from_utf8(found).unwrap();
    let (of_load, trials) = input.split_at(INPUT_BYTES);
    let lines = found.lines().zip(expected.lines());
    for ((line, by_paper), settings) in lines.zip(trials.chunks(TRIAL_BYTES)) {
        let load = Load::of(of_load);
        assert_eq!(line, by_paper, "settings {settings:?}, {load:?}");
    }
    assert!(found == expected, "{found:?} on {input:?}");
    found
}

fn compared(input: &[u8]) -> String {
    // both at the same time
    let (found, expected) = thread::scope(|scope| {
        let found = scope.spawn(|| run("flowtrial", input));
        let expected = output(input).unwrap();
        (found.join().unwrap(), expected)
    });
    let lines = (input.len() - INPUT_BYTES + TRIAL_BYTES - 1) / TRIAL_BYTES;
    assert_eq!(expected.lines().count(), lines);
    assert_output(found, input, &expected)
}

// Each setting at its least and at its most and one outside, by itself among the usual ones, and areas around 64 KiB, with their answers.
fn limits() -> Vec<([u64; 6], u64)> {
    let mut limits = vec![
        (USUAL, 0),
        // the ledger: 65,520 and 65,537 bytes
        ([6, 3, 2, 4, 3854, 8], 0),
        ([6, 3, 2, 4, 3855, 8], 2),
        // the buckets: 35,328, 36,864, 71,680, 53,248, 70,656 and 73,728 bytes
        ([9, 3, 4, 4, 128, 8], 0),
        ([11, 3, 1, 4, 128, 8], 0),
        ([11, 3, 2, 4, 128, 8], 2),
        ([10, 3, 3, 4, 128, 8], 0),
        ([10, 3, 4, 4, 128, 8], 2),
        ([12, 3, 1, 4, 128, 8], 2),
        // the most of each setting, the most with no area too long, the least of each
        ([12, 4, 4, 15, 4096, 64], 2),
        ([11, 4, 1, 15, 3854, 64], 0),
        ([4, 1, 1, 2, 1, 0], 0),
        // 1 where 2 would apply too
        ([12, 5, 1, 4, 128, 8], 1),
        ([12, 3, 1, 4, 4096, 65], 1),
        ([13, 3, 1, 4, 4096, 8], 1),
        ([11, 3, 4, 4, 4097, 8], 1),
        // more buckets than a number of 64 bits can say
        ([64, 3, 2, 4, 128, 8], 1),
        ([65535; 6], 1),
        ([0; 6], 1),
    ];
    for (i, (least, most)) in LIMITS.into_iter().enumerate() {
        let usual_with = |number: u64| {
            let mut numbers = USUAL;
            numbers[i] = number;
            numbers
        };
        limits.push((usual_with(least), 0));
        // with p 12 or N 4,096 an area is too long
        let answer = if i == 0 || i == 4 { 2 } else { 0 };
        limits.push((usual_with(most), answer));
        if least > 0 {
            limits.push((usual_with(least - 1), 1));
        }
        limits.push((usual_with(most + 1), 1));
        limits.push((usual_with(65535), 1));
        // by its low byte alone it would be allowed
        limits.push((usual_with(USUAL[i] + 0x1100), 1));
    }
    limits
}

// The model by hand.
#[test]
fn first_trials() {
    let eleven = load(317, 0, 5, 11);
    let calls: Vec<(char, u8)> = Load::of(&eleven)
        .unwrap()
        .calls()
        .map(|call| (char::from(call[0]), call[8]))
        .collect();
    let by_hand = [
        ('I', 4),
        ('D', 3),
        ('I', 0),
        ('I', 0),
        ('S', 4),
        ('I', 1),
        ('I', 3),
        ('I', 3),
        ('S', 1),
        ('D', 4),
        ('I', 1),
    ];
    assert_eq!(calls, by_hand);
    // with p 4 and k 1, keys 0 and 4 meet in bucket 0, and all others are alone
    let card = Card::new(Settings::of([4, 1, 1, 2, 2, 0, 13]));
    for (key, bucket) in [(0, 0), (1, 8), (3, 1), (4, 0)] {
        let numbers = card.numbers(&[0, 0, 0, 0, 0, 0, 0, key, 0, 0, 0, 0, 0]);
        assert_eq!(numbers, [bucket]);
    }
    let trials = [
        // 0 beside 4 would be two counts of T, need 2: 9 and 9. 4 and 1 are held, so 3 gets 8 and 8; each is found at once; 1 gets 6
        [4, 1, 1, 2, 2, 0],
        // 0 and 4 in the side store, then 0 gets 6; 4 is the second there, 1 is found at once; 3 and 1 get 6; four are held, none too many
        [4, 1, 1, 2, 4, 2],
        // 0 and 4 both choose a bucket of one record, need 2: 9 and 9, and it does not count; 4 and 1 found at once; 3 and 1 get 6
        [4, 1, 1, 3, 4, 1],
        // 0 and 4 share their bucket, and 4 is the second there
        [4, 1, 2, 3, 4, 0],
        // 4 is the only one, so that 0, 0, 1, 3 and 3 get 8, which is below 9; 4 is found, 1 has a count of zero; 4 gone, 1 is held
        [4, 1, 1, 2, 1, 0],
        // a setting out of range, and a ledger of 65,537 bytes
        [3, 1, 1, 2, 1, 0],
        [4, 1, 1, 2, 3855, 0],
    ];
    let text = "1 0 0 1 1 2 2 2\n\
                2 0 2 3 1 0 0 3\n\
                3 0 0 2 1 0 2 2\n\
                4 0 0 3 1 0 0 3\n\
                5 0 0 0 1 5 0 1\n\
                6 1 0 0 0 0 0 0\n\
                7 2 0 0 0 0 0 0\n\
                8 14 0 0 0 0 0 0\n";
    let mut input = with_trials(&eleven, &trials);
    input.extend([0; 11]);
    assert_eq!(output(&input).unwrap(), text);
    assert_eq!(compared(&input), text);

    // 4 is added and 0 searched: absent, with one record compared
    let input = with_trials(&load(49294, 0, 5, 2), &[[4, 1, 1, 2, 2, 0]]);
    assert_eq!(output(&input).unwrap(), "1 0 0 0 0 0 0 1\n");
    assert_eq!(compared(&input), "1 0 0 0 0 0 0 1\n");
}

// Most have few buckets and places, so that all refusals occur; one in three is from the whole ranges, and one in twenty has any number.
fn random_settings(random: &mut Random) -> [u64; 6] {
    let mut numbers = match random.between(0, 2) {
        0 => LIMITS.map(|(least, most)| random.between(least, most)),
        _ => [
            random.between(4, 8),
            random.between(1, 4),
            random.between(1, 3),
            random.between(2, 6),
            random.between(1, 200),
            random.between(0, 12),
        ],
    };
    if random.between(0, 19) == 0 {
        numbers[random.between(0, 5) as usize] = random.between(0, 65535);
    }
    numbers
}

// One in ten is long.
fn random_load(random: &mut Random, i: usize) -> Vec<u8> {
    let s = [1, 1 << 63, u64::MAX, random.number()][i % 4].max(1);
    let w = [0, u64::MAX, random.number()][i % 3];
    let few = random.between(1, 200);
    let any = random.between(1, 4096);
    let f = [1, 2, 100, 1000, 4096, few, any][i % 7];
    let count = match i % 10 {
        0 => i as u64 / 10,
        1 => LONG_LOAD,
        _ => random.between(2, 4_000),
    };
    load(s, w, f, count)
}

#[test]
fn loads_with_trials() {
    let mut random = Random::new(101);
    let mut seen = Seen::default();
    let mut at_limits = limits().into_iter().map(|(numbers, _)| numbers).cycle();
    // trials under settings with side places: how often their need was 0, some and all of these
    let mut needs = [0; 3];
    for i in 0..LOADS {
        let load = random_load(&mut random, i);
        let trials: Vec<[u64; 6]> = (0..TRIALS_OF_A_LOAD)
            .map(|j| match j {
                0 | 1 => at_limits.next().unwrap(),
                _ => random_settings(&mut random),
            })
            .collect();
        let mut input = with_trials(&load, &trials);
        let cut = i % TRIAL_BYTES;
        input.extend(&trial(random_settings(&mut random))[..cut]);
        let text = compared(&input);
        let mut lines = text.lines().map(fields);
        for (numbers, line) in trials.iter().zip(&mut lines) {
            let [_, answer, need, refusals @ .., _] = line;
            seen.note("trial", answer as u32);
            for (refusal, _) in (6..).zip(refusals).filter(|&(_, times)| times > 0) {
                seen.note("some call", refusal);
            }
            let side_places = numbers[5];
            if answer == 0 {
                assert!(need <= side_places, "{line:?}, {numbers:?}");
                if side_places > 0 {
                    needs[usize::from(need > 0) + usize::from(need == side_places)] += 1;
                }
            }
        }
        for [_, answer, ..] in lines {
            seen.note("cut trial", answer as u32);
        }
    }
    seen.report(
        &format!("answers in {LOADS} loads"),
        &[
            ("trial", &[0, 1, 2]),
            ("cut trial", &[14]),
            ("some call", &[6, 7, 8, 9]),
        ],
    );
    let [none, some, all] = needs;
    println!("side places needed: never {none}, some {some}, all {all}");
    assert!(none > 0 && some > 0 && all > 0);
}

#[test]
fn limits_of_settings() {
    let (numbers, answers): (Vec<[u64; 6]>, Vec<u64>) = limits().into_iter().unzip();
    let text = compared(&with_trials(&load(5, 6, 40, 499), &numbers));
    let found: Vec<u64> = text.lines().map(|line| fields(line)[1]).collect();
    assert_eq!(found, answers);
}

// Settings of 1 to 11 bytes, by themselves and after a trial. With zeros for what is missing they would be allowed, or out of range.
#[test]
fn settings_cut_short() {
    let load = load(5, 6, 40, 499);
    for length in 1..TRIAL_BYTES {
        for numbers in [USUAL, [65535; 6], [6, 3, 2, 4, 3855, 8]] {
            let part = &trial(numbers)[..length];
            let alone = compared(&[&load[..], part].concat());
            assert_eq!(alone, "1 14 0 0 0 0 0 0\n");
            let after = compared(&[&with_trials(&load, &[USUAL]), part].concat());
            assert!(after.starts_with("1 0 "));
            assert!(after.ends_with("\n2 14 0 0 0 0 0 0\n"));
        }
    }
}

#[test]
fn no_trials() {
    for count in [0, 1, 1000, MOST_CALLS] {
        assert_eq!(compared(&load(1, 0, 1000, count)), "");
    }
}

// Each sum is more than two bytes hold, in some line.
#[test]
fn sums_above_65535() {
    let calls = load(7, 8, 8, 1_000_001);
    let trials = [[4, 1, 1, 2, 8, 0], [4, 1, 1, 2, 1, 0], [4, 1, 1, 2, 8, 8]];
    let text = compared(&with_trials(&calls, &trials));
    let lines: Vec<[u64; 8]> = text.lines().map(fields).collect();
    for field in 3..8 {
        let greatest = lines.iter().map(|line| line[field]).max();
        assert!(greatest > Some(65535), "field {field}: {text}");
    }
}

// A trial's line does not depend on those before it. With 3,000 calls, w would have grown by a multiple of 60 and of 4, and would pick the same
// calls if it went on.
#[test]
fn trials_alike() {
    let [first, other] = [[4, 2, 1, 3, 30, 4], [5, 3, 2, 4, 20, 0]];
    let refused = [13, 2, 1, 3, 30, 4];
    let trials = [first, first, other, first, refused, first, other];
    let text = compared(&with_trials(&load(9, 10, 60, 2_999), &trials));
    let after_number = |line: &'_ str| line.split_once(' ').unwrap().1.to_string();
    let lines: Vec<String> = text.lines().map(after_number).collect();
    for i in [1, 3, 5] {
        assert_eq!(lines[i], lines[0], "trial {}", i + 1);
    }
    assert_eq!(lines[6], lines[2]);
    assert_ne!(lines[2], lines[0]);
    assert_eq!(lines[4], "1 0 0 0 0 0 0");
}

#[test]
fn input_in_pieces() {
    let mut random = Random::new(102);
    let some_lengths = (0..40).map(|_| random.between(1, 60) as usize).collect();
    let pieces: Vec<Vec<usize>> = vec![
        vec![1],
        vec![2],
        vec![11],
        vec![12],
        vec![13],
        vec![31, 1],
        vec![32, 12],
        vec![33, 11, 13],
        vec![44],
        some_lengths,
    ];
    let pause = Some(Duration::from_micros(200));
    for (i, lengths) in pieces.iter().enumerate() {
        let load = random_load(&mut random, 10 * i + 2);
        let trials: Vec<[u64; 6]> = (0..8).map(|_| random_settings(&mut random)).collect();
        for cut in [0, 1, 11] {
            let mut input = with_trials(&load, &trials[cut % 8..]);
            input.extend(&trial(USUAL)[..cut]);
            let expected = output(&input).unwrap();
            let found = run_in_pieces("flowtrial", &input, lengths, pause);
            assert_output(found, &input, &expected);
        }
    }
}

// 15: nothing is printed, and the program ends well.
fn refused(input: &[u8]) {
    assert_eq!(output(input), Err(15), "{input:?}");
    assert_eq!(run("flowtrial", input), [], "{input:?}");
}

// Behind a bad load stand trials, of which those that would be played come only after a small count: a program that takes the load has to end.
#[test]
fn bad_loads() {
    let mut random = Random::new(103);
    let played = with_trials(&[], &[USUAL, USUAL]);
    let unplayed = with_trials(&[], &UNPLAYED);
    let cut = &trial(USUAL)[..11];
    let bad_flows = [0, 4097, 65536 + 1000, (1 << 32) + 1000, 1 << 63, u64::MAX];
    let bad_counts = [
        MOST_CALLS + 1,
        MOST_CALLS + 10,
        2 * MOST_CALLS,
        1 << 63,
        u64::MAX,
    ];
    for w in [0, u64::MAX] {
        let mut bad = vec![load(0, w, 1000, 0), load(0, w, 1000, 10)];
        bad.extend(bad_flows.map(|f| load(1, w, f, 10)));
        for bad in &bad {
            refused(&[&bad[..], &played].concat());
            refused(&[&bad[..], &unplayed, &played, cut].concat());
        }
        bad.extend(bad_counts.map(|count| load(1, w, 1000, count)));
        bad.push(load(0, w, 0, u64::MAX));
        for bad in &bad {
            refused(bad);
            refused(&[&bad[..], cut].concat());
            refused(&[&bad[..], &unplayed, cut].concat());
        }
    }
    for length in 0..INPUT_BYTES {
        refused(&load(1, 0, 1000, 10)[..length]);
        refused(&random_bytes(&mut random, length as u64));
    }
    // more than a pipe holds, of which the program need not read all
    refused(&[&load(0, 0, 1000, 10)[..], &unplayed.repeat(5_000)].concat());
    // a load that is whole but for a byte, which never comes
    let pause = Some(Duration::from_millis(20));
    let short = &load(1, 0, 1000, 10)[..31];
    assert_eq!(run_in_pieces("flowtrial", short, &[16, 15], pause), []);
}

// The least and the most of a load's numbers, behind which nothing is played: 2^32 calls would take too long.
#[test]
fn loads_at_their_limits() {
    let lines = "1 1 0 0 0 0 0 0\n\
                 2 2 0 0 0 0 0 0\n\
                 3 2 0 0 0 0 0 0\n\
                 4 14 0 0 0 0 0 0\n";
    for (s, f) in [(1, 1), (u64::MAX, 4096), (1 << 63, 1000)] {
        for count in [0, MOST_CALLS - 1, MOST_CALLS] {
            let mut input = with_trials(&load(s, 0, f, count), &UNPLAYED);
            input.extend(&trial(USUAL)[..11]);
            assert_eq!(compared(&input), lines);
        }
        let mut input = with_trials(&load(s, 0, f, MOST_CALLS + 1), &UNPLAYED);
        input.extend(&trial(USUAL)[..11]);
        refused(&input);
    }
}

// Under flowrun's settings: how often its lines answer 6, 7, 8 and 9 for the load's calls, and the records compared in all of them.
#[test]
fn sums_of_lines_of_flowrun() {
    let mut random = Random::new(104);
    let mut seen = Seen::default();
    // U1, U3 and flowrun use width 13
    let [usual @ .., width] = flowrun::settings().numbers();
    assert_eq!((usual, width), (USUAL, 13));
    for f in [1, 10, 50, 100, 120, 200, 1000, 4096] {
        let count = random.between(5_000, LONG_LOAD);
        let load = load(random.number().max(1), random.number(), f, count);
        let calls = run("flowload", &load);
        let printed = String::from_utf8(run("flowrun", &calls)).unwrap();
        let mut sums = [0; 5];
        let mut calls_run = 0;
        for line in printed.lines().skip(1) {
            let words: Vec<&str> = line.split(' ').collect();
            let [answer, compared] = [2, 5].map(|i| words[i].parse::<u64>().unwrap());
            if (6..=9).contains(&answer) {
                sums[answer as usize - 6] += 1;
            }
            seen.note("call", answer as u32);
            sums[4] += compared;
            calls_run += 1;
        }
        assert_eq!(calls_run, count);
        let found = run("flowtrial", &with_trials(&load, &[USUAL]));
        let line = String::from_utf8(found).unwrap();
        let found = fields(line.strip_suffix('\n').unwrap());
        assert_eq!(found[..2], [1, 0], "{line}");
        assert_eq!(found[3..], sums, "{line}");
        assert!(sums[4] > 0);
    }
    seen.report("calls", &[("call", &[0, 6, 7, 9, 100])]);
}

// Each line is there before more settings are.
#[test]
fn each_line_at_once() {
    let mut random = Random::new(105);
    let calls = load(3, 4, 300, 2_000);
    let trials: Vec<[u64; 6]> = (0..20).map(|_| random_settings(&mut random)).collect();
    let mut input = with_trials(&calls, &trials);
    input.extend([0, 6, 0, 3, 0]);
    let expected = output(&input).unwrap();
    let mut expected = expected.lines();

    let (mut child, mut feed, lines) = started("flowtrial");
    feed.write_all(&calls).unwrap();
    for (i, &numbers) in trials.iter().enumerate() {
        // whole, or in pieces
        for part in trial(numbers).chunks(TRIAL_BYTES - i % 12) {
            feed.write_all(part).unwrap();
        }
        let line = lines.recv_timeout(DEADLINE);
        assert_eq!(line.as_deref(), Ok(expected.next().unwrap()));
    }
    feed.write_all(&input[input.len() - 5..]).unwrap();
    drop(feed);
    let line = lines.recv_timeout(DEADLINE);
    assert_eq!(line.as_deref(), Ok(expected.next().unwrap()));
    assert_eq!(line.as_deref(), Ok("21 14 0 0 0 0 0 0"));
    assert_eq!(expected.next(), None);
    let end = lines.recv_timeout(DEADLINE);
    assert_eq!(end, Err(RecvTimeoutError::Disconnected));
    assert!(end_of(&mut child).success());
}

// 2^32 calls take far longer than a second: a line within one would not be theirs.
#[test]
fn most_calls_are_played() {
    let input = with_trials(&load(7, 8, 1, MOST_CALLS), &[[4, 1, 1, 2, 1, 0]]);
    let (mut child, mut feed, lines) = started("flowtrial");
    feed.write_all(&input).unwrap();
    let line = lines.recv_timeout(Duration::from_secs(1));
    let status = child.try_wait().unwrap();
    child.kill().unwrap();
    child.wait().unwrap();
    assert_eq!(line, Err(RecvTimeoutError::Timeout));
    assert_eq!(status, None);
}
