//! The load for the bench against the model: program flowload's whole output, and flowrun's on it; what the program refuses; its end where
//! nobody reads any more; the generator's door.

use flow::Generator;
use model::bench_load::{self as paper, call_of, output, Load, INPUT_BYTES};
use model::flowrun::CALL_BYTES;
use std::io::{Read, Write};
use std::os::unix::process::ExitStatusExt;
use std::process::{Command, Stdio};
use std::time::Duration;
use testing::made::{load, random_bytes};
use testing::programs::{end_of, flowrun_compared_whole, note_lines, program, run, run_in_pieces};
use testing::random::Random;
use testing::seen::Seen;

const LOADS: usize = 200;
const GENERATORS: usize = 100;
const NUMBERS: u64 = 1_000_000;
// so many calls the program writes at once
const PIECE: u64 = 3640;

// The program's output, which is the model's: compared call by call first, so that a failure names its call.
fn compared(input: &[u8]) -> Vec<u8> {
    let found = run("flowload", input);
    let expected = output(input).unwrap();
    let calls = found.chunks(CALL_BYTES).zip(expected.chunks(CALL_BYTES));
    for (i, (call, by_paper)) in calls.enumerate() {
        assert_eq!(call, by_paper, "call {} of {input:?}", i + 1);
    }
    assert_eq!(found.len(), expected.len(), "{input:?}");
    found
}

// The model by hand.
#[test]
fn first_calls() {
    // 1 xor 2^13; xor that shifted right 7, 2^6; xor that shifted left 17: no two bits meet
    let s = (1 + 8192 + 64) * (1 + 131072);
    let mut generator = paper::Generator { s: 1, w: 0 };
    assert_eq!(generator.number(), s + 362437);
    assert_eq!(generator, paper::Generator { s, w: 362437 });
    // w wraps, and so does the sum
    let mut generator = paper::Generator { s: 1, w: u64::MAX };
    assert_eq!(generator.number(), s + 362436);
    let w = u64::MAX - 362437 - s + 8;
    assert_eq!(paper::Generator { s: 1, w }.number(), 7);
    // an s of zero stays
    let mut generator = paper::Generator { s: 0, w: 5 };
    assert_eq!((generator.number(), generator.s), (362442, 0));

    let search = [b'S', 0, 0, 0, 0, 0, 0, 0, 1, 0, 0, 0, 0, 0, 0, 0, 0, 7];
    assert_eq!(call_of(7, 1001, 1000), search);
    let removal = [
        b'D', 0, 0, 0, 0, 0, 0, 15, 255, 0, 0, 0, 0, 0, 254, 220, 186, 2,
    ];
    assert_eq!(call_of(0xabcd_fedc_ba02, u64::MAX, 4096), removal);
    assert_eq!(call_of(4, 5, 1)[0], b'I');
    assert_eq!(call_of(5, 5, 1)[..10], [b'C', 0, 0, 0, 0, 0, 0, 0, 0, 0]);
}

// The sample of examples/.
#[test]
fn sample() {
    let input = load(1, 0, 1000, 10);
    assert_eq!(input, include_bytes!("../../examples/load.bin"));
    let calls = compared(&input);
    assert_eq!(calls.len(), 10 * CALL_BYTES);
    // its first call, a removal; bin/test compares all with examples/load.txt
    let first = [
        b'D', 0, 0, 0, 0, 0, 0, 1, 123, 0, 0, 0, 0, 0, 64, 135, 168, 6,
    ];
    assert_eq!(calls[..CALL_BYTES], first);
}

#[test]
fn loads_through_flowrun() {
    let mut random = Random::new(91);
    let mut seen = Seen::default();
    for i in 0..LOADS {
        let s = [1, 1 << 63, u64::MAX, random.number()][random.between(0, 3) as usize].max(1);
        let w = [0, u64::MAX, random.number()][i % 3];
        let f = [1, 2, 1000, 4096, random.between(1, 4096)][i % 5];
        let count = match i / 5 {
            // one of each flow count
            39 => 100_000,
            way => match way % 10 {
                0 => 0,
                1 => 1,
                2..=4 => PIECE + (way % 10) as u64 - 3,
                5..=7 => 2 * PIECE + (way % 10) as u64 - 6,
                _ => random.between(2, 20_000),
            },
        };
        let calls = compared(&load(s, w, f, count));
        assert_eq!(calls.len() as u64, CALL_BYTES as u64 * count);
        note_lines(&mut seen, &flowrun_compared_whole(&calls));
    }
    seen.report(
        &format!("calls in {LOADS} loads"),
        &[
            ("I", &[0, 6, 9]),
            ("C", &[0, 7]),
            ("D", &[0, 7, 9]),
            ("S", &[0, 100]),
        ],
    );
}

// Loads whose 32 bytes arrive in pieces.
#[test]
fn input_in_pieces() {
    let input = load(88172645463325252, 7, 1000, PIECE + 1);
    let expected = output(&input).unwrap();
    let pause = Some(Duration::from_millis(2));
    for pieces in [&[1][..], &[8], &[31, 1], &[1, 31], &[5, 20, 3]] {
        assert!(run_in_pieces("flowload", &input, pieces, pause) == expected);
    }
}

// 15: nothing is written, and the program ends well.
fn refused(input: &[u8]) {
    assert_eq!(output(input), Err(15), "{input:?}");
    assert_eq!(run("flowload", input), [], "{input:?}");
}

#[test]
fn lengths_refused() {
    let mut random = Random::new(92);
    // a count of which something is left without its last byte, and without its last two
    let good = load(1, 0, 1000, 65536 + 256 + 10);
    for length in (0..=64).filter(|&length| length != INPUT_BYTES) {
        let mut twice = good.repeat(2);
        twice.truncate(length);
        refused(&twice);
        refused(&random_bytes(&mut random, length as u64));
    }
    // more than a pipe holds, of which the program need not read all
    refused(&good.repeat(10_000));
    // whole for a while: another byte, or a missing one, is waited for
    let pause = Some(Duration::from_millis(20));
    for length in [31, 33, 64] {
        let mut twice = good.repeat(2);
        twice.truncate(length);
        assert_eq!(run_in_pieces("flowload", &twice, &[16, 16, 1], pause), []);
    }
}

#[test]
fn numbers_refused() {
    let bad_flows = [
        0,
        4097,
        65536 + 1000,
        (1 << 32) + 1,
        (1 << 32) + 1000,
        1 << 63,
        u64::MAX,
    ];
    let mut tried = 0;
    for w in [0, 1, u64::MAX] {
        for count in [0, 1, 256 + 10, 65536] {
            for length in [31, 32, 33] {
                for f in [1, 1000, 4096].into_iter().chain(bad_flows) {
                    for s in [0, 1] {
                        if s == 1 && !bad_flows.contains(&f) && length == 32 {
                            continue;
                        }
                        let mut input = load(s, w, f, count);
                        input.resize(length, 0);
                        refused(&input);
                        tried += 1;
                    }
                }
            }
        }
    }
    println!("{tried} loads refused");
    assert_eq!(tried, 3 * 4 * (3 * 10 * 2 - 3));
}

// As many calls as a count can say, and a reader that leaves after some bytes. The signal SIGPIPE may end the program; where it was started with
// that signal ignored, it has to stop by itself.
#[test]
fn nobody_reads_any_more() {
    const SIGPIPE: i32 = 13;
    let input = load(7, 8, 4096, u64::MAX);
    let all_calls = Load::of(&input).unwrap().calls();
    let expected: Vec<u8> = all_calls.flatten().take(1_000_000).collect();
    for taken in [
        0, 1, 17, 18, 4096, 65_519, 65_520, 65_521, 131_040, 1_000_000,
    ] {
        for ignored in [false, true] {
            let mut command = Command::new("sh");
            let script = if ignored {
                "trap '' PIPE; exec \"$0\""
            } else {
                "exec \"$0\""
            };
            let mut child = command
                .args(["-c", script])
                .arg(program("flowload"))
                .stdin(Stdio::piped())
                .stdout(Stdio::piped())
                .spawn()
                .unwrap();
            child.stdin.take().unwrap().write_all(&input).unwrap();
            let mut reader = child.stdout.take().unwrap();
            let mut found = vec![0; taken];
            reader.read_exact(&mut found).unwrap();
            assert!(found == expected[..taken], "the first {taken} bytes");
            drop(reader);
            let status = end_of(&mut child);
            let by_signal = status.signal();
            assert!(
                by_signal.is_none() || by_signal == Some(SIGPIPE) && !ignored,
                "{status}"
            );
        }
    }
}

#[test]
fn generators_through_the_door() {
    let mut random = Random::new(93);
    for i in 0..GENERATORS {
        let [s, w] = [i % 5, i / 5 % 5].map(|way| match way {
            0 => 0,
            1 => 1,
            2 => 1 << 63,
            3 => u64::MAX,
            _ => random.number(),
        });
        let mut by_paper = paper::Generator { s, w };
        // one before it and one after it, which stay
        let beside = Generator { s: 5, w: 6 };
        let mut three = [beside.clone(), Generator { s, w }, beside.clone()];
        for n in 1..=NUMBERS {
            let number = three[1].next_number();
            let expected = by_paper.number();
            assert_eq!(number, expected, "number {n} from s {s}, w {w}");
        }
        let paper::Generator { s, w } = by_paper;
        assert_eq!(three, [beside.clone(), Generator { s, w }, beside]);
    }
}
