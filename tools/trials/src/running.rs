//! A program that runs trials: the load and the settings go in, a line for each trial comes out.

use crate::settings::Settings;
use crate::words::Load;
use std::io::{BufRead, BufReader, ErrorKind, Write};
use std::path::Path;
use std::process::{Command, Stdio};
use std::thread;

// A load of more calls is refused.
const MOST_CALLS: u64 = 1 << 32;

/// What a program says of a trial.
#[derive(Clone, Copy, Debug, PartialEq, Eq)]
pub struct Outcome {
    /// 0, or the number of a refusal; then the others are zero.
    pub answer: u64,
    /// The greatest side need of a list held.
    pub side_need: u64,
    /// Refusals 6, 7, 8 and 9.
    pub refused: [u64; 4],
    /// Of flowtrial the records compared in all searches, of heldtrial the most flows held.
    pub last: u64,
}

/// A line of a program: eight numbers with one space between, the first the trial's number.
pub fn outcome_of(line: &str, trial: usize) -> Option<Outcome> {
    let number = |field: &str| {
        let digits = field.bytes().all(|byte| byte.is_ascii_digit());
        field.parse::<u64>().ok().filter(|_| digits)
    };
    let numbers: Vec<u64> = line.split(' ').map(number).collect::<Option<_>>()?;
    match numbers[..] {
        [first, answer, side_need, held, not_held, full, side, last] if first == trial as u64 => {
            Some(Outcome {
                answer,
                side_need,
                refused: [held, not_held, full, side],
                last,
            })
        }
        _ => None,
    }
}

/// Runs a program on trials, and hands each outcome on as its line comes. What it hands back says why it did not get through.
pub fn run(
    program: &Path,
    load: &Load,
    trials: &[Settings],
    mut each: impl FnMut(usize, Outcome) -> Result<(), String>,
) -> Result<(), String> {
    let name = program.display();
    let mut child = Command::new(program)
        .stdin(Stdio::piped())
        .stdout(Stdio::piped())
        .spawn()
        .map_err(|fault| format!("{name}: {fault}"))?;
    let mut input = load.bytes();
    for settings in trials {
        input.extend(settings.iter().flat_map(|setting| setting.to_be_bytes()));
    }
    let mut pipe = child.stdin.take().expect("it has a pipe");
    let feeder = thread::spawn(move || match pipe.write_all(&input) {
        // a program that refuses the load reads no further
        Err(fault) if fault.kind() != ErrorKind::BrokenPipe => Err(fault),
        _ => Ok(()),
    });
    let mut lines = BufReader::new(child.stdout.take().expect("it has a pipe")).lines();
    let mut done = 0;
    let mut fault = None;
    for line in &mut lines {
        let taken = match line {
            Err(fault) => Err(format!("{name}: {fault}")),
            Ok(line) => match outcome_of(&line, done + 1).filter(|_| done < trials.len()) {
                None => Err(format!("{name}: '{line}' is not the line of a trial")),
                Some(outcome) => each(done, outcome),
            },
        };
        if let Err(why) = taken {
            fault = Some(why);
            break;
        }
        done += 1;
    }
    if fault.is_some() {
        // it may have ended already
        let _ = child.kill();
    }
    let status = child.wait().map_err(|fault| format!("{name}: {fault}"))?;
    let fed = feeder.join().expect("the feeder does not stop early");
    if let Some(why) = fault {
        return Err(why);
    }
    if !status.success() {
        return Err(format!("{name}: {status}"));
    }
    fed.map_err(|fault| format!("{name}: {fault}"))?;
    match done {
        0 if !trials.is_empty() => Err(why_nothing(load)),
        _ if done < trials.len() => {
            let all = trials.len();
            Err(format!("{name} ended after {done} of {all} trials"))
        }
        _ => Ok(()),
    }
}

// A program prints nothing for a load that it refuses.
fn why_nothing(load: &Load) -> String {
    let mut faults = Vec::new();
    if load.s == 0 {
        faults.push("S is zero");
    }
    if !(1..=4096).contains(&load.f) {
        faults.push("F is outside 1 to 4,096");
    }
    if load.count > MOST_CALLS {
        faults.push("COUNT is above 4,294,967,296");
    }
    if faults.is_empty() {
        return "no line came for any trial".to_string();
    }
    format!("refusal 15: {}", faults.join(", "))
}

/// How many calls of a load are searches: those whose first number is 3 modulo 4. None of a load that is refused for its count.
pub fn searches(load: &Load) -> u64 {
    if load.count > MOST_CALLS {
        return 0;
    }
    let (mut s, mut w) = (load.s, load.w);
    let mut number = || {
        s ^= s << 13;
        s ^= s >> 7;
        s ^= s << 17;
        w = w.wrapping_add(362_437);
        s.wrapping_add(w)
    };
    let mut found = 0;
    for _ in 0..load.count {
        found += u64::from(number() % 4 == 3);
        number();
    }
    found
}

#[cfg(test)]
mod tests {
    use super::*;

    #[test]
    fn lines_of_a_program() {
        let outcome = Outcome {
            answer: 0,
            side_need: 5,
            refused: [6, 7, 8, 9],
            last: 18446744073709551615,
        };
        assert_eq!(
            outcome_of("12 0 5 6 7 8 9 18446744073709551615", 12),
            Some(outcome)
        );
        for wrong in [
            "",
            "12 0 5 6 7 8 9",
            "12 0 5 6 7 8 9 10 11",
            "11 0 5 6 7 8 9 10",
            "12  0 5 6 7 8 9 10",
            "12 0 5 6 7 8 9 10 ",
            "12 0 5 6 +7 8 9 10",
            "12 0 5 6 x 8 9 10",
            "12 0 5 6 7 8 9 18446744073709551616",
        ] {
            assert_eq!(outcome_of(wrong, 12), None, "{wrong}");
        }
    }

    #[test]
    fn searches_of_a_load() {
        // examples/load.txt: ten calls of the load 1 0 1000 10; a search has the letter S, byte 53, and a class
        let text = include_str!("../../../examples/load.txt");
        let load = Load {
            count: 10,
            ..Load::USUAL
        };
        let lines = text.lines().filter(|line| line.starts_with("bytes 53"));
        assert_eq!(searches(&load), lines.count() as u64);
        for count in [0, MOST_CALLS + 1] {
            assert_eq!(searches(&Load { count, ..load }), 0);
        }
    }

    #[test]
    fn refused_loads() {
        let load = Load::USUAL;
        assert_eq!(why_nothing(&Load { s: 0, ..load }), "refusal 15: S is zero");
        assert_eq!(
            why_nothing(&Load {
                f: 4097,
                count: 4294967297,
                ..load
            }),
            "refusal 15: F is outside 1 to 4,096, COUNT is above 4,294,967,296"
        );
        assert_eq!(why_nothing(&load), "no line came for any trial");
    }

    // A shell script in place of the program.
    fn script(name: &str, text: &str) -> std::path::PathBuf {
        use std::os::unix::fs::PermissionsExt;
        let folder = std::env::temp_dir().join(format!("trials-{}", std::process::id()));
        std::fs::create_dir_all(&folder).unwrap();
        let path = folder.join(name);
        std::fs::write(&path, format!("#!/bin/sh\n{text}\n")).unwrap();
        std::fs::set_permissions(&path, std::fs::Permissions::from_mode(0o755)).unwrap();
        path
    }

    #[test]
    fn programs_that_do_and_do_not_get_through() {
        let trials = [[4, 1, 1, 2, 1, 0], [5, 1, 1, 2, 1, 256]];
        for (name, text, rows, fault) in [
            // 56 bytes come in
            (
                "well",
                "echo 1 0 $(wc -c) 0 0 0 0 0; echo 2 1 0 0 0 0 0 0",
                2,
                "",
            ),
            ("nothing", "exit 0", 0, "no line came"),
            (
                "short",
                "echo 1 0 0 0 0 0 0 0",
                1,
                "ended after 1 of 2 trials",
            ),
            (
                "odd",
                "echo 1 0 0 0 0 0 0 0; echo what; exec sleep 60",
                1,
                "'what' is not the line",
            ),
            (
                "long",
                "echo 1 0 0 0 0 0 0 0; echo 2 0 0 0 0 0 0 0; echo 3 0 0 0 0 0 0 0",
                2,
                "'3 0",
            ),
            ("status", "echo 1 0 0 0 0 0 0 0; exit 3", 1, "status: 3"),
        ] {
            let mut seen = Vec::new();
            let got = run(&script(name, text), &Load::USUAL, &trials, |at, outcome| {
                seen.push((at, outcome.side_need));
                Ok(())
            });
            assert_eq!(seen.len(), rows, "{name}");
            match got {
                Ok(()) => assert_eq!((fault, seen[0]), ("", (0, 56)), "{name}"),
                Err(why) => assert!(!fault.is_empty() && why.contains(fault), "{name}: {why}"),
            }
        }
        let nowhere = run(Path::new("/nowhere"), &Load::USUAL, &trials, |_, _| Ok(()));
        assert!(nowhere.unwrap_err().starts_with("/nowhere: "));
    }
}
