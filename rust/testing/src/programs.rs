//! The programs of target/bin, run on an input; flowrun's output beside the model's.

use crate::seen::Seen;
use model::flowrun;
use std::io::{BufRead, BufReader, ErrorKind, Read, Write};
use std::path::{Path, PathBuf};
use std::process::{Child, ChildStdin, Command, ExitStatus, Stdio};
use std::sync::mpsc::{channel, Receiver};
use std::thread;
use std::time::{Duration, Instant};

// As much at once as a pipe holds.
const WHOLE: &[usize] = &[65536];

// No program under test has so much to write: one that does not end is stopped here, before it takes all memory.
const MOST_OUTPUT: u64 = 1 << 26;

/// Where a program is, which must be built.
pub fn program(name: &str) -> PathBuf {
    let bin = Path::new(env!("CARGO_MANIFEST_DIR")).join("../../target/bin");
    let program = bin.join(name);
    assert!(
        program.exists(),
        "{} is not there: run `bin/build check {name}` in the repository's root first",
        program.display()
    );
    program
}

/// What a program writes on an input that comes as fast as it takes it.
pub fn run(name: &str, input: &[u8]) -> Vec<u8> {
    run_in_pieces(name, input, WHOLE, None)
}

/// What it writes on an input that comes in pieces of these lengths, again and again, with a pause after each if there is one. It has to end
/// well, with nothing on standard error; it may end before it has read everything.
pub fn run_in_pieces(
    name: &str,
    input: &[u8],
    pieces: &[usize],
    pause: Option<Duration>,
) -> Vec<u8> {
    let mut child = Command::new(program(name))
        .stdin(Stdio::piped())
        .stdout(Stdio::piped())
        .stderr(Stdio::piped())
        .spawn()
        .unwrap();
    let mut pipe = child.stdin.take().unwrap();
    let (input, pieces) = (input.to_vec(), pieces.to_vec());
    let feeder = thread::spawn(move || {
        let mut rest = &input[..];
        for &length in pieces.iter().cycle() {
            let (piece, more) = rest.split_at(length.min(rest.len()));
            match pipe.write_all(piece) {
                Err(fault) if fault.kind() == ErrorKind::BrokenPipe => return,
                written => written.unwrap(),
            }
            rest = more;
            if rest.is_empty() {
                return;
            }
            if let Some(pause) = pause {
                thread::sleep(pause);
            }
        }
    });
    let mut output = Vec::new();
    let written = child.stdout.take().unwrap();
    written.take(MOST_OUTPUT).read_to_end(&mut output).unwrap();
    let ended = child.wait_with_output().unwrap();
    feeder.join().unwrap();
    assert!(ended.status.success() && ended.stderr.is_empty());
    output
}

/// A program, started on an input that is fed to it, and its lines as they come.
pub fn started(name: &str) -> (Child, ChildStdin, Receiver<String>) {
    let mut child = Command::new(program(name))
        .stdin(Stdio::piped())
        .stdout(Stdio::piped())
        .spawn()
        .unwrap();
    let feed = child.stdin.take().unwrap();
    let printed = BufReader::new(child.stdout.take().unwrap());
    let (sender, lines) = channel();
    thread::spawn(move || {
        for line in printed.lines() {
            // nobody waits for it where the test has failed already
            let _ = sender.send(line.unwrap());
        }
    });
    (child, feed, lines)
}

/// How a program ends, which it must within [`DEADLINE`], and what it says on standard error.
pub fn end_and_said(command: &mut Command) -> (ExitStatus, String) {
    let mut child = command.stderr(Stdio::piped()).spawn().unwrap();
    let status = end_of(&mut child);
    let mut said = String::new();
    let errors = child.stderr.take().unwrap();
    errors.take(MOST_OUTPUT).read_to_string(&mut said).unwrap();
    (status, said)
}

/// More than any run under test needs.
pub const DEADLINE: Duration = Duration::from_secs(60);

/// How a program ends, which it must within [`DEADLINE`].
pub fn end_of(child: &mut Child) -> ExitStatus {
    let start = Instant::now();
    loop {
        if let Some(status) = child.try_wait().unwrap() {
            return status;
        }
        if start.elapsed() > DEADLINE {
            child.kill().unwrap();
            panic!("the program does not end");
        }
        thread::sleep(Duration::from_millis(1));
    }
}

/// flowrun's output on an input in pieces, which is the model's: compared line by line first, so that a failure names its call.
pub fn flowrun_compared(input: &[u8], pieces: &[usize], pause: Option<Duration>) -> String {
    // both at the same time
    let (found, expected) = thread::scope(|scope| {
        let found = scope.spawn(|| run_in_pieces("flowrun", input, pieces, pause));
        let expected = flowrun::output(input);
        (found.join().unwrap(), expected)
    });
    let found = String::from_utf8(found).unwrap();
    for (line, by_paper) in found.lines().zip(expected.lines()) {
        assert_eq!(line, by_paper);
    }
    assert!(found == expected, "{} bytes of input", input.len());
    found
}

/// [`flowrun_compared`] on an input that comes as fast as the program takes it.
pub fn flowrun_compared_whole(input: &[u8]) -> String {
    flowrun_compared(input, WHOLE, None)
}

/// The letter and the answer of each line of flowrun's output.
pub fn note_lines(seen: &mut Seen, text: &str) {
    for line in text.lines().skip(1) {
        let fields: Vec<&str> = line.split(' ').collect();
        let kind = ["I", "C", "D", "S", "X", "?"]
            .into_iter()
            .find(|&letter| letter == fields[1])
            .unwrap();
        seen.note(kind, fields[2].parse().unwrap());
    }
}
