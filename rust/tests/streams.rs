//! The reads and writes of programs flowrun, flowload and flowtrial: what fails is said with its reason, nothing is lost on a pipe that is set to not
//! wait, and a line of flowrun comes as soon as its call has come.

use model::flowrun::output;
use std::fs::{self, File, OpenOptions};
use std::io::{ErrorKind, Read, Write};
use std::os::unix::fs::OpenOptionsExt;
use std::os::unix::io::OwnedFd;
use std::os::unix::net::UnixStream;
use std::path::PathBuf;
use std::process::{Command, Stdio};
use std::sync::mpsc::{channel, RecvTimeoutError};
use std::thread;
use std::time::Duration;
use testing::made::{load, random_bytes};
use testing::programs::{end_and_said, end_of, program, started, DEADLINE};
use testing::random::Random;

// O_NONBLOCK of Linux on x86-64.
const DO_NOT_WAIT: i32 = 0o4000;

// Long enough for a program to come to a read or a write and wait there.
const PAUSE: Duration = Duration::from_millis(50);

// Adds, searches and removals of few keys.
fn calls(count: usize) -> Vec<u8> {
    let mut random = Random::new(110);
    let keys: Vec<Vec<u8>> = (0..40).map(|_| random_bytes(&mut random, 13)).collect();
    let mut calls = vec![];
    for _ in 0..count {
        calls.push(b"ISSD"[random.between(0, 3) as usize]);
        calls.extend(&keys[random.between(0, 39) as usize]);
        calls.extend([0, 0, 0, 7]);
    }
    calls
}

// Each program with an input on which it writes something.
fn programs() -> [(&'static str, Vec<u8>); 3] {
    let mut trial = load(1, 0, 100, 1000);
    trial.extend([0, 6, 0, 3, 0, 2, 0, 4, 0, 128, 0, 8]);
    [
        ("flowrun", calls(10)),
        ("flowload", load(1, 0, 100, 10)),
        ("flowtrial", trial),
    ]
}

// A file of its own for a test, which is removed when it is dropped.
struct Made(PathBuf);

impl Made {
    fn path(name: &str) -> Made {
        let name = format!("{}-{name}", std::process::id());
        Made(std::env::temp_dir().join(name))
    }

    fn file(name: &str, bytes: &[u8]) -> Made {
        let made = Made::path(name);
        fs::write(&made.0, bytes).unwrap();
        made
    }

    fn pipe(name: &str) -> Made {
        let made = Made::path(name);
        let status = Command::new("mkfifo").arg(&made.0).status().unwrap();
        assert!(status.success());
        made
    }

    fn opened(&self) -> File {
        File::open(&self.0).unwrap()
    }
}

impl Drop for Made {
    fn drop(&mut self) {
        let _ = fs::remove_file(&self.0);
    }
}

#[test]
fn full_device() {
    for (name, input) in programs() {
        let input = Made::file(&format!("full-{name}"), &input);
        let full = OpenOptions::new().write(true).open("/dev/full").unwrap();
        let mut command = Command::new(program(name));
        let (_, said) = end_and_said(command.stdin(input.opened()).stdout(full));
        let expected = "standard output: No space left on device\n";
        assert_eq!(said, expected, "{name}");
    }
}

#[test]
fn unreadable_input() {
    for (name, _) in programs() {
        let folder = File::open("/").unwrap();
        let mut command = Command::new(program(name));
        let (_, said) = end_and_said(command.stdin(folder).stdout(Stdio::null()));
        assert_eq!(said, "standard input: Is a directory\n", "{name}");
    }
}

#[test]
fn closed_streams() {
    for (name, input) in programs() {
        let input = Made::file(&format!("closed-{name}"), &input);
        for (script, stream) in [
            ("exec \"$0\" <&-", "standard input"),
            ("exec \"$0\" >&-", "standard output"),
        ] {
            let mut command = Command::new("sh");
            let command = command.args(["-c", script]).arg(program(name));
            let (_, said) = end_and_said(command.stdin(input.opened()).stdout(Stdio::null()));
            let expected = format!("{stream}: Bad file descriptor\n");
            assert_eq!(said, expected, "{name}");
        }
    }
}

// A reader that leaves before the first byte. A program says why it stops, whether or not it was started with the signal SIGPIPE ignored: it ignores
// that signal itself.
#[test]
fn nobody_reads() {
    for (name, input) in programs() {
        let input = Made::file(&format!("unread-{name}"), &input);
        for ignored in [false, true] {
            let script = if ignored {
                "trap '' PIPE; read line; exec \"$0\" < \"$1\""
            } else {
                "read line; exec \"$0\" < \"$1\""
            };
            let mut child = Command::new("sh")
                .args(["-c", script])
                .arg(program(name))
                .arg(&input.0)
                .stdin(Stdio::piped())
                .stdout(Stdio::piped())
                .stderr(Stdio::piped())
                .spawn()
                .unwrap();
            // the shell goes on once nobody reads
            drop(child.stdout.take());
            child.stdin.take().unwrap().write_all(b"\n").unwrap();
            let status = end_of(&mut child);
            let mut said = String::new();
            let mut errors = child.stderr.take().unwrap();
            errors.read_to_string(&mut said).unwrap();
            assert_eq!(said, "standard output: Broken pipe\n", "{name}");
            assert!(status.success(), "{name}: {status}");
        }
    }
}

// A pipe whose writer does not wait, and a reader that takes a little at a time: all lines come.
#[test]
fn slow_reader() {
    let input = calls(20_000);
    let expected = output(&input);
    let input = Made::file("slow-input", &input);
    let pipe = Made::pipe("slow-pipe");
    // an end that does not wait for the other to be opened
    let first = OpenOptions::new()
        .read(true)
        .custom_flags(DO_NOT_WAIT)
        .open(&pipe.0)
        .unwrap();
    let writer = OpenOptions::new()
        .write(true)
        .custom_flags(DO_NOT_WAIT)
        .open(&pipe.0)
        .unwrap();
    let mut reader = pipe.opened();
    drop(first);
    let mut command = Command::new(program("flowrun"));
    command.stdin(input.opened()).stdout(writer);
    let (sender, receiver) = channel();
    thread::spawn(move || {
        let mut found: Vec<u8> = vec![];
        let mut block = [0; 50_000];
        loop {
            thread::sleep(PAUSE);
            match reader.read(&mut block).unwrap() {
                0 => return sender.send(found),
                got => found.extend(&block[..got]),
            }
        }
    });
    let (status, said) = end_and_said(&mut command);
    drop(command);
    assert_eq!(said, "");
    assert!(status.success());
    let found = receiver.recv_timeout(DEADLINE).unwrap();
    // more than a pipe holds
    assert!(expected.len() > 300_000);
    assert!(found == expected.into_bytes());
}

// An input whose reader does not wait, and that comes in pieces.
#[test]
fn slow_writer() {
    let input = calls(30);
    let pipe = Made::pipe("slow-writer");
    let reader = OpenOptions::new()
        .read(true)
        .custom_flags(DO_NOT_WAIT)
        .open(&pipe.0)
        .unwrap();
    let mut writer = OpenOptions::new().write(true).open(&pipe.0).unwrap();
    let mut child = Command::new(program("flowrun"))
        .stdin(reader)
        .stdout(Stdio::piped())
        .stderr(Stdio::piped())
        .spawn()
        .unwrap();
    for piece in input.chunks(100) {
        thread::sleep(PAUSE);
        writer.write_all(piece).unwrap();
    }
    drop(writer);
    end_of(&mut child);
    let ended = child.wait_with_output().unwrap();
    assert_eq!(String::from_utf8(ended.stderr).unwrap(), "");
    assert_eq!(String::from_utf8(ended.stdout).unwrap(), output(&input));
}

// The read fails once a call and a part of one have come: the part is no line, since the input has not ended.
#[test]
fn input_fails_within_a_call() {
    let (mut reader, mut writer) = UnixStream::pair().unwrap();
    // a socket that is closed with bytes unread fails the reads of the other
    reader.write_all(b"x").unwrap();
    let input = calls(2);
    writer.write_all(&input[..25]).unwrap();
    let mut child = Command::new(program("flowrun"))
        .stdin(OwnedFd::from(reader))
        .stdout(Stdio::piped())
        .stderr(Stdio::piped())
        .spawn()
        .unwrap();
    drop(writer);
    end_of(&mut child);
    let ended = child.wait_with_output().unwrap();
    let said = String::from_utf8(ended.stderr).unwrap();
    assert_eq!(said, "standard input: Connection reset by peer\n");
    assert_eq!(
        String::from_utf8(ended.stdout).unwrap(),
        output(&input[..18])
    );
}

// Each line of flowrun is there before more calls are, and none before its call is whole.
#[test]
fn each_line_at_once() {
    let mut input = calls(40);
    input.extend(&calls(1)[..5]);
    let expected = output(&input);
    let mut expected = expected.lines();
    let (mut child, mut feed, lines) = started("flowrun");
    let mut next = || {
        let line = lines.recv_timeout(DEADLINE);
        assert_eq!(line.as_deref().ok(), expected.next());
    };
    next();
    let (whole, rest) = input.split_at(40 * 18);
    for (i, call) in whole.chunks(18).enumerate() {
        let (front, back) = call.split_at(i % 18);
        feed.write_all(front).unwrap();
        if i % 18 == 17 {
            let line = lines.recv_timeout(PAUSE);
            assert_eq!(line, Err(RecvTimeoutError::Timeout));
        }
        feed.write_all(back).unwrap();
        next();
    }
    // what is left over is a line once the input has ended
    feed.write_all(rest).unwrap();
    let line = lines.recv_timeout(PAUSE);
    assert_eq!(line, Err(RecvTimeoutError::Timeout));
    drop(feed);
    next();
    let end = lines.recv_timeout(DEADLINE);
    assert_eq!(end, Err(RecvTimeoutError::Disconnected));
    assert_eq!(expected.next(), None);
    assert!(end_of(&mut child).success());
}

// Some calls and a part of one, then the rest of it with more: the lines are those of the whole input, whatever the parts.
#[test]
fn calls_in_parts() {
    let input = calls(3 * 512 + 100);
    let expected = output(&input);
    // around a buffer of 512 calls, and around a call
    for first in [1, 17, 18, 19, 9215, 9216, 9217, 9216 + 17, 2 * 9216 - 1] {
        let (mut child, mut feed, lines) = started("flowrun");
        feed.write_all(&input[..first]).unwrap();
        thread::sleep(PAUSE);
        match feed.write_all(&input[first..]) {
            Err(fault) if fault.kind() == ErrorKind::BrokenPipe => {}
            written => written.unwrap(),
        }
        drop(feed);
        assert!(end_of(&mut child).success());
        let found: Vec<String> = lines.iter().collect();
        assert!(found == expected.lines().collect::<Vec<_>>(), "{first}");
    }
}
