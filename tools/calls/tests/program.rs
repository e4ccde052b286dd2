//! The program as it is run: what it writes, says and ends with, and each call as soon as its line has come.

use std::ffi::OsStr;
use std::fs::File;
use std::io::{Read, Write};
use std::os::unix::ffi::OsStrExt;
use std::process::{Child, ChildStdin, Command, Stdio};
use std::sync::mpsc::{channel, Receiver, RecvTimeoutError};
use std::thread;
use std::time::Duration;

// More than any run here needs.
const DEADLINE: Duration = Duration::from_secs(60);

// The program with these words, its standard input, and what it writes, piece by piece.
fn started(words: &[&OsStr]) -> (Child, ChildStdin, Receiver<Vec<u8>>) {
    let mut child = Command::new(env!("CARGO_BIN_EXE_calls"))
        .args(words)
        .stdin(Stdio::piped())
        .stdout(Stdio::piped())
        .stderr(Stdio::piped())
        .spawn()
        .unwrap();
    let input = child.stdin.take().unwrap();
    let mut output = child.stdout.take().unwrap();
    let (sender, receiver) = channel();
    thread::spawn(move || {
        let mut block = [0; 1 << 16];
        while let Ok(got) = output.read(&mut block) {
            if got == 0 || sender.send(block[..got].to_vec()).is_err() {
                return;
            }
        }
    });
    (child, input, receiver)
}

// What it writes on an input, what it says, and its status.
fn run(words: &[&OsStr], input: &[u8]) -> (Vec<u8>, String, i32) {
    let (mut child, mut pipe, output) = started(words);
    // it may end before it has read everything
    let _ = pipe.write_all(input);
    drop(pipe);
    let mut written = vec![];
    loop {
        match output.recv_timeout(DEADLINE) {
            Ok(piece) => written.extend(piece),
            Err(RecvTimeoutError::Disconnected) => break,
            Err(RecvTimeoutError::Timeout) => {
                child.kill().unwrap();
                panic!("the program does not end");
            }
        }
    }
    let ended = child.wait_with_output().unwrap();
    let said = String::from_utf8(ended.stderr).unwrap();
    (written, said, ended.status.code().unwrap())
}

fn clear() -> Vec<u8> {
    let mut call = vec![0; 18];
    call[0] = b'X';
    call
}

#[test]
fn bad_lines_are_told() {
    let input = b"\xef\xbb\xbfclear\nadd 1.1.1.1 \xff\xfe\n\x1b[2J\nclear\nclear 7\n";
    let (written, said, status) = run(&[], input);
    let kinds = "is none of add, change, remove, search, clear, bytes";
    let expected = format!(
        "line 2: '\\xff\\xfe' is not text (UTF-8)\nline 3: '\\u{{1b}}[2J' {kinds}\n\
         line 5: clear takes 0 fields, and 1 are given\n"
    );
    assert_eq!(said, expected);
    assert_eq!(status, 1);
    // the call before the first bad line, and none after it
    assert_eq!(written, clear());
}

#[test]
fn ten_bad_lines_are_told() {
    for bad in [1, 10, 11, 1000] {
        let input = "clear\n".to_string() + &"x\n".repeat(bad);
        let (written, said, status) = run(&[], input.as_bytes());
        let told: Vec<&str> = said.lines().collect();
        for (i, line) in told.iter().take(10).enumerate() {
            assert!(line.starts_with(&format!("line {}: 'x' ", i + 2)), "{line}");
        }
        assert_eq!(told.len(), bad.min(11), "{said}");
        assert_eq!(
            told.get(10).copied(),
            (bad > 10).then_some("and more bad lines")
        );
        assert_eq!((written, status), (clear(), 1));
    }
}

#[test]
fn words() {
    let (written, said, status) = run(&[OsStr::new("--help")], b"");
    assert_eq!((said.as_str(), status), ("", 0));
    let help = String::from_utf8(written).unwrap();
    for word in ["add", "change", "remove", "search", "clear", "bytes"] {
        assert!(help.lines().any(|line| line.starts_with(word)), "{help}");
    }
    let bad: [(&[u8], &str); 3] = [
        (b"\xff--help", "'\\xff--help': "),
        (b"\x1b", "'\\u{1b}': "),
        (b"", "'': "),
    ];
    for (word, start) in bad {
        let (written, said, status) = run(&[OsStr::from_bytes(word)], b"clear\n");
        assert!(said.starts_with(start), "{said}");
        assert_eq!((written, status), (vec![], 2));
    }
}

// A call comes as soon as its line has come, with more lines to come; so does a line as soon as its call has come.
#[test]
fn each_line_at_once() {
    let (mut child, mut input, output) = started(&[]);
    for part in ["clear\ncle", "ar\n\nclear\n# "] {
        input.write_all(part.as_bytes()).unwrap();
        let calls = clear().repeat(part.matches("r\n").count());
        assert_eq!(output.recv_timeout(DEADLINE).unwrap(), calls);
    }
    drop(input);
    assert!(child.wait().unwrap().success());

    let (mut child, mut input, output) = started(&[OsStr::new("--back")]);
    for (part, text) in [(0..20, "clear\n"), (20..54, "clear\nclear\n")] {
        input.write_all(&clear().repeat(3)[part]).unwrap();
        assert_eq!(output.recv_timeout(DEADLINE).unwrap(), text.as_bytes());
    }
    drop(input);
    assert!(child.wait().unwrap().success());
}

// Many lines and a long one, more than a read gives at once.
#[test]
fn long_input() {
    let many = "clear\n".repeat(100_000) + "#" + &"x".repeat(1 << 20);
    let (written, said, status) = run(&[], many.as_bytes());
    assert!(written == clear().repeat(100_000));
    assert_eq!((said.as_str(), status), ("", 0));
    let (text, _, status) = run(&[OsStr::new("--back")], &written);
    assert!(text == "clear\n".repeat(100_000).into_bytes());
    assert_eq!(status, 0);
}

#[test]
fn unreadable_and_full() {
    let folder = File::open("/").unwrap();
    let full = File::options().write(true).open("/dev/full").unwrap();
    let program = env!("CARGO_BIN_EXE_calls");
    let read = Command::new(program).stdin(folder).output().unwrap();
    let said = String::from_utf8(read.stderr).unwrap();
    assert!(said.starts_with("standard input: Is a directory"), "{said}");
    assert_eq!(read.status.code(), Some(1));
    let mut wrote = Command::new(program)
        .stdin(Stdio::piped())
        .stdout(full)
        .stderr(Stdio::piped())
        .spawn()
        .unwrap();
    let mut input = wrote.stdin.take().unwrap();
    input.write_all(b"clear\n").unwrap();
    drop(input);
    let wrote = wrote.wait_with_output().unwrap();
    let said = String::from_utf8(wrote.stderr).unwrap();
    assert!(said.starts_with("standard output: No space left"), "{said}");
    assert_eq!(wrote.status.code(), Some(1));
}
