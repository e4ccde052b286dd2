//! Lines of text on standard input into flowrun's calls of 18 bytes on standard output; with --back, calls into lines. What a read gives is turned
//! and written before more is read.

mod text;

use std::ffi::OsString;
use std::io::{self, BufRead, BufReader, ErrorKind, Read, Write};
use std::os::unix::ffi::OsStrExt;
use std::process::ExitCode;
use text::Lines;

// The most bytes of one read.
const BLOCK: usize = 1 << 16;

// The most bad lines that are told.
const MOST_TOLD: usize = 10;

const USAGE: &str =
    "calls < TEXT > CALLS, or calls --back < CALLS > TEXT. A line of the text is one of:";

const MORE: &str = "\
Empty lines, and what follows a '#', are passed over. A bad line is told with its number, and no call after it is written.";

fn main() -> ExitCode {
    let words: Vec<OsString> = std::env::args_os().skip(1).collect();
    let done = match words.iter().map(|word| word.as_bytes()).collect::<Vec<_>>()[..] {
        [] => to_calls(),
        [b"--back"] => to_text(),
        [b"--help"] => help(),
        [bad, ..] => {
            say(&format!("'{}': {USAGE}\n{}", text::shown(bad), text::FORMS));
            return ExitCode::from(2);
        }
    };
    match done {
        Ok(status) => status,
        Err(fault) => {
            say(&fault);
            ExitCode::FAILURE
        }
    }
}

fn help() -> Result<ExitCode, String> {
    let text = format!("{USAGE}\n{}\n{MORE}\n", text::FORMS);
    output(text.as_bytes()).map(|()| ExitCode::SUCCESS)
}

fn to_calls() -> Result<ExitCode, String> {
    let mut input = BufReader::with_capacity(BLOCK, io::stdin().lock());
    let mut lines = Lines::default();
    let (mut line, mut calls) = (vec![], vec![]);
    let mut bad = 0;
    loop {
        line.clear();
        let read = input.read_until(b'\n', &mut line);
        if read.map_err(unreadable)? == 0 {
            break;
        }
        match lines.next_call(&line) {
            Ok(call) if bad == 0 => calls.extend(call),
            Ok(_) => {}
            Err(_) if bad == MOST_TOLD => {
                say("and more bad lines");
                break;
            }
            Err(fault) => {
                bad += 1;
                say(&fault.to_string());
            }
        }
        // the next line may have to be waited for
        if !input.buffer().contains(&b'\n') {
            output(&calls)?;
            calls.clear();
        }
    }
    output(&calls)?;
    Ok(if bad == 0 {
        ExitCode::SUCCESS
    } else {
        ExitCode::FAILURE
    })
}

fn to_text() -> Result<ExitCode, String> {
    let mut input = io::stdin().lock();
    let mut calls = vec![];
    let mut block = vec![0; BLOCK];
    loop {
        let got = match input.read(&mut block) {
            Err(fault) if fault.kind() == ErrorKind::Interrupted => continue,
            read => read.map_err(unreadable)?,
        };
        calls.extend(&block[..got]);
        // of the bytes that are left over at the end a line is made too
        let whole = match got {
            0 => calls.len(),
            _ => calls.len() - calls.len() % text::CALL,
        };
        output(text::text_of(&calls[..whole]).as_bytes())?;
        calls.drain(..whole);
        if got == 0 {
            return Ok(ExitCode::SUCCESS);
        }
    }
}

fn unreadable(fault: io::Error) -> String {
    format!("standard input: {fault}")
}

fn output(bytes: &[u8]) -> Result<(), String> {
    let mut out = io::stdout();
    let written = out.write_all(bytes).and_then(|()| out.flush());
    written.map_err(|fault| format!("standard output: {fault}"))
}

// A line on standard error, where anybody takes it.
fn say(line: &str) {
    let _ = writeln!(io::stderr(), "{line}");
}
