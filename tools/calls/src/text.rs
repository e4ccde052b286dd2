//! A call of flowrun as a line of text: a word, then the fields of a key in their usual form, then a class where the call has one.
//!
//! A call is 18 bytes: a letter, a key (source address, destination address, source port, destination port, protocol), a class; the
//! numbers high byte first. Bytes that no other line gives are a line `bytes` with hexadecimal digits, so that every input of flowrun
//! has its text.

use std::fmt::{self, Write};
use std::net::Ipv4Addr;
use std::str::FromStr;

/// The bytes of a call.
pub const CALL: usize = 18;

// What some editors put at the start of a text.
const BYTE_ORDER_MARK: &[u8] = b"\xef\xbb\xbf";

// The most characters of a word that a message shows.
const MOST_SHOWN: usize = 60;

/// How a line is written, for messages and for the program's help.
pub const FORMS: &str = "\
add SOURCE DESTINATION SOURCE-PORT DESTINATION-PORT PROTOCOL CLASS
change SOURCE DESTINATION SOURCE-PORT DESTINATION-PORT PROTOCOL CLASS
remove SOURCE DESTINATION SOURCE-PORT DESTINATION-PORT PROTOCOL
search SOURCE DESTINATION SOURCE-PORT DESTINATION-PORT PROTOCOL
clear
bytes HEXADECIMAL-DIGITS";

// A word, its letter, and whether a key and a class follow.
const KINDS: [(&str, u8, bool, bool); 5] = [
    ("add", b'I', true, true),
    ("change", b'C', true, true),
    ("remove", b'D', true, false),
    ("search", b'S', true, false),
    ("clear", b'X', false, false),
];

/// A line that is no call.
#[derive(Clone, Debug, PartialEq, Eq)]
pub struct BadLine {
    /// Its number, from 1.
    pub line: usize,
    /// What is wrong with it.
    pub fault: String,
}

impl fmt::Display for BadLine {
    fn fmt(&self, f: &mut fmt::Formatter) -> fmt::Result {
        write!(f, "line {}: {}", self.line, self.fault)
    }
}

/// The lines of an input, read one after the other.
#[derive(Default)]
pub struct Lines {
    // how many were read
    count: usize,
    // whether the latest call has fewer than 18 bytes
    short: bool,
}

impl Lines {
    /// The call of the next line. An empty line, what follows a `#`, and a byte order mark at the start of the input are passed over.
    pub fn next_call(&mut self, line: &[u8]) -> Result<Vec<u8>, BadLine> {
        self.count += 1;
        let line = match line.strip_prefix(BYTE_ORDER_MARK) {
            Some(rest) if self.count == 1 => rest,
            _ => line,
        };
        self.judge(line).map_err(|fault| BadLine {
            line: self.count,
            fault,
        })
    }

    fn judge(&mut self, line: &[u8]) -> Result<Vec<u8>, String> {
        let text = text_in(line)?;
        let call = text.split('#').next().unwrap_or("");
        let words: Vec<&str> = call.split_whitespace().collect();
        let (word, fields) = match words.split_first() {
            Some(words) => words,
            None => return Ok(vec![]),
        };
        // told of one line; those after it are judged by themselves
        if std::mem::take(&mut self.short) {
            let fault = "after a line of fewer than 18 bytes, which must be the last";
            return Err(fault.to_string());
        }
        let call = call_of(word, fields)?;
        self.short = call.len() < CALL;
        Ok(call)
    }
}

// A line as text; where it is none, a fault with the first word that is none.
fn text_in(line: &[u8]) -> Result<&str, String> {
    std::str::from_utf8(line).map_err(|_| {
        let mut words = line.split(u8::is_ascii_whitespace);
        let bad = words.find(|word| std::str::from_utf8(word).is_err());
        format!("'{}' is not text (UTF-8)", shown(bad.unwrap_or(line)))
    })
}

/// Bytes as a message shows them: control characters, and bytes that are no UTF-8, as escapes; of many bytes the first ones.
pub fn shown(bytes: &[u8]) -> String {
    let mut rest = bytes;
    let mut text = String::new();
    for _ in 0..MOST_SHOWN {
        let first = (1..=4).find_map(|length| std::str::from_utf8(rest.get(..length)?).ok());
        match first {
            Some(first) => text.extend(first.chars().flat_map(char::escape_debug)),
            None if rest.is_empty() => return text,
            None => text += &format!("\\x{:02x}", rest[0]),
        }
        rest = &rest[first.map_or(1, str::len)..];
    }
    if !rest.is_empty() {
        text += "..";
    }
    text
}

fn call_of(word: &str, fields: &[&str]) -> Result<Vec<u8>, String> {
    if word == "bytes" {
        return bytes_of(fields);
    }
    let known = KINDS.iter().find(|kind| kind.0 == word);
    let (_, letter, has_key, has_class) = *known.ok_or_else(|| {
        let word = shown(word.as_bytes());
        format!("'{word}' is none of add, change, remove, search, clear, bytes")
    })?;
    let wanted = 5 * usize::from(has_key) + usize::from(has_class);
    if fields.len() != wanted {
        let given = fields.len();
        return Err(format!(
            "{word} takes {wanted} fields, and {given} are given"
        ));
    }
    let mut call = vec![letter];
    if has_key {
        call.extend(field::<Ipv4Addr>(fields[0], "an IPv4 address")?.octets());
        call.extend(field::<Ipv4Addr>(fields[1], "an IPv4 address")?.octets());
        call.extend(field::<u16>(fields[2], "a port, 0 to 65535")?.to_be_bytes());
        call.extend(field::<u16>(fields[3], "a port, 0 to 65535")?.to_be_bytes());
        call.push(field(fields[4], "a protocol, 0 to 255")?);
    }
    if has_class {
        call.extend(field::<u32>(fields[5], "a class, 0 to 4294967295")?.to_be_bytes());
    }
    call.resize(CALL, 0);
    Ok(call)
}

fn field<T: FromStr>(text: &str, what: &str) -> Result<T, String> {
    // a number is digits alone; Rust would take a plus sign too
    let read = if text.starts_with('+') {
        None
    } else {
        text.parse().ok()
    };
    read.ok_or_else(|| format!("'{}' is not {what}", shown(text.as_bytes())))
}

fn bytes_of(fields: &[&str]) -> Result<Vec<u8>, String> {
    let digits: Vec<u8> = fields.concat().into_bytes();
    let value = |digit: &u8| (*digit as char).to_digit(16).map(|value| value as u8);
    let values: Option<Vec<u8>> = digits.iter().map(value).collect();
    match values {
        Some(values) if values.len() % 2 == 0 && (2..=2 * CALL).contains(&values.len()) => {
            Ok(values.chunks(2).map(|two| 16 * two[0] + two[1]).collect())
        }
        _ => Err("bytes takes two hexadecimal digits for each of 1 to 18 bytes".to_string()),
    }
}

/// The text of flowrun's input, a line for each call; its calls are these bytes again.
pub fn text_of(calls: &[u8]) -> String {
    calls.chunks(CALL).map(line_of).collect()
}

fn line_of(call: &[u8]) -> String {
    let spelled = KINDS
        .iter()
        .filter(|kind| call.len() == CALL && kind.1 == call[0])
        .map(|kind| spell(call, kind.0, kind.2, kind.3))
        .find(|line| Lines::default().next_call(line.as_bytes()).as_deref() == Ok(call));
    spelled.unwrap_or_else(|| {
        let mut line = "bytes ".to_string();
        for byte in call {
            write!(line, "{byte:02x}").expect("a string takes every text");
        }
        line + "\n"
    })
}

fn spell(call: &[u8], word: &str, has_key: bool, has_class: bool) -> String {
    let address = |at: usize| Ipv4Addr::new(call[at], call[at + 1], call[at + 2], call[at + 3]);
    let port = |at: usize| u16::from_be_bytes([call[at], call[at + 1]]);
    let mut line = word.to_string();
    if has_key {
        let key = format!(
            " {} {} {} {} {}",
            address(1),
            address(5),
            port(9),
            port(11),
            call[13]
        );
        line += &key;
    }
    if has_class {
        let class = u32::from_be_bytes([call[14], call[15], call[16], call[17]]);
        line += &format!(" {class}");
    }
    line + "\n"
}

#[cfg(test)]
mod tests {
    use super::*;

    // xorshift64, for inputs that are the same in every run
    struct Random(u64);

    impl Random {
        fn below(&mut self, limit: u64) -> u64 {
            self.0 ^= self.0 << 13;
            self.0 ^= self.0 >> 7;
            self.0 ^= self.0 << 17;
            self.0 % limit
        }
    }

    // The calls of a text, or its bad lines.
    fn calls_of(text: &[u8]) -> Result<Vec<u8>, Vec<BadLine>> {
        let mut lines = Lines::default();
        let (mut calls, mut bad) = (vec![], vec![]);
        for line in text.split(|&byte| byte == b'\n') {
            match lines.next_call(line) {
                Ok(call) => calls.extend(call),
                Err(fault) => bad.push(fault),
            }
        }
        if bad.is_empty() {
            Ok(calls)
        } else {
            Err(bad)
        }
    }

    #[test]
    fn a_line_of_each_kind() {
        let text = "add 10.0.0.1 10.0.0.2 1234 80 6 7\nchange 10.0.0.1 10.0.0.2 1234 80 6 4294967295\n\
                    remove 10.0.0.1 10.0.0.2 1234 80 6\nsearch 255.0.0.1 0.0.0.0 65535 0 255\nclear\nbytes 3f00\n";
        let calls = calls_of(text.as_bytes()).unwrap();
        let add = [b'I', 10, 0, 0, 1, 10, 0, 0, 2, 4, 210, 0, 80, 6, 0, 0, 0, 7];
        assert_eq!(calls[..18], add);
        let change = [
            b'C', 10, 0, 0, 1, 10, 0, 0, 2, 4, 210, 0, 80, 6, 255, 255, 255, 255,
        ];
        assert_eq!(calls[18..36], change);
        let remove = [b'D', 10, 0, 0, 1, 10, 0, 0, 2, 4, 210, 0, 80, 6, 0, 0, 0, 0];
        assert_eq!(calls[36..54], remove);
        let search = [
            b'S', 255, 0, 0, 1, 0, 0, 0, 0, 255, 255, 0, 0, 255, 0, 0, 0, 0,
        ];
        assert_eq!(calls[54..72], search);
        let clear = [b'X', 0, 0, 0, 0, 0, 0, 0, 0, 0, 0, 0, 0, 0, 0, 0, 0, 0];
        assert_eq!(calls[72..90], clear);
        assert_eq!(calls[90..], [0x3f, 0]);
        assert_eq!(text_of(&calls), text);
    }

    #[test]
    fn every_input_has_its_text() {
        let mut random = Random(88172645463325252);
        let mut seen = [0; 6];
        for _ in 0..20_000 {
            let length = random.below(60) as usize;
            let mut bytes: Vec<u8> = (0..length).map(|_| random.below(256) as u8).collect();
            for call in bytes.chunks_mut(CALL) {
                call[0] = b"ICDSX?"[random.below(6) as usize];
                let from = [1, 14, 18][random.below(3) as usize].min(call.len());
                call[from..].fill(0);
            }
            let text = text_of(&bytes);
            assert_eq!(calls_of(text.as_bytes()), Ok(bytes));
            for line in text.lines() {
                let word = line.split(' ').next();
                let kind = KINDS.iter().position(|kind| Some(kind.0) == word);
                seen[kind.unwrap_or(5)] += 1;
            }
        }
        assert!(seen.iter().all(|times| *times > 1000), "{seen:?}");
    }

    #[test]
    fn empty_lines_and_comments() {
        assert_eq!(calls_of(b"\n# clear\n   \n"), Ok(vec![]));
        assert_eq!(calls_of(b"  clear # all of it"), calls_of(b"clear\n"));
        assert_eq!(calls_of(b"clear\r\n"), calls_of(b"clear\n"));
        assert_eq!(text_of(&[]), "");
    }

    #[test]
    fn byte_order_mark() {
        assert_eq!(calls_of(b"\xef\xbb\xbfclear"), calls_of(b"clear"));
        assert_eq!(calls_of(b"\xef\xbb\xbf"), Ok(vec![]));
        // anywhere else it is part of a word
        let bad = calls_of(b"clear\n\xef\xbb\xbfclear\n").unwrap_err();
        assert_eq!(bad.len(), 1);
        let fault = "line 2: '\\u{feff}clear' is none of add, change, remove, search, clear, bytes";
        assert_eq!(bad[0].to_string(), fault);
    }

    #[test]
    fn bad_lines() {
        for (bad, fault) in [
            ("ad 1.1.1.1 2.2.2.2 3 4 5 6", "'ad' is none of add"),
            (
                "add 1.1.1.1 2.2.2.2 3 4 5",
                "add takes 6 fields, and 5 are given",
            ),
            (
                "search 1.1.1.1 2.2.2.2 3 4 5 6",
                "search takes 5 fields, and 6 are given",
            ),
            ("clear 1", "clear takes 0 fields, and 1 are given"),
            (
                "remove 1.1.1 2.2.2.2 3 4 5",
                "'1.1.1' is not an IPv4 address",
            ),
            (
                "remove 1.1.1.1 2.2.2.256 3 4 5",
                "'2.2.2.256' is not an IPv4 address",
            ),
            ("remove 1.1.1.1 2.2.2.2 65536 4 5", "'65536' is not a port"),
            ("remove 1.1.1.1 2.2.2.2 3 -4 5", "'-4' is not a port"),
            ("remove 1.1.1.1 2.2.2.2 3 +4 5", "'+4' is not a port"),
            ("remove 1.1.1.1 2.2.2.2 3 4 256", "'256' is not a protocol"),
            (
                "add 1.1.1.1 2.2.2.2 3 4 5 4294967296",
                "'4294967296' is not a class",
            ),
            ("bytes", "bytes takes two"),
            ("bytes 3", "bytes takes two"),
            ("bytes 3g", "bytes takes two"),
            (
                "bytes 00000000000000000000000000000000000000",
                "bytes takes two",
            ),
            ("bytes 3f\nclear", "after a line of fewer than 18 bytes"),
        ] {
            let text = format!("clear\n\n{bad}\n");
            let got = calls_of(text.as_bytes()).unwrap_err();
            assert_eq!(got.len(), 1, "{bad}: {got:?}");
            assert!(got[0].fault.starts_with(fault), "{bad}: {}", got[0]);
            assert_eq!(got[0].line, 2 + bad.lines().count(), "{bad}");
        }
    }

    // Each bad line is told, also after one that is no UTF-8 and after one that was too short.
    #[test]
    fn all_bad_lines() {
        let bad = calls_of(b"clear\nadd \xff\n\nbytes 3f\nclear\nclear 1\nclear\nx\n").unwrap_err();
        let told: Vec<String> = bad.iter().map(BadLine::to_string).collect();
        let expected = [
            "line 2: '\\xff' is not text (UTF-8)",
            "line 5: after a line of fewer than 18 bytes, which must be the last",
            "line 6: clear takes 0 fields, and 1 are given",
            "line 8: 'x' is none of add, change, remove, search, clear, bytes",
        ];
        assert_eq!(told, expected);
    }

    #[test]
    fn what_a_message_shows() {
        for (bytes, text) in [
            (&b"clear"[..], "clear"),
            (b"\x1b[2J\x07\0", "\\u{1b}[2J\\u{7}\\0"),
            (b"a\xffb\xc3\xa9\xc3", "a\\xffb\u{e9}\\xc3"),
            (b"\xe2\x80\xae", "\\u{202e}"),
            (b"", ""),
        ] {
            assert_eq!(shown(bytes), text);
        }
        assert_eq!(shown(&[b'x'; MOST_SHOWN]), "x".repeat(MOST_SHOWN));
        let longer = [b'x'; MOST_SHOWN + 1];
        assert_eq!(shown(&longer), "x".repeat(MOST_SHOWN) + "..");
    }
}
