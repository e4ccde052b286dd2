//! 'Program flowrun': its whole output.

use crate::card::Card;
use crate::ledger::Ledger;
use crate::lookup::Answer;
use crate::settings::{Settings, IPV4_WIDTH};
use std::fmt::Write;

/// "U1, U3 and flowrun use 13" (document 02, U7).
const KEY_BYTES: usize = IPV4_WIDTH as usize;

/// A letter, a key, a class of four bytes.
pub const CALL_BYTES: usize = 1 + KEY_BYTES + 4;

pub fn settings() -> Settings {
    Settings::of([6, 3, 2, 4, 128, 8, IPV4_WIDTH])
}

/// A header, and a line for each call and for what is left over.
pub fn output(input: &[u8]) -> String {
    let card = Card::new(settings());
    let mut ledger = Ledger::default();
    let mut text = String::from("call op answer class buckets compared\n");
    for (i, call) in input.chunks(CALL_BYTES).enumerate() {
        let (letter, answer) = perform(&card, &mut ledger, call);
        let Answer {
            number,
            class,
            buckets_read,
            compared,
            // "but not in flowrun"
            side_compared: _,
        } = answer;
        writeln!(
            text,
            "{} {letter} {number} {class} {buckets_read} {compared}",
            i + 1
        )
        .unwrap();
    }
    text
}

/// A call on the plain ledger: the letter printed, and the answer with the class found or written.
pub fn perform(card: &Card, ledger: &mut Ledger, call: &[u8]) -> (char, Answer) {
    if call.len() < CALL_BYTES {
        return ('?', Answer::refused(14));
    }
    let key = &call[1..1 + KEY_BYTES];
    let class = call[1 + KEY_BYTES..]
        .iter()
        .fold(0, |class, &byte| 256 * class + u32::from(byte));
    match call[0] {
        b'I' => ('I', written(ledger.add(card, key, class), class)),
        b'C' => ('C', written(ledger.change(card, key, class), class)),
        b'D' => ('D', written(ledger.remove(card, key), 0)),
        b'S' => ('S', ledger.search(card, key)),
        b'X' => ('X', written(ledger.clear(), 0)),
        _ => ('?', Answer::refused(14)),
    }
}

/// An update's answer, with the class that it wrote unless it was refused.
fn written(number: u32, class: u32) -> Answer {
    Answer {
        class: if number == 0 { class } else { 0 },
        ..Answer::refused(number)
    }
}
