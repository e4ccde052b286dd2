//! 'The calls' that write, on areas with any contents and lengths: clear, add, change, remove.

use crate::card::Card;
use crate::layout::{layout, Areas};
use crate::ledger::{list_of, valid, Ledger};

/// A call, as the plain ledger is fed it.
#[derive(Clone, Debug, PartialEq, Eq)]
pub enum Call {
    Clear,
    Add(Vec<u8>, u32),
    Change(Vec<u8>, u32),
    Remove(Vec<u8>),
}

impl Call {
    pub fn key(&self) -> Option<&[u8]> {
        match self {
            Call::Clear => None,
            Call::Add(key, _) | Call::Change(key, _) | Call::Remove(key) => Some(key),
        }
    }
}

impl Ledger {
    /// The plain ledger's step: 0, or a refusal that leaves the list.
    pub fn step(&mut self, card: &Card, call: &Call) -> u32 {
        match call {
            Call::Clear => self.clear(),
            Call::Add(key, class) => self.add(card, key, *class),
            Call::Change(key, class) => self.change(card, key, *class),
            Call::Remove(key) => self.remove(card, key),
        }
    }
}

/// 0 with the layout of the new list in every area, or the lowest refusal that applies and nothing altered. Clear takes no work.
pub fn perform(card: &Card, areas: &mut Areas, work: usize, call: &Call) -> u32 {
    let settings = &card.settings;
    if !settings.allowed() {
        return 1;
    }
    let taken = if *call == Call::Clear {
        None
    } else {
        Some(work)
    };
    if !areas.fit(settings, taken) {
        return 2;
    }
    let mut ledger = Ledger::default();
    if let Some(key) = call.key() {
        if key.len() as u64 != settings.width {
            return 3;
        }
        if !valid(settings, &areas.ledger) {
            return 4;
        }
        ledger.list = list_of(settings, &areas.ledger);
    }
    let answer = ledger.step(card, call);
    if answer == 0 {
        *areas = layout(card, &ledger.list).expect("an accepted call leaves a layout");
    }
    answer
}
