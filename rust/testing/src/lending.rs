//! The model's areas lent to the doors, and compared afterwards.

use flow::doors::{self, LentAreas};
use model::calls::Call;
use model::layout::Areas;
use model::settings::Settings as Model;
use std::fmt::Debug;

pub fn lend(areas: &mut Areas) -> LentAreas<'_> {
    LentAreas {
        ledger: &mut areas.ledger,
        true_counts: &mut areas.true_counts,
        clipped: &mut areas.clipped,
        buckets: &mut areas.buckets,
        side: &mut areas.side,
    }
}

pub fn kind(call: &Call) -> &'static str {
    match call {
        Call::Clear => "clear",
        Call::Add(..) => "add",
        Call::Change(..) => "change",
        Call::Remove(..) => "remove",
    }
}

/// The call through its door.
pub fn door(settings: &Model, areas: &mut Areas, work: &mut [u16], call: &Call) -> u32 {
    let numbers = settings.numbers();
    let lent = lend(areas);
    match call {
        Call::Clear => doors::clear(numbers, lent),
        Call::Add(key, class) => doors::add(numbers, lent, work, key, *class),
        Call::Change(key, class) => doors::change(numbers, lent, work, key, *class),
        Call::Remove(key) => doors::remove(numbers, lent, work, key),
    }
}

/// The areas after a call, one by one, so that a failure names its area.
pub fn assert_areas(areas: &Areas, expected: &Areas, settings: &Model, call: &dyn Debug) {
    let what = || format!("{settings:?}, {call:?}");
    assert!(areas.ledger == expected.ledger, "ledger: {}", what());
    assert!(
        areas.true_counts == expected.true_counts,
        "true counts: {}",
        what()
    );
    assert!(
        areas.clipped == expected.clipped,
        "clipped counts: {}",
        what()
    );
    assert!(areas.buckets == expected.buckets, "buckets: {}", what());
    assert!(areas.side == expected.side, "side store: {}", what());
}
