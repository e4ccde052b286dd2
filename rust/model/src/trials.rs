//! Document 02, 'Choosing settings for a node': a load played under the settings of each trial, and the program's whole output.

use crate::bench_load::{Load, INPUT_BYTES};
use crate::card::Card;
use crate::flowrun::perform;
use crate::layout::placing;
use crate::ledger::Ledger;
use crate::records::count;
use crate::settings::{Settings, IPV4_WIDTH};
use std::fmt::Write;

/// "six two-byte settings for each trial".
pub const TRIAL_BYTES: usize = 6 * 2;

/// "a count up to 2^32".
pub const MOST_CALLS: u64 = 2u64.pow(32);

/// 64 KiB.
pub const MOST_AREA_BYTES: u64 = 64 * 1024;

/// What a line gives after its answer.
#[derive(Clone, Copy, Debug, Default, PartialEq, Eq)]
pub struct Sums {
    /// "greatest side need of a list held": after the clear and after each call, so that a list refused with 9 does not count.
    pub greatest_need: u64,
    /// How many calls were refused with 6, 7, 8 and 9.
    pub refusals: [u64; 4],
    /// Records compared by all searches.
    pub compared: u64,
}

/// "plays the load on a cleared table": by the plain ledger, from the load's first call on.
pub fn play(load: Load, settings: Settings) -> Sums {
    let card = Card::new(settings);
    let mut ledger = Ledger::default();
    let mut sums = Sums::default();
    ledger.clear();
    let need = |ledger: &Ledger| placing(&card, &ledger.list).side_need();
    sums.greatest_need = need(&ledger);
    for call in load.calls() {
        let (letter, answer) = perform(&card, &mut ledger, &call);
        sums.compared += answer.compared;
        match answer.number {
            // only an accepted update alters the list
            0 if letter != 'S' => sums.greatest_need = sums.greatest_need.max(need(&ledger)),
            0 | 100 => {}
            refusal => sums.refusals[refusal as usize - 6] += 1,
        }
    }
    sums
}

/// The settings of a trial; or "1 (a setting out of range), 2 (an area above 64 KiB) or 14 (settings cut short)". Of settings that are cut nothing
/// else is judged, and settings out of range have no areas.
pub fn settings_of(trial: &[u8]) -> Result<Settings, u32> {
    if trial.len() < TRIAL_BYTES {
        return Err(14);
    }
    let [p, k, b, t, n, s] = [0, 2, 4, 6, 8, 10].map(|at| count(&trial[at..]));
    // "U1, U3 and flowrun use 13" (document 02, U7)
    let settings = Settings::of([p, k, b, t, n, s, IPV4_WIDTH]);
    if !settings.allowed() {
        return Err(1);
    }
    if area_bytes(&settings).iter().any(|&n| n > MOST_AREA_BYTES) {
        return Err(2);
    }
    Ok(settings)
}

/// The six areas in bytes: true counts and work are 16-bit numbers.
fn area_bytes(settings: &Settings) -> [u64; 6] {
    let [ledger, true_counts, clipped, buckets, side, work] = settings.area_lengths();
    [ledger, 2 * true_counts, clipped, buckets, side, 2 * work]
}

/// The load that all trials play: U1's 32 bytes; or 15, for U1's reasons or a count above 2^32.
pub fn load_of(input: &[u8]) -> Result<Load, u32> {
    let load = Load::of(&input[..INPUT_BYTES.min(input.len())])?;
    if load.count > MOST_CALLS {
        return Err(15);
    }
    Ok(load)
}

/// A line for each trial and for settings that are cut; with 15, nothing is printed.
pub fn output(input: &[u8]) -> Result<String, u32> {
    let load = load_of(input)?;
    let mut text = String::new();
    for (i, trial) in input[INPUT_BYTES..].chunks(TRIAL_BYTES).enumerate() {
        let (answer, sums) = match settings_of(trial) {
            Ok(settings) => (0, play(load, settings)),
            // "is followed by zeros"
            Err(number) => (number, Sums::default()),
        };
        let Sums {
            greatest_need,
            refusals: [held, not_held, full, side_exceeded],
            compared,
        } = sums;
        writeln!(
            text,
            "{} {answer} {greatest_need} {held} {not_held} {full} {side_exceeded} {compared}",
            i + 1
        )
        .unwrap();
    }
    Ok(text)
}
