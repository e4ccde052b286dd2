//! 'Snapshot': a file of settings and records, saved from a ledger area and loaded into every area. Document 02, U7: "Width 37 is saved with
//! first count 7, the width last; width 13 still with 6, and a 7 with width 13 gives 12."

use crate::card::Card;
use crate::layout::{layout, placing, Areas};
use crate::ledger::{list_of, valid};
use crate::records::{count, counted_area, first_records, rising, Record};
use crate::settings::{Settings, IPV4_WIDTH, SETTINGS_COUNT};

/// A first count with which a file may begin: 6 leaves the width out, which is 13.
pub const WITHOUT_WIDTH: u64 = 6;
/// Likewise: 7 has it last.
pub const WITH_WIDTH: u64 = 7;

/// The first count that a table of this width is saved with.
pub fn first_count(width: u64) -> u64 {
    if width == IPV4_WIDTH {
        WITHOUT_WIDTH
    } else {
        WITH_WIDTH
    }
}

/// The bytes before the first record: the first count, so many settings and the second count, of two bytes each.
pub fn head_bytes(first_count: u64) -> usize {
    2 + 2 * first_count as usize + 2
}

/// Two sections, each after its count: the settings, then the records.
pub fn snapshot(settings: &Settings, list: &[Record]) -> Vec<u8> {
    let first = first_count(settings.width);
    let written = &settings.numbers()[..first as usize];
    let mut file = Vec::new();
    for number in [&[first], written].concat() {
        file.extend([(number / 256) as u8, (number % 256) as u8]);
    }
    file.extend(counted_area(
        list,
        settings.record_bytes(),
        list.len() as u64,
    ));
    file
}

/// 0 with the snapshot in the target, or the lowest refusal that applies and the target as it was.
pub fn save(card: &Card, ledger: &[u8], work: usize, target: &mut [u8]) -> u32 {
    let settings = &card.settings;
    if !settings.allowed() {
        return 1;
    }
    let lengths = settings.area_lengths();
    if ledger.len() as u64 != lengths[0] || work as u64 != lengths[5] {
        return 2;
    }
    if !valid(settings, ledger) {
        return 4;
    }
    let list = list_of(settings, ledger);
    if placing(card, &list).side_need() > settings.s {
        return 9;
    }
    let file = snapshot(settings, &list);
    if target.len() != file.len() {
        return 12;
    }
    target.copy_from_slice(&file);
    0
}

/// 0 with the file's settings handed back and the layout of its list in every area; or a refusal, zeros handed back and the areas as they
/// were. Seven numbers are lent for the settings, and another area for them is not of its length (2) and stays as it is.
pub fn load(file: &[u8], areas: &mut Areas, work: usize, settings: &mut [u64]) -> u32 {
    match list_with_layout(file, areas, work, settings.len()) {
        Ok((of_file, new)) => {
            settings.copy_from_slice(&of_file.numbers());
            *areas = new;
            0
        }
        Err(number) => refused(number, settings),
    }
}

/// "the settings of a snapshot's head, of 6 or of 7 (12 without a head; 1; 2, settings not of 7 numbers; 12, a 7 with width 13; else 0; refused, zeros in
/// an area of 7 numbers, another one as it was)"
pub fn file_settings(file: &[u8], settings: &mut [u64]) -> u32 {
    match settings_of_head(file, settings.len()) {
        Ok(of_file) => {
            settings.copy_from_slice(&of_file.numbers());
            0
        }
        Err(number) => refused(number, settings),
    }
}

fn settings_of_head(file: &[u8], for_settings: usize) -> Result<Settings, u32> {
    let head = Head::of(file).ok_or(12u32)?;
    if !head.settings.allowed() {
        return Err(1);
    }
    if for_settings != SETTINGS_COUNT {
        return Err(2);
    }
    if head.first_count == WITH_WIDTH && head.settings.width == IPV4_WIDTH {
        return Err(12);
    }
    Ok(head.settings)
}

/// The refusal, with zeros in an area of seven numbers and another one as it was.
fn refused(number: u32, settings: &mut [u64]) -> u32 {
    if settings.len() == SETTINGS_COUNT {
        settings.fill(0);
    }
    number
}

/// What a file has before its records.
#[derive(Clone, Copy, Debug, PartialEq, Eq)]
pub struct Head {
    pub first_count: u64,
    pub settings: Settings,
    pub second_count: u64,
}

impl Head {
    /// None where "an allowed first count, its settings and the second count" are not there.
    pub fn of(file: &[u8]) -> Option<Head> {
        if file.len() < 2 {
            return None;
        }
        let first_count = count(file);
        let known = first_count == WITHOUT_WIDTH || first_count == WITH_WIDTH;
        if !known || file.len() < head_bytes(first_count) {
            return None;
        }
        let number = |i: u64| count(&file[2 * i as usize..]);
        let [p, k, b, t, n, s] = [1, 2, 3, 4, 5, 6].map(number);
        let width = if first_count == WITH_WIDTH {
            number(7)
        } else {
            IPV4_WIDTH
        };
        Some(Head {
            first_count,
            settings: Settings::of([p, k, b, t, n, s, width]),
            second_count: number(first_count + 1),
        })
    }
}

/// What is judged once the head is there: the lowest that applies, but 9 only when nothing else does.
fn list_with_layout(
    file: &[u8],
    areas: &Areas,
    work: usize,
    for_settings: usize,
) -> Result<(Settings, Areas), u32> {
    let Head {
        first_count: first,
        settings,
        second_count: n,
    } = Head::of(file).ok_or(12u32)?;
    let places = &file[head_bytes(first)..];
    let list = first_records(places, settings.record_bytes(), n);
    let mut apply = Vec::new();
    if !settings.allowed() {
        apply.push(1);
    } else if !areas.fit(&settings, Some(work)) || for_settings != SETTINGS_COUNT {
        apply.push(2);
    }
    if n > settings.n {
        apply.push(8);
    }
    // "a 7 with width 13 gives 12"; "a cut or overlong file"
    if first != first_count(settings.width)
        || places.len() as u64 != settings.record_bytes() as u64 * n
    {
        apply.push(12);
    }
    if !rising(&list) {
        apply.push(13);
    }
    if let Some(lowest) = apply.into_iter().min() {
        return Err(lowest);
    }
    match layout(&Card::new(settings), &list) {
        None => Err(9),
        Some(new) => Ok((settings, new)),
    }
}
