//! The six settings of a table, as document 01 has them: their names, their limits, the bytes of the areas, and why a trial is refused.

/// p, k, B, T, N and S, in this order.
pub type Settings = [u16; 6];

pub const NAMES: [&str; 6] = ["p", "k", "B", "T", "N", "S"];

/// What each is, for the axis of a picture.
pub const MEANINGS: [&str; 6] = [
    "p, with 2^p buckets",
    "k, buckets a flow may lie in",
    "B, records a bucket has room for",
    "T, the count at which a counter stops",
    "N, the most flows held",
    "S, places of the side store",
];

/// Where S stands.
pub const SIDE_PLACES: usize = 5;

// The least and the most of each.
const LIMITS: [(u16, u16); 6] = [(4, 12), (1, 4), (1, 4), (2, 15), (1, 4096), (0, 64)];

const AREAS: [&str; 6] = [
    "ledger",
    "true counts",
    "clipped counts",
    "buckets",
    "side store",
    "work area",
];

// flowtrial has this much for each area.
const MOST_AREA: u64 = 65_536;

// A key of 13 bytes and a class of 4.
const RECORD: u64 = 17;

// The settings that are out of range, by their places.
fn out_of_range(settings: &Settings) -> Vec<usize> {
    let in_range = |i: usize| (LIMITS[i].0..=LIMITS[i].1).contains(&settings[i]);
    (0..6).filter(|&i| !in_range(i)).collect()
}

/// The bytes of ledger, true counts, clipped counts, buckets, side store and work; None with a setting out of range.
pub fn area_bytes(settings: &Settings) -> Option<[u64; 6]> {
    if !out_of_range(settings).is_empty() {
        return None;
    }
    let [p, _, b, _, n, s] = settings.map(u64::from);
    let m = 1 << p;
    Some([
        2 + RECORD * n,
        2 * m,
        m / 2,
        m * (1 + RECORD * b),
        2 + RECORD * s,
        4 * m,
    ])
}

/// Why a trial is answered with this number, in words.
pub fn why_refused(answer: u64, settings: &Settings) -> String {
    let (meaning, facts) = match answer {
        1 => ("a setting is out of range", facts_of_1(settings)),
        2 => ("an area is above 65,536 bytes", facts_of_2(settings)),
        14 => ("the settings are cut short", vec![]),
        _ => ("no trial is answered so", vec![]),
    };
    let colon = if facts.is_empty() { "" } else { ": " };
    format!("refusal {answer}: {meaning}{colon}{}", facts.join(", "))
}

fn facts_of_1(settings: &Settings) -> Vec<String> {
    let limits = |i: usize| {
        let (least, most) = LIMITS[i];
        format!("{} is {least} to {}", NAMES[i], grouped(most.into()))
    };
    out_of_range(settings).into_iter().map(limits).collect()
}

fn facts_of_2(settings: &Settings) -> Vec<String> {
    let bytes = area_bytes(settings).unwrap_or_default();
    (0..6)
        .filter(|&i| bytes[i] > MOST_AREA)
        .map(|i| format!("the {} would take {}", AREAS[i], grouped(bytes[i])))
        .collect()
}

/// A number with a comma before each three digits: 65,536.
pub fn grouped(number: u64) -> String {
    let digits = number.to_string();
    let mut text = String::new();
    for (i, digit) in digits.chars().enumerate() {
        if i > 0 && (digits.len() - i) % 3 == 0 {
            text.push(',');
        }
        text.push(digit);
    }
    text
}

#[cfg(test)]
mod tests {
    use super::*;

    #[test]
    fn bytes_of_the_areas() {
        let flowrun = [6, 3, 2, 4, 128, 8];
        let bytes = [2 + 17 * 128, 128, 32, 64 * 35, 2 + 17 * 8, 256];
        assert_eq!(area_bytes(&flowrun), Some(bytes));
        let least = [4, 1, 1, 2, 1, 0];
        assert_eq!(area_bytes(&least), Some([19, 32, 8, 288, 2, 64]));
        for wrong in [
            [3, 1, 1, 2, 1, 0],
            [65535, 1, 1, 2, 1, 0],
            [4, 0, 1, 2, 1, 0],
            [4, 1, 5, 2, 1, 0],
            [4, 1, 1, 16, 1, 0],
            [4, 1, 1, 2, 0, 0],
            [4, 1, 1, 2, 1, 65],
        ] {
            assert_eq!(area_bytes(&wrong), None, "{wrong:?}");
        }
    }

    #[test]
    fn refusals_in_words() {
        assert_eq!(
            why_refused(1, &[13, 3, 2, 7, 1000, 32]),
            "refusal 1: a setting is out of range: p is 4 to 12"
        );
        assert_eq!(
            why_refused(1, &[8, 3, 2, 7, 4097, 65]),
            "refusal 1: a setting is out of range: N is 1 to 4,096, S is 0 to 64"
        );
        assert_eq!(
            why_refused(2, &[12, 3, 1, 7, 1000, 32]),
            "refusal 2: an area is above 65,536 bytes: the buckets would take 73,728"
        );
        assert_eq!(
            why_refused(2, &[10, 3, 4, 7, 3855, 32]),
            "refusal 2: an area is above 65,536 bytes: the ledger would take 65,537, the buckets would take 70,656"
        );
        assert_eq!(
            why_refused(14, &[8, 3, 2, 7, 1000, 32]),
            "refusal 14: the settings are cut short"
        );
    }

    #[test]
    fn commas() {
        for (number, text) in [
            (0, "0"),
            (999, "999"),
            (1000, "1,000"),
            (65536, "65,536"),
            (1234567, "1,234,567"),
        ] {
            assert_eq!(grouped(number), text);
        }
    }
}
