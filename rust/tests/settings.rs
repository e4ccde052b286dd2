//! The settings' verdicts and the areas' lengths against the model, on every combination of values at and around the limits, with every width and
//! numbers that are none.

use flow::{doors, NoRefusal, Refusal, Settings};
use model::settings::{Settings as Model, LIMITS, WIDTHS};
use testing::at_both_widths;
use testing::made::NO_WIDTHS;

// One below the least where there is one, the least, the next, one below the most, the most, one above, the least in numbers that agree
// with an allowed one in their low 32 bits, and the largest number.
fn around(low: u64, high: u64) -> Vec<u64> {
    let mut values = vec![
        low,
        low + 1,
        high - 1,
        high,
        high + 1,
        (1 << 32) + low,
        u64::MAX,
    ];
    if low > 0 {
        values.push(low - 1);
    }
    values
}

// Calls f with every combination of the other settings, and this for the width.
fn each_combination(width: u64, mut f: impl FnMut([u64; 7])) {
    let values: Vec<Vec<u64>> = LIMITS
        .iter()
        .map(|&(low, high)| around(low, high))
        .collect();
    for &p in &values[0] {
        for &k in &values[1] {
            for &room in &values[2] {
                for &top in &values[3] {
                    for &capacity in &values[4] {
                        for &side_places in &values[5] {
                            f([p, k, room, top, capacity, side_places, width]);
                        }
                    }
                }
            }
        }
    }
}

#[test]
fn verdicts_and_lengths_at_every_limit() {
    const BEFORE: [u64; 6] = [9, 8, 7, 6, 5, 4];
    let mut widths = vec![0, 12, 13, 14, 36, 37, 38, (1 << 32) + 13, u64::MAX];
    widths.extend(NO_WIDTHS.into_iter().filter(|width| *width > 1 << 16));
    for width in widths {
        let mut accepted = 0;
        let mut refused = 0;
        each_combination(width, |numbers| {
            let model = Model::of(numbers);
            let [p, k, room, top, capacity, side_places, width] = numbers;
            let made = Settings::new(p, k, room, top, capacity, side_places, width);
            let mut lengths = BEFORE;
            if model.allowed() {
                accepted += 1;
                assert_eq!(doors::settings_check(numbers), 0, "{numbers:?}");
                assert_eq!(doors::area_lengths(numbers, &mut lengths), 0, "{numbers:?}");
                assert_eq!(lengths, model.area_lengths(), "{numbers:?}");
                let settings = made.expect("allowed settings");
                assert_eq!(settings.numbers(), numbers);
                assert_eq!(settings.key_bytes() as u64, width);
                assert_eq!(settings.record_bytes() as u64, width + 4);
                let named = settings.area_lengths();
                assert_eq!(
                    [
                        named.ledger,
                        named.true_counts,
                        named.clipped_counts,
                        named.buckets,
                        named.side_store,
                        named.work
                    ]
                    .map(|length| length as u64),
                    model.area_lengths()
                );
            } else {
                refused += 1;
                assert_eq!(doors::settings_check(numbers), 1, "{numbers:?}");
                assert_eq!(doors::area_lengths(numbers, &mut lengths), 1, "{numbers:?}");
                assert_eq!(lengths, BEFORE, "{numbers:?}");
                assert_eq!(made, Err(Refusal::Setting));
            }
        });
        println!("width {width}: {accepted} accepted, {refused} refused");
        // four values of each other setting are in range
        let in_range = if WIDTHS.contains(&width) {
            4u32.pow(6)
        } else {
            0
        };
        assert_eq!(accepted, in_range);
        assert!(refused > 0);
    }
}

// A record is 17 bytes at width 13, and 41 at 37.
#[test]
fn lengths_in_numbers() {
    let lengths = |width| {
        let mut lengths = [0; 6];
        let settings = [6, 3, 2, 4, 128, 8, width];
        assert_eq!(doors::area_lengths(settings, &mut lengths), 0);
        lengths
    };
    let (at_13, at_37) = (lengths(13), lengths(37));
    assert_eq!(at_13, [2 + 17 * 128, 64, 32, 64 * 35, 2 + 17 * 8, 128]);
    assert_eq!(at_37, [2 + 41 * 128, 64, 32, 64 * 83, 2 + 41 * 8, 128]);
}

fn lengths_wrong(width: u64) {
    let allowed = [6, 3, 2, 4, 128, 8, width];
    let not_allowed = [
        [6, 3, 2, 4, 128, 65, width],
        [6, 3, 2, 4, 128, 8, width + 1],
    ];
    for n in (0..=14).filter(|&n| n != 6) {
        let before: Vec<u64> = (100..100 + n).collect();
        let mut lengths = before.clone();
        assert_eq!(doors::area_lengths(allowed, &mut lengths), 2, "{n} numbers");
        assert_eq!(lengths, before);
        // the lowest refusal is given
        for settings in not_allowed {
            assert_eq!(doors::area_lengths(settings, &mut lengths), 1);
            assert_eq!(lengths, before);
        }
    }
}

// A builder's settings are those of the same numbers, each under its name, in range or not.
#[test]
fn settings_by_name() {
    let lists = [
        [4, 1, 1, 2, 1, 0, 13],
        [12, 4, 4, 15, 4096, 64, 37],
        [3, 1, 1, 2, 1, 0, 13],
        [4, 5, 1, 2, 1, 0, 13],
        [4, 1, 0, 2, 1, 0, 13],
        [4, 1, 1, 16, 1, 0, 13],
        [4, 1, 1, 2, 4097, 0, 13],
        [4, 1, 1, 2, 1, 65, 13],
        [4, 1, 1, 2, 1, 0, 14],
    ];
    for numbers in lists {
        let [p, k, room, top, capacity, side_places, width] = numbers;
        let built = Settings::builder()
            .width(width)
            .side_places(side_places)
            .capacity(capacity)
            .top(top)
            .room(room)
            .k(k)
            .p(p)
            .build();
        assert_eq!(built, Settings::of(numbers));
        if let Ok(s) = built {
            let named = [
                s.p(),
                s.k(),
                s.room(),
                s.top(),
                s.capacity(),
                s.side_places(),
                s.width(),
            ];
            assert_eq!(named, numbers);
        }
    }
}

#[test]
fn refusals_by_number() {
    for (i, refusal) in Refusal::ALL.into_iter().enumerate() {
        assert_eq!(refusal.number() as usize, i + 1);
        assert_eq!(Refusal::from_number(refusal.number()), Some(refusal));
        assert_eq!(Refusal::try_from(refusal.number()), Ok(refusal));
        assert_eq!(u32::from(refusal) as usize, i + 1);
        assert!(refusal
            .to_string()
            .starts_with(&format!("refusal {}: ", i + 1)));
    }
    for number in [0, 17, 100, u32::MAX] {
        assert_eq!(Refusal::from_number(number), None);
        assert_eq!(Refusal::try_from(number), Err(NoRefusal(number)));
    }
    assert_eq!(u32::from(Refusal::Unknown(17)), 17);
    assert!(Refusal::Unknown(17).to_string().starts_with("refusal 17: "));
}

at_both_widths!(lengths_wrong);
