//! The two widths that tests run at.

use flow::KeyHasher;
use model::hash::By;
pub use model::settings::{IPV4_WIDTH, IPV6_WIDTH, WIDTHS};

/// Makes two tests of each function that takes a width: `ipv4::name` and `ipv6::name`.
#[macro_export]
macro_rules! at_both_widths {
    ($($name:ident),* $(,)?) => {
        mod ipv4 {
            $(#[test]
            fn $name() {
                super::$name($crate::widths::IPV4_WIDTH);
            })*
        }
        mod ipv6 {
            $(#[test]
            fn $name() {
                super::$name($crate::widths::IPV6_WIDTH);
            })*
        }
    };
}

/// The hash tables for keys of a width, each with how it is read.
pub fn hash_tables(width: u64) -> Vec<(By, KeyHasher)> {
    match width {
        IPV4_WIDTH => vec![(By::Byte, KeyHasher::ipv4())],
        IPV6_WIDTH => vec![
            (By::HalfByte, KeyHasher::ipv6_by_half_byte()),
            (By::Byte, KeyHasher::ipv6_by_byte()),
        ],
        _ => panic!("{width} is no width"),
    }
}

/// The tables alone.
pub fn tables(width: u64) -> Vec<KeyHasher> {
    hash_tables(width)
        .into_iter()
        .map(|(_, table)| table)
        .collect()
}

/// The crate's settings of the model's, which are allowed.
pub fn settings_of(settings: &model::settings::Settings) -> flow::Settings {
    flow::Settings::of(settings.numbers()).expect("allowed settings")
}
