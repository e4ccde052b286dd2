//! Files of six settings that an earlier commit saved (tests/data, made by save.c there): they load to the same areas, with width 13 handed back, and
//! are saved again as the same bytes.

use flow::{doors, Table};
use model::layout::Areas;
use model::settings::Settings as Model;
use model::snapshot::{self as paper, Head};
use testing::lending::{assert_areas, lend};
use testing::made::{random_areas, random_work};
use testing::random::Random;

// A table's settings, the file that it was saved as, and the areas that it was saved from; how many flows, and how many of them in the side store.
struct Earlier {
    settings: [u64; 6],
    file: &'static [u8],
    areas: &'static [u8],
    flows: u8,
    in_side: u8,
}

macro_rules! earlier {
    ($name:literal, $settings:expr, $flows:expr, $in_side:expr) => {
        Earlier {
            settings: $settings,
            file: include_bytes!(concat!("data/", $name, ".file")),
            areas: include_bytes!(concat!("data/", $name, ".areas")),
            flows: $flows,
            in_side: $in_side,
        }
    };
}

const FILES: [Earlier; 6] = [
    earlier!("empty", [4, 1, 1, 2, 1, 0], 0, 0),
    earlier!("one", [6, 3, 2, 4, 128, 8], 1, 0),
    earlier!("flowrun", [6, 3, 2, 4, 128, 8], 67, 8),
    earlier!("crowded", [4, 2, 1, 3, 24, 8], 16, 6),
    earlier!("full", [5, 4, 4, 15, 100, 64], 99, 62),
    earlier!("least", [4, 1, 1, 2, 3, 3], 2, 0),
];

impl Earlier {
    fn settings(&self) -> Model {
        let [p, k, b, t, n, s] = self.settings;
        Model::of([p, k, b, t, n, s, 13])
    }

    // The five areas one after the other, the true counts with the high byte first.
    fn areas(&self) -> Areas {
        let mut rest = self.areas;
        let mut next = |bytes: u64| {
            let (area, after) = rest.split_at(bytes as usize);
            rest = after;
            area.to_vec()
        };
        let lengths = self.settings().area_lengths();
        let areas = Areas {
            ledger: next(lengths[0]),
            true_counts: next(2 * lengths[1])
                .chunks(2)
                .map(|count| u16::from_be_bytes([count[0], count[1]]))
                .collect(),
            clipped: next(lengths[2]),
            buckets: next(lengths[3]),
            side: next(lengths[4]),
        };
        assert!(rest.is_empty());
        areas
    }
}

#[test]
fn load_to_the_same_areas_and_save_as_the_same_bytes() {
    let mut random = Random::new(121);
    for earlier in FILES {
        let settings = earlier.settings();
        let expected = earlier.areas();
        assert_eq!(earlier.file[..2], [0, 6]);
        assert_eq!(earlier.file.len(), 16 + 17 * usize::from(earlier.flows));
        assert_eq!(expected.ledger[..2], [0, earlier.flows]);
        assert_eq!(expected.side[..2], [0, earlier.in_side]);

        let mut of_file = [7; 7];
        let answer = doors::file_settings(earlier.file, &mut of_file);
        assert_eq!((answer, of_file), (0, settings.numbers()));

        let mut areas = random_areas(&mut random, &settings);
        let mut work = random_work(&mut random, &settings);
        let mut handed_back = [7; 7];
        let answer = doors::load(earlier.file, lend(&mut areas), &mut work, &mut handed_back);
        assert_eq!((answer, handed_back), (0, settings.numbers()));
        assert_areas(&areas, &expected, &settings, &"an earlier file");

        let mut saved = vec![7; earlier.file.len()];
        let numbers = settings.numbers();
        let answer = doors::save(numbers, &areas.ledger, &mut work, &mut saved);
        assert_eq!((answer, &saved[..]), (0, earlier.file));

        let table = Table::load(earlier.file).unwrap();
        assert_eq!(table.settings().numbers(), numbers);
        assert_eq!(table.areas().buckets, expected.buckets);
        assert_eq!(table.save(), earlier.file);
    }
}

// The model loads them to these areas too, so that it stands for the commit that saved them.
#[test]
fn the_model_agrees() {
    let mut random = Random::new(122);
    for earlier in FILES {
        let settings = earlier.settings();
        assert_eq!(Head::of(earlier.file).unwrap().settings, settings);
        let mut areas = random_areas(&mut random, &settings);
        let mut handed_back = [7; 7];
        let work = settings.area_lengths()[5] as usize;
        let answer = paper::load(earlier.file, &mut areas, work, &mut handed_back);
        assert_eq!((answer, handed_back), (0, settings.numbers()));
        assert_areas(&areas, &earlier.areas(), &settings, &"an earlier file");
    }
}
