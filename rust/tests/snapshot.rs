//! Save, load and the settings of a file against the model, at both widths: on lists with and without a layout, on damaged ledgers, on files cut,
//! extended and altered, with other first counts and widths, on wrong lengths and settings. All areas are compared after every call.

use flow::{doors, Refusal, Table};
use model::card::Card;
use model::layout::{layout, placing, Areas};
use model::ledger::list_of;
use model::records::{counted_area, Record};
use model::settings::{Settings as Model, IPV4_WIDTH, IPV6_WIDTH, LIMITS, WIDTHS};
use model::snapshot::{self as paper, first_count, head_bytes, snapshot, Head};
use std::collections::BTreeMap;
use testing::at_both_widths;
use testing::lending::{assert_areas, lend};
use testing::made::{
    damage_ledger, filled, other_width, random_areas, random_bytes, random_count, random_list,
    random_work, resize, set_count, small_card, spoiled, wrong_length,
};
use testing::random::Random;
use testing::seen::Seen;

const SAVES: u64 = 200_000;
const LOADS: u64 = 200_000;
const LOADS_WITH_ONE_FAULT: u64 = 60_000;
const LOADS_OF_EACH_ORDER: u64 = 200;
const THROUGH_TABLE: u64 = 20_000;
const _: () = assert!(SAVES >= 200_000 && LOADS >= 200_000);

// A list of a few records, now and then of as many as the capacity allows: with a layout, or as it comes.
fn some_list(random: &mut Random, card: &Card) -> Vec<Record> {
    let most = card.settings.n.min(2 * card.settings.m()).min(100);
    let count = match random.between(0, 4) {
        0 => most,
        _ => random.between(0, most),
    };
    match random.between(0, 3) {
        0 => random_list(random, card.settings.width, count),
        _ => filled(random, card, count).0,
    }
}

// One save: the door and the model agree in the answer and in the target, which a refusal leaves.
fn save(card: &Card, ledger: &[u8], work: &mut [u16], target: &[u8]) -> (u32, Vec<u8>) {
    let mut expected = target.to_vec();
    let by_paper = paper::save(card, ledger, work.len(), &mut expected);
    let mut after = target.to_vec();
    let answer = doors::save(card.settings.numbers(), ledger, work, &mut after);
    assert_eq!(answer, by_paper, "{:?}, {ledger:?}", card.settings);
    assert!(answer == 0 || after == target);
    assert!(after == expected, "target: {:?}, {ledger:?}", card.settings);
    (answer, after)
}

fn saves(width: u64) {
    let mut random = Random::new(51);
    let mut seen = Seen::default();
    let mut flows = 0;
    while seen.total() < SAVES {
        let card = small_card(&mut random, width);
        let settings = card.settings;
        let list = some_list(&mut random, &card);
        for _ in 0..10 {
            let mut ledger = counted_area(&list, settings.record_bytes(), settings.n);
            let mut work = random_work(&mut random, &settings);
            let mut length = head(&settings) + settings.record_bytes() * list.len();
            let mut numbers = settings;
            if random.between(0, 4) == 0 {
                damage_ledger(&mut random, &card, &mut ledger);
            }
            if random.between(0, 9) == 0 {
                resize(&mut random, &mut ledger);
            }
            if random.between(0, 9) == 0 {
                resize(&mut random, &mut work);
            }
            if random.between(0, 3) == 0 {
                length = wrong_length(&mut random, length);
            }
            if random.between(0, 9) == 0 {
                numbers = spoiled(&mut random, settings);
            }
            let target = random_bytes(&mut random, length as u64);
            let (answer, file) = save(&Card::new(numbers), &ledger, &mut work, &target);
            seen.note("save", answer);
            if answer == 0 {
                flows += list.len();
                load_back(&mut random, &settings, &file, &ledger);
            }
        }
    }
    seen.report("saves", &[("save", &[0, 1, 2, 4, 9, 12])]);
    println!("{flows} flows saved and loaded back");
}

// The paper's case: settings 4, 1, 1, 2, 1, 0 and no flows; and the same with width 37.
#[test]
fn save_of_an_empty_list() {
    let mut target = [7; 16];
    let settings = [4, 1, 1, 2, 1, 0, 13];
    let answer = doors::save(settings, &[0; 19], &mut [7; 32], &mut target);
    let file = [0, 6, 0, 4, 0, 1, 0, 1, 0, 2, 0, 1, 0, 0, 0, 0];
    assert_eq!((answer, target), (0, file));

    let mut target = [7; 18];
    let settings = [4, 1, 1, 2, 1, 0, 37];
    let answer = doors::save(settings, &[0; 43], &mut [7; 32], &mut target);
    let file = [0, 7, 0, 4, 0, 1, 0, 1, 0, 2, 0, 1, 0, 0, 0, 37, 0, 0];
    assert_eq!((answer, target), (0, file));
}

// What was saved is loaded into areas with any contents: the settings, the ledger and the layout of its list.
fn load_back(random: &mut Random, settings: &Model, file: &[u8], ledger: &[u8]) {
    let mut areas = random_areas(random, settings);
    let mut work = random_work(random, settings);
    let mut handed_back = [7; 7];
    let answer = doors::load(file, lend(&mut areas), &mut work, &mut handed_back);
    assert_eq!((answer, handed_back), (0, settings.numbers()));
    let expected = layout(&Card::new(*settings), &list_of(settings, ledger)).unwrap();
    assert!(areas.ledger == ledger);
    assert_areas(&areas, &expected, settings, &"load of a saved file");
}

// The settings that stand in a file, and zeros where its head is not there.
fn file_settings(file: &[u8]) -> Model {
    Head::of(file).map_or(Model::of([0; 7]), |head| head.settings)
}

// Areas that are lent for the settings of a file: of seven numbers, and of other lengths.
const FOR_SETTINGS: [usize; 5] = [7, 0, 6, 8, 14];

// The settings of a file's head, in an area of each length with any contents: the door and the model agree in the answer and in the area, which a
// refusal makes zeros if it is of seven numbers, and which stays as it was if it is not. The answers, in the order of the lengths.
fn settings_of_file(random: &mut Random, file: &[u8]) -> [u32; FOR_SETTINGS.len()] {
    FOR_SETTINGS.map(|length| {
        let lent: Vec<u64> = (0..length).map(|_| random.number()).collect();
        let mut expected = lent.clone();
        let by_paper = paper::file_settings(file, &mut expected);
        let mut after = lent.clone();
        let answer = doors::file_settings(file, &mut after);
        assert_eq!(
            (answer, &after),
            (by_paper, &expected),
            "{length} numbers: {file:?}"
        );
        match (length, answer) {
            (7, 0) => assert_eq!(after, file_settings(file).numbers()),
            (7, _) => assert_eq!(after, [0; 7]),
            _ => assert!(answer != 0 && after == lent),
        }
        answer
    })
}

// The bytes before the records of a file with these settings.
fn head(settings: &Model) -> usize {
    head_bytes(first_count(settings.width))
}

// What a load is lent.
#[derive(Clone)]
struct Load {
    file: Vec<u8>,
    areas: Areas,
    work: Vec<u16>,
    settings: Vec<u64>,
}

impl Load {
    // A right one: areas of their lengths with any contents, and a list with a layout.
    fn new(random: &mut Random, card: &Card) -> Load {
        let settings = &card.settings;
        let count = random.between(0, settings.n.min(2 * settings.m()).min(60));
        let (list, _) = filled(random, card, count);
        Load {
            file: snapshot(settings, &list),
            areas: random_areas(random, settings),
            work: random_work(random, settings),
            settings: (0..7).map(|_| random.number()).collect(),
        }
    }

    // The door and the model agree in the answer, in all areas and in the settings handed back.
    fn compare(&self, what: &str) -> u32 {
        let mut expected = self.clone();
        let by_paper = paper::load(
            &self.file,
            &mut expected.areas,
            self.work.len(),
            &mut expected.settings,
        );
        let mut after = self.clone();
        let answer = doors::load(
            &self.file,
            lend(&mut after.areas),
            &mut after.work,
            &mut after.settings,
        );
        assert_eq!(answer, by_paper, "{what}: {:?}", self.file);
        assert_eq!(after.settings, expected.settings, "{what}: {:?}", self.file);
        assert!(answer == 0 || expected.areas == self.areas);
        let of_file = file_settings(&self.file);
        assert_areas(&after.areas, &expected.areas, &of_file, &what);
        // a file that loads has the settings of its head; 1 is the same for both
        let mut of_head = [7; 7];
        let by_head = doors::file_settings(&self.file, &mut of_head);
        assert_eq!(by_head == 1, answer == 1, "{what}: {:?}", self.file);
        if answer == 0 {
            assert_eq!((by_head, &of_head[..]), (0, &after.settings[..]));
            let mut again = vec![7; self.file.len()];
            let numbers = after.settings.try_into().unwrap();
            let saved = doors::save(numbers, &after.areas.ledger, &mut after.work, &mut again);
            assert_eq!((saved, again), (0, self.file.clone()));
        }
        answer
    }
}

// The faults by themselves, and what each gives.
const FAULTS: [(&str, u32); 23] = [
    ("no file", 12),
    ("cut in its head", 12),
    ("cut in its records", 12),
    ("cut by a record", 12),
    ("a byte more", 12),
    ("a record more", 12),
    ("first count", 12),
    ("no width", 1),
    ("the other width", 2),
    ("a 7 with width 13", 12),
    ("a setting too low", 1),
    ("a setting too high", 1),
    ("other settings", 2),
    ("an area's length", 2),
    ("length of work", 2),
    ("numbers for the settings", 2),
    ("second count above N", 8),
    ("more records than N", 8),
    ("second count too low", 12),
    ("second count too high", 12),
    ("records swapped", 13),
    ("equal keys", 13),
    ("side need above S", 9),
];

// Makes the fault, unless the file has too few records for it or the capacity leaves no room.
fn fault(random: &mut Random, card: &Card, load: &mut Load, name: &str) -> bool {
    let settings = &card.settings;
    let (key_bytes, record) = (settings.key_bytes(), settings.record_bytes());
    // an earlier fault may have cut the file, or given it another head
    let head = Head::of(&load.file).map_or(2, |head| head_bytes(head.first_count));
    let n = load.file.len().saturating_sub(head) / record;
    let length = load.file.len() as u64;
    match name {
        "no file" => load.file.clear(),
        "cut in its head" => load
            .file
            .truncate(random.between(0, head as u64 - 1) as usize),
        "cut in its records" if n > 0 => {
            load.file
                .truncate(random.between(head as u64, length - 1) as usize);
        }
        "cut by a record" if n > 0 => load.file.truncate(load.file.len() - record),
        "a byte more" => load.file.push(random.number() as u8),
        "a record more" => {
            let more = random.between(1, 3);
            load.file.extend(random_bytes(random, record as u64 * more));
        }
        "first count" => {
            set_count(&mut load.file, a_first_count(random));
        }
        // a file of 7 in place of one of 6, whose other numbers stay
        "no width" => {
            let none = [0, 12, 14, 36, 38, 256 + 13, 256 + 37, 65535];
            let width = none[random.between(0, 7) as usize];
            put_width(&mut load.file, width);
        }
        "the other width" => put_width(&mut load.file, other_width(settings.width)),
        "a 7 with width 13" => {
            let settings = Model {
                width: IPV4_WIDTH,
                ..*settings
            };
            *load = Load::new(random, &Card::new(settings));
            put_width(&mut load.file, IPV4_WIDTH);
        }
        "a setting too low" => {
            let i = random.between(0, 4);
            let below = random.between(0, LIMITS[i as usize].0 - 1);
            set_setting(&mut load.file, i, below);
        }
        "a setting too high" => {
            let i = random.between(0, 5);
            let (low, high) = LIMITS[i as usize];
            let above = [high + 1, 256 * (1 + high / 256) + low, 65535];
            let above = above[random.between(0, 2) as usize].max(high + 1);
            set_setting(&mut load.file, i, above);
        }
        // p, B, N or S: the areas no longer fit
        "other settings" => {
            let i = [0, 2, 4, 5][random.between(0, 3) as usize];
            let (low, high) = LIMITS[i as usize];
            let other = random.between(low, high);
            if other == settings.numbers()[i as usize] {
                return false;
            }
            set_setting(&mut load.file, i, other);
        }
        "an area's length" => match random.between(0, 4) {
            0 => resize(random, &mut load.areas.ledger),
            1 => resize(random, &mut load.areas.true_counts),
            2 => resize(random, &mut load.areas.clipped),
            3 => resize(random, &mut load.areas.buckets),
            _ => resize(random, &mut load.areas.side),
        },
        "length of work" => resize(random, &mut load.work),
        "numbers for the settings" => resize(random, &mut load.settings),
        "second count above N" => {
            let above = random.between(settings.n + 1, 65535);
            set_count(&mut load.file[head - 2..], above);
        }
        "more records than N" if settings.n <= 100 => {
            let above = settings.n + random.between(1, 3);
            load.file = snapshot(settings, &random_list(random, settings.width, above));
        }
        "second count too low" if n > 0 => {
            let below = random.between(0, n as u64 - 1);
            set_count(&mut load.file[head - 2..], below);
        }
        "second count too high" if (n as u64) < settings.n => {
            let above = random.between(n as u64 + 1, settings.n);
            set_count(&mut load.file[head - 2..], above);
        }
        "records swapped" if n > 1 => {
            let (i, j) = (
                random.between(1, n as u64 - 1),
                random.between(0, n as u64 - 1),
            );
            let (i, j) = (i as usize, j as usize % i as usize);
            let (before, after) = load.file.split_at_mut(head + record * i);
            before[head + record * j..][..record].swap_with_slice(&mut after[..record]);
        }
        "equal keys" if n > 1 => {
            let at = head + record * random.between(0, n as u64 - 2) as usize;
            load.file.copy_within(at..at + key_bytes, at + record);
        }
        "side need above S" => {
            let count = settings.n.min(2 * settings.m()).min(100);
            let list = random_list(random, settings.width, count);
            if placing(card, &list).side_need() <= settings.s {
                return false;
            }
            load.file = snapshot(settings, &list);
        }
        _ => return false,
    }
    true
}

fn set_setting(file: &mut [u8], i: u64, value: u64) {
    set_count(&mut file[2 + 2 * i as usize..], value);
}

// First counts that are neither 6 nor 7.
fn a_first_count(random: &mut Random) -> u64 {
    let counts = [
        0, 1, 2, 3, 4, 5, 8, 9, 256, 262, 263, 1536, 1542, 1792, 65535,
    ];
    counts[random.between(0, counts.len() as u64 - 1) as usize]
}

// A file of 7 with this width: a file of 6 gets it put in before its second count.
fn put_width(file: &mut Vec<u8>, width: u64) {
    if file[1] == 6 {
        file.splice(14..14, [0, 0]);
        set_count(file, 7);
    }
    set_setting(file, 6, width);
}

fn loads_with_one_fault(width: u64) {
    let mut random = Random::new(52);
    let mut seen = Seen::default();
    let mut faults = BTreeMap::new();
    while seen.total() < LOADS_WITH_ONE_FAULT {
        let card = small_card(&mut random, width);
        let right = Load::new(&mut random, &card);
        seen.note("load", right.compare("a right file"));
        for (name, number) in FAULTS {
            let mut load = right.clone();
            if fault(&mut random, &card, &mut load, name) {
                let answer = load.compare(name);
                assert_eq!(answer, number, "{name}: {:?}", card.settings);
                seen.note("load", answer);
                *faults.entry(name).or_insert(0) += 1;
            }
        }
    }
    seen.report(
        "loads with one fault",
        &[("load", &[0, 1, 2, 8, 9, 12, 13])],
    );
    println!("{faults:?}");
    assert_eq!(faults.len(), FAULTS.len());
}

// Two faults together, and what they give: a file without its head is 12 and nothing else, then the lowest number is given, but 9 last.
const ORDERS: [(&str, &str, u32); 34] = [
    ("numbers for the settings", "no file", 12),
    ("numbers for the settings", "cut in its head", 12),
    ("first count", "numbers for the settings", 12),
    ("first count", "a setting too low", 12),
    ("first count", "an area's length", 12),
    ("first count", "second count above N", 12),
    ("first count", "records swapped", 12),
    ("a setting too low", "numbers for the settings", 1),
    ("a setting too high", "numbers for the settings", 1),
    ("a setting too low", "an area's length", 1),
    ("a setting too high", "second count too high", 1),
    ("numbers for the settings", "second count above N", 2),
    ("numbers for the settings", "a byte more", 2),
    ("numbers for the settings", "records swapped", 2),
    ("side need above S", "numbers for the settings", 2),
    ("an area's length", "second count above N", 2),
    ("length of work", "equal keys", 2),
    ("second count above N", "a byte more", 8),
    ("second count above N", "records swapped", 8),
    ("records swapped", "a byte more", 12),
    ("side need above S", "a byte more", 12),
    ("side need above S", "equal keys", 13),
    // a 7 is an allowed first count whatever its width: 1, 2 and 8 come before its 12
    ("no width", "numbers for the settings", 1),
    ("no width", "an area's length", 1),
    ("no width", "second count above N", 1),
    ("no width", "a byte more", 1),
    ("the other width", "second count above N", 2),
    ("the other width", "a byte more", 2),
    ("a 7 with width 13", "a setting too low", 1),
    ("a 7 with width 13", "an area's length", 2),
    ("a 7 with width 13", "numbers for the settings", 2),
    ("a 7 with width 13", "second count above N", 8),
    ("a 7 with width 13", "a byte more", 12),
    ("a 7 with width 13", "cut in its head", 12),
];

fn order_of_refusals(width: u64) {
    let mut random = Random::new(55);
    let mut seen = BTreeMap::new();
    while seen.len() < ORDERS.len() || seen.values().any(|&times| times < LOADS_OF_EACH_ORDER) {
        let card = small_card(&mut random, width);
        let right = Load::new(&mut random, &card);
        for (first, second, number) in ORDERS {
            let mut load = right.clone();
            if fault(&mut random, &card, &mut load, first)
                && fault(&mut random, &card, &mut load, second)
            {
                let answer = load.compare(first);
                assert_eq!(answer, number, "{first}, {second}: {:?}", card.settings);
                *seen.entry((first, second)).or_insert(0) += 1;
            }
        }
    }
    println!("{seen:?}");
}

// Every first count from 0 to 9, at both places of its byte, on files cut at every byte up to their second record; with areas for the settings that
// the file then has, and with those of the table. A file without its head is 12 and nothing else.
fn first_counts_and_cuts(width: u64) {
    let mut random = Random::new(56);
    let mut seen = Seen::default();
    for round in 0..40 {
        let card = small_card(&mut random, width);
        let mut right = Load::new(&mut random, &card);
        if round % 2 == 0 {
            right.file = snapshot(&card.settings, &random_list(&mut random, width, 1));
        }
        let most = right
            .file
            .len()
            .min(head(&card.settings) + 2 * card.settings.record_bytes());
        for count in (0..=9).chain((0..=9).map(|count| 256 * count)) {
            for cut in 0..=most {
                let mut load = right.clone();
                set_count(&mut load.file, count);
                load.file.truncate(cut);
                let answer = load.compare("another first count, cut");
                seen.note("load", answer);
                let needed = head_bytes(count);
                if ![6, 7].contains(&count) || cut < needed {
                    assert_eq!(answer, 12, "first count {count}, cut at {cut}");
                }
                let of_file = file_settings(&load.file);
                if of_file.allowed() {
                    load.areas = random_areas(&mut random, &of_file);
                    load.work = random_work(&mut random, &of_file);
                    seen.note("load with its areas", load.compare("another first count"));
                }
            }
        }
    }
    // A 6 that becomes a 7 has its second count for a width; a 7 that becomes a 6 has width 13, and its width for a second count.
    let (as_they_are, with_its_areas): (&[u32], &[u32]) = match width {
        IPV4_WIDTH => (&[0, 1, 12], &[0, 12]),
        _ => (&[0, 2, 12], &[0, 8, 12]),
    };
    seen.report(
        "loads of files with each first count, cut",
        &[
            ("load", as_they_are),
            ("load with its areas", with_its_areas),
        ],
    );
}

// One width in place of the other, with areas for each: what is judged of a file goes by the width that it has.
fn widths_exchanged(width: u64) {
    let mut random = Random::new(57);
    let mut seen = Seen::default();
    for _ in 0..2_000 {
        let card = small_card(&mut random, width);
        let right = Load::new(&mut random, &card);
        for of_file in [0, 12, 13, 14, 36, 37, 38, 65535] {
            let mut load = right.clone();
            put_width(&mut load.file, of_file);
            let settings = Model {
                width: of_file,
                ..card.settings
            };
            if settings.allowed() {
                load.areas = random_areas(&mut random, &settings);
            }
            let answer = load.compare("another width");
            let records = load.file.len() - head_bytes(7);
            let n = Head::of(&load.file).unwrap().second_count as usize;
            match of_file {
                IPV4_WIDTH => assert_eq!(answer, 12, "a 7 with width 13"),
                IPV6_WIDTH if records == 41 * n => assert!(answer == 0 || answer == 9),
                IPV6_WIDTH => assert_eq!(answer, 12),
                _ => assert_eq!(answer, 1, "a 7 with width {of_file}"),
            }
            seen.note("load", answer);
        }
    }
    seen.report("loads of files with each width", &[("load", &[0, 1, 12])]);
}

// What a file's head says, before its areas are there: of files as they are saved, cut at every byte, with each byte of the head altered, and with each
// width in a file of 7. The second count and the records are not judged.
fn settings_of_files(width: u64) {
    let mut random = Random::new(58);
    let mut seen = Seen::default();
    let mut note = |answers: [u32; FOR_SETTINGS.len()]| {
        seen.note("7 numbers", answers[0]);
        for answer in &answers[1..] {
            seen.note("another length", *answer);
        }
        answers
    };
    for _ in 0..40 {
        let card = small_card(&mut random, width);
        let file = Load::new(&mut random, &card).file;
        let head = head(&card.settings);
        assert_eq!(note(settings_of_file(&mut random, &file)), [0, 2, 2, 2, 2]);
        assert_eq!(file_settings(&file), card.settings);
        for cut in 0..file.len() {
            let answers = note(settings_of_file(&mut random, &file[..cut]));
            let expected = if cut < head { [12; 5] } else { [0, 2, 2, 2, 2] };
            assert_eq!(answers, expected, "cut at {cut}: {file:?}");
        }
        for at in 0..head {
            for byte in 0..=255 {
                let mut altered = file.clone();
                altered[at] = byte;
                let answers = note(settings_of_file(&mut random, &altered));
                // the second count of a file whose first count is as it was
                if at >= head - 2 {
                    assert_eq!(answers, [0, 2, 2, 2, 2]);
                }
            }
        }
        for of_file in (0..300).chain([256 * 13, 256 * 37, 65535]) {
            let mut wide = file.clone();
            put_width(&mut wide, of_file);
            let answers = note(settings_of_file(&mut random, &wide));
            let expected = match of_file {
                IPV4_WIDTH => [12, 2, 2, 2, 2],
                IPV6_WIDTH => [0, 2, 2, 2, 2],
                _ => [1; 5],
            };
            assert_eq!(answers, expected, "a 7 with width {of_file}");
        }
    }
    seen.report(
        "reads of the settings of a file",
        &[("7 numbers", &[0, 1, 12]), ("another length", &[1, 2, 12])],
    );
}

// The paper's empty list: its file of 6 and the same with width 37, and a 7 with width 13.
#[test]
fn settings_of_an_empty_list() {
    let of_six = [0, 6, 0, 4, 0, 1, 0, 1, 0, 2, 0, 1, 0, 0, 0, 0];
    let mut of_seven = [0, 7, 0, 4, 0, 1, 0, 1, 0, 2, 0, 1, 0, 0, 0, 37, 0, 0];
    let mut settings = [7; 7];
    let answer = doors::file_settings(&of_six, &mut settings);
    assert_eq!((answer, settings), (0, [4, 1, 1, 2, 1, 0, 13]));
    let answer = doors::file_settings(&of_seven, &mut settings);
    assert_eq!((answer, settings), (0, [4, 1, 1, 2, 1, 0, 37]));
    // without its second count
    let answer = doors::file_settings(&of_seven[..16], &mut settings);
    assert_eq!((answer, settings), (12, [0; 7]));
    of_seven[15] = 13;
    let mut settings = [7; 7];
    let answer = doors::file_settings(&of_seven, &mut settings);
    assert_eq!((answer, settings), (12, [0; 7]));
    let mut six = [7; 6];
    let answer = doors::file_settings(&of_seven, &mut six);
    assert_eq!((answer, six), (2, [7; 6]));
}

// Some of the faults together, single bytes, and random files: the lowest refusal that applies is given.
fn loads_of_altered_files(width: u64) {
    let mut random = Random::new(53);
    let mut seen = Seen::default();
    let mut together = BTreeMap::new();
    while seen.total() < LOADS {
        let card = small_card(&mut random, width);
        let right = Load::new(&mut random, &card);
        for _ in 0..20 {
            let mut load = right.clone();
            let mut made = Vec::new();
            for _ in 0..random.between(0, 3) {
                let (name, number) = FAULTS[random.between(0, FAULTS.len() as u64 - 1) as usize];
                // a fault that needs what an earlier one has cut off is left out
                if Head::of(&load.file).is_some() && fault(&mut random, &card, &mut load, name) {
                    made.push(number);
                }
            }
            match random.between(0, 9) {
                0 => alter_bytes(&mut random, &mut load.file),
                1 => load.file = random_file(&mut random, &card),
                2 => exchange(&mut random, &mut load),
                _ => {}
            }
            let answer = load.compare("an altered file");
            seen.note("load", answer);
            if made.len() > 1 {
                *together.entry(answer).or_insert(0) += 1;
            }
        }
    }
    seen.report("loads", &[("load", &[0, 1, 2, 8, 9, 12, 13])]);
    println!("with faults together, by answer: {together:?}");
}

// Any first count from 0 to 9, or one width for the other, in a file whose areas are then made for what it says.
fn exchange(random: &mut Random, load: &mut Load) {
    if load.file.len() < 16 {
        return;
    }
    match random.between(0, 2) {
        0 => set_count(&mut load.file, random.between(0, 9)),
        1 => put_width(&mut load.file, WIDTHS[random.between(0, 1) as usize]),
        // the width of a file of 7 left out
        _ => {
            if load.file[1] == 7 {
                load.file.drain(14..16);
                set_count(&mut load.file, 6);
            }
        }
    }
    let of_file = file_settings(&load.file);
    if of_file.allowed() && random.between(0, 3) != 0 {
        load.areas = random_areas(random, &of_file);
        load.work = random_work(random, &of_file);
    }
}

fn alter_bytes(random: &mut Random, file: &mut [u8]) {
    if file.is_empty() {
        return;
    }
    for _ in 0..random.between(1, 3) {
        let most = match random.between(0, 1) {
            0 => file.len().min(18),
            _ => file.len(),
        };
        file[random.between(0, most as u64 - 1) as usize] = random.number() as u8;
    }
}

// Random bytes after a head that is right, or right but for its second count, or random too.
fn random_file(random: &mut Random, card: &Card) -> Vec<u8> {
    let mut file = snapshot(&card.settings, &[]);
    match random.between(0, 3) {
        0 => {
            let length = random.between(0, 80);
            return random_bytes(random, length);
        }
        1 => {
            let count = random_count(random, card.settings.n.min(30));
            set_count(&mut file[head(&card.settings) - 2..], count);
        }
        _ => {}
    }
    let length = match random.between(0, 1) {
        0 => card.settings.record_bytes() as u64 * random.between(0, 30),
        _ => random.between(0, 100),
    };
    file.extend(random_bytes(random, length));
    file
}

// The safe table saves and loads as the doors do, whatever the file.
fn safe_table(width: u64) {
    let mut random = Random::new(54);
    let mut seen = Seen::default();
    while seen.total() < THROUGH_TABLE {
        let card = small_card(&mut random, width);
        let mut load = Load::new(&mut random, &card);
        if random.between(0, 1) == 0 {
            let (name, _) = FAULTS[random.between(0, FAULTS.len() as u64 - 1) as usize];
            fault(&mut random, &card, &mut load, name);
        }
        if random.between(0, 4) == 0 {
            alter_bytes(&mut random, &mut load.file);
        }
        // lent areas of their lengths under the file's own settings
        let of_file = file_settings(&load.file);
        if of_file.allowed() {
            load.areas = random_areas(&mut random, &of_file);
            load.work = random_work(&mut random, &of_file);
        }
        load.settings = vec![7; 7];
        let by_paper = load.compare("a file for a table");
        let table = Table::load(&load.file);
        seen.note("load", by_paper);
        assert_eq!(
            table.as_ref().err().copied(),
            Refusal::from_number(by_paper)
        );
        if let Ok(table) = table {
            assert_eq!(table.settings().numbers(), of_file.numbers());
            let head = head(&of_file);
            assert!(table.areas().ledger[..2] == load.file[head - 2..head]);
            assert!(table.save() == load.file);
        }
    }
    seen.report("loads through tables", &[("load", &[0, 1, 8, 9, 12, 13])]);
}

at_both_widths!(
    saves,
    loads_with_one_fault,
    order_of_refusals,
    first_counts_and_cuts,
    widths_exchanged,
    settings_of_files,
    loads_of_altered_files,
    safe_table,
);
