//! Trials as lines of text: `p=8 k=3 B=2 T=7 N=1000 S=8,16,32..34` is five trials.

use crate::settings::{grouped, Settings, NAMES};
use std::fmt;

/// More trials than this are not run at once.
pub const MOST_TRIALS: usize = 100_000;

/// The trials of a text.
#[derive(Clone, Debug, PartialEq, Eq)]
pub struct Trials {
    /// In the order in which they are run.
    pub list: Vec<Settings>,
    /// The places of the settings in the order in which the first line names them.
    pub named: Vec<usize>,
}

/// A line that is no trial.
#[derive(Clone, Debug, PartialEq, Eq)]
pub struct BadLine {
    /// Its number, from 1.
    pub line: usize,
    /// What is wrong with it.
    pub fault: String,
}

impl fmt::Display for BadLine {
    fn fmt(&self, f: &mut fmt::Formatter) -> fmt::Result {
        write!(f, "line {}: {}", self.line, self.fault)
    }
}

/// The trials of a text, line after line. Empty lines, and what follows a `#`, are passed over.
pub fn trials_of(text: &str) -> Result<Trials, BadLine> {
    let mut list = Vec::new();
    let mut named = Vec::new();
    for (at, whole) in text.lines().enumerate() {
        let line = whole.split('#').next().unwrap_or("");
        if line.trim().is_empty() {
            continue;
        }
        let bad = |fault| BadLine {
            line: at + 1,
            fault,
        };
        let lists = lists_of(line).map_err(bad)?;
        let more: u128 = lists
            .iter()
            .map(|(_, values)| values.len() as u128)
            .product();
        if list.len() as u128 + more > MOST_TRIALS as u128 {
            let most = grouped(MOST_TRIALS as u64);
            return Err(bad(format!("more than {most} trials")));
        }
        list.extend(combinations(&lists));
        if named.is_empty() {
            named = lists.iter().map(|(setting, _)| *setting).collect();
        }
    }
    Ok(Trials { list, named })
}

// The settings of a line, each once, in the order in which they stand: a setting's place and its values.
fn lists_of(line: &str) -> Result<Vec<(usize, Vec<u16>)>, String> {
    let mut lists: Vec<(usize, Vec<u16>)> = Vec::new();
    for word in line.split_whitespace() {
        let (name, values) = word
            .split_once('=')
            .ok_or_else(|| format!("'{word}' is not a setting as p=8 or S=8,16,32..34"))?;
        let setting = NAMES
            .iter()
            .position(|known| *known == name)
            .ok_or_else(|| format!("'{name}' is none of p, k, B, T, N, S"))?;
        if lists.iter().any(|(earlier, _)| *earlier == setting) {
            return Err(format!("{name} is given twice"));
        }
        lists.push((setting, values_of(name, values)?));
    }
    let missing: Vec<&str> = (0..6)
        .filter(|setting| lists.iter().all(|(given, _)| given != setting))
        .map(|setting| NAMES[setting])
        .collect();
    match missing[..] {
        [] => Ok(lists),
        [name] => Err(format!("{name} is missing")),
        _ => Err(format!("{} are missing", missing.join(", "))),
    }
}

// Numbers and ranges with commas between, each value once.
fn values_of(name: &str, text: &str) -> Result<Vec<u16>, String> {
    let mut values = Vec::new();
    let mut seen = vec![false; 65_536];
    for item in text.split(',') {
        let (first, last) = match item.split_once("..") {
            None => (number_of(name, item)?, number_of(name, item)?),
            Some((first, last)) => (number_of(name, first)?, number_of(name, last)?),
        };
        if first > last {
            return Err(format!("{name}: {item} runs backwards"));
        }
        for value in first..=last {
            if seen[usize::from(value)] {
                return Err(format!("{name} has {value} twice"));
            }
            seen[usize::from(value)] = true;
            values.push(value);
        }
    }
    Ok(values)
}

fn number_of(name: &str, text: &str) -> Result<u16, String> {
    // a number is digits alone; Rust would take a plus sign too
    if text.is_empty() || !text.bytes().all(|byte| byte.is_ascii_digit()) {
        return Err(format!("{name}: '{text}' is not a number"));
    }
    let above = |_| format!("{name}: {text} is above 65,535");
    text.parse().map_err(above)
}

// One value of each setting, every way: the first setting varies slowest.
fn combinations(lists: &[(usize, Vec<u16>)]) -> Vec<Settings> {
    let mut found = vec![[0; 6]];
    for (setting, values) in lists {
        let mut longer = Vec::with_capacity(found.len() * values.len());
        for settings in &found {
            for &value in values {
                let mut with = *settings;
                with[*setting] = value;
                longer.push(with);
            }
        }
        found = longer;
    }
    found
}

#[cfg(test)]
mod tests {
    use super::*;

    fn list(text: &str) -> Vec<Settings> {
        trials_of(text).unwrap().list
    }

    #[test]
    fn one_trial() {
        assert_eq!(
            list("p=8 k=3 B=2 T=7 N=1000 S=32"),
            [[8, 3, 2, 7, 1000, 32]]
        );
        // settings in any order; what is out of a setting's range is the program's affair
        assert_eq!(
            list("S=0 N=65535 T=007 B=9 k=0 p=4"),
            [[4, 0, 9, 7, 65535, 0]]
        );
    }

    #[test]
    fn lists_and_ranges() {
        let trials = trials_of("p=8 k=3 B=2 T=7 N=1000 S=8,16,32..34").unwrap();
        let sides: Vec<u16> = trials.list.iter().map(|settings| settings[5]).collect();
        assert_eq!(sides, [8, 16, 32, 33, 34]);
        assert_eq!(trials.named, [0, 1, 2, 3, 4, 5]);
        assert_eq!(list("p=5..5 k=1 B=1 T=2 N=1 S=0").len(), 1);
    }

    #[test]
    fn the_first_setting_varies_slowest() {
        let trials = trials_of("B=1,2 p=6..7 k=1 T=2 N=1 S=0,3").unwrap();
        let varied: Vec<[u16; 3]> = trials.list.iter().map(|x| [x[2], x[0], x[5]]).collect();
        let expected = [
            [1, 6, 0],
            [1, 6, 3],
            [1, 7, 0],
            [1, 7, 3],
            [2, 6, 0],
            [2, 6, 3],
            [2, 7, 0],
            [2, 7, 3],
        ];
        assert_eq!(varied, expected);
        assert_eq!(trials.named, [2, 0, 1, 3, 4, 5]);
    }

    #[test]
    fn lines_follow_each_other() {
        let text = "\n# two nodes\np=8 k=3 B=2 T=7 N=1000 S=32 # one\n\t\np=9 k=3 B=2 T=7 N=1000 S=1,2\r\n";
        let expected = [
            [8, 3, 2, 7, 1000, 32],
            [9, 3, 2, 7, 1000, 1],
            [9, 3, 2, 7, 1000, 2],
        ];
        assert_eq!(list(text), expected);
        assert_eq!(list("\n#\n"), [[0; 6]; 0]);
    }

    #[test]
    fn bad_lines() {
        for (bad, fault) in [
            ("p=8 k=3 B=2 T=7 N=1000", "S is missing"),
            ("k=3 B=2", "p, T, N, S are missing"),
            ("p=8 k=3 B=2 T=7 N=1000 S=32 p=8", "p is given twice"),
            (
                "p=8 k=3 b=2 T=7 N=1000 S=32",
                "'b' is none of p, k, B, T, N, S",
            ),
            (
                "p=8 k=3 B=2 T=7 N=1000 S",
                "'S' is not a setting as p=8 or S=8,16,32..34",
            ),
            ("p = 8", "'p' is not a setting as p=8 or S=8,16,32..34"),
            ("p=", "p: '' is not a number"),
            ("p=8,", "p: '' is not a number"),
            ("p=x", "p: 'x' is not a number"),
            ("p=-1", "p: '-1' is not a number"),
            ("p=+1", "p: '+1' is not a number"),
            ("p=6..", "p: '' is not a number"),
            ("p=6..7..8", "p: '7..8' is not a number"),
            ("p=9..6", "p: 9..6 runs backwards"),
            ("N=65536", "N: 65536 is above 65,535"),
            (
                "N=1..99999999999999999999",
                "N: 99999999999999999999 is above 65,535",
            ),
            ("S=8..16,16..32", "S has 16 twice"),
            (
                "p=4..12 k=1..4 B=1..4 T=2..15 N=1..100 S=0",
                "more than 100,000 trials",
            ),
            (
                "p=0..65535 k=0..65535 B=0..65535 T=0..65535 N=0..65535 S=0..65535",
                "more than 100,000 trials",
            ),
        ] {
            let text = format!("p=8 k=3 B=2 T=7 N=1000 S=32\n\n{bad}\n");
            let expected = BadLine {
                line: 3,
                fault: fault.to_string(),
            };
            assert_eq!(trials_of(&text), Err(expected), "{bad}");
        }
        // the limit is for all lines together
        let many = "p=8 k=3 B=2 T=7 N=1..50000 S=1\n".repeat(2);
        assert_eq!(list(&many).len(), MOST_TRIALS);
        let bad = trials_of(&(many + "p=8 k=3 B=2 T=7 N=1 S=1")).unwrap_err();
        assert_eq!(bad.to_string(), "line 3: more than 100,000 trials");
    }
}
