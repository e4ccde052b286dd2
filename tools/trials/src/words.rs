//! The words of the command line.

pub const HELP: &str = "\
bin/trials [--load S W F COUNT] [--held FLOWS] [--plot FILE.svg] [TRIAL | FILE | -]

Tries settings of the flow table before cards are ordered: plays a load on an empty table for each
trial, and prints a row for each. docs/SIZING.md says how to size a card with it.

A trial is the six settings, in any order, each once:

    bin/trials p=8 k=3 B=2 T=7 N=1000 S=32

A setting may be a list with ranges, as S=8,16,32..34. Every combination is then a trial; the
setting named first varies slowest. More trials come as lines of a FILE, or of standard input with
'-' or where neither is named. Empty lines, and what follows a '#', are passed over. At most
100,000 trials are run, and a number is at most 65,535.

--load S W F COUNT   the load: COUNT calls (up to 2^32) over F flows (1 to 4,096), made from a
                     generator that starts at S (not 0) and W. The same four numbers give the same
                     calls everywhere; bin/flowload writes them out. In decimal, or in hexadecimal
                     after 0x. Without it: 1 0 1000 100000
--held FLOWS         another load, through the doors of the library, where areas may be longer and
                     more flows can be held: adds FLOWS flows (1 to 4,096) with random keys, then
                     makes COUNT calls that in turn remove one and add another. Keys come from the
                     generator of S and W; F is not used
--plot FILE.svg      also draws side need and refusals against the first-named setting of those
                     with more than one value, with a line for each combination of the others, at
                     most 8
--progress           says on standard error which trial is run, as bin/trials does by itself where
                     that is a terminal
--help               this text

The columns of a row:

    trial               its number
    p k B T N S         its settings
    held at most        the most flows held at once (with --held)
    greatest side need  the most records that lay in the side store at once
    refused: held       adds of a flow that is held (6)
             not held   changes and removals of a flow that is not held (7)
             full       adds where N flows are held (8)
             side       updates for which the side store is too small (9)
    records compared    in all searches; and how many a search, on average
    bytes of all areas  of the six areas together

A trial that is refused has the reason in place of numbers. The command ends with 2 for wrong words
or lines, with 1 where the load is refused (15) or a program fails.
";

/// U1's four numbers.
#[derive(Clone, Copy, Debug, PartialEq, Eq)]
pub struct Load {
    pub s: u64,
    pub w: u64,
    pub f: u64,
    pub count: u64,
}

impl Load {
    /// Where none is named.
    pub const USUAL: Load = Load {
        s: 1,
        w: 0,
        f: 1000,
        count: 100_000,
    };

    /// As programs read it: eight bytes each, high byte first.
    pub fn bytes(&self) -> Vec<u8> {
        [self.s, self.w, self.f, self.count]
            .iter()
            .flat_map(|number| number.to_be_bytes())
            .collect()
    }
}

/// Where trials come from.
#[derive(Clone, Debug, PartialEq, Eq)]
pub enum Source {
    /// The words themselves, as one line.
    Words(String),
    File(String),
    Input,
}

/// What is asked for.
#[derive(Clone, Debug, PartialEq, Eq)]
pub struct Asked {
    pub load: Load,
    pub held: Option<u64>,
    pub plot: Option<String>,
    pub source: Source,
    pub progress: bool,
}

/// The words after the program's name; None asks for help.
pub fn asked(words: &[String]) -> Result<Option<Asked>, String> {
    if words.iter().any(|word| word == "--help") {
        return Ok(None);
    }
    let mut load = None;
    let mut held = None;
    let mut plot = None;
    let mut progress = false;
    let mut settings: Vec<&str> = Vec::new();
    let mut file: Option<&str> = None;
    let mut rest = words.iter().map(String::as_str);
    while let Some(word) = rest.next() {
        match word {
            "--load" => {
                let mut number = |name| match rest.next() {
                    None => Err("--load takes four numbers: S W F COUNT".to_string()),
                    Some(word) => number_of(name, word),
                };
                let (s, w) = (number("S")?, number("W")?);
                let (f, count) = (number("F")?, number("COUNT")?);
                once("--load", &mut load, Load { s, w, f, count })?;
            }
            "--held" => {
                let word = rest.next().ok_or("--held takes a number of flows")?;
                let flows = number_of("--held", word)?;
                if !(1..=4096).contains(&flows) {
                    return Err(format!("--held: {flows} is outside 1 to 4,096 flows"));
                }
                once("--held", &mut held, flows)?;
            }
            "--plot" => {
                let name = rest.next().ok_or("--plot takes the name of a file")?;
                once("--plot", &mut plot, name.to_string())?;
            }
            "--progress" => progress = true,
            _ if word.starts_with("--") => return Err(format!("'{word}' is no flag")),
            _ if word.contains('=') => settings.push(word),
            _ => once("a file of trials", &mut file, word)?,
        }
    }
    let source = match (settings.is_empty(), file) {
        (false, None) => Source::Words(settings.join(" ")),
        (false, Some(file)) => {
            return Err(format!(
                "'{file}' is not a setting as p=8, and no file goes with settings"
            ))
        }
        (true, None | Some("-")) => Source::Input,
        (true, Some(file)) => Source::File(file.to_string()),
    };
    Ok(Some(Asked {
        load: load.unwrap_or(Load::USUAL),
        held,
        plot,
        source,
        progress,
    }))
}

fn once<T>(name: &str, place: &mut Option<T>, value: T) -> Result<(), String> {
    match place.replace(value) {
        None => Ok(()),
        Some(_) => Err(format!("{name} is given twice")),
    }
}

// A 64-bit number in decimal, or in hexadecimal after 0x.
fn number_of(name: &str, word: &str) -> Result<u64, String> {
    let prefixed = word.strip_prefix("0x").or_else(|| word.strip_prefix("0X"));
    let (digits, base) = prefixed.map_or((word, 10), |digits| (digits, 16));
    if digits.is_empty() || !digits.chars().all(|digit| digit.is_digit(base)) {
        return Err(format!(
            "{name}: '{word}' is not a number, in decimal or in hexadecimal after 0x"
        ));
    }
    u64::from_str_radix(digits, base).map_err(|_| format!("{name}: {word} is above 2^64 - 1"))
}

#[cfg(test)]
mod tests {
    use super::*;

    fn of(line: &str) -> Result<Option<Asked>, String> {
        let words: Vec<String> = line.split_whitespace().map(str::to_string).collect();
        asked(&words)
    }

    fn given(line: &str) -> Asked {
        of(line).unwrap().unwrap()
    }

    #[test]
    fn nothing_and_help() {
        let plain = Asked {
            load: Load::USUAL,
            held: None,
            plot: None,
            source: Source::Input,
            progress: false,
        };
        assert_eq!(given(""), plain);
        assert_eq!(given("-"), plain);
        assert_eq!(of("--help"), Ok(None));
        assert_eq!(of("--load 1 --help"), Ok(None));
        let usual = [1, 0, 1000, 100000].map(|number: u64| number.to_string());
        assert!(HELP.contains(&format!("Without it: {}\n", usual.join(" "))));
    }

    #[test]
    fn words_in_any_order() {
        let asked = given("p=8 --plot a.svg k=3,4 --held 4000 --load 0x10 0 0xfF 3 S=1 --progress");
        let expected = Asked {
            load: Load {
                s: 16,
                w: 0,
                f: 255,
                count: 3,
            },
            held: Some(4000),
            plot: Some("a.svg".to_string()),
            source: Source::Words("p=8 k=3,4 S=1".to_string()),
            progress: true,
        };
        assert_eq!(asked, expected);
        let file = Source::File("nodes.txt".to_string());
        assert_eq!(given("nodes.txt").source, file);
        let most = given("--load 18446744073709551615 0xffffffffffffffff 1 1").load;
        assert_eq!((most.s, most.w), (u64::MAX, u64::MAX));
    }

    #[test]
    fn wrong_words() {
        for (line, fault) in [
            ("--load 1 0 1000", "--load takes four numbers: S W F COUNT"),
            (
                "--load 1 0 1000 ten",
                "COUNT: 'ten' is not a number, in decimal or in hexadecimal after 0x",
            ),
            (
                "--load 1 -1 1000 10",
                "W: '-1' is not a number, in decimal or in hexadecimal after 0x",
            ),
            (
                "--load 1 +1 1000 10",
                "W: '+1' is not a number, in decimal or in hexadecimal after 0x",
            ),
            (
                "--load 0x 1 1000 10",
                "S: '0x' is not a number, in decimal or in hexadecimal after 0x",
            ),
            (
                "--load 18446744073709551616 0 1 1",
                "S: 18446744073709551616 is above 2^64 - 1",
            ),
            (
                "--load 1 0 0x10000000000000000 1",
                "F: 0x10000000000000000 is above 2^64 - 1",
            ),
            ("--load 1 0 1 1 --load 1 0 1 1", "--load is given twice"),
            ("--held", "--held takes a number of flows"),
            ("--held 0", "--held: 0 is outside 1 to 4,096 flows"),
            ("--held 4097", "--held: 4097 is outside 1 to 4,096 flows"),
            ("--plot", "--plot takes the name of a file"),
            ("--polt a.svg", "'--polt' is no flag"),
            ("a.txt b.txt", "a file of trials is given twice"),
            (
                "p=8 k",
                "'k' is not a setting as p=8, and no file goes with settings",
            ),
        ] {
            assert_eq!(of(line), Err(fault.to_string()), "{line}");
        }
    }

    #[test]
    fn a_load_as_bytes() {
        let load = Load {
            s: 1,
            w: 0x0203,
            f: 4,
            count: 1 << 32,
        };
        let mut bytes = [0; 32];
        (bytes[7], bytes[14], bytes[15], bytes[23], bytes[27]) = (1, 2, 3, 4, 1);
        assert_eq!(load.bytes(), bytes);
    }
}
