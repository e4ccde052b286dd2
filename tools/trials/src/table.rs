//! Trials and their outcomes as a table: a heading of two lines, then a row for each trial.

use crate::running::Outcome;
use crate::settings::{area_bytes, grouped, why_refused, Settings, NAMES};
use crate::words::Load;

/// What the last number of an outcome is.
#[derive(Clone, Copy, Debug, PartialEq, Eq)]
pub enum Last {
    /// Records compared, in so many searches.
    Compared { searches: u64 },
    /// The most flows held, of so many that were added first.
    Held { flows: u64 },
}

/// A table whose columns are as wide as the widest number that may come.
pub struct Table {
    last: Last,
    columns: Vec<Column>,
}

struct Column {
    // Above each other.
    heads: [&'static str; 2],
    width: usize,
}

impl Table {
    pub fn new(trials: &[Settings], load: &Load, last: Last) -> Table {
        let digits = |number: u64| number.to_string().len();
        // no count of calls is above all calls, and a search compares at most 64 records
        let calls = digits(load.count);
        let records = digits(load.count.saturating_mul(64));
        let bytes = trials
            .iter()
            .filter_map(area_bytes)
            .map(|areas| areas.iter().sum());
        let by_held = matches!(last, Last::Held { .. });
        let mut columns = vec![Column::new("", "trial", digits(trials.len() as u64))];
        for (i, name) in NAMES.iter().enumerate() {
            let most = trials.iter().map(|settings| settings[i]).max();
            columns.push(Column::new("", name, digits(most.unwrap_or(0).into())));
        }
        if by_held {
            columns.push(Column::new("held", "at most", 4));
        }
        columns.push(Column::new("greatest", "side need", 2));
        if by_held {
            columns.push(Column::new("refused:", "full", calls));
        } else {
            columns.push(Column::new("refused:", "held", calls));
            columns.push(Column::new("", "not held", calls));
            columns.push(Column::new("", "full", calls));
        }
        columns.push(Column::new("", "side", calls));
        columns.push(Column::new("records", "compared", records));
        if !by_held {
            columns.push(Column::new("compared", "a search", 5));
        }
        columns.push(Column::new(
            "bytes of",
            "all areas",
            digits(bytes.max().unwrap_or(0)),
        ));
        Table { last, columns }
    }

    /// The two lines above the rows.
    pub fn heading(&self) -> String {
        let line = |i: usize| {
            let fields = self
                .columns
                .iter()
                .map(|column| column.heads[i].to_string());
            self.line(fields.collect())
        };
        line(0) + &line(1)
    }

    /// The row of a trial, whose number is one more than its place.
    pub fn row(&self, at: usize, settings: &Settings, outcome: &Outcome) -> String {
        let mut fields = vec![(at + 1).to_string()];
        fields.extend(settings.iter().map(|setting| setting.to_string()));
        if outcome.answer != 0 {
            let begun = self.line(fields);
            return format!(
                "{}  {}\n",
                begun.trim_end(),
                why_refused(outcome.answer, settings)
            );
        }
        let [held, not_held, full, side] = outcome.refused;
        let bytes: u64 = area_bytes(settings).unwrap_or_default().iter().sum();
        let numbers = match self.last {
            Last::Compared { searches } => vec![
                outcome.side_need.to_string(),
                held.to_string(),
                not_held.to_string(),
                full.to_string(),
                side.to_string(),
                outcome.last.to_string(),
                ratio(outcome.last, searches),
                bytes.to_string(),
            ],
            Last::Held { .. } => vec![
                outcome.last.to_string(),
                outcome.side_need.to_string(),
                full.to_string(),
                side.to_string(),
                "-".to_string(),
                bytes.to_string(),
            ],
        };
        fields.extend(numbers);
        self.line(fields)
    }

    // Each field at the right end of its column.
    fn line(&self, fields: Vec<String>) -> String {
        let mut text = String::new();
        for (i, (field, column)) in fields.iter().zip(&self.columns).enumerate() {
            let space = if i == 0 { "" } else { "  " };
            text += &format!("{space}{field:>width$}", width = column.width);
        }
        text.trim_end().to_string() + "\n"
    }
}

impl Column {
    fn new(above: &'static str, below: &'static str, digits: usize) -> Column {
        Column {
            heads: [above, below],
            width: digits.max(above.len()).max(below.len()),
        }
    }
}

// To two places, or '-' of no searches.
fn ratio(compared: u64, searches: u64) -> String {
    if searches == 0 {
        return "-".to_string();
    }
    format!("{:.2}", compared as f64 / searches as f64)
}

/// What the load is, as the line above a table.
pub fn about(load: &Load, last: Last) -> String {
    let (calls, s, w) = (grouped(load.count), load.s, load.w);
    match last {
        Last::Compared { searches } => {
            let (flows, searches) = (grouped(load.f), grouped(searches));
            format!("load: S {s}, W {w}, F {flows}, {calls} calls, {searches} of them searches")
        }
        Last::Held { flows } => {
            let flows = grouped(flows);
            format!("{flows} flows added, then {calls} calls that in turn remove one and add another; random keys from S {s}, W {w}")
        }
    }
}

#[cfg(test)]
mod tests {
    use super::*;

    const LOAD: Load = Load::USUAL;

    fn outcome(answer: u64, side_need: u64, refused: [u64; 4], last: u64) -> Outcome {
        Outcome {
            answer,
            side_need,
            refused,
            last,
        }
    }

    #[test]
    fn a_table_of_loads() {
        let trials = [
            [8, 3, 2, 7, 1000, 32],
            [12, 3, 2, 15, 1000, 32],
            [8, 3, 2, 7, 1000, 65],
        ];
        let table = Table::new(&trials, &LOAD, Last::Compared { searches: 25_000 });
        let outcomes = [
            outcome(0, 31, [12345, 23456, 0, 7], 26250),
            outcome(2, 0, [0; 4], 0),
            outcome(1, 0, [0; 4], 0),
        ];
        let mut text = "\n".to_string() + &table.heading();
        for (at, outcome) in outcomes.iter().enumerate() {
            text += &table.row(at, &trials[at], outcome);
        }
        let expected = "
                                greatest  refused:                             records  compared   bytes of
trial   p  k  B   T     N   S  side need      held  not held    full    side  compared  a search  all areas
    1   8  3  2   7  1000  32         31     12345     23456       0       7     26250      1.05      28172
    2  12  3  2  15  1000  32  refusal 2: an area is above 65,536 bytes: the buckets would take 143,360
    3   8  3  2   7  1000  65  refusal 1: a setting is out of range: S is 0 to 64
";
        assert_eq!(text, expected);
    }

    #[test]
    fn a_table_of_held_flows() {
        let trials = [[12, 3, 4, 15, 4096, 64], [4, 1, 1, 2, 1, 0]];
        let table = Table::new(&trials, &LOAD, Last::Held { flows: 4000 });
        let outcomes = [
            outcome(0, 3, [0, 0, 0, 7], 4000),
            outcome(0, 0, [0, 0, 3999, 0], 1),
        ];
        let mut text = "\n".to_string() + &table.heading();
        for (at, outcome) in outcomes.iter().enumerate() {
            text += &table.row(at, &trials[at], outcome);
        }
        let expected = "
                                  held   greatest  refused:           records   bytes of
trial   p  k  B   T     N   S  at most  side need      full    side  compared  all areas
    1  12  3  4  15  4096  64     4000          3         0       7         -     379972
    2   4  1  1   2     1   0        1          0      3999       0         -        413
";
        assert_eq!(text, expected);
    }

    #[test]
    fn columns_have_the_width_of_what_may_come() {
        let load = Load {
            count: 1 << 32,
            ..LOAD
        };
        let trials = [[8, 3, 2, 7, 65535, 32]];
        let table = Table::new(&trials, &load, Last::Compared { searches: 1 << 30 });
        let most = outcome(0, 64, [1 << 32; 4], 64 << 32);
        let row = table.row(0, &trials[0], &most);
        let ends = |text: &str| text.trim_end().len();
        for line in table.heading().lines() {
            assert_eq!(ends(line), ends(&row));
        }
    }

    #[test]
    fn the_line_above() {
        assert_eq!(
            about(&LOAD, Last::Compared { searches: 25007 }),
            "load: S 1, W 0, F 1,000, 100,000 calls, 25,007 of them searches"
        );
        assert_eq!(
            about(&LOAD, Last::Held { flows: 4000 }),
            "4,000 flows added, then 100,000 calls that in turn remove one and add another; random keys from S 1, W 0"
        );
        assert_eq!(ratio(5, 0), "-");
    }
}
