//! Outcomes of trials as a picture (SVG): side need and refusals against a setting, with a line for each combination of the other settings that vary.

use crate::lines::Trials;
use crate::running::Outcome;
use crate::settings::{grouped, Settings, MEANINGS, NAMES, SIDE_PLACES};

/// So many lines have a colour and a shape.
const MOST_LINES: usize = 8;

// Dark enough on white, and told apart also by who does not see red or green.
const COLOURS: [&str; MOST_LINES] = [
    "#0060a8", "#c94f00", "#00785a", "#a3357f", "#7a5c00", "#222222", "#5a4fcf", "#6b6b6b",
];

// The picture, in pixels.
const WIDTH: f64 = 760.0;
const LEFT: f64 = 72.0;
const RIGHT: f64 = 24.0;
const PANEL: f64 = 150.0;
const BELOW_HEAD: f64 = 28.0;
const BETWEEN_PANELS: f64 = 68.0;

/// What is drawn against what.
#[derive(Clone, Debug, PartialEq, Eq)]
pub struct Plot {
    // The setting of the axis.
    x: usize,
    // The other settings that vary.
    others: Vec<usize>,
    // Their values, one for each line.
    lines: Vec<Vec<u16>>,
}

// A part of the picture with an axis of its own.
struct Panel {
    title: &'static str,
    number: fn(&Outcome) -> u64,
    // What is said where all its numbers are zero and it is left out; the first is always drawn.
    left_out: Option<&'static str>,
}

const PANELS: [Panel; 3] = [
    Panel {
        title: "Greatest side need: records in the side store at once",
        number: |outcome| outcome.side_need,
        left_out: None,
    },
    Panel {
        title: "Updates refused because the side store is too small (9)",
        number: |outcome| outcome.refused[3],
        left_out: Some("No update was refused because the side store is too small (9)."),
    },
    Panel {
        title: "Adds refused because N flows are held (8)",
        number: |outcome| outcome.refused[2],
        left_out: Some("No add was refused because N flows are held (8)."),
    },
];

impl Plot {
    /// The first-named setting with more than one value is the axis; or why there is no picture.
    pub fn of(trials: &Trials) -> Result<Plot, String> {
        let list = &trials.list;
        let varies = |setting: &usize| {
            list.iter()
                .any(|other| other[*setting] != list[0][*setting])
        };
        let vary: Vec<usize> = trials.named.iter().copied().filter(varies).collect();
        let (x, others) = vary
            .split_first()
            .ok_or("a setting with more than one value is needed")?;
        let mut plot = Plot {
            x: *x,
            others: others.to_vec(),
            lines: Vec::new(),
        };
        for settings in list {
            let line = plot.line_of(settings);
            if !plot.lines.contains(&line) {
                plot.lines.push(line);
            }
            if plot.lines.len() > MOST_LINES {
                let names: Vec<&str> = others.iter().map(|&setting| NAMES[setting]).collect();
                return Err(format!(
                    "{} against {} would be more than {MOST_LINES} lines",
                    names.join(", "),
                    NAMES[*x]
                ));
            }
        }
        Ok(plot)
    }

    fn line_of(&self, settings: &Settings) -> Vec<u16> {
        self.others
            .iter()
            .map(|&setting| settings[setting])
            .collect()
    }

    /// The whole file.
    pub fn svg(&self, list: &[Settings], outcomes: &[Outcome], about: &str) -> String {
        let accepted = |outcome: &&Outcome| outcome.answer == 0;
        let seen = |panel: &Panel| {
            outcomes
                .iter()
                .filter(accepted)
                .any(|o| (panel.number)(o) > 0)
        };
        let refused = outcomes.iter().filter(|outcome| !accepted(outcome)).count();
        let mut notes: Vec<String> = match refused {
            0 => vec![],
            1 => vec!["One trial was refused and has no point.".to_string()],
            _ => vec![format!("{refused} trials were refused and have no point.")],
        };
        let mut panels = Vec::new();
        for panel in &PANELS {
            match panel.left_out {
                Some(note) if !seen(panel) => notes.push(note.to_string()),
                _ => panels.push(panel),
            }
        }
        let title = format!("Side need and refusals against {}", NAMES[self.x]);
        let fixed = self.fixed(list);
        let mut head = text(LEFT, 30.0, "start", 18, &title);
        let mut y = 54.0;
        for line in about.split("; ").chain([&format!("settings: {fixed}")[..]]) {
            head += &text(LEFT, y, "start", 12, line);
            y += 18.0;
        }
        y += BELOW_HEAD;
        let legend = self.legend(y);
        let drawn = Drawn {
            plot: self,
            list,
            outcomes,
            xs: self.xs(list),
        };
        let mut body = String::new();
        for panel in panels {
            body += &drawn.panel(panel, y);
            y += PANEL + BETWEEN_PANELS;
        }
        y -= BETWEEN_PANELS - 44.0;
        let middle = (LEFT + self.right_end()) / 2.0;
        body += &text(middle, y, "middle", 13, MEANINGS[self.x]);
        y += 12.0;
        for note in notes {
            y += 18.0;
            body += &text(LEFT, y, "start", 12, &note);
        }
        let height = y + 20.0;
        format!(
            "<svg xmlns=\"http://www.w3.org/2000/svg\" width=\"{WIDTH}\" height=\"{height}\" viewBox=\"0 0 {WIDTH} {height}\" role=\"img\" \
             font-family=\"Helvetica, Arial, sans-serif\" fill=\"#222222\">\n\
             <title>{title}</title>\n\
             <desc>{about}; settings: {fixed}</desc>\n\
             <rect width=\"{WIDTH}\" height=\"{height}\" fill=\"#ffffff\"/>\n\
             {head}{legend}{body}</svg>\n"
        )
    }

    // The settings that do not vary.
    fn fixed(&self, list: &[Settings]) -> String {
        let varies = |setting: usize| setting == self.x || self.others.contains(&setting);
        (0..6)
            .filter(|&setting| !varies(setting))
            .map(|setting| format!("{} {}", NAMES[setting], list[0][setting]))
            .collect::<Vec<String>>()
            .join(", ")
    }

    fn right_end(&self) -> f64 {
        let labels = (0..self.lines.len()).map(|at| self.label(at).len());
        let legend = match labels.max() {
            Some(longest) if longest > 0 => 60.0 + 6.8 * longest as f64,
            _ => 0.0,
        };
        WIDTH - RIGHT - legend
    }

    // The values of the axis, rising.
    fn xs(&self, list: &[Settings]) -> Vec<u16> {
        let mut xs: Vec<u16> = list.iter().map(|settings| settings[self.x]).collect();
        xs.sort_unstable();
        xs.dedup();
        xs
    }

    fn legend(&self, top: f64) -> String {
        if self.others.is_empty() {
            return String::new();
        }
        let left = self.right_end() + 20.0;
        let mut drawn = String::new();
        for (at, colour) in COLOURS.iter().enumerate().take(self.lines.len()) {
            let y = top + 8.0 + 22.0 * at as f64;
            drawn += &stroke(&[(left, y), (left + 32.0, y)], colour, 2.0, "");
            drawn += &marker(at, left + 16.0, y);
            drawn += &text(left + 40.0, y + 4.0, "start", 12, &self.label(at));
        }
        drawn
    }

    // What a line is called: the settings by which it differs from others.
    fn label(&self, at: usize) -> String {
        let pairs = self.others.iter().zip(&self.lines[at]);
        let named = pairs.map(|(&setting, value)| format!("{} {value}", NAMES[setting]));
        named.collect::<Vec<String>>().join(", ")
    }
}

struct Drawn<'a> {
    plot: &'a Plot,
    list: &'a [Settings],
    outcomes: &'a [Outcome],
    xs: Vec<u16>,
}

impl Drawn<'_> {
    fn panel(&self, panel: &Panel, top: f64) -> String {
        let right = self.plot.right_end();
        let bottom = top + PANEL;
        let most = self.outcomes.iter().map(panel.number).max().unwrap_or(0);
        let step = step_of(most);
        let end = step * ((most + step - 1) / step).max(1);
        let y_of = |number: u64| bottom - PANEL * number as f64 / end as f64;
        let places = self
            .places()
            .filter(|&places| panel.left_out.is_none() && places <= end);
        let dotted = places.map_or(String::new(), |places| format!("; dotted: S {places}"));
        let title = format!("{}{dotted}", panel.title);
        let mut drawn = text(LEFT, top - 14.0, "start", 13, &title);
        for tick in (0..=end / step).map(|i| i * step) {
            let (y, colour) = (y_of(tick), if tick == 0 { "#444444" } else { "#dddddd" });
            drawn += &stroke(&[(LEFT, y), (right, y)], colour, 1.0, "");
            drawn += &text(LEFT - 8.0, y + 4.0, "end", 12, &grouped(tick));
        }
        drawn += &stroke(&[(LEFT, top), (LEFT, bottom)], "#444444", 1.0, "");
        let mut free = f64::MIN;
        for &value in &self.xs {
            let x = self.x_of(value);
            drawn += &stroke(&[(x, bottom), (x, bottom + 5.0)], "#444444", 1.0, "");
            let label = grouped(value.into());
            let half = 3.5 * label.len() as f64;
            // a number that would touch the last one is left out
            if x - half > free {
                drawn += &text(x, bottom + 19.0, "middle", 12, &label);
                free = x + half + 6.0;
            }
        }
        if let Some(places) = places {
            let y = y_of(places);
            drawn += &stroke(&[(LEFT, y), (right, y)], "#222222", 1.2, "2 4");
        }
        for (at, colour) in COLOURS.iter().enumerate().take(self.plot.lines.len()) {
            for part in self.parts(at, panel) {
                let points: Vec<(f64, f64)> = part
                    .iter()
                    .map(|&(value, number)| (self.x_of(value), y_of(number)))
                    .collect();
                drawn += &stroke(&points, colour, 2.0, "");
                for (x, y) in points {
                    drawn += &marker(at, x, y);
                }
            }
        }
        drawn
    }

    // S, where it is the same in all trials.
    fn places(&self) -> Option<u64> {
        let places = self.list[0][SIDE_PLACES];
        let fixed = self
            .list
            .iter()
            .all(|settings| settings[SIDE_PLACES] == places);
        Some(places.into()).filter(|_| fixed)
    }

    fn x_of(&self, value: u16) -> f64 {
        let (least, most) = (self.xs[0], self.xs[self.xs.len() - 1]);
        let (left, right) = (LEFT + 18.0, self.plot.right_end() - 18.0);
        left + (right - left) * f64::from(value - least) / f64::from((most - least).max(1))
    }

    // The points of a line, rising; a trial that was refused cuts it.
    fn parts(&self, at: usize, panel: &Panel) -> Vec<Vec<(u16, u64)>> {
        let mut own: Vec<(u16, &Outcome)> = self
            .list
            .iter()
            .zip(self.outcomes)
            .filter(|(settings, _)| self.plot.line_of(settings) == self.plot.lines[at])
            .map(|(settings, outcome)| (settings[self.plot.x], outcome))
            .collect();
        own.sort_by_key(|(value, _)| *value);
        own.split(|(_, outcome)| outcome.answer != 0)
            .filter(|part| !part.is_empty())
            .map(|part| {
                part.iter()
                    .map(|(value, outcome)| (*value, (panel.number)(outcome)))
                    .collect()
            })
            .collect()
    }
}

// 1, 2 or 5 times a power of ten, so that five steps or fewer reach the number.
fn step_of(most: u64) -> u64 {
    let mut power = 1;
    loop {
        for step in [power, 2 * power, 5 * power] {
            if 5 * step >= most {
                return step;
            }
        }
        power *= 10;
    }
}

fn text(x: f64, y: f64, anchor: &str, size: u32, words: &str) -> String {
    format!("<text x=\"{x:.1}\" y=\"{y:.1}\" text-anchor=\"{anchor}\" font-size=\"{size}\">{words}</text>\n")
}

fn stroke(points: &[(f64, f64)], colour: &str, width: f64, dashes: &str) -> String {
    let points: Vec<String> = points
        .iter()
        .map(|(x, y)| format!("{x:.1},{y:.1}"))
        .collect();
    let dashed = match dashes {
        "" => String::new(),
        _ => format!(" stroke-dasharray=\"{dashes}\""),
    };
    format!(
        "<polyline points=\"{}\" fill=\"none\" stroke=\"{colour}\" stroke-width=\"{width}\"{dashed}/>\n",
        points.join(" ")
    )
}

// Each line has a shape of its own, with nothing inside, so that one on another is seen.
fn marker(at: usize, x: f64, y: f64) -> String {
    let shape: &[(f64, f64)] = match at {
        0 => return format!("<circle cx=\"{x:.1}\" cy=\"{y:.1}\" r=\"4.5\" fill=\"none\" stroke=\"{}\" stroke-width=\"2\"/>\n", COLOURS[at]),
        1 => &[(-4.5, -4.5), (4.5, -4.5), (4.5, 4.5), (-4.5, 4.5), (-4.5, -5.5)],
        2 => &[(0.0, -6.0), (5.5, 4.5), (-5.5, 4.5), (0.0, -6.0), (1.0, -4.1)],
        3 => &[(0.0, -6.5), (6.5, 0.0), (0.0, 6.5), (-6.5, 0.0), (0.0, -6.5), (1.0, -5.5)],
        4 => &[(0.0, 6.0), (5.5, -4.5), (-5.5, -4.5), (0.0, 6.0), (1.0, 4.1)],
        5 => &[(-4.5, -4.5), (4.5, 4.5), (0.0, 0.0), (-4.5, 4.5), (4.5, -4.5)],
        6 => &[(-6.0, 0.0), (6.0, 0.0), (0.0, 0.0), (0.0, -6.0), (0.0, 6.0)],
        _ => &[(-6.0, 3.5), (6.0, 3.5), (0.0, 3.5), (0.0, -6.0)],
    };
    let points: Vec<(f64, f64)> = shape
        .iter()
        .map(|(right, down)| (x + right, y + down))
        .collect();
    stroke(&points, COLOURS[at], 2.0, "")
}

#[cfg(test)]
mod tests {
    use super::*;
    use crate::lines::trials_of;

    fn plot(text: &str) -> Result<Plot, String> {
        Plot::of(&trials_of(text).unwrap())
    }

    // Outcomes that differ from trial to trial; every fifth is refused.
    fn outcomes(trials: &Trials) -> Vec<Outcome> {
        (0..trials.list.len() as u64)
            .map(|at| Outcome {
                answer: if at % 5 == 4 { 2 } else { 0 },
                side_need: 3 * at % 65,
                refused: [at, at, 0, 1000 * at],
                last: 0,
            })
            .collect()
    }

    fn picture(text: &str) -> String {
        let trials = trials_of(text).unwrap();
        let plot = Plot::of(&trials).unwrap();
        plot.svg(&trials.list, &outcomes(&trials), "load: of a test")
    }

    // Every tag is closed, in order, and has its attributes in quotes; no character stands for a tag by mistake.
    fn well_formed(svg: &str) {
        let mut open = Vec::new();
        for piece in svg.split('<').skip(1) {
            let (tag, words) = piece.split_once('>').expect("a tag ends");
            assert!(!words.contains('&'), "{words}");
            assert_eq!(tag.matches('"').count() % 2, 0, "{tag}");
            if let Some(name) = tag.strip_prefix('/') {
                assert_eq!(open.pop(), Some(name));
            } else if !tag.ends_with('/') {
                open.push(tag.split(' ').next().unwrap());
            }
        }
        assert!(open.is_empty(), "{open:?}");
        assert!(!svg.contains("NaN") && !svg.contains("inf"));
    }

    #[test]
    fn the_axis_is_the_first_named_that_varies() {
        let one = plot("k=3 S=8,16,32 p=8 B=2 T=7 N=1000").unwrap();
        assert_eq!((one.x, &one.lines[..]), (5, &[vec![]][..]));
        let two = plot("k=3 B=2,4 S=8,16 p=8 T=7 N=1000").unwrap();
        assert_eq!((two.x, two.lines), (2, vec![vec![8], vec![16]]));
        // also where lines differ
        let lines = plot("p=8 k=3 B=2 T=7 N=10 S=8\np=8 k=3 B=2 T=7 N=20 S=8").unwrap();
        assert_eq!((lines.x, lines.lines.len()), (4, 1));
    }

    #[test]
    fn no_picture() {
        let none = plot("p=8 k=3 B=2 T=7 N=1000 S=32");
        assert_eq!(
            none,
            Err("a setting with more than one value is needed".to_string())
        );
        assert!(plot("p=8,9 k=1..4 B=1,2 T=7 N=1000 S=32").is_ok());
        let many = plot("p=8,9 k=1..3 B=2 T=7 N=1000 S=32..34");
        assert_eq!(
            many,
            Err("k, S against p would be more than 8 lines".to_string())
        );
    }

    #[test]
    fn a_picture_is_well_formed() {
        for text in [
            "p=8 k=3 B=2 T=7 N=1000 S=8,16,32",
            "p=6..9 k=1..4 B=1,2 T=7 N=1000 S=32",
            "N=0..65535 p=8 k=3 B=2 T=7 S=64",
            "S=64 p=8,65535 k=3 B=2 T=7 N=1",
        ] {
            well_formed(&picture(text));
        }
    }

    #[test]
    fn what_a_picture_says() {
        let svg = picture("p=6..9 k=1,2 B=2 T=7 N=1000 S=5");
        for words in [
            "Side need and refusals against p<",
            "load: of a test<",
            "settings: B 2, T 7, N 1000, S 5<",
            "at once; dotted: S 5<",
            "too small (9)<",
            "No add was refused because N flows are held (8).<",
            "One trial was refused and has no point.<",
            "p, with 2^p buckets<",
            ">k 1<",
            ">k 2<",
        ] {
            assert!(svg.contains(words), "{words}");
        }
        // trials 1, 3, 5, 7 have k 1, and the fifth is refused: a line of two points and one of a point; k 2 has one of four
        let lines = |colour: &str, points: usize| {
            let drawn = svg
                .lines()
                .filter(|line| line.contains(colour) && line.contains("polyline"));
            drawn
                .filter(|line| line.matches(',').count() == points)
                .count()
        };
        let (need_and_refused, circles) = (2, svg.matches("<circle").count());
        assert_eq!(circles, need_and_refused * 3 + 1);
        assert_eq!(lines(COLOURS[0], 2), need_and_refused + 1);
        assert_eq!(lines(COLOURS[1], 4), need_and_refused);
    }

    #[test]
    fn steps_of_an_axis() {
        for (most, step) in [
            (0, 1),
            (1, 1),
            (5, 1),
            (6, 2),
            (10, 2),
            (11, 5),
            (64, 20),
            (100_000, 20_000),
        ] {
            assert_eq!(step_of(most), step, "{most}");
        }
    }
}
