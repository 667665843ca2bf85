//! A picture of the queries' times as SVG: a panel for hits and for misses at each load. Lines
//! have different dashes, so that they are told apart without colours too.

use crate::timing::{Row, NAMES};
use std::fmt::Write;

const PANELS: [(&str, &str, &str); 4] = [
    ("hit, words", "half", "Hits, half load"),
    ("hit, words", "limit", "Hits, load limit"),
    ("miss, words", "half", "Misses, half load"),
    ("miss, words", "limit", "Misses, load limit"),
];
/// Colour, width and dashes of each side.
const STYLES: [&str; NAMES.len()] = [
    "stroke=\"#b3541e\" stroke-width=\"1.8\" stroke-dasharray=\"7 4\"",
    "stroke=\"#1f5fa8\" stroke-width=\"1.8\"",
    "stroke=\"#7a3fa0\" stroke-width=\"1.8\" stroke-dasharray=\"12 3\"",
    "stroke=\"#000000\" stroke-width=\"2.6\"",
    "stroke=\"#3d7d33\" stroke-width=\"1.8\" stroke-dasharray=\"2 3\"",
    "stroke=\"#777777\" stroke-width=\"1.8\" stroke-dasharray=\"9 3 2 3\"",
];
/// Nanoseconds at the axis, on a logarithmic scale.
const TICKS: [f64; 10] = [0.2, 0.5, 1.0, 2.0, 5.0, 10.0, 20.0, 50.0, 100.0, 200.0];
const WIDTH: f64 = 270.0;
const HEIGHT: f64 = 210.0;
/// From one panel to the next.
const ACROSS: f64 = 430.0;
const DOWN: f64 = 285.0;
/// Names beside lines are at least so far apart.
const APART: f64 = 14.0;

/// The places of one panel in the picture.
struct Panel {
    left: f64,
    top: f64,
    powers: (u32, u32),
}

impl Panel {
    fn x(&self, k: u32) -> f64 {
        let (first, last) = self.powers;
        self.left + WIDTH * f64::from(k - first) / f64::from(last - first)
    }

    fn y(&self, nanoseconds: f64) -> f64 {
        let (least, most) = (TICKS[0].ln(), TICKS[TICKS.len() - 1].ln());
        self.top + HEIGHT * (most - nanoseconds.ln()) / (most - least)
    }

    fn axes(&self, title: &str, powers: &[u32]) -> String {
        let (left, right, bottom) = (self.left, self.left + WIDTH, self.top + HEIGHT);
        let mut text = String::new();
        for tick in TICKS {
            let y = self.y(tick);
            text += &format!("<path d=\"M{left} {y:.1} H{right}\" stroke=\"#dddddd\"/>\n");
            text += &label(left - 7.0, y + 4.0, "end", &format!("{tick}"));
        }
        let ks = powers.iter();
        text += &ks
            .map(|&k| label(self.x(k), bottom + 17.0, "middle", &format!("2^{k}")))
            .collect::<String>();
        let frame = format!(
            "x=\"{left}\" y=\"{}\" width=\"{WIDTH}\" height=\"{HEIGHT}\"",
            self.top
        );
        text += &format!("<rect {frame} fill=\"none\" stroke=\"#000000\"/>\n");
        text += &label(left + WIDTH / 2.0, bottom + 34.0, "middle", "slots");
        text + &label(left + WIDTH / 2.0, self.top - 8.0, "middle", title)
    }

    /// The line of one side, and its height at the end.
    fn line(&self, side: usize, rows: &[&Row]) -> Option<(String, f64)> {
        let points: Option<Vec<(f64, f64)>> = rows
            .iter()
            .map(|row| Some((self.x(row.k), self.y(row.best(side)?))))
            .collect();
        let points = points?;
        let path: Vec<String> = points
            .iter()
            .map(|(x, y)| format!("{x:.1} {y:.1}"))
            .collect();
        let path = path.join(" L");
        let style = STYLES[side];
        let line = format!("<path d=\"M{path}\" fill=\"none\" {style}/>\n");
        Some((line, points.last()?.1))
    }
}

fn label(x: f64, y: f64, anchor: &str, text: &str) -> String {
    format!("<text x=\"{x:.1}\" y=\"{y:.1}\" text-anchor=\"{anchor}\">{text}</text>\n")
}

/// Names at the ends of their lines, moved down where they would cover each other.
fn names(panel: &Panel, mut ends: Vec<(f64, usize)>) -> String {
    ends.sort_by(|a, b| a.0.total_cmp(&b.0));
    let right = panel.left + WIDTH;
    let mut text = String::new();
    let mut free = f64::MIN;
    for (end, side) in ends {
        let y = end.max(free);
        free = y + APART;
        let style = STYLES[side];
        let stroke = format!("M{:.1} {y:.1} h26", right + 8.0);
        let _ = writeln!(text, "<path d=\"{stroke}\" fill=\"none\" {style}/>");
        text += &label(right + 39.0, y + 4.0, "start", NAMES[side]);
    }
    text
}

fn panel(index: usize, rows: &[Row], powers: &[u32]) -> String {
    let (call, load, title) = PANELS[index];
    let panel = Panel {
        left: 62.0 + ACROSS * (index % 2) as f64,
        top: 62.0 + DOWN * (index / 2) as f64,
        powers: (powers[0], powers[powers.len() - 1]),
    };
    let of_panel = |row: &&Row| row.call == call && row.load == load;
    let rows: Vec<&Row> = rows.iter().filter(of_panel).collect();
    let mut text = panel.axes(title, powers);
    let mut ends = Vec::new();
    for side in 0..NAMES.len() {
        if let Some((line, end)) = panel.line(side, &rows) {
            text += &line;
            ends.push((end, side));
        }
    }
    text + &names(&panel, ends)
}

/// The whole picture. A time below the least tick is drawn below the frame.
pub fn picture(rows: &[Row], powers: &[u32]) -> String {
    let (width, height) = (2.0 * ACROSS + 40.0, 2.0 * DOWN + 50.0);
    let mut text = format!(
        "<svg xmlns=\"http://www.w3.org/2000/svg\" viewBox=\"0 0 {width} {height}\" \
         font-family=\"sans-serif\" font-size=\"12\">\n\
         <rect width=\"{width}\" height=\"{height}\" fill=\"#ffffff\"/>\n"
    );
    let title = "Nanoseconds a query on words (logarithmic), by the slots of the table";
    text += &format!("<text x=\"20\" y=\"24\" font-size=\"15\">{title}</text>\n");
    for index in 0..PANELS.len() {
        text += &panel(index, rows, powers);
    }
    text + "</svg>\n"
}

#[cfg(test)]
mod tests {
    use super::*;

    const POWERS: [u32; 2] = [12, 20];

    fn panel_at_the_left() -> Panel {
        Panel {
            left: 0.0,
            top: 0.0,
            powers: (12, 20),
        }
    }

    #[test]
    fn the_frame_ends_at_the_outer_ticks_and_powers() {
        let panel = panel_at_the_left();
        assert!(panel.y(TICKS[0]) == HEIGHT && panel.y(TICKS[TICKS.len() - 1]).abs() < 1e-9);
        assert_eq!(
            (panel.x(12), panel.x(16), panel.x(20)),
            (0.0, WIDTH / 2.0, WIDTH)
        );
    }

    #[test]
    fn names_do_not_cover_each_other() {
        let text = names(&panel_at_the_left(), vec![(51.0, 1), (50.0, 0), (90.0, 5)]);
        let places = ["y=\"54.0\"", "y=\"68.0\"", "y=\"94.0\""];
        let lines: Vec<&str> = text.lines().filter(|line| line.contains("<text")).collect();
        assert_eq!(lines.len(), 3);
        for ((line, place), name) in lines
            .iter()
            .zip(places)
            .zip(["ordinary", "proved", "one read"])
        {
            assert!(line.contains(place) && line.contains(name), "{line}");
        }
    }

    /// A line for each side in each of four panels, but for sides that took no part.
    #[test]
    fn every_line_is_drawn() {
        let times = [[
            Some(10.0),
            Some(20.0),
            Some(30.0),
            Some(50.0),
            Some(40.0),
            None,
        ]];
        let of = |(call, load, _): (&'static str, &'static str, &str)| {
            POWERS.map(|k| Row::new(call, (k, load), &times, Some))
        };
        let rows: Vec<Row> = PANELS.into_iter().flat_map(of).collect();
        let text = picture(&rows, &POWERS);
        for (style, lines) in STYLES.iter().zip([4, 4, 4, 4, 4, 0]) {
            assert_eq!(text.matches(&format!("{style}/>")).count(), 2 * lines);
        }
    }
}
