//! docs/feed-time.svg: the time of a feed against the number of sides, both axes logarithmic.

use crate::feeds::{place_of, Work};
use crate::processor;
use crate::table::{figure, thousands};
use spargolutta_tests::host::repository;
use spargolutta_tests::islands::{Extent, QUERIES};
use std::fs;

/// The picture, and the part of it that the axes enclose.
const WIDTH: f64 = 760.0;
const HEIGHT: f64 = 480.0;
const LEFT: f64 = 70.0;
const RIGHT: f64 = 600.0;
const TOP: f64 = 100.0;
const BOTTOM: f64 = 420.0;

/// The contestants drawn: their names, what the picture calls them, and their colours.
const LINES: [(&str, &str, &str); 3] = [
    ("ours", "Spargolutta", "#0b6e4f"),
    ("hoisted Rust", "checked Rust", "#b3541e"),
    ("hoisted C", "C (-O3)", "#3c4f9f"),
];

const STYLE: &str = "text { font: 14px sans-serif; } .title { font-weight: bold; font-size: 17px; }
.middle { text-anchor: middle; } .end { text-anchor: end; }
.rule { stroke: #ddd; } .line { fill: none; stroke-width: 2.5; }";

/// A logarithmic axis: the range of what is shown, and where its ends lie.
struct Axis {
    from: f64,
    to: f64,
    start: f64,
    end: f64,
}

impl Axis {
    fn place(&self, number: f64) -> f64 {
        self.start + (number / self.from).ln() / (self.to / self.from).ln() * (self.end - self.start)
    }
}

fn text(x: f64, y: f64, style: &str, words: &str) -> String {
    format!("<text x=\"{x:.1}\" y=\"{y:.1}\" {style}>{words}</text>\n")
}

fn rule(x1: f64, y1: f64, x2: f64, y2: f64) -> String {
    format!("<path class=\"rule\" d=\"M{x1:.1} {y1:.1}L{x2:.1} {y2:.1}\"/>\n")
}

/// 1, 2 and 5 times the powers of ten.
fn steps() -> impl Iterator<Item = f64> {
    (-3..6).flat_map(|power| [1.0, 2.0, 5.0].map(|step| step * 10f64.powi(power)))
}

/// The axis of times, from the step below the least one to the step above the greatest.
fn time_axis(times: &[Vec<f64>]) -> Axis {
    let all = || times.iter().flatten().copied();
    let (least, most) = (all().fold(f64::INFINITY, f64::min), all().fold(0.0, f64::max));
    let from = steps().filter(|step| *step <= least).last().unwrap_or(least);
    let to = steps().find(|step| *step >= most).unwrap_or(most);
    Axis { from, to, start: BOTTOM, end: TOP }
}

fn frame(sides: &Axis, time: &Axis, marks: &[usize]) -> String {
    let mut svg = String::new();
    for step in steps().filter(|step| (time.from..=time.to).contains(step)) {
        let y = time.place(step);
        svg += &rule(LEFT, y, RIGHT, y);
        svg += &text(LEFT - 8.0, y + 4.0, "class=\"end\"", &step.to_string());
    }
    for mark in marks {
        let x = sides.place(*mark as f64);
        svg += &rule(x, TOP, x, BOTTOM);
        svg += &text(x, BOTTOM + 20.0, "class=\"middle\"", &thousands(*mark));
    }
    svg + &text((LEFT + RIGHT) / 2.0, BOTTOM + 44.0, "class=\"middle\"", "sides of the outline")
        + &text(LEFT - 8.0, TOP - 14.0, "class=\"end\"", "ms")
}

/// One contestant: its line, its points, and its last time beside its name, at the height `label`.
fn line(colour: &str, name: &str, points: &[(f64, f64)], last: f64, label: f64) -> String {
    let path: Vec<String> = points.iter().map(|(x, y)| format!("{x:.1} {y:.1}")).collect();
    let mut svg = format!("<path class=\"line\" stroke=\"{colour}\" d=\"M{}\"/>\n", path.join("L"));
    for (x, y) in points {
        svg += &format!("<circle cx=\"{x:.1}\" cy=\"{y:.1}\" r=\"4\" fill=\"{colour}\"/>\n");
    }
    svg + &text(RIGHT + 12.0, label, &format!("fill=\"{colour}\""), &format!("{name} {}", figure(last)))
}

/// The heights of the labels: at the lines' ends, and at least a line of text apart.
fn label_heights(ends: &[f64]) -> Vec<f64> {
    let mut order: Vec<usize> = (0..ends.len()).collect();
    order.sort_by(|a, b| ends[*a].total_cmp(&ends[*b]));
    let (mut heights, mut least) = (vec![0.0; ends.len()], f64::NEG_INFINITY);
    for k in order {
        heights[k] = f64::max(ends[k] + 4.0, least);
        least = heights[k] + 18.0;
    }
    heights
}

fn picture(marks: &[usize], times: &[Vec<f64>]) -> String {
    let ends = [marks[0], marks[marks.len() - 1]].map(|sides| sides as f64);
    let sides = Axis { from: ends[0], to: ends[1], start: LEFT + 20.0, end: RIGHT };
    let time = time_axis(times);
    let points_of = |times: &Vec<f64>| {
        let points = marks.iter().zip(times).map(|(mark, ms)| (sides.place(*mark as f64), time.place(*ms)));
        points.collect::<Vec<_>>()
    };
    let points: Vec<Vec<(f64, f64)>> = times.iter().map(points_of).collect();
    let last: Vec<f64> = times.iter().map(|times| times[times.len() - 1]).collect();
    let labels = label_heights(&last.iter().map(|ms| time.place(*ms)).collect::<Vec<_>>());
    let mut svg = frame(&sides, &time, marks);
    for (k, (_, name, colour)) in LINES.iter().enumerate() {
        svg += &line(colour, name, &points[k], last[k], labels[k]);
    }
    svg
}

/// Draws the works on islands in a sea.
pub fn draw(works: &[Work], times: &[Vec<f64>]) {
    let drawn =
        || works.iter().zip(times).filter(|(work, _)| matches!(work.extent, Some(Extent::Archipelago)));
    let marks: Vec<usize> = drawn().map(|(work, _)| work.sides).collect();
    let times_of = |(name, _, _): &(&str, &str, &str)| {
        drawn().map(|(_, times)| times[place_of(name)]).collect::<Vec<f64>>()
    };
    let times: Vec<Vec<f64>> = LINES.iter().map(times_of).collect();
    let title = format!("Time of a feed of {} queries, in milliseconds", thousands(QUERIES));
    let under = format!("Coarse grid, from bytes to bytes with every check; {}", processor());
    let head = format!(
        "<svg xmlns=\"http://www.w3.org/2000/svg\" viewBox=\"0 0 {WIDTH} {HEIGHT}\" role=\"img\">\n\
         <title>{title}</title>\n<style>{STYLE}</style>\n<rect width=\"100%\" height=\"100%\" fill=\"#fff\"/>\n"
    );
    let titles = text(20.0, 26.0, "class=\"title\"", &title) + &text(20.0, 50.0, "fill=\"#555\"", &under);
    let svg = head + &titles + &picture(&marks, &times) + "</svg>\n";
    fs::write(repository("docs/feed-time.svg"), svg).expect("docs/feed-time.svg");
}
