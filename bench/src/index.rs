//! The index of long feeds beside the boxes: the queries from which it is worth its building, outlines that are hard
//! for it, and what was asked of it.

use crate::feeds::{many_indexes, measure, open_once, times, worst_ratio, Work, BOXES, OPENING};
use crate::instructions::count_feed;
use crate::table::{counted_row, figure, heading, judge, line, row, thousands};
use spargolutta_tests::hard_outlines::{drawings, known_points, Drawing};
use spargolutta_tests::islands::{QUERIES, SIDES};
use spargolutta_tests::library;
use spargolutta_tests::library::by_boxes::{self, threshold};
use spargolutta_tests::random::Random;
use spargolutta_tests::sheet::{points_bytes, Grid};

const ROUNDS: usize = 8;

/// What an index costs, and a query by it and by the boxes.
struct Costs {
    index: f64,
    query: f64,
    boxes: f64,
}

impl Costs {
    /// By the figures of ours, of the boxes, of ours with many indexes, and of opening the sheet.
    fn of(work: &Work, [ours, boxes, many, opening]: [f64; 4]) -> Costs {
        let (n, feeds) = (QUERIES as f64, (QUERIES / threshold(work.sides)) as f64);
        let index = (many - ours) / (feeds - 1.0) - opening;
        Costs { index, query: (ours - opening - index) / n, boxes: (boxes - opening) / n }
    }

    /// The last of the counts is the opening's.
    fn counted(work: &Work, counts: &[f64]) -> Option<Costs> {
        let many = count_feed(work, "many indexes")?;
        Some(Costs::of(work, [counts[0], counts[1], many, counts[counts.len() - 1]]))
    }

    fn timed(work: &Work) -> Costs {
        let measured = measure(&[library::feed_number, by_boxes::feed, many_indexes, OPENING], work, ROUNDS);
        let mut figures = [0, 1, 2, 3].map(|k| measured[k].0);
        let opening = figures[3];
        open_once(work, &mut figures, opening);
        Costs::of(work, figures)
    }

    /// The queries from which the index is worth it.
    fn break_even(&self) -> String {
        thousands((self.index / (self.boxes - self.query)).round() as usize)
    }
}

/// The index's cost comes from the same queries in feeds at the threshold, each with an index of its own.
pub fn break_even(works: &[Work], counts: Option<&[Vec<f64>]>) {
    let title = "An index and a query: instructions; queries from which the index is worth it, and is built";
    heading(title, &["index, million", "a query by it", "by the boxes", "worth it (time)", "built"]);
    for (k, work) in works.iter().enumerate().filter(|(_, work)| work.is_typical()) {
        let Some(costs) = counts.and_then(|counts| Costs::counted(work, &counts[k])) else {
            counted_row(&work.name, None);
            continue;
        };
        let [query, boxes] = [costs.query, costs.boxes].map(|cost| thousands((1e6 * cost).round() as usize));
        let worth = format!("{} ({})", costs.break_even(), Costs::timed(work).break_even());
        line(&work.name, [figure(costs.index), query, boxes, worth, thousands(threshold(work.sides))]);
    }
}

/// Where the corridor is, queries are along it, and few: there the time of one grows with the square of the sides.
fn hard_work(random: &mut Random, drawing: &Drawing) -> Work {
    let [amid, .., far] = known_points(drawing.grid);
    let known = if drawing.name == "tiny" { far } else { amid };
    let asked = match drawing.name {
        "corridor" => drawing.along(random, 400),
        _ => drawing.asked(random, known, QUERIES),
    };
    let sides = drawing.vertices.len();
    let name = format!("{} sides, {}", thousands(sides), drawing.name);
    Work { name, sides, extent: None, sheet: drawing.sheet(known), queries: points_bytes(&asked) }
}

/// The largest ratio of ours to the boxes.
pub fn compare_hard_outlines() -> f64 {
    heading("Feeds on hard outlines, coarse grid: ms, least of 3 rounds or more", &["ours", "the boxes"]);
    let (random, mut worst) = (&mut Random::new(1), 0f64);
    for (sides, rounds) in [(64, 15), (SIDES, 6), (4_096, 3)] {
        for drawing in drawings(random, Grid::Coarse, sides) {
            if drawing.name == "corridor" && sides > SIDES {
                continue;
            }
            let work = hard_work(random, &drawing);
            let times = times(2, &work, rounds);
            row(&work.name, &times);
            worst = worst.max(times[0] / times[1]);
        }
    }
    println!("{BOXES}");
    worst
}

/// From 64 to 4,096 sides on the same extent, where it is largest.
fn growth(works: &[Work], figures: &[Vec<f64>]) -> f64 {
    let of = |sides: usize| works.iter().zip(figures).filter(move |(work, _)| work.sides == sides);
    of(64).zip(of(4_096)).map(|((_, few), (_, many))| many[0] / few[0]).fold(0.0, f64::max)
}

/// What was asked of the index, and what it does.
pub fn judge_index(works: &[Work], times: &[Vec<f64>], counts: Option<&[Vec<f64>]>, hard: f64) {
    println!("\nAsked of the index, ours divided by the boxes where it is largest");
    let instructions = counts.map(|counts| worst_ratio(works, counts, "the boxes"));
    judge("  instructions at 1,071 sides,", 0.18, instructions);
    judge("  time at 1,071 sides,", 0.3, Some(worst_ratio(works, times, "the boxes")));
    judge("  time on hard outlines,", 1.05, Some(hard));
    println!("Ours at 4,096 sides divided by ours at 64, where it is largest");
    judge("  instructions,", 2.5, counts.map(|counts| growth(works, counts)));
    judge("  time,", 2.5, Some(growth(works, times)));
}
