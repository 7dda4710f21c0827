//! Rings of known shapes, each with stops and with what tells whether a position is inside.

use std::f64::consts::PI;

/// Longitude and latitude, in degrees.
pub type Position = [f64; 2];

pub struct Shape {
    pub name: &'static str,
    pub ring: Vec<Position>,
    pub holds: Box<dyn Fn(Position) -> bool>,
    stops: Vec<Position>,
}

impl Shape {
    /// The stops over 100 m from the outline, of which a side that is straight in degrees may be 50 m off the arc.
    pub fn clear_stops(&self) -> Vec<Position> {
        let around = [[0.0, 0.0], [0.002, 0.0], [-0.002, 0.0], [0.0, 0.001], [0.0, -0.001]];
        let clear = |&[lon, lat]: &Position| {
            let mut answers = around.iter().map(|[east, north]| (self.holds)([lon + east, lat + north]));
            answers.all(|answer| answer == (self.holds)([lon, lat]))
        };
        self.stops.iter().copied().filter(clear).collect()
    }
}

/// Two quays at a right angle.
pub fn harbour() -> Shape {
    let corners =
        [[23.60, 37.92], [23.66, 37.92], [23.66, 37.94], [23.62, 37.94], [23.62, 37.97], [23.60, 37.97]];
    let within =
        |p: Position, east: f64, north: f64| 23.60 < p[0] && p[0] < east && 37.92 < p[1] && p[1] < north;
    let holds = move |p| within(p, 23.66, 37.94) || within(p, 23.62, 37.97);
    let stops = (0..80).map(|k| [23.5951 + f64::from(k % 10) / 120.0, 37.9131 + f64::from(k / 10) / 125.0]);
    Shape { name: "harbour", ring: corners.to_vec(), holds: Box::new(holds), stops: stops.collect() }
}

/// Five points. In each tenth of the turn the inside is the middle's side of one line.
pub fn star() -> Shape {
    let corner = |k: i32| {
        let (radius, turn) = (if k % 2 == 0 { 0.3 } else { 0.1 }, f64::from(k) * PI / 5.0);
        [radius * turn.cos(), radius * turn.sin()]
    };
    let holds = move |p: Position| {
        let (x, y) = (p[0] - 10.0, p[1] - 54.0);
        let k = (y.atan2(x).rem_euclid(2.0 * PI) / (PI / 5.0)) as i32;
        let ([ax, ay], [bx, by]) = (corner(k), corner(k + 1));
        (bx - ax) * (y - ay) - (by - ay) * (x - ax) > 0.0
    };
    let ring = (0..10).map(corner).map(|[x, y]| [10.0 + x, 54.0 + y]).collect();
    let about =
        |k: i32, radius: f64| [10.0 + radius * f64::from(k).cos(), 54.0 + radius * f64::from(k).sin()];
    let stops = (0..60).map(|k| about(k, 0.01 + 0.006 * f64::from(k))).collect();
    Shape { name: "star", ring, holds: Box::new(holds), stops }
}

/// Between two ellipses, open to the east. The mean of its vertices is in the water.
pub fn crescent() -> Shape {
    let ellipse = |t: f64, east: f64, a: f64, b: f64| [east + a * t.cos(), 60.0 + b * t.sin()];
    let turns: Vec<f64> = (0..=60).map(|k| 0.3 + f64::from(k) * (2.0 * PI - 0.6) / 60.0).collect();
    let outer = turns.iter().map(|&t| ellipse(t, 20.0, 0.5, 0.25));
    let inner = turns.iter().rev().map(|&t| ellipse(t, 20.05, 0.45, 0.22));
    let in_ellipse =
        |p: Position, east: f64, a: f64, b: f64| ((p[0] - east) / a).hypot((p[1] - 60.0) / b) < 1.0;
    let holds = move |p: Position| in_ellipse(p, 20.0, 0.5, 0.25) && !in_ellipse(p, 20.05, 0.45, 0.22);
    // Amid the band, but for its two ends; in the water; outside.
    let band = turns[6..55].iter().map(|&t| ellipse(t, 20.02, 0.475, 0.235));
    let water = turns.iter().map(|&t| ellipse(t, 20.05, 0.4, 0.19));
    let beyond = turns.iter().map(|&t| ellipse(t, 20.0, 0.52, 0.26));
    let ring: Vec<Position> = outer.chain(inner).collect();
    let mean = [0, 1].map(|k| ring.iter().map(|p| p[k]).sum::<f64>() / ring.len() as f64);
    assert!(!holds(mean));
    Shape { name: "crescent", ring, holds: Box::new(holds), stops: band.chain(water).chain(beyond).collect() }
}

/// A coast of 10,000 vertices with forty bays; stops half a kilometre off it.
pub fn long_coast() -> Shape {
    let radius = |t: f64| 0.5 + 0.05 * (40.0 * t).sin();
    let at = |t: f64, share: f64| [-70.0 + share * radius(t) * t.cos(), 10.0 + share * radius(t) * t.sin()];
    let holds = move |p: Position| {
        let (x, y) = (p[0] + 70.0, p[1] - 10.0);
        x.hypot(y) < radius(y.atan2(x))
    };
    let ring = (0..10_000).map(|k| at(f64::from(k) * PI / 5_000.0, 1.0)).collect();
    let stops = (0..500).map(|k| at(f64::from(k), if k % 2 == 0 { 0.99 } else { 1.01 })).collect();
    Shape { name: "long coast", ring, holds: Box::new(holds), stops }
}
