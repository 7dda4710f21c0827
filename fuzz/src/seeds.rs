//! The inputs that fuzzing starts from: good ones for each call, made as the host tests' are.

use crate::input::Input;
use spargolutta_tests::calls::{Case, CALLS, WORDS};
use spargolutta_tests::guard::Edge;
use spargolutta_tests::imports::{circle, given, position_bytes, text};
use spargolutta_tests::islands::{islands_on, queries, EXTENTS};
use spargolutta_tests::outlines::{sheet_and_queries, Numbers, Source};
use spargolutta_tests::random::Random;
use spargolutta_tests::sheet::{octant, points_bytes, Grid, Sheet, GRIDS};
use spargolutta_tests::stars::star;
use spargolutta_tests::Point;

#[derive(Default)]
struct Seeds(Vec<Input>);

impl Seeds {
    fn add(&mut self, name: &str, first: &[u8], second: &[u8], room: usize, numbers: &[i32]) {
        let call = CALLS.iter().position(|call| call.name == name).expect("a call's name");
        let mut words = [0; WORDS];
        words.iter_mut().zip(numbers).for_each(|(word, &number)| *word = number as u32);
        let case = Case { first: first.to_vec(), second: second.to_vec(), buffer: vec![0xc3; room], words };
        self.0.push(Input { call, edge: Edge::End, case });
    }

    /// One for each call on a sheet; the basin profile takes the vertices alone.
    fn add_sheet(&mut self, sheet: &Sheet, queries: &[Point], other: &Sheet) {
        let (bytes, asked, vertices) = (sheet.bytes(), points_bytes(queries), points_bytes(&sheet.vertices));
        let grid = GRIDS.iter().position(|&grid| grid == sheet.grid).expect("a grid") as i32;
        let book = [bytes.clone(), other.bytes(), bytes.clone()].concat();
        let turned = Sheet { vertices: sheet.vertices.iter().rev().copied().collect(), ..sheet.clone() };
        for &[x, y, z] in queries.iter().take(3) {
            self.add("judge", &bytes, &[], 0, &[x, y, z]);
            self.add("book", &book, &[], 0, &[grid, x, y, z]);
        }
        self.add("feed", &bytes, &asked, asked.len(), &[]);
        self.add("book_feed", &book, &asked, 2 * asked.len(), &[grid]);
        self.add("choose", &bytes, &asked, 0, &[]);
        self.add("basin", &vertices, &[], 0, &[grid]);
        self.add("book_next", &book, &[], 0, &[bytes.len() as i32]);
        self.add("sheet", &bytes, &[], 0, &[]);
        self.add("vertices", &bytes, &[], vertices.len(), &[]);
        self.add("far", &bytes, &[], 0, &[]);
        self.add("box", &bytes, &[], 24, &[]);
        let ([x, y, z], [u, v, w]) = (sheet.known, sheet.second.unwrap_or([0; 3]));
        self.add("write", &vertices, &sheet.name, bytes.len(), &[7, 1, x, y, z, u, v, w, grid]);
        self.add("compare", &bytes, &turned.bytes(), 0, &[]);
        self.add("compare", &bytes, &other.bytes(), 0, &[]);
    }

    fn add_import(&mut self, text: &str, name: &[u8], room: usize) {
        let [x, y, z] = given().known;
        for grid in [0, 1] {
            self.add("import", text.as_bytes(), name, room, &[7, 1, x, y, z, 0, 0, 0, grid]);
        }
    }
}

/// Sheets with coincidences and large numbers, and simple outlines.
fn add_small(seeds: &mut Seeds, random: &mut Random) {
    for round in 0..60 {
        let (k, grid) = (round % 2, GRIDS[round % 2]);
        let numbers = [
            Numbers::Within(1),
            Numbers::Within(3),
            Numbers::Within(grid.limit()),
            Numbers::Lengthened(3),
            Numbers::Limits,
        ];
        let source = Source(grid, numbers[round / 2 % numbers.len()]);
        let (mut sheet, queries) = sheet_and_queries(random, source, 9, 5);
        sheet.name = vec![b'n'; random.pick(&[1, 2, 120])];
        let (other, _) = sheet_and_queries(random, source, 9, 0);
        seeds.add_sheet(&sheet, &queries, &other);
        let simple = star(random, grid, 3 + round);
        seeds.add("basin", &points_bytes(&simple), &[], 0, &[k as i32]);
    }
}

/// Several runs of sides, so that boxes are skipped, and what is just long enough to be refused.
fn add_long(seeds: &mut Seeds, random: &mut Random) {
    for (k, sides) in [40, 65, 100, 130].into_iter().enumerate() {
        let islands = islands_on(GRIDS[k % 2], 1, sides, EXTENTS[k % 3]);
        let sheet = Sheet::new(islands.known, &islands.vertices).on(islands.grid);
        seeds.add_sheet(&sheet, &queries(2, &islands, 6), &sheet);
    }
    for n in [64, 65] {
        seeds.add("book", &octant().bytes().repeat(n), &[], 0, &[0, 3, 2, 1]);
    }
    seeds.add("basin", &points_bytes(&star(random, Grid::Coarse, 513)), &[], 0, &[0]);
}

fn add_positions(seeds: &mut Seeds) {
    for n in [4, 5, 9, 40] {
        let plain = text(&circle(n));
        seeds.add_import(&plain, b"quay", 600);
        seeds.add_import(&plain.replace(',', " ,\t").replace("0,", ","), b"A", 36 + 12 * n);
    }
    let ring = "[[-1.5,89],[-1,89.5],[-0.5,89.1234567],[-1.5,89.0]]";
    seeds.add_import(&format!(r#"{{"coordinates":[{ring}],"type":"Polygon"}}"#), b"A", 200);
    (0..40).for_each(|number| seeds.add("meaning", &[], &[], 60, &[number]));
    for position in [[0, 0], [1_800_000_000, -900_000_000], [236_206_135, 379_420_215]] {
        let [longitude, latitude] = position;
        let many = [position, position, [longitude, 900_000_001]].map(position_bytes).concat();
        for grid in 0..3 {
            seeds.add("point", &[], &[], 0, &[longitude, latitude, grid]);
            seeds.add("points", &many, &[], 36, &[grid]);
        }
    }
}

pub fn seeds() -> Vec<Input> {
    let (mut seeds, mut random) = (Seeds::default(), Random::new(1));
    add_small(&mut seeds, &mut random);
    add_long(&mut seeds, &mut random);
    add_positions(&mut seeds);
    seeds.0
}
