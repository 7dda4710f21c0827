//! What tests/header.c has to print, from documents 01 and 02 and the second implementation.

use crate::imports::{given, point_on, position_bytes, Given};
use crate::sheet::{octant, octant_pair, point_bytes, points_bytes, Grid, OCTANT};
use crate::{reference, Answer, Comparison, Point, Single, Which};

const TEXT: &[u8] = br#"{"type":"Polygon","coordinates":[[[0,0],[1,0],[1,1],[0,0]]]}"#;
const NOTHING: Answer = Answer { number: 0, place: 0, count: 0 };

/// Each number with what its place is, by the tables of documents 01 and 02.
pub fn numbers() -> Vec<String> {
    let kind = |number: u32| match number {
        0 => 6,
        3 | 13 | 14 | 16 | 35 => 1,
        11 | 12 => 2,
        20..=24 | 30 | 36 => 3,
        25 | 27 => 4,
        31 | 33 => 5,
        _ => 0,
    };
    let listed = (0..=3).chain(10..=28).chain(30..=36);
    listed.map(|number| format!("{number} {}", kind(number))).collect()
}

/// Lines of a word and three numbers, or of bytes.
struct Lines(String);

impl Lines {
    fn put(&mut self, what: &str, numbers: [i64; 3]) {
        let [a, b, c] = numbers;
        self.0 += &format!("{what} {a} {b} {c}\n");
    }

    fn answer(&mut self, what: &str, answer: Answer) {
        self.put(what, [answer.number.into(), answer.place as i64, answer.count.into()]);
    }

    fn point(&mut self, what: &str, point: Point) {
        self.put(what, point.map(i64::from));
    }

    fn bytes(&mut self, what: &str, bytes: &[u8]) {
        let hex: String = bytes.iter().map(|byte| format!("{byte:02x}")).collect();
        self.0 += &format!("{what} {hex}\n");
    }

    /// The single calls, and the whole answer by a feed of one.
    fn judged(&mut self, sheet: &[u8], query: Point) {
        let Single { answer, sum, looked } = reference::single(sheet, query);
        self.answer("judge", answer);
        self.answer("whole", answer);
        self.put("sum, looked", [sum.into(), looked.into(), 0]);
    }

    fn sets(&mut self, which: Which) {
        self.put("sets", [which.inside, which.boundary, which.refused].map(|set| set as i64));
    }

    /// The single calls, the whole answer by a feed of one, and a step.
    fn book(&mut self, book: &[u8], query: Point) {
        let which = reference::book::which(book, 0, query);
        for what in ["book", "whole"] {
            self.answer(what, which.answer);
            self.sets(which);
        }
        self.answer("step", reference::book::step(book, 0));
    }

    fn book_feed(&mut self, book: &[u8], queries: &[Point]) {
        self.answer("book feed", NOTHING);
        queries.iter().for_each(|query| self.sets(reference::book::which(book, 0, *query)));
    }

    fn feed(&mut self, sheet: &[u8], queries: &[Point]) {
        let bytes = points_bytes(queries);
        self.answer("feed", reference::feed(sheet, &bytes, &vec![0; bytes.len()]).0);
        queries.iter().for_each(|query| self.answer("result", reference::judge(sheet, *query)));
    }

    fn compared(&mut self, left: &[u8], right: &[u8]) {
        let Comparison { number, place, count, way, fields } = reference::compare(left, right);
        self.answer("compare", Answer { number, place, count });
        let fields = fields.iter().rev().fold(0, |sum, field| 256 * sum + i64::from(*field));
        self.put("way, fields", [way.into(), fields, 0]);
    }

    fn imported(&mut self, text: &[u8], name: &[u8], room: usize) {
        let given = Given { name, known: [1_048_576, 9_000, 7_000], ..given() };
        let answer = reference::import(text, &given, room, point_on).0;
        self.answer("import", answer);
        self.answer("whole", answer);
        let fine = Given { grid: Grid::Fine, known: [67_108_864, 9_000, 7_000], ..given };
        let answer = reference::import(text, &fine, room, point_on).0;
        self.answer("fine", answer);
        self.answer("whole", answer);
    }

    /// What the header's helpers make of the numbers in document 01's order of bytes.
    fn helpers(&mut self) {
        let numbers = [0, 1, -1, 0x0102_0304, i32::MAX, i32::MIN];
        for (first, last) in numbers.into_iter().zip(numbers.into_iter().rev()) {
            self.bytes("point", &point_bytes([first, -1, last]));
            self.point("numbers", [first, -1, last]);
            self.put("number", [(last as u32).into(), 0, 0]);
        }
    }

    /// The calls, and both at once.
    fn written(&mut self, number: i64, place: i64) {
        self.put("write", [number, place, 0]);
        self.put("whole", [number, place, 0]);
    }

    fn written_octant(&mut self) {
        let sheet = octant().bytes();
        self.put("write", [0, 69, 0]);
        self.put("length", [69, 0, 0]);
        self.bytes("sheet", &sheet);
    }
}

/// The octant's parts are document 01's, its fine sheet's those of document 02's P4 and P8.
pub fn octant_lines() -> String {
    let mut lines = Lines(String::new());
    lines.put("version", [1, 0, 0]);
    lines.put("coarse", [0, 1 << 20, 12]);
    lines.put("fine", [1, 1 << 26, 12]);
    lines.put("most", [4_096, 120, 49_319]);
    lines.put("charsets", [1, 2, 3]);
    lines.put("sheets", [64, 0, 6]);
    lines.put("result", [24, 0, 0]);
    lines.put("position", [8, 0, 0]);
    lines.helpers();
    lines.written_octant();
    let sheet = octant().bytes();
    lines.put("read", [0, 69, 0]);
    lines.put("zone", [7, 1, 0]);
    lines.put("name", [14, 1, 3]);
    lines.put("known", [1, 1, 1]);
    lines.put("second", [0, 0, 0]);
    lines.put("vertices", [0, 0, 0]);
    lines.bytes("bytes", &points_bytes(&OCTANT));
    // Opposite (1, 0, 0) is outside, and the octant touches all coordinate planes: its box is the whole.
    lines.put("far", [2, 0, 0]);
    lines.put("box", [0, 0, 0]);
    lines.bytes("box", &[[[0xc0, 0, 0, 0]; 3], [[0x40, 0, 0, 0]; 3]].concat().concat());
    lines.put("low", [-(1 << 30); 3]);
    lines.put("high", [1 << 30; 3]);
    lines.put("held", [1, 0, 1]);
    let queries = [[3, 2, 1], [1, 1, 0], [1, 1, -1], [-1, -1, -1]];
    for query in queries {
        lines.judged(&sheet, query);
        lines.book(&sheet, query);
    }
    lines.feed(&sheet, &queries);
    lines.book_feed(&sheet, &queries);
    lines.answer("choose", reference::choose(&sheet, &points_bytes(&queries)));
    lines.answer("basin", reference::basin(&points_bytes(&OCTANT), 0));
    let fine = octant_pair().on(Grid::Fine).bytes();
    lines.written(0, 84);
    lines.bytes("fine", &fine);
    lines.compared(&sheet, &fine);
    lines.imported(TEXT, b"A", 200);
    // 90 degrees east on the equator.
    lines.put("position", [0, 0, 28]);
    lines.put("grid", [0, 1 << 20, 0]);
    lines.put("grid", [0, 1 << 26, 0]);
    lines.put("put", [0, 31, 0]);
    lines.bytes("degrees", &position_bytes([900_000_000, 0]));
    lines.put("points", [0, 0, 0]);
    lines.bytes("points", &point_bytes([0, 1 << 26, 0]));
    lines.0
}

/// A pointer that is NULL is one to no bytes: the answers are those of empty ones.
pub fn null_lines() -> String {
    let mut lines = Lines(String::new());
    let sheet = octant().bytes();
    lines.written_octant();
    lines.judged(&[], [1, 1, 1]);
    lines.answer("read", Answer { number: 20, ..NOTHING });
    ["zone", "name", "known", "second"].iter().for_each(|part| lines.answer(part, NOTHING));
    lines.put("vertices", [20, 0, 0]);
    lines.put("vertices", [27, 36, 0]);
    for far in [20, 2] {
        lines.put("far", [far, 0, 0]);
        lines.put("box", [27, 24, 0]);
    }
    lines.feed(&[], &[]);
    lines.feed(&sheet, &[]);
    lines.answer("choose", reference::choose(&[], &[]));
    lines.answer("choose", reference::choose(&sheet, &[]));
    lines.answer("basin", reference::basin(&[], 0));
    lines.book(&[], [1, 1, 1]);
    lines.book_feed(&[], &[]);
    lines.book_feed(&sheet, &[]);
    lines.compared(&[], &[]);
    lines.compared(&sheet, &[]);
    lines.imported(&[], &[], 0);
    lines.imported(TEXT, &[], 0);
    lines.imported(TEXT, b"A", 0);
    lines.put("points", [0, 0, 0]);
    lines.put("points", [28, 0, 0]);
    lines.put("points", [27, 12, 0]);
    // A writer's order: 22 for the name, 10 for the vertices, 25 for the buffer.
    lines.written(22, 0);
    lines.written(10, 0);
    lines.written(25, 84);
    lines.put("text", ["inside".len() as i64, 0, 0]);
    lines.0
}
