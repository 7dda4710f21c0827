//! Sheets written and read through C, against the second implementation; and what the numbers mean, against the header.

use crate::compare::Tally;
use crate::library::sheets;
use crate::outlines::{sheet_and_queries, Numbers, Source};
use crate::random::Random;
use crate::sheet::{octant, octant_pair, points_bytes, Grid, Sheet, GRIDS};
use crate::{reference, Answer, Point, Written};

const PAINT: u8 = 0xa5;

fn written(sheet: &Sheet) -> Written<'static> {
    Written {
        zone: sheet.zone,
        charset: sheet.charset.into(),
        name: sheet.name.clone().into(),
        known: sheet.known,
        second: sheet.second.unwrap_or([0; 3]),
        vertices: points_bytes(&sheet.vertices).into(),
        grid: if sheet.grid == Grid::Coarse { 0 } else { 1 },
    }
}

/// A buffer has these bytes in front and all others as they were.
fn holds(buffer: &[u8], front: &[u8]) -> bool {
    buffer.starts_with(front) && buffer[front.len()..].iter().all(|&byte| byte == PAINT)
}

/// The parts and the vertices of any bytes.
fn compare_reading(sheet: &[u8]) -> Answer {
    let found = sheets::parts(sheet);
    assert_eq!(found, reference::sheets::parts(sheet), "{sheet:02x?}");
    let needed = 12 * found.vertices;
    for room in [needed, needed.saturating_sub(1), 0, needed + 7] {
        let (expected, bytes) = reference::sheets::vertices(sheet, room);
        let mut buffer = vec![PAINT; room];
        assert_eq!(sheets::vertices(sheet, &mut buffer), expected, "{sheet:02x?}, room {room}");
        assert!(holds(&buffer, &bytes), "{sheet:02x?}, room {room}");
    }
    found.answer
}

/// Writing, and reading of what was written.
fn compare_writing(given: &Written, room: usize) -> Answer {
    let (expected, sheet) = reference::sheets::write(given, room);
    let mut buffer = vec![PAINT; room];
    assert_eq!(sheets::write(given, &mut buffer), expected, "{given:?}, room {room}");
    assert!(holds(&buffer, &sheet), "{given:?}, room {room}");
    if expected.number == 0 {
        assert_eq!(compare_reading(&buffer[..expected.place]), expected);
        let mut back = vec![PAINT; given.vertices.len()];
        assert_eq!(sheets::vertices(&buffer[..expected.place], &mut back).number, 0);
        assert_eq!(given.vertices, back);
    }
    expected
}

/// The given parts with one or two of them spoilt, now and then none.
fn spoilt<'a>(random: &mut Random, mut given: Written<'a>) -> Written<'a> {
    for _ in 0..random.below(3) {
        match random.below(8) {
            0 => given.charset = random.pick(&[0, 2, 3, 4, 256, 257, u32::MAX]),
            1 => given.name = vec![0xce; random.pick(&[0, 2, 119, 120, 121, 300])].into(),
            2 => given.grid = random.pick(&[0, 1, 2, 256, u32::MAX]),
            3 => {
                let length = given.vertices.len().saturating_sub(1 + random.below(23));
                given.vertices.to_mut().truncate(length);
            }
            4 => given.vertices.to_mut().truncate(12 * random.below(4)),
            5 => given.second = random.point(3),
            6 => given.known = random.point(3),
            _ => given.zone = random.bits() as u32,
        }
    }
    given
}

#[test]
fn sheets_written_and_read() {
    let (mut writing, mut reading) = (Tally::default(), Tally::default());
    let random = &mut Random::new(250);
    for grid in GRIDS {
        for numbers in [Numbers::Within(2), Numbers::Within(9), Numbers::Limits, Numbers::Beyond] {
            for _ in 0..2_500 {
                let (sheet, _) = sheet_and_queries(random, Source(grid, numbers), 12, 1);
                let given = spoilt(random, written(&sheet));
                let size = 32 + given.name.len() + given.vertices.len();
                let rooms = [size + 40, size + 15, size + 14, size, size.saturating_sub(1), 0];
                writing.count(compare_writing(&given, random.pick(&rooms)).number);
                let mut damaged = sheet.bytes();
                for _ in 0..random.below(3) {
                    let at = random.below(damaged.len());
                    damaged[at] = random.bits() as u8;
                }
                damaged.truncate(damaged.len() - random.pick(&[0, 0, 0, 1, 15]));
                reading.count(compare_reading(&damaged).number);
            }
        }
    }
    writing.report("sheets written", 20_000, [0, 10, 11, 12, 13, 14, 15, 16, 19, 22, 23, 25, 28]);
    reading.report("sheets read", 20_000, [0, 11, 12, 13, 14, 15, 16, 19, 20, 21, 22, 23]);
}

fn long_list(n: usize) -> Vec<Point> {
    let turn = |k: i32| [1_000 + (k * 7) % 500, k + 1, 300_000 - k * 31];
    (0..n as i32).map(turn).collect()
}

/// Lists of every length around what is allowed, by the byte, on the grids and off them.
#[test]
fn sheets_of_all_lengths() {
    let long = points_bytes(&long_list(4_100));
    let mut tally = Tally::default();
    for length in (0..50).chain(49_135..49_180) {
        for grid in [0, 1, 2] {
            let given = Written {
                vertices: long[..length].into(),
                grid,
                known: [-271_828, -314_159, 577],
                ..written(&octant())
            };
            tally.count(compare_writing(&given, 49_319).number);
        }
    }
    tally.report("lists of all lengths", 280, [0, 10, 28]);
}

/// A list of 4,096 vertices, written and read in a thread that has 60,000 bytes of stack in all: one byte too many ends
/// the tests.
#[test]
fn sheets_in_little_stack() {
    let given =
        Written { known: [-271_828, -314_159, 577], ..written(&Sheet::new([1; 3], &long_list(4_096))) };
    let mut sheet = vec![PAINT; 49_319];
    let mut back = given.vertices.to_vec();
    let work = move || {
        let number = sheets::write(&given, &mut sheet).number;
        let sheet = &sheet[..32 + given.name.len() + given.vertices.len()];
        [number, sheets::parts(sheet).answer.number, sheets::vertices(sheet, &mut back).number]
    };
    let thread = std::thread::Builder::new().stack_size(60_000).spawn(work).expect("thread");
    assert_eq!(thread.join().expect("numbers"), [0; 3]);
}

/// Document 01's octant, by hand: 69 bytes, 84 with a second point; tag 7 on the fine grid.
#[test]
fn octant_sheets() {
    for (sheet, size) in [(octant(), 69), (octant_pair(), 84)] {
        for grid in GRIDS {
            let sheet = sheet.clone().on(grid);
            let mut buffer = vec![PAINT; 100];
            let found = sheets::write(&written(&sheet), &mut buffer);
            assert_eq!(found, Answer { number: 0, place: size, count: 0 });
            assert!(holds(&buffer, &sheet.bytes()));
            assert_eq!([buffer[0], buffer[7], buffer[11], buffer[15], buffer[30]], [1, 2, 3, 4, grid.tag()]);
        }
    }
}

#[test]
fn meanings() {
    for number in (0..300).chain([65_536, 1 << 31, u32::MAX]) {
        let (kind, text) = reference::meanings::meaning(number);
        assert_eq!(sheets::place_kind(number), kind, "{number}");
        let text = text.as_bytes();
        for room in [0, 1, text.len() - 1, text.len(), text.len() + 1, 80] {
            let mut buffer = vec![PAINT; room];
            assert_eq!(sheets::meaning_text(number, &mut buffer), text.len(), "{number}");
            assert!(holds(&buffer, &text[..room.min(text.len())]), "{number}, room {room}");
        }
    }
}
