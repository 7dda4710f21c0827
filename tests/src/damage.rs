//! Damaged and cut sheets, compared with the reference.

use crate::compare::Tally;
use crate::random::Random;
use crate::sheet::{field, octant, octant_pair, Sheet, GRIDS};
use crate::Point;

type Case = (Vec<u8>, Point);

const K2: Point = [3, 2, 1];
const K8: Point = [-1, -1, -1];

/// Every beginning of the octant's sheet with a second point, and every value of every byte of it and
/// of the sheet without one: alone, with the last byte gone, and with a byte too many. The query is
/// K2, and K8 where it is judged from the second point. On either grid.
fn octant_everywhere() -> Vec<Case> {
    let cases = GRIDS.map(|grid| {
        let [plain, pair] = [octant(), octant_pair()].map(|sheet| sheet.on(grid).bytes());
        [everywhere(plain, K2), everywhere(pair.clone(), K2), everywhere(pair, K8)].concat()
    });
    cases.concat()
}

fn everywhere(whole: Vec<u8>, query: Point) -> Vec<Case> {
    let mut cases: Vec<Case> = (0..whole.len()).map(|end| (whole[..end].to_vec(), query)).collect();
    for at in 0..whole.len() {
        for value in 0..=255 {
            let mut sheet = whole.clone();
            sheet[at] = value;
            cases.push((sheet.clone(), query));
            cases.push((sheet[..whole.len() - 1].to_vec(), query));
            cases.push(([sheet, vec![value]].concat(), query));
        }
    }
    cases
}

/// Each field with every length near what is allowed, whole and cut around its head and its end.
fn field_lengths() -> Vec<Case> {
    let near = |k: usize| [k.wrapping_sub(1), k, k + 1].into_iter().filter(|&k| k < 65_536);
    let limits = [0, 4, 12, 24, 36, 48, 120, 256, 49_140, 49_152, 49_164, 65_535];
    let mut cases = vec![];
    for (which, grid) in (0..6).flat_map(|which| GRIDS.map(|grid| (which, grid))) {
        for length in limits.into_iter().flat_map(near) {
            let mut fields = octant_pair().on(grid).fields();
            let body: Vec<u8> = fields[which][3..].iter().copied().cycle().take(length).collect();
            fields[which] = field(fields[which][0], &body);
            let sheet = fields.concat();
            let begins: usize = fields[..which].iter().map(Vec::len).sum();
            for end in [begins + 2, begins + 3, begins + 2 + length, begins + 3 + length, sheet.len()] {
                cases.push((sheet[..end].to_vec(), K2));
            }
        }
    }
    cases
}

/// A good sheet whose parts have many lengths, but for its second point: that may fail.
fn any_sheet(random: &mut Random) -> Sheet {
    let mut sheet = octant().on(random.pick(&GRIDS));
    sheet.zone = random.bits() as u32;
    sheet.charset = random.between(1, 3) as u8;
    let length = random.pick(&[1, 2, 3, 12, 119, 120]);
    sheet.name = (0..length).map(|_| random.bits() as u8).collect();
    sheet.second = random.once_in(2).then(|| random.point(2));
    sheet
}

/// Several damages at once, so that the order of the refusals shows: fields exchanged, left out or
/// doubled, bytes changed, the end cut or bytes added.
fn damaged_together(count: usize) -> Vec<Case> {
    let random = &mut Random::new(20);
    let mut cases = vec![];
    for _ in 0..count {
        let mut fields = any_sheet(random).fields();
        for _ in 0..random.below(3) {
            let (i, j) = (random.below(fields.len()), random.below(fields.len()));
            match random.below(4) {
                0 => fields.swap(i, j),
                1 => drop(fields.remove(i)),
                2 => fields.insert(i, fields[j].clone()),
                _ => {
                    let k = random.below(fields[i].len().min(4));
                    fields[i][k] = random.pick(&[0, 1, 2, 3, 4, 5, 6, 7, 8, 12, 36, 121, 255]);
                }
            }
        }
        let mut sheet = fields.concat();
        match random.below(4) {
            0 => sheet.truncate(random.below(sheet.len() + 1)),
            1 => sheet.extend((0..1 + random.below(20)).map(|k| k as u8)),
            _ => {}
        }
        cases.push((sheet, random.point(2)));
    }
    cases
}

/// What the C client is run on.
pub fn all_cases() -> Vec<Case> {
    [octant_everywhere(), field_lengths(), damaged_together(30_000)].concat()
}

#[test]
fn damaged_sheets() {
    let mut tally = Tally::default();
    for (sheet, query) in [octant_everywhere(), field_lengths(), damaged_together(150_000)].concat() {
        tally.compare(&sheet, query);
    }
    let numbers = [1, 2, 3, 11, 12, 13, 15, 16, 17, 18, 19, 20, 21, 22, 23, 24];
    tally.report("damaged sheets", 500_000, numbers);
}
