//! The example that looks stops up in a book.

use crate::example::Example;
use crate::sheet::{octant, octant_pair, Grid, Sheet};

struct Lookup(Example);

impl Lookup {
    fn new(folder: &str) -> Lookup {
        Lookup(Example::new(folder, "examples/which_harbour.c"))
    }

    /// Runs it on the book, a grid and the stops: its exit status and what it has to print.
    fn look_up(&self, book: &[u8], grid: &str, stops: &str, status: i32, stdout: &str, stderr: &str) {
        self.0.folder.write("book", book);
        self.0.folder.write("stops", stops.as_bytes());
        self.0.run(&["book", grid, "stops"], status, stdout, stderr);
    }
}

fn zone(number: u32, sheet: Sheet) -> Vec<u8> {
    Sheet { zone: number, ..sheet }.bytes()
}

/// The octant as zone 70 on the coarse grid and 71 on the fine one, as 72 with a second point; and the octant with x and
/// y negated as 73. The expected lines follow document 01's K2, K3, K5 and K8.
#[test]
fn which_harbour() {
    let example = Lookup::new("which-harbour");
    let far = Sheet::new([-1, -1, 1], &[[-1, 0, 0], [0, -1, 0], [0, 0, 1]]);
    let sheets = [(70, octant()), (71, octant().on(Grid::Fine)), (72, octant_pair()), (73, far)];
    let book = sheets.map(|(number, sheet)| zone(number, sheet)).concat();
    let stops = "3 2 1 Lighthouse\n1 1 0 Old pier\n0 0 5 Pole\n1 1 -1 Open sea\n12 13\n";
    let found = "Lighthouse: inside 70 72\nOld pier: boundary 70 72\nPole: boundary 70 72 73\nOpen sea:\n";
    // (1,1,-1) is opposite zone 73's known point; the line that is no stop comes after it.
    let refused = "refused: Open sea, zone 73: query opposite the known point (18)\n\
                   refused: '12 13' is not 'x y z name'\n";
    example.look_up(&book, "0", stops, 1, found, refused);
    let fine = "Lighthouse: inside 71\nOld pier: boundary 71\nPole: boundary 71\nOpen sea:\n";
    example.look_up(&book, "1", stops, 1, fine, "refused: '12 13' is not 'x y z name'\n");
    example.look_up(&book, "fine", stops, 1, fine, "refused: '12 13' is not 'x y z name'\n");
    let usage = "usage: which_harbour BOOK GRID STOPS\nGRID is 0 or coarse, 1 or fine\n";
    for grid in ["2", "", "0x", "Fine"] {
        example.look_up(&book, grid, "3 2 1 Lighthouse\n", 2, "", usage);
    }
    let coarse = octant().bytes();
    example.look_up(&coarse, "1", "3 2 1 Lighthouse\n", 1, "", "refused: book: no harbour on grid 1\n");
    example.look_up(&[], "0", "3 2 1 Lighthouse\n", 0, "Lighthouse:\n", "");
}

/// A harbour that is refused (16, as K9) is left out; a book that is refused ends it.
#[test]
fn which_harbour_refused() {
    let example = Lookup::new("which-harbour-refused");
    let on_circle = Sheet { known: [1, -1, 0], ..octant() };
    let book = [zone(8, on_circle), zone(9, octant())].concat();
    let refused = "refused: harbour, zone 8: known point on the great circle of a side (16)\n";
    example.look_up(&book, "0", "3 2 1 Lighthouse\n", 1, "Lighthouse: inside 9\n", refused);
    // On the other grid too: a sheet that is refused hands out no grid.
    let fine = zone(8, Sheet { known: [1, -1, 0], ..octant() }.on(Grid::Fine));
    let mixed = [fine, zone(9, octant())].concat();
    example.look_up(&mixed, "0", "3 2 1 Lighthouse\n", 1, "Lighthouse: inside 9\n", refused);
    let cut = "refused: book: sheet cut short (20), byte 99\n";
    example.look_up(&book[..137], "0", "3 2 1 Lighthouse\n", 1, "", cut);
    let long = octant().bytes().repeat(1_025);
    example.look_up(&long, "0", "", 1, "", "refused: book: over 1024 harbours\n");
    // More stops than one feed takes.
    let stops: String = (0..9_000).map(|k| format!("3 2 1 Stop {k}\n")).collect();
    let found: String = (0..9_000).map(|k| format!("Stop {k}: inside 9\n")).collect();
    example.look_up(&zone(9, octant()), "0", &stops, 0, &found, "");
}

/// Over 64 harbours: several books. Harbour k of 150 is the octant or the opposite one, and some are refused.
#[test]
fn which_harbour_many() {
    let example = Lookup::new("which-harbour-many");
    let opposite = Sheet::new([-1, -1, -1], &[[-1, 0, 0], [0, -1, 0], [0, 0, -1]]);
    let sheet = |k: u32| if k % 3 == 0 { octant() } else { opposite.clone() };
    let book: Vec<u8> = (0..150).flat_map(|k| zone(k, sheet(k))).collect();
    let zones = |third: fn(u32) -> bool| -> String {
        (0..150).filter(|&k| third(k)).map(|k| format!(" {k}")).collect()
    };
    let (octants, others) = (zones(|k| k % 3 == 0), zones(|k| k % 3 != 0));
    let found = format!("Lighthouse: inside{octants}\nSouth: inside{others}\nPier: boundary{octants}\n");
    example.look_up(&book, "0", "3 2 1 Lighthouse\n-3 -2 -1 South\n1 1 0 Pier\n", 0, &found, "");
    let refused: String = (0..150)
        .filter(|k| k % 3 != 0)
        .map(|k| format!("refused: North, zone {k}: query opposite the known point (18)\n"))
        .collect();
    example.look_up(&book, "0", "1 1 1 North\n", 1, &format!("North: inside{octants}\n"), &refused);
}
