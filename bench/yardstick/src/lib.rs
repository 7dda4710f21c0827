//! Document 02's P2 in plain Rust with every check kept: what the library's feed is held to, in bytes and in time.
//!
//! Two readings of the verdict, `literal` and `hoisted`; all else is theirs in common. All is compiled for each grid:
//! generic code is inlined otherwise, which moved the coarse grid's instructions by up to 15 of 100. The packages that
//! use this one compile it, and keep the checks of bounds and of overflow on.

mod coarse;
mod fine;

/// A point as a caller hands it over, on the grid or not.
pub type Point = [i32; 3];

/// Number, place, count.
pub type Answer = (u32, usize, u32);

fn boundary(edge: usize) -> Answer {
    (3, edge, 0)
}

/// An even number of crossings means inside.
fn by_parity(crossed: u32) -> Answer {
    (if crossed % 2 == 0 { 1 } else { 2 }, 0, crossed)
}

/// Whether the tag of the fifth field is the fine grid's. Of what stands before it only the name, whose length is at
/// 12, has no fixed length. A sheet that is bad before that tag is refused on both grids alike.
fn is_fine(sheet: &[u8]) -> bool {
    let name = sheet.get(12..14).map_or(0, |length| u16::from_be_bytes([length[0], length[1]]));
    sheet.get(29 + usize::from(name)) == Some(&fine::VERTICES)
}

/// See on_grid/hoisted.rs.
pub mod hoisted {
    use crate::{coarse, fine, is_fine, Answer, Point};

    pub fn judge(sheet: &[u8], query: Point) -> Answer {
        let judge = if is_fine(sheet) { fine::hoisted::judge } else { coarse::hoisted::judge };
        judge(sheet, query)
    }

    pub fn feed(sheet: &[u8], queries: &[u8], results: &mut [u8]) -> Answer {
        let feed = if is_fine(sheet) { fine::hoisted::feed } else { coarse::hoisted::feed };
        feed(sheet, queries, results)
    }
}

/// See on_grid/literal.rs.
pub mod literal {
    use crate::{coarse, fine, is_fine, Answer};

    pub fn feed(sheet: &[u8], queries: &[u8], results: &mut [u8]) -> Answer {
        let feed = if is_fine(sheet) { fine::literal::feed } else { coarse::literal::feed };
        feed(sheet, queries, results)
    }
}
