//! Zone sheets as bytes. Nothing is checked here: bad sheets are wanted too.

use crate::Point;

/// Document 02, P8: the grid of a sheet's points.
#[derive(Clone, Copy, Debug, PartialEq, Eq)]
pub enum Grid {
    Coarse,
    Fine,
}

pub const GRIDS: [Grid; 2] = [Grid::Coarse, Grid::Fine];

impl Grid {
    /// The largest number of a point.
    pub const fn limit(self) -> i32 {
        match self {
            Grid::Coarse => 1_048_576,
            Grid::Fine => 67_108_864,
        }
    }

    /// The number that names it.
    pub fn number(self) -> u32 {
        match self {
            Grid::Coarse => 0,
            Grid::Fine => 1,
        }
    }

    /// The tag of the vertices.
    pub fn tag(self) -> u8 {
        match self {
            Grid::Coarse => 5,
            Grid::Fine => 7,
        }
    }
}

#[derive(Clone)]
pub struct Sheet {
    pub grid: Grid,
    pub zone: u32,
    pub charset: u8,
    pub name: Vec<u8>,
    pub known: Point,
    pub vertices: Vec<Point>,
    /// Document 02, P4: none writes no field.
    pub second: Option<Point>,
}

impl Sheet {
    /// Zone 7, UTF-8, name "A": what document 01 gives its octant. On the coarse grid, no second point.
    pub fn new(known: Point, vertices: &[Point]) -> Sheet {
        let (name, vertices) = (b"A".to_vec(), vertices.to_vec());
        Sheet { grid: Grid::Coarse, zone: 7, charset: 1, name, known, vertices, second: None }
    }

    pub fn on(self, grid: Grid) -> Sheet {
        Sheet { grid, ..self }
    }

    pub fn with_second(self, second: Point) -> Sheet {
        Sheet { second: Some(second), ..self }
    }

    /// The same directions, in numbers this many times as large.
    pub fn times(&self, factor: i32) -> Sheet {
        let longer = |p: Point| p.map(|k| factor * k);
        let (known, vertices) = (longer(self.known), self.vertices.iter().copied().map(longer).collect());
        Sheet { known, vertices, second: self.second.map(longer), ..self.clone() }
    }

    /// The fields, each still on its own: five, or six with a second point.
    pub fn fields(&self) -> Vec<Vec<u8>> {
        let mut fields = vec![
            field(1, &self.zone.to_be_bytes()),
            field(2, &[self.charset]),
            field(3, &self.name),
            field(4, &point_bytes(self.known)),
            field(self.grid.tag(), &points_bytes(&self.vertices)),
        ];
        fields.extend(self.second.map(|second| field(6, &point_bytes(second))));
        fields
    }

    pub fn bytes(&self) -> Vec<u8> {
        self.fields().concat()
    }
}

/// Tag, length and body; a length over 65,535 is cut to its lowest 16 bits.
pub fn field(tag: u8, body: &[u8]) -> Vec<u8> {
    let [high, low] = (body.len() as u16).to_be_bytes();
    [&[tag, high, low], body].concat()
}

/// A point's 12 bytes, as in the sheet and on the program's standard input.
pub fn point_bytes(point: Point) -> [u8; 12] {
    let mut bytes = [0; 12];
    for (k, number) in point.iter().enumerate() {
        bytes[4 * k..4 * k + 4].copy_from_slice(&number.to_be_bytes());
    }
    bytes
}

pub fn points_bytes(points: &[Point]) -> Vec<u8> {
    points.iter().copied().flat_map(point_bytes).collect()
}

/// The number of sides by the length of the vertices. Before them only the name, whose length is at 12, has no fixed
/// length.
pub fn sides(sheet: &[u8]) -> usize {
    let length = |at: usize| usize::from(u16::from_be_bytes([sheet[at], sheet[at + 1]]));
    length(30 + length(12)) / 12
}

pub const OCTANT: [Point; 3] = [[1, 0, 0], [0, 1, 0], [0, 0, 1]];

/// Document 01's octant: 69 bytes.
pub fn octant() -> Sheet {
    Sheet::new([1, 1, 1], &OCTANT)
}

/// The octant with a second point that passes: 84 bytes.
pub fn octant_pair() -> Sheet {
    octant().with_second([1, 1, 2])
}
