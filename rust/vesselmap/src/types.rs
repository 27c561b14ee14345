//! What is lent and what is answered.

/// The labels of a filled map; 1 to 5 are a fill's own, of which 1 and 2 may stay with cavities.
pub mod label {
    /// Not decided: no walk of a fill came here.
    pub const UNDEFINED: u8 = 0;
    /// Outside: after a flood, a way of cells that are no wall leads to the border.
    pub const OUTSIDE: u8 = 6;
    /// Inside: after a flood, no such way does.
    pub const INSIDE: u8 = 7;
    /// A wall: some triangle touches the cell, or it was closed.
    pub const SURFACE: u8 = 8;
}

/// How many cells the grid has along i, j and k.
#[repr(C)]
#[derive(Clone, Copy, Debug, PartialEq, Eq, Hash)]
pub struct Axes {
    /// Along i, which is x.
    pub r0: usize,
    /// Along j, which is y.
    pub r1: usize,
    /// Along k, which is z.
    pub r2: usize,
}

impl Axes {
    /// The number of a cell, i + j r0 + k r0 r1, or nothing where it is no cell of the grid.
    pub fn number(self, cell: Cell) -> Option<usize> {
        if cell.i < self.r0 && cell.j < self.r1 && cell.k < self.r2 {
            let layer = self.r0.checked_mul(self.r1)?;
            cell.k.checked_mul(layer)?.checked_add(cell.j * self.r0 + cell.i)
        } else {
            None
        }
    }
}

/// A cell of the grid.
#[repr(C)]
#[derive(Clone, Copy, Debug, PartialEq, Eq, Hash)]
pub struct Cell {
    /// Its place along x.
    pub i: usize,
    /// Its place along y.
    pub j: usize,
    /// Its place along z.
    pub k: usize,
}

/// Where a grid stands. Its numbers travel together.
#[repr(C)]
#[derive(Clone, Copy, Debug, PartialEq)]
pub struct Placement {
    /// The origin's x, the centre of the first cell.
    pub x: f32,
    /// The origin's y.
    pub y: f32,
    /// The origin's z.
    pub z: f32,
    /// The side of a cell.
    pub scale: f32,
    /// 1 / scale, rounded once.
    pub reciprocal: f32,
}

/// What sizing answers.
#[derive(Clone, Copy, Debug, PartialEq)]
pub struct Grid {
    /// How many cells there are.
    pub axes: Axes,
    /// Where they lie.
    pub placement: Placement,
}

/// What a fill does with cells that are no surface.
#[derive(Clone, Copy, Debug, PartialEq, Eq, Hash)]
pub enum Mode {
    /// All of them become Outside.
    SurfaceOnly,
    /// Outside is what a path joins to a border cell; all else is Inside.
    Flood,
    /// Walls within walls: outside and inside in turn, and cells that no walk reaches are left.
    Cavities,
}

/// What a fill answers; the fill itself is in the labels.
#[derive(Clone, Copy, Debug, PartialEq, Eq, Hash)]
pub struct Filled {
    /// How often the whole grid was scanned.
    pub scans: usize,
    /// How many cells are left undecided.
    pub left: usize,
}

/// What a list answers; the list is in the outputs.
#[derive(Clone, Copy, Debug, PartialEq, Eq, Hash)]
pub struct Listed {
    /// How many cells have a record.
    pub cells: usize,
    /// How many pairs of a cell and a triangle there are.
    pub pairs: usize,
}

/// What planes answers; their d are in the output.
#[derive(Clone, Copy, Debug, PartialEq, Eq, Hash)]
pub struct Planes {
    /// The index of the first plane; each further one is at the next.
    pub first: usize,
    /// How many there are.
    pub count: usize,
}

/// What split answers: how many points went to each output.
#[derive(Clone, Copy, Debug, PartialEq, Eq, Hash)]
pub struct Sides {
    /// To the first, above the plane or on it.
    pub first: usize,
    /// To the second, below the plane or on it.
    pub second: usize,
}

/// What the program says of an input.
#[derive(Clone, Copy, Debug, PartialEq, Eq, Hash)]
pub struct Summary {
    /// How many cells the grid has along each axis.
    pub axes: Axes,
    /// How many cells are Outside.
    pub outside: usize,
    /// How many are Inside.
    pub inside: usize,
    /// How many are walls.
    pub surface: usize,
    /// How many are left undecided.
    pub left: usize,
    /// How often the fill scanned the whole grid.
    pub scans: usize,
}

/// A record of the cell list.
#[derive(Clone, Copy, Debug, PartialEq, Eq, Hash)]
pub struct Record {
    /// The listed cell.
    pub cell: Cell,
    /// Whether it is a wall; otherwise it is Inside.
    pub surface: bool,
    /// Where its triangles begin in the list of triangles: see [`list_slice`](crate::list_slice).
    pub start: u32,
    /// Where they end.
    pub end: u32,
}

/// Records of the cell list, as they stand in a slice of numbers: i, j, k, 1 for a wall or 0, range start, range end.
#[derive(Clone, Copy, Debug)]
pub struct Records<'a>(&'a [u32]);

impl<'a> Records<'a> {
    /// How many numbers a record has.
    pub const WIDTH: usize = 6;

    /// The records of a slice; a rest that is no whole record is passed over.
    pub fn new(numbers: &'a [u32]) -> Self {
        Records(numbers)
    }

    /// How many whole records the slice has.
    pub fn len(&self) -> usize {
        self.0.len() / Self::WIDTH
    }

    /// Whether it has none.
    pub fn is_empty(&self) -> bool {
        self.len() == 0
    }

    /// Record `p`, or nothing past the last.
    pub fn get(&self, p: usize) -> Option<Record> {
        if p < self.len() {
            Some(read(&self.0[p * Self::WIDTH..]))
        } else {
            None
        }
    }

    /// One record after the other.
    pub fn iter(&self) -> impl Iterator<Item = Record> + 'a {
        self.0.chunks_exact(Self::WIDTH).map(read)
    }
}

fn read(n: &[u32]) -> Record {
    let cell = Cell { i: n[0] as usize, j: n[1] as usize, k: n[2] as usize };
    Record { cell, surface: n[3] == 1, start: n[4], end: n[5] }
}
