//! Shapes and random numbers that the stored cases of fills and of edits share; nothing of the crate.

/// i, j and k.
pub type Cell = [u32; 3];

/// The cells of a corridor that runs to and fro through every layer of a cube of odd side.
pub fn serpentine(side: u32) -> Vec<Cell> {
    let rows = (side - 1) / 2;
    let place = |q: u32| {
        let (layer, row) = (q / rows, q % rows);
        [1 + 2 * if layer % 2 == 0 { row } else { rows - 1 - row }, 1 + 2 * layer]
    };
    let mut cells = vec![];
    for q in 0..rows * rows {
        let ([j, k], [y, z]) = (place(q), place(q + 1));
        cells.extend((1..side - 1).map(|i| [i, j, k]));
        cells.push([if q % 2 == 0 { side - 2 } else { 1 }, (j + y) / 2, (k + z) / 2]);
    }
    cells.pop();
    cells
}

/// The cells of a square spiral of odd side, from (1, 1) to its middle.
pub fn spiral(side: i32) -> Vec<Cell> {
    let (mut path, mut way, mut turns) = (vec![[1, 1]], [1, 0], 0);
    while turns < 2 {
        let at: [i32; 2] = path[path.len() - 1];
        let step = |n: i32| [at[0] + n * way[0], at[1] + n * way[1]];
        if step(1).iter().all(|x| (1..side - 1).contains(x)) && !path.contains(&step(2)) {
            path.push(step(1));
            turns = 0;
        } else {
            way = [-way[1], way[0]];
            turns += 1;
        }
    }
    path.iter().map(|p| [p[0] as u32, p[1] as u32, 1]).collect()
}

/// Random numbers: xorshift from a fixed seed.
pub struct Random(pub u64);

impl Random {
    /// A number below n.
    pub fn below(&mut self, n: u64) -> u32 {
        self.0 ^= self.0 << 13;
        self.0 ^= self.0 >> 7;
        self.0 ^= self.0 << 17;
        ((self.0 >> 11) % n) as u32
    }
}
