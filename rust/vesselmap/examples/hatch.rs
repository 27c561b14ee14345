//! A closed vessel of two chambers: the manway between them is opened, then a hatch in the outer wall, and then the
//! hatch is closed again. A layer of the map is printed before and after each. Run by `cargo run --example hatch`.
use vesselmap::{label, Axes, Cell, Mode, Refusal};

/// Eight corners of the vessel, four of the wall between its chambers, and two points of the room about it.
const POINTS: [f32; 42] = [
    2.0, 2.0, 1.0, 14.0, 2.0, 1.0, 14.0, 7.0, 1.0, 2.0, 7.0, 1.0, // the floor
    2.0, 2.0, 5.0, 14.0, 2.0, 5.0, 14.0, 7.0, 5.0, 2.0, 7.0, 5.0, // the roof
    8.0, 2.0, 1.0, 8.0, 7.0, 1.0, 8.0, 7.0, 5.0, 8.0, 2.0, 5.0, // the wall between
    0.0, 0.0, 0.0, 16.0, 9.0, 6.0, // the room
];

const TRIANGLES: [u32; 42] = [
    0, 1, 2, 0, 2, 3, 4, 5, 6, 4, 6, 7, // floor and roof
    0, 1, 5, 0, 5, 4, 3, 2, 6, 3, 6, 7, // front and back
    0, 3, 7, 0, 7, 4, 1, 2, 6, 1, 6, 5, // left and right
    8, 9, 10, 8, 10, 11, // between
];

const CELLS: usize = 17 * 10 * 7;

/// The cells of layer k, j upwards: walls `#`, Inside `o`, Outside `.`
fn print_layer(title: &str, labels: &[u8], axes: Axes, k: usize) {
    println!("{title}");
    for j in (0..axes.r1).rev() {
        let row = (0..axes.r0).map(|i| match labels[axes.number(Cell { i, j, k }).unwrap()] {
            label::SURFACE => '#',
            label::INSIDE => 'o',
            label::OUTSIDE => '.',
            _ => '?',
        });
        println!("    {}", row.collect::<String>());
    }
}

fn main() -> Result<(), Refusal> {
    let grid = vesselmap::size_by_cell(&POINTS, 1.0)?;
    let Axes { r0, r1, r2 } = grid.axes;
    println!("{r0} by {r1} by {r2} cells of side {}", grid.placement.scale);

    let mut labels = [0u8; CELLS];
    vesselmap::mark(&POINTS, &TRIANGLES, grid.axes, grid.placement, &mut labels)?;
    let filled = vesselmap::fill(&mut labels, grid.axes, Mode::Flood)?;
    print_layer(&format!("closed, filled in {} scans", filled.scans), &labels, grid.axes, 3);
    let closed = labels;

    let manway = Cell { i: 8, j: 4, k: 3 };
    let changed = vesselmap::open(&mut labels, grid.axes, manway)?;
    print_layer(&format!("manway open, {changed} label changed: the chambers are one"), &labels, grid.axes, 3);

    let hatch = Cell { i: 2, j: 5, k: 3 };
    let changed = vesselmap::open(&mut labels, grid.axes, hatch)?;
    print_layer(&format!("hatch open, {changed} labels changed: nothing is enclosed"), &labels, grid.axes, 3);

    let refusal = vesselmap::open(&mut labels, grid.axes, hatch).unwrap_err();
    println!("opening it again is {refusal}");

    let changed = vesselmap::close(&mut labels, grid.axes, hatch)?;
    print_layer(&format!("hatch closed, {changed} labels changed: both chambers are enclosed"), &labels, grid.axes, 3);

    let changed = vesselmap::close(&mut labels, grid.axes, manway)?;
    println!("manway closed, {changed} label changed; the map is as it was: {}", labels == closed);
    Ok(())
}
