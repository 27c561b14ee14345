//! A plain model of document 01's marking, which the stored cases of marking and of lists share; nothing of the
//! crate. It shares nothing with the library either: it is whole-number arithmetic in i128 over the eight corners
//! of each cell.

pub const FAR: f32 = 1048576.0;
pub const LEAST: f32 = 1.0 / 262144.0;
pub const MOST: f32 = 2097152.0;

pub type Triple = [i128; 3];
pub type Triangle = [Triple; 3];

/// What a call over a mesh is lent; of the labels only how many there are.
#[derive(Clone)]
pub struct Case {
    pub points: Vec<f32>,
    pub triangles: Vec<u32>,
    pub axes: [u32; 3],
    pub origin: [f32; 3],
    pub scale: f32,
    pub reciprocal: f32,
    pub length: usize,
}

/// The largest whole number not above 256 t + 1/2: with t = m 2^e that is (m 2^(e + 9) + 1) / 2, rounded down.
pub fn parts(t: f32) -> i128 {
    let bits = t.to_bits();
    let (field, low) = ((bits >> 23 & 255) as i32, (bits & 0x7f_ffff) as i128);
    let (size, e) = if field == 0 { (low, -149) } else { (low + (1 << 23), field - 150) };
    let m = if bits >> 31 == 1 { -size } else { size };
    match e + 9 {
        s if s >= 0 => ((m << s) + 1).div_euclid(2),
        s if s >= -100 => (m + (1 << -s)).div_euclid(2 << -s),
        _ => 0, // t is far below 1/512 in magnitude
    }
}

pub fn cell(q: i128) -> i128 {
    (q + 128).div_euclid(256)
}

pub fn triangles(c: &Case) -> Vec<Triangle> {
    vertices(c, parts)
}

/// The triangles with coordinates made of each t in some way.
pub fn vertices<T>(c: &Case, of: impl Fn(f32) -> T) -> Vec<[[T; 3]; 3]> {
    let coordinate = |v: u32, a: usize| of((c.points[3 * v as usize + a] - c.origin[a]) * c.reciprocal);
    c.triangles.chunks(3).map(|t| [0, 1, 2].map(|n| [0, 1, 2].map(|a| coordinate(t[n], a)))).collect()
}

/// The lowest number that applies, with its place.
pub fn refusal(c: &Case) -> Option<(usize, usize)> {
    let (p, t) = (c.points.len(), c.triangles.len());
    let whole = |fault: bool| fault.then_some(0);
    let on_grid = |v: &Triple| (0..3).all(|a| (0..c.axes[a] as i128).contains(&cell(v[a])));
    let place = |number| match number {
        1 => whole(p % 3 != 0 || t % 3 != 0 || p / 3 > 65536 || t / 3 > 65536),
        2 => whole(p == 0),
        // a NaN is not at most anything
        3 => c.origin.iter().chain(&c.points).position(|x| !(x.abs() <= FAR)),
        4 => c.triangles.chunks(3).position(|t| t.iter().any(|&v| v as usize >= p / 3)),
        5 => whole(!(LEAST <= c.scale && c.scale <= MOST) || c.reciprocal != 1.0 / c.scale),
        8 => c.axes.iter().position(|&r| r == 0 || r > 256),
        9 => whole(c.length as u32 != c.axes.iter().product()),
        10 => triangles(c).iter().position(|t| !t.iter().all(on_grid)),
        _ => None,
    };
    (1..=10).find_map(|number| Some((number, place(number)?)))
}

pub fn cross(a: Triple, b: Triple) -> Triple {
    [a[1] * b[2] - a[2] * b[1], a[2] * b[0] - a[0] * b[2], a[0] * b[1] - a[1] * b[0]]
}

/// The three axes, the normal, and the products of the first edge with each axis, of the second, of the third.
pub fn directions(t: &Triangle) -> [Triple; 13] {
    let axes = [[1, 0, 0], [0, 1, 0], [0, 0, 1]];
    let edges = [0, 1, 2].map(|n| [0, 1, 2].map(|a| t[(n + 1) % 3][a] - t[n][a]));
    std::array::from_fn(|n| match n {
        0..=2 => axes[n],
        3 => cross(edges[0], edges[1]),
        _ => cross(edges[(n - 4) / 3], axes[(n - 4) % 3]),
    })
}

/// The least and the greatest projection.
pub fn span(direction: &Triple, points: &[Triple]) -> (i128, i128) {
    let dot = |p: &Triple| p[0] * direction[0] + p[1] * direction[1] + p[2] * direction[2];
    (points.iter().map(dot).min().unwrap(), points.iter().map(dot).max().unwrap())
}

/// How far apart triangle and cell are along each direction: above 0 it separates them, 0 is contact.
pub fn gaps(t: &Triangle, at: Triple) -> [i128; 13] {
    gaps_about(t, at, 256, 128)
}

/// The same with so many units to a cell's side, for a cube about the cell's centre that reaches so far to each side.
pub fn gaps_about(t: &Triangle, at: Triple, side: i128, reach: i128) -> [i128; 13] {
    let corner = |n: usize| [0, 1, 2].map(|a| side * at[a] + if n >> a & 1 == 0 { -reach } else { reach });
    let cube: [Triple; 8] = std::array::from_fn(corner);
    directions(t).map(|d| {
        let ((tl, th), (cl, ch)) = (span(&d, t), span(&d, &cube));
        (tl - ch).max(cl - th)
    })
}

pub fn candidates(t: &Triangle, axes: [u32; 3]) -> Vec<Triple> {
    let range = |a: usize| {
        let cells = [0, 1, 2].map(|v| cell(t[v][a]));
        let (least, greatest) = (cells.iter().min().unwrap(), cells.iter().max().unwrap());
        (least - 1).max(0)..(greatest + 1).min(axes[a] as i128)
    };
    let layer = |k| range(1).flat_map(move |j| range(0).map(move |i| [i, j, k]));
    range(2).flat_map(layer).collect()
}

/// The number of a cell.
pub fn number(at: Triple, axes: [u32; 3]) -> usize {
    let [r0, r1, _] = axes.map(|r| r as i128);
    (at[0] + at[1] * r0 + at[2] * r0 * r1) as usize
}

/// The numbers of the cells that each triangle has as candidates and touches, triangle by triangle, in a call that
/// is not refused.
pub fn touched(c: &Case) -> Vec<Vec<usize>> {
    let touches = |t: &Triangle, at: Triple| gaps(t, at).iter().all(|&g| g <= 0);
    let of = |t: &Triangle| {
        let cells = candidates(t, c.axes).into_iter().filter(|&at| touches(t, at));
        cells.map(|at| number(at, c.axes)).collect()
    };
    triangles(c).iter().map(of).collect()
}

/// A case with the origin at 0, scale 1, and a buffer that fits.
pub fn case(points: &[[f32; 3]], triangles: &[[u32; 3]], axes: [u32; 3]) -> Case {
    let (points, triangles, length) = (points.concat(), triangles.concat(), axes.iter().product::<u32>() as usize);
    Case { points, triangles, axes, origin: [0.0; 3], scale: 1.0, reciprocal: 1.0, length }
}

/// One triangle of its own three points.
pub fn single(t: [[f32; 3]; 3], axes: [u32; 3]) -> Case {
    case(&t, &[[0, 1, 2]], axes)
}

/// One triangle that is a point.
pub fn dot(p: [f32; 3], axes: [u32; 3]) -> Case {
    case(&[p], &[[0, 0, 0]], axes)
}

pub fn scaled(c: Case, scale: f32) -> Case {
    Case { scale, reciprocal: 1.0 / scale, ..c }
}

pub fn changed<T>(mut c: T, change: impl FnOnce(&mut T)) -> T {
    change(&mut c);
    c
}

/// The next f32 away from 0.
pub fn up(x: f32) -> f32 {
    f32::from_bits(x.to_bits() + 1)
}

/// The next f32 towards 0.
pub fn down(x: f32) -> f32 {
    f32::from_bits(x.to_bits() - 1)
}
