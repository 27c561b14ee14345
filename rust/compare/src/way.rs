//! The whole way from points to list, on vessels: sizing, marks and pairs beside the f32 stand-in's, and from equal
//! surface cells on fills in all modes and the list with pairs, as the lifted crate gives them.

use crate::fill;
use crate::list::list_pairs;
use crate::marking::mark;
use crate::meshes;
use crate::sizing::{size, Way};
use crate::stand;
use crate::tally::Case;
use lifted::marks;
use lifted::models::{list, sizing};
use lifted::vessels::Mesh;

/// A way of sizing a mesh that gives about so many cells along the longest axis.
fn way(c: &mut Case, points: &[f32]) -> Way {
    let cells = c.rng.within(3, c.size.clamp(3, 254)) as u32;
    if c.rng.one_in(2) {
        return Way::Resolution(cells);
    }
    let d = lifted::sizing::local_point_cloud_aabb_ref(&sizing::vectors(points)).extents();
    Way::Size(d.x.max(d.y).max(d.z) / cells as f32)
}

/// The mesh on the grid that the lifted sizing lays, if it lays one.
fn laid((points, triangles): Mesh, way: Way) -> Option<marks::Case> {
    let sized = match way {
        Way::Size(size) => sizing::by_size(&points, size),
        Way::Resolution(r) => sizing::by_resolution(&points, r),
    };
    let v = sized.ok()?;
    let length = v.resolution.iter().product::<u32>() as usize;
    let origin = [v.origin.x, v.origin.y, v.origin.z];
    Some(marks::Case {
        points,
        triangles,
        axes: v.resolution,
        origin,
        scale: v.scale,
        reciprocal: 1.0 / v.scale,
        length,
    })
}

/// Whether the plain model of marking can be asked in a fraction of a second.
fn affordable(c: &marks::Case) -> bool {
    c.triangles.len() / 3 <= 800 && c.length <= 20_000
}

/// The list with pairs of a filled map, from the pairs as they are to be.
fn listed(c: &mut Case, mesh: marks::Case, labels: Vec<u8>, pairs: &[(u32, u32)]) {
    let to_be = list::converted(mesh.axes, &labels, pairs);
    let more = [0, 0, 1, 6, 100];
    let (records, room) = (6 * to_be.records.len() + c.rng.pick(&more), to_be.list.len() + c.rng.pick(&more));
    let lent = list::Lent { mesh, labels, records, list: room };
    list_pairs(c.tally, &lent, Ok(to_be));
}

pub fn case(c: &mut Case) {
    let most = c.rng.pick(&[8, 16, c.size]).min(c.size);
    let (kind, mesh) = meshes::vessel(&mut c.rng, most);
    let way = way(c, &mesh.0);
    size(c.tally, &mesh.0, way);
    let Some(mesh) = laid(mesh, way) else { return };
    let Some(labels) = mark(c.tally, &mesh, affordable(&mesh)) else { return };
    let (points, triangles) = (mesh.points.len() / 3, mesh.triangles.len() / 3);
    let input = || format!("{kind} of {points} points and {triangles} triangles, {way:?}, axes {:?}", mesh.axes);
    let pairs = stand::compare(c.tally, kind, &mesh, &labels, input);
    fill::compare(c.tally, mesh.axes, &labels);
    let filled = fill::lifted(mesh.axes, &labels, c.rng.below(3));
    listed(c, mesh, filled, &pairs);
}
