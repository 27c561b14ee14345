// From parry3d 0.30.2, src/transformation/voxelization/voxelized_volume.rs: `do_voxelize` up to its `match fill_mode`,
// as `do_mark`. Changed and added lines end with `// touched`. Left out: the doc comments, the `cfg` attributes and the
// 2D arms under them, the `use` lines, and `detect_self_intersections`, which is false in 3D. The crate's test of a
// triangle against a box is not in the supplied text: `stand_in_triangle_test` is a plain one in its place, and nothing
// of the crate. `with_voxel_size` and `voxelize` are the whole way, from sizing.rs over `do_mark` to `fill`.
//
// Rust port, with modifications, of https://github.com/kmammou/v-hacd/blob/master/src/VHACD_Lib/src/vhacdVolume.cpp
// By Khaled Mamou
//
// # License of the original C++ code:
// > Copyright (c) 2011 Khaled Mamou (kmamou at gmail dot com)
// > All rights reserved.
// >
// >
// > Redistribution and use in source and binary forms, with or without modification, are permitted provided that the following conditions are met:
// >
// > 1. Redistributions of source code must retain the above copyright notice, this list of conditions and the following disclaimer.
// >
// > 2. Redistributions in binary form must reproduce the above copyright notice, this list of conditions and the following disclaimer in the documentation and/or other materials provided with the distribution.
// >
// > 3. The names of the contributors may not be used to endorse or promote products derived from this software without specific prior written permission.
// >
// > THIS SOFTWARE IS PROVIDED BY THE COPYRIGHT HOLDERS AND CONTRIBUTORS "AS IS" AND ANY EXPRESS OR IMPLIED WARRANTIES, INCLUDING, BUT NOT LIMITED TO, THE IMPLIED WARRANTIES OF MERCHANTABILITY AND FITNESS FOR A PARTICULAR PURPOSE ARE DISCLAIMED. IN NO EVENT SHALL THE COPYRIGHT HOLDER OR CONTRIBUTORS BE LIABLE FOR ANY DIRECT, INDIRECT, INCIDENTAL, SPECIAL, EXEMPLARY, OR CONSEQUENTIAL DAMAGES (INCLUDING, BUT NOT LIMITED TO, PROCUREMENT OF SUBSTITUTE GOODS OR SERVICES; LOSS OF USE, DATA, OR PROFITS; OR BUSINESS INTERRUPTION) HOWEVER CAUSED AND ON ANY THEORY OF LIABILITY, WHETHER IN CONTRACT, STRICT LIABILITY, OR TORT (INCLUDING NEGLIGENCE OR OTHERWISE) ARISING IN ANY WAY OUT OF THE USE OF THIS SOFTWARE, EVEN IF ADVISED OF THE POSSIBILITY OF SUCH DAMAGE.

use crate::fill::{FillMode, VoxelValue, VoxelizedVolume}; // touched
use crate::list::{IVector, Int}; // touched
use crate::sizing::{self, Aabb, Real, Vector, DIM}; // touched

impl VoxelizedVolume {
    pub fn from_sizing(sized: sizing::VoxelizedVolume) -> Self { // touched: a grid without labels
        VoxelizedVolume { // touched
            origin: sized.origin, // touched
            scale: sized.scale, // touched
            resolution: sized.resolution, // touched
            values: Vec::new(),
            data: Vec::new(),
            primitive_intersections: Vec::new(),
            scans: 0, // touched
        } // touched
    } // touched

    pub fn with_voxel_size(
        points: &[Vector],
        indices: &[[u32; DIM]],
        voxel_size: Real,
        fill_mode: FillMode,
        keep_voxel_to_primitives_map: bool,
    ) -> Self {
        let mut result = Self::from_sizing(sizing::VoxelizedVolume::with_voxel_size(points, voxel_size)); // touched
        result.do_mark(points, indices, keep_voxel_to_primitives_map); // touched: do_voxelize in two
        result.fill(fill_mode); // touched
        result
    }

    pub fn voxelize(
        points: &[Vector],
        indices: &[[u32; DIM]],
        resolution: u32,
        fill_mode: FillMode,
        keep_voxel_to_primitives_map: bool,
    ) -> Self {
        let mut result = Self::from_sizing(sizing::VoxelizedVolume::voxelize(points, resolution)); // touched
        result.do_mark(points, indices, keep_voxel_to_primitives_map); // touched: do_voxelize in two
        result.fill(fill_mode); // touched
        result
    }

    pub fn do_mark( // touched: the name, and pub
        &mut self,
        points: &[Vector],
        indices: &[[u32; DIM]], // touched: no fill_mode
        keep_voxel_to_primitives_map: bool,
    ) {
        let inv_scale = 1.0 / self.scale;
        self.allocate();

        let mut tri_pts = [Vector::ZERO; DIM];
        let box_half_size = Vector::splat(0.5);
        let mut ijk0 = IVector::ZERO;
        let mut ijk1 = IVector::ZERO;

        for (tri_id, tri) in indices.iter().enumerate() {
            // Find the range of voxels potentially intersecting the triangle.
            for c in 0..DIM {
                let pt = points[tri[c] as usize];
                tri_pts[c] = (pt - self.origin) * inv_scale;

                let i = (tri_pts[c].x + 0.5) as Int;
                let j = (tri_pts[c].y + 0.5) as Int;
                let k = (tri_pts[c].z + 0.5) as Int;

                assert!((i as u32) < self.resolution[0] && (j as u32) < self.resolution[1]);
                assert!((k as u32) < self.resolution[2]);

                let ijk = IVector::new(i, j, k);

                if c == 0 {
                    ijk0 = ijk;
                    ijk1 = ijk;
                } else {
                    ijk0 = ijk0.min(ijk);
                    ijk1 = ijk1.max(ijk);
                }
            }

            ijk0 = (ijk0 - IVector::ONE).max(IVector::ZERO);
            let resolution_vec = IVector::new(
                self.resolution[0] as Int,
                self.resolution[1] as Int,
                self.resolution[2] as Int,
            );
            ijk1 = (ijk1 + IVector::ONE).min(resolution_vec);

            let range_k = ijk0.z..ijk1.z;

            // Determine exactly what voxel intersect the triangle.
            for i in ijk0.x..ijk1.x {
                for j in ijk0.y..ijk1.y {
                    for k in range_k.clone() {
                        let pt = Vector::new(i as Real, j as Real, k as Real);

                        let id = self.voxel_index(i as u32, j as u32, k as u32);
                        let value = &mut self.values[id as usize];
                        let data = &mut self.data[id as usize];

                        if keep_voxel_to_primitives_map // touched: no detect_self_intersections
                            || *value == VoxelValue::PrimitiveUndefined
                        {
                            let aabb = Aabb::from_half_extents(pt, box_half_size);

                            {
                                let intersect = stand_in_triangle_test(&aabb, &tri_pts); // touched

                                if intersect {
                                    *value = VoxelValue::PrimitiveOnSurface;

                                    if keep_voxel_to_primitives_map {
                                        data.num_primitive_intersections += 1;
                                        self.primitive_intersections.push((id, tri_id as u32));
                                    }
                                }
                            };
                        }
                    }
                }
            }
        }
    }
}

/// Stands in for the crate's test of a triangle against a box, which is not in the supplied text: whether none of thirteen
/// directions parts them, in plain f32. The directions are the three axes, the triangle's normal, and the nine products
/// of an edge with an axis; contact is no separation, as document 01 has it.
pub fn stand_in_triangle_test(aabb: &Aabb, tri_pts: &[Vector; DIM]) -> bool {
    let center = aabb.center();
    let half = aabb.half_extents();
    let [a, b, c] = [tri_pts[0] - center, tri_pts[1] - center, tri_pts[2] - center];
    if parts(a.x, b.x, c.x, half.x) || parts(a.y, b.y, c.y, half.y) || parts(a.z, b.z, c.z, half.z) {
        return false;
    }
    let along = |d: Vector| parts(d.dot(a), d.dot(b), d.dot(c), reach(half, d));
    let edges = [b - a, c - b, a - c];
    if along(edges[0].cross(edges[1])) {
        return false;
    }
    for e in edges {
        if along(Vector::new(0.0, -e.z, e.y)) || along(Vector::new(e.z, 0.0, -e.x)) || along(Vector::new(-e.y, e.x, 0.0)) {
            return false;
        }
    }
    true
}

/// Whether three projections all lie above or all below those of a box about 0, which reach this far to either side.
fn parts(a: Real, b: Real, c: Real, reach: Real) -> bool {
    a.min(b).min(c) > reach || a.max(b).max(c) < -reach
}

/// How far the projections of a box about 0 reach.
fn reach(half: Vector, d: Vector) -> Real {
    half.x * d.x.abs() + half.y * d.y.abs() + half.z * d.z.abs()
}

#[cfg(test)]
mod tests {
    use super::*;
    use crate::list::VoxelSet;

    /// Document 01's sample of points and triangles, by the whole way.
    #[test]
    fn sample() {
        let points = [Vector::ZERO, Vector::splat(2.0), Vector::new(0.5, 0.0, 0.0)];
        let flood = FillMode::FloodFill { detect_cavities: false };
        let volume = VoxelizedVolume::with_voxel_size(&points, &[[2, 2, 2], [0, 0, 0]], 1.0, flood, true);
        assert_eq!((volume.resolution, volume.scans), ([3, 3, 3], 2));
        let list = VoxelSet::from(volume);
        let cells: Vec<_> = list.voxels.iter().map(|v| (v.coords, v.intersections_range)).collect();
        assert_eq!(cells, [(IVector::ZERO, (0, 2)), (IVector::new(1, 0, 0), (2, 3))]);
        assert_eq!(*list.intersections, [0, 1, 0]);
    }

    /// Triangles that only the normal, and only a product of an edge with an axis, part from a cell.
    #[test]
    fn apart() {
        let cell = Aabb::from_half_extents(Vector::ZERO, Vector::splat(0.5));
        let corner = |x: Real| [Vector::new(x, 0.0, 0.0), Vector::new(0.0, x, 0.0), Vector::new(0.0, 0.0, x)];
        assert!(stand_in_triangle_test(&cell, &corner(1.5)));
        assert!(!stand_in_triangle_test(&cell, &corner(1.5001)));
        let flat = |x: Real| [Vector::new(x, 0.0, 0.0), Vector::new(0.0, x, 0.0), Vector::new(x, x, 0.0)];
        assert!(stand_in_triangle_test(&cell, &flat(1.0)));
        assert!(!stand_in_triangle_test(&cell, &flat(1.0001)));
    }
}
