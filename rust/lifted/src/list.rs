// From parry3d 0.30.2, src/transformation/voxelization/voxelized_volume.rs: `impl From<VoxelizedVolume> for VoxelSet`.
// Changed and added lines end with `// touched`. Left out: the `cfg` attributes and the 2D arms under them, and the
// `use` lines. `Voxel`, `VoxelSet` and the vector of whole numbers are not in the supplied text: stand-ins, with what
// the lifted code asks of them. The crate's labels and pairs come from triangles; here `from_labels` sets them.
//
// Rust port, with modifications, of https://github.com/kmammou/v-hacd/blob/master/src/VHACD_Lib/src/vhacdVolume.cpp
// By Khaled Mamou
//
// # License of the original C++ code:
// > Copyright (c) 2011 Khaled Mamou (kmamou at gmail dot com)
// > All rights reserved.
// >
// >
// > Redistribution and use in source and binary forms, with or without modification, are permitted provided that the following conditions are met:
// >
// > 1. Redistributions of source code must retain the above copyright notice, this list of conditions and the following disclaimer.
// >
// > 2. Redistributions in binary form must reproduce the above copyright notice, this list of conditions and the following disclaimer in the documentation and/or other materials provided with the distribution.
// >
// > 3. The names of the contributors may not be used to endorse or promote products derived from this software without specific prior written permission.
// >
// > THIS SOFTWARE IS PROVIDED BY THE COPYRIGHT HOLDERS AND CONTRIBUTORS "AS IS" AND ANY EXPRESS OR IMPLIED WARRANTIES, INCLUDING, BUT NOT LIMITED TO, THE IMPLIED WARRANTIES OF MERCHANTABILITY AND FITNESS FOR A PARTICULAR PURPOSE ARE DISCLAIMED. IN NO EVENT SHALL THE COPYRIGHT HOLDER OR CONTRIBUTORS BE LIABLE FOR ANY DIRECT, INDIRECT, INCIDENTAL, SPECIAL, EXEMPLARY, OR CONSEQUENTIAL DAMAGES (INCLUDING, BUT NOT LIMITED TO, PROCUREMENT OF SUBSTITUTE GOODS OR SERVICES; LOSS OF USE, DATA, OR PROFITS; OR BUSINESS INTERRUPTION) HOWEVER CAUSED AND ON ANY THEORY OF LIABILITY, WHETHER IN CONTRACT, STRICT LIABILITY, OR TORT (INCLUDING NEGLIGENCE OR OTHERWISE) ARISING IN ANY WAY OUT OF THE USE OF THIS SOFTWARE, EVEN IF ADVISED OF THE POSSIBILITY OF SUCH DAMAGE.

use crate::fill::{VoxelValue, VoxelizedVolume}; // touched
use crate::sizing::{Real, Vector, DIM}; // touched
use std::sync::Arc; // touched

pub type Int = i32;

/// A stand-in for the crate's vector of whole numbers, which is not in the supplied text: componentwise, as there.
#[derive(Clone, Copy, Debug, PartialEq, Eq)]
pub struct IVector {
    pub x: Int,
    pub y: Int,
    pub z: Int,
}

impl IVector {
    pub const ZERO: IVector = IVector { x: 0, y: 0, z: 0 };
    pub const ONE: IVector = IVector { x: 1, y: 1, z: 1 };

    pub fn new(x: Int, y: Int, z: Int) -> IVector {
        IVector { x, y, z }
    }

    pub fn min(self, o: IVector) -> IVector {
        IVector { x: self.x.min(o.x), y: self.y.min(o.y), z: self.z.min(o.z) }
    }

    pub fn max(self, o: IVector) -> IVector {
        IVector { x: self.x.max(o.x), y: self.y.max(o.y), z: self.z.max(o.z) }
    }
}

impl core::ops::Index<usize> for IVector {
    type Output = Int;
    fn index(&self, i: usize) -> &Int {
        [&self.x, &self.y, &self.z][i]
    }
}

impl core::ops::Add for IVector {
    type Output = IVector;
    fn add(self, o: IVector) -> IVector {
        IVector { x: self.x + o.x, y: self.y + o.y, z: self.z + o.z }
    }
}

impl core::ops::Sub for IVector {
    type Output = IVector;
    fn sub(self, o: IVector) -> IVector {
        IVector { x: self.x - o.x, y: self.y - o.y, z: self.z - o.z }
    }
}

/// A stand-in for the crate's listed cell.
#[derive(Clone, Copy, Debug)]
pub struct Voxel {
    pub coords: IVector,
    pub is_on_surface: bool,
    pub intersections_range: (usize, usize),
}

/// A stand-in for the crate's list of cells. The least and the greatest coordinates are set from outside.
#[derive(Clone)]
pub struct VoxelSet {
    pub origin: Vector,
    pub scale: Real,
    pub voxels: Vec<Voxel>,
    pub intersections: Arc<Vec<u32>>,
    pub min_bb: IVector,
    pub max_bb: IVector,
}

impl VoxelSet {
    pub fn new() -> VoxelSet {
        VoxelSet {
            origin: Vector::ZERO,
            scale: 1.0,
            voxels: Vec::new(),
            intersections: Arc::new(Vec::new()),
            min_bb: IVector::ZERO,
            max_bb: IVector::ZERO,
        }
    }

    pub fn min_bb_voxels(&self) -> IVector {
        self.min_bb
    }

    pub fn max_bb_voxels(&self) -> IVector {
        self.max_bb
    }
}

impl Default for VoxelSet {
    fn default() -> VoxelSet {
        VoxelSet::new()
    }
}

impl VoxelizedVolume { // touched
    pub fn from_labels(resolution: [u32; DIM], labels: &[u8], pairs: &[(u32, u32)]) -> Self { // touched: 0 to 8
        let mut result = VoxelizedVolume::from_marks(resolution, |_| false); // touched
        for (value, &label) in result.values.iter_mut().zip(labels) { // touched
            *value = label_value(label); // touched
        } // touched
        for &(id, tri_id) in pairs { // touched
            let data = &mut result.data[id as usize]; // touched
            data.num_primitive_intersections += 1;
            result.primitive_intersections.push((id, tri_id)); // touched: result, and tri_id is a u32
        } // touched
        result // touched
    } // touched
} // touched

pub fn label_value(label: u8) -> VoxelValue { // touched
    VALUES[label as usize] // touched
} // touched

const VALUES: [VoxelValue; 9] = [ // touched
    VoxelValue::PrimitiveUndefined, // touched
    VoxelValue::PrimitiveOutsideSurfaceToWalk, // touched
    VoxelValue::PrimitiveInsideSurfaceToWalk, // touched
    VoxelValue::PrimitiveOnSurfaceNoWalk, // touched
    VoxelValue::PrimitiveOnSurfaceToWalk1, // touched
    VoxelValue::PrimitiveOnSurfaceToWalk2, // touched
    VoxelValue::PrimitiveOutsideSurface, // touched
    VoxelValue::PrimitiveInsideSurface, // touched
    VoxelValue::PrimitiveOnSurface, // touched
]; // touched

impl From<VoxelizedVolume> for VoxelSet {
    fn from(mut shape: VoxelizedVolume) -> Self {
        let mut curr_intersection_index = 0;
        let mut vset = VoxelSet::new();
        let mut vset_intersections = Vec::new();
        vset.origin = shape.origin;
        vset.scale = shape.scale;

        let k1 = shape.resolution[2];

        for i in 0..shape.resolution[0] {
            for j in 0..shape.resolution[1] {
                for k in 0..k1 {
                    let id = shape.voxel_index(i, j, k) as usize;
                    let value = shape.values[id];
                    let coords = IVector::new(i as Int, j as Int, k as Int);

                    if value == VoxelValue::PrimitiveInsideSurface {
                        let voxel = Voxel {
                            coords,
                            is_on_surface: false,
                            intersections_range: (curr_intersection_index, curr_intersection_index),
                        };
                        vset.voxels.push(voxel);
                    } else if value == VoxelValue::PrimitiveOnSurface {
                        let mut voxel = Voxel {
                            coords,
                            is_on_surface: true,
                            intersections_range: (curr_intersection_index, curr_intersection_index),
                        };

                        if !shape.primitive_intersections.is_empty() {
                            let num_intersections =
                                shape.data[id].num_primitive_intersections as usize;
                            // We store the index where we should write the intersection on the
                            // vset into num_primitive_intersections. That way we can reuse it
                            // afterwards when copying the set of intersection into a single
                            // flat Vec.
                            shape.data[id].num_primitive_intersections =
                                curr_intersection_index as u32;
                            curr_intersection_index += num_intersections;
                            voxel.intersections_range.1 = curr_intersection_index;
                        }

                        vset.voxels.push(voxel);
                    }
                }
            }
        }

        if !shape.primitive_intersections.is_empty() {
            vset_intersections.resize(shape.primitive_intersections.len(), 0);
            for (voxel_id, prim_id) in shape.primitive_intersections {
                let num_inter = &mut shape.data[voxel_id as usize].num_primitive_intersections;
                vset_intersections[*num_inter as usize] = prim_id;
                *num_inter += 1;
            }
        }

        vset.intersections = Arc::new(vset_intersections);

        vset
    }
}
