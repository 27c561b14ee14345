// From parry3d 0.30.2, src/transformation/voxelization/voxelized_volume.rs, `with_voxel_size` and
// `voxelize` up to the call of `do_voxelize`. Changed lines end with `// touched`. Left out: the doc comments,
// the `cfg` attributes and the 2D arms under them, and the fields `values`, `data` and `primitive_intersections`.
//
// Rust port, with modifications, of https://github.com/kmammou/v-hacd/blob/master/src/VHACD_Lib/src/vhacdVolume.cpp
// By Khaled Mamou
//
// # License of the original C++ code:
// > Copyright (c) 2011 Khaled Mamou (kmamou at gmail dot com)
// > All rights reserved.
// >
// >
// > Redistribution and use in source and binary forms, with or without modification, are permitted provided that the following conditions are met:
// >
// > 1. Redistributions of source code must retain the above copyright notice, this list of conditions and the following disclaimer.
// >
// > 2. Redistributions in binary form must reproduce the above copyright notice, this list of conditions and the following disclaimer in the documentation and/or other materials provided with the distribution.
// >
// > 3. The names of the contributors may not be used to endorse or promote products derived from this software without specific prior written permission.
// >
// > THIS SOFTWARE IS PROVIDED BY THE COPYRIGHT HOLDERS AND CONTRIBUTORS "AS IS" AND ANY EXPRESS OR IMPLIED WARRANTIES, INCLUDING, BUT NOT LIMITED TO, THE IMPLIED WARRANTIES OF MERCHANTABILITY AND FITNESS FOR A PARTICULAR PURPOSE ARE DISCLAIMED. IN NO EVENT SHALL THE COPYRIGHT HOLDER OR CONTRIBUTORS BE LIABLE FOR ANY DIRECT, INDIRECT, INCIDENTAL, SPECIAL, EXEMPLARY, OR CONSEQUENTIAL DAMAGES (INCLUDING, BUT NOT LIMITED TO, PROCUREMENT OF SUBSTITUTE GOODS OR SERVICES; LOSS OF USE, DATA, OR PROFITS; OR BUSINESS INTERRUPTION) HOWEVER CAUSED AND ON ANY THEORY OF LIABILITY, WHETHER IN CONTRACT, STRICT LIABILITY, OR TORT (INCLUDING NEGLIGENCE OR OTHERWISE) ARISING IN ANY WAY OUT OF THE USE OF THIS SOFTWARE, EVEN IF ADVISED OF THE POSSIBILITY OF SUCH DAMAGE.

pub type Real = f32;
pub const DIM: usize = 3;

/// A stand-in for the crate's vector type, which is not in the supplied text: componentwise, as there.
#[derive(Clone, Copy, Debug)]
pub struct Vector {
    pub x: Real,
    pub y: Real,
    pub z: Real,
}

impl Vector {
    pub const ZERO: Vector = Vector { x: 0.0, y: 0.0, z: 0.0 };

    pub fn new(x: Real, y: Real, z: Real) -> Vector {
        Vector { x, y, z }
    }

    pub fn splat(value: Real) -> Vector {
        Vector { x: value, y: value, z: value }
    }

    /// All components 0, save component i.
    pub fn ith(i: usize, value: Real) -> Vector {
        let at = |a: usize| if a == i { value } else { 0.0 };
        Vector { x: at(0), y: at(1), z: at(2) }
    }

    pub fn dot(self, o: Vector) -> Real {
        (self.x * o.x) + (self.y * o.y) + (self.z * o.z)
    }

    pub fn cross(self, o: Vector) -> Vector {
        Vector { x: self.y * o.z - self.z * o.y, y: self.z * o.x - self.x * o.z, z: self.x * o.y - self.y * o.x }
    }
}

impl core::ops::Index<usize> for Vector {
    type Output = Real;
    fn index(&self, i: usize) -> &Real {
        [&self.x, &self.y, &self.z][i]
    }
}

impl core::ops::Add for Vector {
    type Output = Vector;
    fn add(self, o: Vector) -> Vector {
        Vector { x: self.x + o.x, y: self.y + o.y, z: self.z + o.z }
    }
}

impl core::ops::Add<&Vector> for Vector {
    type Output = Vector;
    fn add(self, o: &Vector) -> Vector {
        self + *o
    }
}

impl core::ops::Sub for Vector {
    type Output = Vector;
    fn sub(self, o: Vector) -> Vector {
        Vector { x: self.x - o.x, y: self.y - o.y, z: self.z - o.z }
    }
}

impl core::ops::Mul<Real> for Vector {
    type Output = Vector;
    fn mul(self, s: Real) -> Vector {
        Vector { x: self.x * s, y: self.y * s, z: self.z * s }
    }
}

impl core::ops::Div<Real> for Vector {
    type Output = Vector;
    fn div(self, s: Real) -> Vector {
        Vector { x: self.x / s, y: self.y / s, z: self.z / s }
    }
}

pub struct Aabb {
    pub mins: Vector,
    pub maxs: Vector,
}

impl Aabb {
    pub fn from_half_extents(center: Vector, half_extents: Vector) -> Aabb {
        Aabb { mins: center - half_extents, maxs: center + half_extents }
    }

    pub fn center(&self) -> Vector {
        (self.mins + self.maxs) * 0.5
    }

    pub fn half_extents(&self) -> Vector {
        (self.maxs - self.mins) * 0.5
    }

    pub fn extents(&self) -> Vector {
        self.maxs - self.mins
    }
}

/// A stand-in for the crate's box helper over points, which is not in the supplied text. Of equal values
/// the earliest point's bits are kept, as document 01 says.
pub fn local_point_cloud_aabb_ref(points: &[Vector]) -> Aabb {
    let keep = |better: fn(Real, Real) -> bool, axis: usize| {
        points.iter().skip(1).fold(points[0][axis], |a, p| if better(p[axis], a) { p[axis] } else { a })
    };
    let all = |better: fn(Real, Real) -> bool| Vector { x: keep(better, 0), y: keep(better, 1), z: keep(better, 2) };
    Aabb { mins: all(|a, b| a < b), maxs: all(|a, b| a > b) }
}

pub struct VoxelizedVolume {
    pub origin: Vector, // touched: pub
    pub scale: Real, // touched: pub
    pub resolution: [u32; DIM], // touched: pub, and no values, data or primitive_intersections
}

impl VoxelizedVolume {
    pub fn with_voxel_size(
        points: &[Vector],
        voxel_size: Real, // touched: no indices, fill_mode or keep_voxel_to_primitives_map
    ) -> Self {
        let mut result = VoxelizedVolume {
            resolution: [0; DIM],
            origin: Vector::ZERO,
            scale: voxel_size,
        };

        if points.is_empty() {
            return result;
        }

        let aabb = local_point_cloud_aabb_ref(points); // touched: the path
        result.origin = aabb.mins;
        let extents = aabb.extents() / voxel_size;
        {
            result.resolution = [
                (extents.x.ceil() as u32).max(2) + 1,
                (extents.y.ceil() as u32).max(2) + 1,
                (extents.z.ceil() as u32).max(2) + 1,
            ];
        }

        result // touched: no do_voxelize
    }

    pub fn voxelize(
        points: &[Vector],
        resolution: u32, // touched: no indices, fill_mode or keep_voxel_to_primitives_map
    ) -> Self {
        let mut result = VoxelizedVolume {
            resolution: [0; DIM],
            origin: Vector::ZERO,
            scale: 1.0,
        };

        if points.is_empty() {
            return result;
        }

        let aabb = local_point_cloud_aabb_ref(points); // touched: the path
        result.origin = aabb.mins;

        let d = aabb.maxs - aabb.mins;
        let r;

        if d[0] >= d[1] && d[0] >= d[2] {
            r = d[0];
            result.resolution[0] = resolution;
            result.resolution[1] = 2 + (resolution as Real * d[1] / d[0]) as u32;
            result.resolution[2] = 2 + (resolution as Real * d[2] / d[0]) as u32;
        } else if d[1] >= d[0] && d[1] >= d[2] {
            r = d[1];
            result.resolution[1] = resolution;
            result.resolution[0] = 2 + (resolution as Real * d[0] / d[1]) as u32;
            result.resolution[2] = 2 + (resolution as Real * d[2] / d[1]) as u32;
        } else {
            r = d[2];
            result.resolution[2] = resolution;
            result.resolution[0] = 2 + (resolution as Real * d[0] / d[2]) as u32;
            result.resolution[1] = 2 + (resolution as Real * d[1] / d[2]) as u32;
        }

        result.scale = r / (resolution as Real - 1.0);
        result // touched: no do_voxelize
    }
}
