//! Public views of `lattice.rs`: this is its child module, so it reads the private items.

use crate::ico::Face;
use crate::Vector3;

pub const FACE_VERTICES: [[usize; 3]; 20] = super::FACE_VERTICES;
pub const FACE_MAPPING: [[[[usize; 4]; 2]; 2]; 2] = super::FACE_MAPPING;

/// What the source's own `icosahedron_points` works out on this machine.
pub fn computed_icosahedron_points() -> Vec<Vector3> {
    super::computed_icosahedron_points()
}

pub fn tri_index(n: usize, a: usize, b: usize) -> usize {
    super::tri_index(n, a, b)
}

pub struct LatticeGeometry {
    pub vertices: Vec<[f64; 3]>,
    pub face_ids: Vec<Vec<u32>>,
    pub neighbors: Vec<Vec<u16>>,
}

pub fn lattice_geometry(n: usize) -> LatticeGeometry {
    let super::LatticeGeometry {
        vertices,
        face_ids,
        neighbors,
    } = super::lattice_geometry(n);
    LatticeGeometry {
        vertices,
        face_ids,
        neighbors,
    }
}

pub struct MasterFace {
    pub index: usize,
    pub corners: [Vector3; 3],
    pub normal: Vector3,
    pub plane_offset: f64,
    pub edge_planes: [Vector3; 3],
    pub v0: Vector3,
    pub v1: Vector3,
    pub d00: f64,
    pub d01: f64,
    pub d11: f64,
    pub inv_denom: f64,
}

impl From<&super::MasterFace> for MasterFace {
    fn from(face: &super::MasterFace) -> Self {
        MasterFace {
            index: face.index,
            corners: [face.p1, face.p2, face.p3],
            normal: face.normal,
            plane_offset: face.plane_offset,
            edge_planes: face.edge_planes,
            v0: face.v0,
            v1: face.v1,
            d00: face.d00,
            d01: face.d01,
            d11: face.d11,
            inv_denom: face.inv_denom,
        }
    }
}

pub struct AnalyticLattice(super::AnalyticLattice);

impl AnalyticLattice {
    pub fn new(n: usize) -> Self {
        AnalyticLattice(super::AnalyticLattice::new(n))
    }

    pub fn faces(&self) -> Vec<MasterFace> {
        self.0.faces.iter().map(MasterFace::from).collect()
    }

    pub fn symmetry_planes(&self) -> [Vector3; 3] {
        self.0.symmetry_planes
    }

    /// Number of the master face chosen for `p`; panics where the flags weigh more than 3.
    pub fn master_face(&self, p: &Vector3) -> usize {
        self.0.master_face(p).index
    }

    pub fn locate(&self, dir: &Vector3) -> (Face, [f64; 3]) {
        self.0.locate(dir)
    }

    pub fn find_nearest_vertex(&self, dir: &Vector3) -> usize {
        self.0.find_nearest_vertex(dir)
    }
}
