//! The Rust that Koshirga is compared with: mlund/icotable's lattice and grid, compiled from
//! source that the build script finds, with their private items readable.
//!
//! Written here, and not the source's: [`Vector3`] (nalgebra's part), the twelve points as
//! constants, and stand-ins for `MeshData` and `solid_angle_weights`.

#[cfg(debug_assertions)]
compile_error!("the oracle is a release build: pass --release");

mod points;
mod vector;

pub use flat::access::{
    apply_vertex_permutation, bfs_vertex_permutation, cube_face_project, cube_project,
    extract_faces, projected_barycentric, FaceGrid,
};
pub use ico::Face;
pub use points::{icosahedron_points, POINTS};
pub use subdivision::lattice::access::{
    computed_icosahedron_points, lattice_geometry, tri_index, AnalyticLattice, LatticeGeometry,
    MasterFace, FACE_MAPPING, FACE_VERTICES,
};
pub use vector::Vector3;

include!(concat!(env!("OUT_DIR"), "/flat_module.rs"));

mod ico {
    /// Three vertex ids.
    pub type Face = [usize; 3];
}

mod subdivision {
    include!(concat!(env!("OUT_DIR"), "/lattice_module.rs"));

    /// Stand-in: what `build_mesh` of the lattice returns.
    #[allow(dead_code)]
    pub(crate) struct MeshData {
        pub vertices: Vec<[f64; 3]>,
        pub weights: Vec<f64>,
        pub neighbors: Vec<Vec<u16>>,
    }

    /// Stand-in: the solid-angle weights are not compared.
    pub(crate) fn solid_angle_weights(_: &[[f64; 3]], _: &[Vec<u16>]) -> Vec<f64> {
        Vec::new()
    }
}
