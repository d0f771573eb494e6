//! Public views of the items of `flat.rs`: this is their child module, so it reads what is private.

use crate::ico::Face;
use crate::Vector3;

pub fn cube_project(v: &[f64; 3]) -> (usize, f64, f64) {
    super::cube_project(v)
}

pub fn cube_face_project(v: [f64; 3], face_id: usize) -> (f64, f64, f64) {
    super::cube_face_project(v, face_id)
}

pub fn extract_faces(neighbors: &[Vec<u16>]) -> Vec<Face> {
    super::extract_faces(neighbors)
}

pub fn projected_barycentric(p: &Vector3, a: &Vector3, b: &Vector3, c: &Vector3) -> [f64; 3] {
    super::projected_barycentric(p, a, b, c)
}

pub fn bfs_vertex_permutation(neighbors: &[Vec<u16>]) -> Vec<usize> {
    super::bfs_vertex_permutation(neighbors)
}

pub fn apply_vertex_permutation<T: Copy>(
    perm: &[usize],
    vertices: &mut [[f64; 3]],
    neighbors: &mut [Vec<u16>],
    data: &mut [T],
    n_v: usize,
    entries_per_vertex: usize,
) {
    super::apply_vertex_permutation(perm, vertices, neighbors, data, n_v, entries_per_vertex)
}

pub struct FaceGrid(super::FaceGrid);

impl FaceGrid {
    pub fn new(vertices: &[[f64; 3]], neighbors: &[Vec<u16>]) -> Self {
        FaceGrid(super::FaceGrid::new(vertices, neighbors))
    }

    pub fn grid_size(&self) -> usize {
        self.0.grid_size
    }

    pub fn vtx_offsets(&self) -> &[u32] {
        &self.0.vtx_offsets
    }

    pub fn vertex_ids(&self) -> &[u16] {
        &self.0.vertex_ids
    }

    pub fn adj_offsets(&self) -> &[u32] {
        &self.0.adj_offsets
    }

    /// The vertex ids of each `CachedFace`, in stored order.
    pub fn adj_faces(&self) -> Vec<Face> {
        self.0.adj_faces.iter().map(|cached| cached.face).collect()
    }

    /// The cell of a direction that is normalised already.
    pub fn cell_index(&self, dir: &Vector3) -> usize {
        self.0.cell_index(dir)
    }

    pub fn locate(&self, dir: &Vector3) -> (Face, [f64; 3]) {
        self.0.locate(dir)
    }

    pub fn find_nearest_vertex(&self, dir: &Vector3) -> usize {
        self.0.find_nearest_vertex(dir)
    }

    pub fn pack(&self, words: &mut Vec<u32>, floats: &mut Vec<f32>) -> [u32; 7] {
        self.0.pack(words, floats)
    }
}
