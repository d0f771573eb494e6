//! Meshes that their rows refuse, and words to see that a refused call leaves slices as they were.

use koshirga::MeshData;

use super::lists::mesh;

/// A refusal's number and index.
pub type Row = (u32, Option<usize>);

/// The mesh's rows in their order, each with a mesh that has what the later ones are refused for.
pub fn meshes() -> [(MeshData, Row); 6] {
    let no_neighbors: &[u16] = &[];
    let starts = |starts: [u32; 6]| MeshData {
        starts: starts.to_vec(),
        entries: vec![5; 39],
        ..mesh(&[no_neighbors; 5])
    };
    let no_start = MeshData {
        starts: vec![],
        ..starts([1, 3, 2, 36, 36, 39])
    };
    let no_vertex = MeshData {
        positions: vec![],
        ..no_start.clone()
    };
    [
        (no_vertex, (2, None)),
        (no_start, (3, None)),
        (starts([1, 3, 2, 36, 36, 39]), (17, None)),
        (starts([0, 3, 2, 36, 36, 39]), (18, Some(2))),
        (starts([0, 2, 2, 36, 36, 39]), (3, None)),
        (starts([0, 2, 2, 30, 36, 39]), (4, None)),
    ]
}

/// Words of which no two are equal.
pub fn lent(places: usize) -> Vec<u32> {
    (0..places as u32).map(|at| 0xa500_0000 | at).collect()
}
