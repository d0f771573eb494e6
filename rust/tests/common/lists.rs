//! Meshes by their neighbour lists.

use koshirga::MeshData;

/// A mesh from outside with these neighbour lists: unmarked.
pub fn mesh(lists: &[&[u16]]) -> MeshData {
    let mut starts = vec![0];
    starts.extend(lists.iter().scan(0, |end, list| {
        *end += list.len() as u32;
        Some(*end)
    }));
    MeshData {
        positions: (0..lists.len())
            .flat_map(|id| [1.0, id as f64, 1.0])
            .collect(),
        starts,
        entries: lists.concat(),
        lists_ascend: false,
    }
}
