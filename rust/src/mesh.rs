//! The walks over a mesh, steps between its vertices, its renumbering, and the mark that its lists
//! ascend.

use crate::{ffi, Refusal, Vector3};

/// A mesh: vertices and their neighbour lists. It is lent without its mark, as no outcome of the
/// calls that take it depends on that.
#[derive(Clone, Copy, Debug)]
pub struct Mesh<'a> {
    /// Three coordinates a vertex.
    pub positions: &'a [f64],
    /// Where each neighbour list starts: one more than vertices, the last the entry count.
    pub starts: &'a [u32],
    /// The neighbour lists, one behind another.
    pub entries: &'a [u16],
}

/// A mesh lent for writing.
#[derive(Debug)]
pub struct MeshMut<'a> {
    /// Three coordinates a vertex.
    pub positions: &'a mut [f64],
    /// Where each neighbour list starts.
    pub starts: &'a mut [u32],
    /// The neighbour lists, one behind another.
    pub entries: &'a mut [u16],
    /// The mark: see [`MeshData::lists_ascend`]. An accepted call sets it, and a refused one leaves
    /// it as it was.
    pub lists_ascend: &'a mut bool,
}

/// Scratch of a renumbering: each slice as long as the longest list of mesh, data and permutation.
/// What an accepted call leaves in it is free.
#[derive(Debug)]
pub struct Scratch<'a> {
    /// The permutation's inverse.
    pub sources: &'a mut [u32],
    /// The starts before.
    pub old_starts: &'a mut [u32],
    /// The entries before.
    pub old_entries: &'a mut [u16],
    /// Which vertices are moved already.
    pub done: &'a mut [u8],
    /// What a cycle's walk carries.
    pub held: &'a mut [f64],
}

/// The walk, breadth first from vertex 0, lists in stored order: `order` gets the new id at each
/// old one, `queue` the old ids in that order. Gives the count of entries read.
///
/// Rows 2, 3, 17, 18, 3, 4 and 8 (a place a vertex in each slice) change nothing. Row 13 leaves the
/// reached ids numbered, `u32::MAX` for the others, and the reached ids in the queue.
///
/// [`MeshData::bfs_vertex_permutation`](crate::MeshData::bfs_vertex_permutation) brings the slices
/// itself.
pub fn bfs_vertex_permutation(
    mesh: Mesh,
    order: &mut [u32],
    queue: &mut [u32],
) -> Result<u32, Refusal> {
    let answer = ffi::walk(mesh, order, queue);
    Refusal::check_at(answer.refusal, answer.index)?;
    Ok(answer.entries_read)
}

/// How many islands a mesh is in, and the entries read over all of them.
#[derive(Clone, Copy, Debug, PartialEq, Eq)]
pub struct IslandCount {
    /// How many islands there are, at least one.
    pub islands: u32,
    /// The count of entries read: that of the mesh, as each list is read once.
    pub entries_read: u32,
}

/// The walk over a mesh in several islands: breadth first from the lowest id without a number, the
/// root, and then again until all have one. What one walk numbers is an island, numbered behind the
/// last: a connected component where neighbours are mutual. Where they aren't, an island is what its
/// root reaches among the ids without a number, and an entry that names an id of an earlier island
/// is read and lets nothing enter.
///
/// `order` gets the new id at each old one, `queue` the old id at each new one, and `island_starts`
/// the first new id of each island, so 0 for the first. The last island ends at the vertex count,
/// which isn't written; places behind the islands are untouched, also below the count. Where vertex
/// 0 reaches all, there is one island, and the rest is as in [`bfs_vertex_permutation`]; where there
/// are more, that call is refused by row 13, which isn't met here.
///
/// Each of the three slices has a place a vertex, and surplus is untouched. Positions are only
/// counted: there is no row 5. Rows 2, 3, 17, 18, 3, 4 and 8 change nothing.
///
/// [`MeshData::walk_islands`](crate::MeshData::walk_islands) brings the slices itself.
pub fn walk_islands(
    mesh: Mesh,
    order: &mut [u32],
    queue: &mut [u32],
    island_starts: &mut [u32],
) -> Result<IslandCount, Refusal> {
    let answer = ffi::walk_islands(mesh, order, queue, island_starts);
    Refusal::check_at(answer.refusal, answer.index)?;
    Ok(IslandCount {
        islands: answer.islands,
        entries_read: answer.entries_read,
    })
}

/// The steps from one vertex to another, and the entries read until it was met.
#[derive(Clone, Copy, Debug, PartialEq, Eq)]
pub struct Steps {
    /// How many steps lead there, at least.
    pub steps: u32,
    /// The count of entries read, with the one that is the target.
    pub entries_read: u32,
}

/// How many steps lead from one vertex to another, at least. A step goes from a vertex to an id of
/// its neighbour list. Lists need not be mutual: the way back may take another number of steps, or
/// there may be none.
///
/// A walk breadth first from the first vertex, lists in stored order, stops at the first entry that
/// is the target. The count of entries read is at most that of the walk to its end; repeats and a
/// vertex in its own list count. Where both are one vertex, both numbers are 0, and row 15 is not
/// met.
///
/// Scratch is `order` and `queue`, each at least as long as the longest of positions, starts and
/// entries. Rows 2, 3, 17, 18, 3, 4, 14, 8 and 15; what 15 leaves in scratch is free, the other rows
/// change nothing.
///
/// [`MeshData::steps_between`](crate::MeshData::steps_between) brings the scratch itself.
pub fn steps_between(
    mesh: Mesh,
    from: u32,
    to: u32,
    order: &mut [u32],
    queue: &mut [u32],
) -> Result<Steps, Refusal> {
    let answer = ffi::steps_between(mesh, from, to, order, queue);
    Refusal::check_at(answer.refusal, answer.index)?;
    Ok(Steps {
        steps: answer.steps,
        entries_read: answer.entries_read,
    })
}

/// Fills `list` with the vertices at most so many steps away from a vertex, itself the first, in the
/// order of a walk that begins there. Gives how many they are; places behind them are untouched. 0
/// steps give the vertex alone, and any number from the vertex count on all that the walk reaches.
///
/// Scratch is `order`, at least as long as the longest of positions, starts and entries; `list` has
/// a place a vertex, also where fewer are filled. Rows 2, 3, 17, 18, 3, 4, 14 and 8 change nothing.
///
/// [`MeshData::vertices_within`](crate::MeshData::vertices_within) brings both slices itself.
pub fn vertices_within(
    mesh: Mesh,
    vertex: u32,
    steps: usize,
    order: &mut [u32],
    list: &mut [u32],
) -> Result<u32, Refusal> {
    let answer = ffi::vertices_within(mesh, vertex, steps, order, list);
    Refusal::check_at(answer.refusal, answer.index)?;
    Ok(answer.vertices)
}

/// Renumbers mesh and data by a permutation that holds the new id at each old one, and sets the
/// mark. A vertex's neighbours get their new ids, and each list is then sorted, repeats side by
/// side; the order that it had is lost. So a renumbering by the identity sorts the lists and moves
/// nothing else, and walks and triples of a renumbered mesh follow the sorted lists.
///
/// The data has 1 or as many entries a vertex as there are vertices, and in the second form both
/// indices move; a tail shorter than a slab is untouched. Rows 2, 3, 17, 18, 3, 4, 6, 7 and 8 change
/// nothing, the mark included. An id table is not renumbered: it keeps the lattice's own ids. The
/// call takes over 64 KiB of stack.
///
/// [`MeshData::apply_vertex_permutation`](crate::MeshData::apply_vertex_permutation) brings the
/// scratch itself.
pub fn apply_vertex_permutation(
    mesh: MeshMut,
    values: &mut [f64],
    permutation: &[u32],
    entries_per_vertex: usize,
    scratch: Scratch,
) -> Result<(), Refusal> {
    let answer = ffi::renumber(mesh, values, permutation, entries_per_vertex, scratch);
    Refusal::check_at(answer.refusal, answer.index)
}

/// Reads the neighbour lists of a mesh, such as one from outside, and changes the mark alone: true
/// where every list ascends, else false, whatever it was. Equal entries side by side ascend, and so
/// do a list of one entry and an empty one. Positions are only counted: there is no row 5. Rows 2,
/// 3, 17, 18, 3 and 4 leave the mark as it was.
///
/// [`MeshData::mark_ascending`](crate::MeshData::mark_ascending) is the same for a mesh with its own
/// mark.
pub fn mark_ascending(mesh: Mesh, lists_ascend: &mut bool) -> Result<(), Refusal> {
    let answer = ffi::mark_ascending(mesh, lists_ascend);
    Refusal::check_at(answer.refusal, answer.index)
}

/// What an accepted walk gives.
#[derive(Clone, Debug, PartialEq, Eq)]
pub struct Walk {
    /// The new id at each old one: a permutation to renumber by.
    pub order: Vec<u32>,
    /// The old ids in the order of the walk.
    pub queue: Vec<u32>,
    /// The count of entries read.
    pub entries_read: u32,
}

/// What an accepted walk over all islands gives.
#[derive(Clone, Debug, PartialEq, Eq)]
pub struct IslandWalk {
    /// The new id at each old one: a permutation to renumber by.
    pub order: Vec<u32>,
    /// The old ids, island by island, each in the order of its walk.
    pub queue: Vec<u32>,
    /// The first new id of each island, as many as there are islands.
    pub island_starts: Vec<u32>,
    /// The count of entries read.
    pub entries_read: u32,
}

/// A mesh that holds its lists itself, and its mark. Where these come from outside, the mark is
/// false until [`MeshData::mark_ascending`]. Meshes are equal where lists and mark are.
#[derive(Clone, Debug, PartialEq)]
pub struct MeshData {
    /// Three coordinates a vertex.
    pub positions: Vec<f64>,
    /// Where each neighbour list starts: one more than vertices, the last the entry count.
    pub starts: Vec<u32>,
    /// The neighbour lists, one behind another.
    pub entries: Vec<u16>,
    /// The mark. True says that every neighbour list ascends: no entry is below the one before it,
    /// so that repeats stand side by side. An accepted [lattice](crate::lattice_geometry) or
    /// [renumbering](crate::apply_vertex_permutation) sets it, and [`mark_ascending`] sets or clears
    /// it by what it reads; a refused call leaves it as it was. No other call is lent it, and no
    /// other outcome of any call depends on it. Nobody checks a caller who writes it himself, or who
    /// changes lists behind a true one.
    pub lists_ascend: bool,
}

impl MeshData {
    /// The mesh lent for reading.
    pub fn as_mesh(&self) -> Mesh<'_> {
        Mesh {
            positions: &self.positions,
            starts: &self.starts,
            entries: &self.entries,
        }
    }

    /// The mesh lent for writing.
    pub fn as_mesh_mut(&mut self) -> MeshMut<'_> {
        MeshMut {
            positions: &mut self.positions,
            starts: &mut self.starts,
            entries: &mut self.entries,
            lists_ascend: &mut self.lists_ascend,
        }
    }

    /// How many vertices there are.
    pub fn vertex_count(&self) -> usize {
        self.positions.len() / 3
    }

    /// A vertex's position. Panics where the id is not below the count.
    pub fn position(&self, id: usize) -> Vector3 {
        let at = &self.positions[3 * id..3 * id + 3];
        Vector3::new(at[0], at[1], at[2])
    }

    /// A vertex's neighbour list. Panics where the id is not below the count, or the starts are
    /// not those of a mesh.
    pub fn neighbors(&self, id: usize) -> &[u16] {
        &self.entries[self.starts[id] as usize..self.starts[id + 1] as usize]
    }

    /// The walk over the mesh: see [`bfs_vertex_permutation`]. A walk that row 13 refuses is lost:
    /// where the mesh may be in several islands, [`MeshData::walk_islands`] numbers all of them.
    pub fn bfs_vertex_permutation(&self) -> Result<Walk, Refusal> {
        let count = self.vertex_count();
        let (mut order, mut queue) = (vec![0; count], vec![0; count]);
        let entries_read = bfs_vertex_permutation(self.as_mesh(), &mut order, &mut queue)?;
        Ok(Walk {
            order,
            queue,
            entries_read,
        })
    }

    /// The walk over all islands of the mesh: see [`walk_islands`].
    ///
    /// ```
    /// use koshirga::MeshData;
    ///
    /// // Vertices 1, 2 and 3 in one piece, 0 and 4 in another, and 5 alone.
    /// let mesh = MeshData {
    ///     positions: (0..6).flat_map(|id| [1.0, f64::from(id), 0.0]).collect(),
    ///     starts: vec![0, 1, 3, 4, 5, 6, 6],
    ///     entries: vec![4, 3, 2, 1, 1, 0],
    ///     lists_ascend: false,
    /// };
    /// let walk = mesh.walk_islands()?;
    /// assert_eq!(walk.queue, [0, 4, 1, 3, 2, 5]);
    /// assert_eq!(walk.order, [0, 2, 4, 3, 1, 5]);
    ///
    /// // The islands begin at the numbers 0, 2 and 5, so at the vertices 0, 1 and 5.
    /// assert_eq!(walk.island_starts, [0, 2, 5]);
    /// assert_eq!(walk.entries_read, 6);
    ///
    /// // The ordinary walk doesn't reach them all.
    /// assert_eq!(mesh.bfs_vertex_permutation().unwrap_err().number(), 13);
    /// # Ok::<(), koshirga::Refusal>(())
    /// ```
    pub fn walk_islands(&self) -> Result<IslandWalk, Refusal> {
        let count = self.vertex_count();
        let (mut order, mut queue) = (vec![0; count], vec![0; count]);
        let mut island_starts = vec![0; count];
        let found = walk_islands(self.as_mesh(), &mut order, &mut queue, &mut island_starts)?;
        island_starts.truncate(found.islands as usize);
        Ok(IslandWalk {
            order,
            queue,
            island_starts,
            entries_read: found.entries_read,
        })
    }

    /// How long scratch of the calls for steps has to be.
    fn longest(&self) -> usize {
        let Mesh {
            positions,
            starts,
            entries,
        } = self.as_mesh();
        positions.len().max(starts.len()).max(entries.len())
    }

    /// How many steps lead from one vertex to another, and how many entries are read until it is
    /// met: see [`steps_between`].
    ///
    /// ```
    /// use koshirga::LatticeGeometry;
    ///
    /// let mesh = LatticeGeometry::new(1)?.mesh;
    /// let found = mesh.steps_between(0, 9)?;
    /// assert_eq!((found.steps, found.entries_read), (3, 34));
    ///
    /// // The walk to its end reads all 60 entries.
    /// assert_eq!(mesh.bfs_vertex_permutation()?.entries_read, 60);
    ///
    /// let refusal = mesh.steps_between(0, 12).unwrap_err();
    /// assert_eq!(refusal.number(), 14);
    /// # Ok::<(), koshirga::Refusal>(())
    /// ```
    pub fn steps_between(&self, from: u32, to: u32) -> Result<Steps, Refusal> {
        let (mut order, mut queue) = (vec![0; self.longest()], vec![0; self.longest()]);
        steps_between(self.as_mesh(), from, to, &mut order, &mut queue)
    }

    /// The vertices at most so many steps away from a vertex, itself the first, in the order of a
    /// walk that begins there: see [`vertices_within`].
    ///
    /// ```
    /// use koshirga::LatticeGeometry;
    ///
    /// let mesh = LatticeGeometry::new(1)?.mesh;
    /// assert_eq!(mesh.vertices_within(4, 0)?, [4]);
    /// assert_eq!(mesh.vertices_within(4, 1)?, [4, 2, 3, 5, 8, 9]);
    /// assert_eq!(mesh.vertices_within(4, usize::MAX)?.len(), 12);
    /// # Ok::<(), koshirga::Refusal>(())
    /// ```
    pub fn vertices_within(&self, vertex: u32, steps: usize) -> Result<Vec<u32>, Refusal> {
        let (mut order, mut list) = (vec![0; self.longest()], vec![0; self.vertex_count()]);
        let vertices = vertices_within(self.as_mesh(), vertex, steps, &mut order, &mut list)?;
        list.truncate(vertices as usize);
        Ok(list)
    }

    /// Renumbers the mesh, and data with 1 or as many entries a vertex as there are vertices: see
    /// [`apply_vertex_permutation`].
    ///
    /// ```
    /// use koshirga::LatticeGeometry;
    ///
    /// let mut mesh = LatticeGeometry::new(1)?.mesh;
    /// let walk = mesh.bfs_vertex_permutation()?;
    /// assert_eq!(walk.queue, [0, 1, 2, 3, 6, 7, 5, 10, 4, 8, 11, 9]);
    /// let mut levels: Vec<f64> = (0..12).map(f64::from).collect();
    /// mesh.apply_vertex_permutation(&mut levels, &walk.order, 1)?;
    /// assert_eq!(levels[4], 6.0);
    ///
    /// // Vertex 5 is 6 now, and its neighbours 1, 2, 4, 9 and 10 are 1, 2, 8, 11 and 7: sorted.
    /// assert_eq!(mesh.neighbors(6), [1, 2, 7, 8, 11]);
    /// assert!(mesh.lists_ascend);
    /// # Ok::<(), koshirga::Refusal>(())
    /// ```
    pub fn apply_vertex_permutation(
        &mut self,
        values: &mut [f64],
        permutation: &[u32],
        entries_per_vertex: usize,
    ) -> Result<(), Refusal> {
        let lengths = [
            self.positions.len(),
            self.starts.len(),
            self.entries.len(),
            values.len(),
            permutation.len(),
        ];
        let longest = lengths.into_iter().fold(0, usize::max);
        let scratch = Scratch {
            sources: &mut vec![0; longest],
            old_starts: &mut vec![0; longest],
            old_entries: &mut vec![0; longest],
            done: &mut vec![0; longest],
            held: &mut vec![0.0; longest],
        };
        let mesh = self.as_mesh_mut();
        apply_vertex_permutation(mesh, values, permutation, entries_per_vertex, scratch)
    }

    /// Reads whether every neighbour list ascends, and gives the mark as it is then: see
    /// [`mark_ascending`].
    ///
    /// ```
    /// use koshirga::MeshData;
    ///
    /// // From outside, and so unmarked: vertex 0 has its neighbours 2 and 1 in falling order.
    /// let mut mesh = MeshData {
    ///     positions: vec![1.0, 0.0, 0.0, 0.0, 1.0, 0.0, 0.0, 0.0, 1.0],
    ///     starts: vec![0, 2, 3, 4],
    ///     entries: vec![2, 1, 0, 0],
    ///     lists_ascend: false,
    /// };
    /// assert!(!mesh.mark_ascending()?);
    ///
    /// // A renumbering by the identity sorts the lists and moves nothing else.
    /// mesh.apply_vertex_permutation(&mut [], &[0, 1, 2], 1)?;
    /// assert_eq!(mesh.entries, [1, 2, 0, 0]);
    /// assert!(mesh.lists_ascend);
    ///
    /// // Nobody sees that a list is changed behind the mark, until the lists are read again.
    /// mesh.entries.swap(0, 1);
    /// assert!(mesh.lists_ascend);
    /// assert!(!mesh.mark_ascending()?);
    /// # Ok::<(), koshirga::Refusal>(())
    /// ```
    pub fn mark_ascending(&mut self) -> Result<bool, Refusal> {
        let MeshData {
            positions,
            starts,
            entries,
            lists_ascend,
        } = self;
        let mesh = Mesh {
            positions,
            starts,
            entries,
        };
        mark_ascending(mesh, lists_ascend)?;
        Ok(*lists_ascend)
    }
}

#[cfg(test)]
mod tests {
    use super::*;

    /// A path 0 – 2 – 1, and beside it vertex 3 alone.
    const POSITIONS: [f64; 12] = [1.0, 0.0, 0.0, 0.0, 1.0, 0.0, 0.0, 0.0, 1.0, -1.0, 0.0, 0.0];
    const STARTS: [u32; 5] = [0, 1, 2, 4, 4];
    const ENTRIES: [u16; 4] = [2, 2, 0, 1];

    #[test]
    fn walk_of_a_path() {
        let mesh = Mesh {
            positions: &POSITIONS[..9],
            starts: &STARTS[..4],
            entries: &ENTRIES,
        };
        let (mut order, mut queue) = ([7; 4], [7; 4]);
        assert_eq!(bfs_vertex_permutation(mesh, &mut order, &mut queue), Ok(4));
        assert_eq!((order, queue), ([0, 2, 1, 7], [0, 2, 1, 7]));
    }

    #[test]
    fn walk_that_is_refused() {
        let number = |answer: Result<u32, Refusal>| answer.err().map(Refusal::number);
        let mesh = Mesh {
            positions: &POSITIONS,
            starts: &STARTS,
            entries: &ENTRIES,
        };
        let (mut order, mut queue) = ([7; 4], [7; 4]);
        assert_eq!(
            number(bfs_vertex_permutation(mesh, &mut order[..3], &mut queue)),
            Some(8)
        );
        assert_eq!((order, queue), ([7; 4], [7; 4]));
        assert_eq!(
            number(bfs_vertex_permutation(mesh, &mut order, &mut queue)),
            Some(13)
        );
        assert_eq!((order, queue), ([0, 2, 1, u32::MAX], [0, 2, 1, 7]));
        let empty = Mesh {
            positions: &[],
            ..mesh
        };
        assert_eq!(
            number(bfs_vertex_permutation(empty, &mut order, &mut queue)),
            Some(2)
        );
    }

    fn renumbered(permutation: &[u32], room: usize) -> (Option<u32>, Vec<f64>, Vec<u16>, Vec<f64>) {
        let (mut positions, mut starts, mut entries) = (POSITIONS, STARTS, ENTRIES);
        let mut values = [10.0, 11.0, 12.0, 13.0, 14.0];
        let mut lists_ascend = false;
        let mesh = MeshMut {
            positions: &mut positions,
            starts: &mut starts,
            entries: &mut entries,
            lists_ascend: &mut lists_ascend,
        };
        let scratch = Scratch {
            sources: &mut vec![0; room],
            old_starts: &mut vec![0; room],
            old_entries: &mut vec![0; room],
            done: &mut vec![0; room],
            held: &mut vec![0.0; room],
        };
        let answer = apply_vertex_permutation(mesh, &mut values, permutation, 1, scratch);
        assert_eq!(lists_ascend, answer.is_ok());
        (
            answer.err().map(Refusal::number),
            positions.to_vec(),
            entries.to_vec(),
            values.to_vec(),
        )
    }

    #[test]
    fn renumbering() {
        let (code, positions, entries, values) = renumbered(&[1, 2, 0, 3], 12);
        assert_eq!(code, None);
        assert_eq!(positions[..6], [0.0, 0.0, 1.0, 1.0, 0.0, 0.0]);
        assert_eq!(entries, [1, 2, 0, 0]);
        assert_eq!(values, [12.0, 10.0, 11.0, 13.0, 14.0]);
    }

    /// Vertex 2 is 0 now, and its neighbours 0 and 1 are 2 and 1: sorted.
    #[test]
    fn renumbering_sorts() {
        let (code, _, entries, values) = renumbered(&[2, 1, 0, 3], 12);
        assert_eq!(code, None);
        assert_eq!(entries, [1, 2, 0, 0]);
        assert_eq!(values, [12.0, 11.0, 10.0, 13.0, 14.0]);
    }

    /// The lists ascend as they are; row 17 refuses them where the first start isn't 0.
    #[test]
    fn reading() {
        let read = |starts: &[u32], entries: &[u16], before| {
            let mesh = Mesh {
                positions: &POSITIONS,
                starts,
                entries,
            };
            let mut lists_ascend = before;
            let answer = mark_ascending(mesh, &mut lists_ascend);
            (answer.err().map(Refusal::number), lists_ascend)
        };
        for before in [false, true] {
            assert_eq!(read(&STARTS, &ENTRIES, before), (None, true));
            assert_eq!(read(&STARTS, &[2, 2, 1, 0], before), (None, false));
            let refused = read(&[1, 1, 2, 4, 4], &ENTRIES, before);
            assert_eq!(refused, (Some(17), before));
        }
    }

    fn path() -> MeshData {
        MeshData {
            positions: POSITIONS[..9].to_vec(),
            starts: STARTS[..4].to_vec(),
            entries: ENTRIES.to_vec(),
            lists_ascend: false,
        }
    }

    #[test]
    fn parts_of_a_mesh() {
        let path = path();
        assert_eq!(path.vertex_count(), 3);
        assert_eq!(path.position(1), Vector3::new(0.0, 1.0, 0.0));
        assert_eq!(path.neighbors(2), [0, 1]);
    }

    /// Data for each pair: both indices move, so that entry (p(v), p(v')) is what (v, v') was.
    #[test]
    fn renumbering_with_own_lists() {
        let mut mesh = path();
        let walk = mesh.bfs_vertex_permutation().unwrap();
        assert_eq!((&walk.order[..], walk.entries_read), (&[0, 2, 1][..], 4));
        let mut values: Vec<f64> = (0..9).map(f64::from).collect();
        assert_eq!(
            mesh.apply_vertex_permutation(&mut values, &walk.order, 3),
            Ok(())
        );
        assert_eq!(values, [0.0, 2.0, 1.0, 6.0, 8.0, 7.0, 3.0, 5.0, 4.0]);
        assert_eq!(mesh.neighbors(1), [0, 2]);
        let refused = mesh.apply_vertex_permutation(&mut values, &[0, 1], 3);
        assert_eq!(refused.map_err(Refusal::number), Err(6));
        let refused = mesh.apply_vertex_permutation(&mut values, &walk.order, 2);
        assert_eq!(refused.map_err(Refusal::number), Err(7));
        let island = MeshData {
            positions: POSITIONS.to_vec(),
            starts: STARTS.to_vec(),
            entries: ENTRIES.to_vec(),
            lists_ascend: false,
        };
        let refused = island.bfs_vertex_permutation();
        assert_eq!(refused.map_err(Refusal::number), Err(13));
    }

    #[test]
    fn renumbering_that_is_refused() {
        for (permutation, room, number) in [([1, 2, 1, 3], 12, 6), ([1, 2, 0, 3], 11, 8)] {
            let (code, positions, entries, values) = renumbered(&permutation, room);
            assert_eq!(code, Some(number));
            assert_eq!(positions, POSITIONS);
            assert_eq!(entries, ENTRIES);
            assert_eq!(values, [10.0, 11.0, 12.0, 13.0, 14.0]);
        }
    }
}
