//! The lattice of a frequency.

use crate::{ffi, AnalyticLattice, MeshData, MeshMut, Refusal};

/// Writes the lattice of a frequency from 1 to 80: 10n² + 2 vertices with three coordinates each,
/// as many starts and one more, 60n² entries, and the id table, 20 faces of (n + 1)(n + 2)/2 slots.
/// Its neighbour lists ascend, and the mark is set. Each operation on coordinates is rounded by
/// itself (IEEE 754-2019, 5.4.1 and 4.3.1). Surplus places are untouched; without them the lattice
/// passes the mesh rows of every call: 2 to 5, 17 and 18. Rows 1 and 8 change nothing, the mark
/// included.
///
/// [`LatticeGeometry::new`](crate::LatticeGeometry::new) brings the slices itself.
pub fn lattice_geometry(frequency: u32, mesh: MeshMut, ids: &mut [u16]) -> Result<(), Refusal> {
    Refusal::check(ffi::lattice(frequency, mesh, ids))
}

/// The greatest frequency that row 1 accepts.
const GREATEST_FREQUENCY: u32 = 80;

/// A lattice that holds its lists itself: its mesh, and the id table that the analytic locator
/// reads.
///
/// ```
/// use koshirga::LatticeGeometry;
///
/// let lattice = LatticeGeometry::new(20)?;
/// assert_eq!(lattice.mesh.vertex_count(), 4002);
/// assert!(lattice.mesh.lists_ascend);
/// assert!(LatticeGeometry::new(81).is_err());
/// # Ok::<(), koshirga::Refusal>(())
/// ```
#[derive(Clone, Debug, PartialEq)]
pub struct LatticeGeometry {
    /// The frequency n.
    pub frequency: u32,
    /// The lattice's vertices and their neighbours.
    pub mesh: MeshData,
    /// The id table: the twenty faces' slots, (n + 1)(n + 2)/2 each, one face behind another.
    pub ids: Vec<u16>,
}

impl LatticeGeometry {
    /// The lattice of a frequency from 1 to 80. Row 1 refuses others.
    pub fn new(frequency: u32) -> Result<Self, Refusal> {
        // A refused frequency needs no room.
        let n = if frequency > GREATEST_FREQUENCY {
            0
        } else {
            frequency as usize
        };
        let count = 10 * n * n + 2;
        let mut lattice = LatticeGeometry {
            frequency,
            mesh: MeshData {
                positions: vec![0.0; 3 * count],
                starts: vec![0; count + 1],
                entries: vec![0; 60 * n * n],
                lists_ascend: false,
            },
            ids: vec![0; 10 * (n + 1) * (n + 2)],
        };
        lattice_geometry(frequency, lattice.mesh.as_mesh_mut(), &mut lattice.ids)?;
        Ok(lattice)
    }

    /// The analytic locator of the lattice. Its ids are those that the lattice was made with, also
    /// where its mesh was renumbered since.
    pub fn analytic(&self) -> AnalyticLattice<'_> {
        AnalyticLattice {
            frequency: self.frequency,
            ids: &self.ids,
        }
    }
}

#[cfg(test)]
mod tests {
    use super::*;

    #[test]
    fn frequency_1() {
        let (mut positions, mut starts) = ([0.0; 36], [0; 13]);
        let (mut entries, mut ids) = ([0; 61], [0; 60]);
        entries[60] = 7;
        let mut lists_ascend = false;
        let mesh = MeshMut {
            positions: &mut positions,
            starts: &mut starts,
            entries: &mut entries,
            lists_ascend: &mut lists_ascend,
        };
        assert_eq!(lattice_geometry(1, mesh, &mut ids), Ok(()));
        assert!(lists_ascend);
        assert_eq!(entries[..5], [1, 2, 3, 6, 7]);
        assert_eq!((starts[1], starts[12], entries[60]), (5, 60, 7));
    }

    #[test]
    fn counts() {
        for n in [1, 2, 7, 80] {
            let lattice = LatticeGeometry::new(n as u32).unwrap();
            let count = lattice.mesh.vertex_count();
            assert_eq!(count, 10 * n * n + 2);
            let of_five = (0..count).filter(|&id| lattice.mesh.neighbors(id).len() == 5);
            assert_eq!(of_five.count(), 12);
            assert_eq!(lattice.mesh.starts[count] as usize, 60 * n * n);
            assert_eq!(lattice.ids.iter().max(), Some(&((count - 1) as u16)));
        }
        for frequency in [0, 81, u32::MAX] {
            let refused = LatticeGeometry::new(frequency).map_err(Refusal::number);
            assert_eq!(refused.err(), Some(1));
        }
    }

    #[test]
    fn refused() {
        for (frequency, row) in [(0, 1), (81, 1), (1, 8)] {
            for before in [false, true] {
                let mut lists_ascend = before;
                let mesh = MeshMut {
                    positions: &mut [],
                    starts: &mut [],
                    entries: &mut [],
                    lists_ascend: &mut lists_ascend,
                };
                let answer = lattice_geometry(frequency, mesh, &mut []);
                assert_eq!(answer.err().map(Refusal::number), Some(row));
                assert_eq!(lists_ascend, before);
            }
        }
    }
}
