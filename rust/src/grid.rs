//! The cube grid of a mesh, and its queries.

use crate::{ceil, ffi, sqrt, GpuBuffers, LevelRecord, Mesh, Refusal, Vector3, Weights};

/// The pair that a grid is built with. The default is the usual one, 1.2 and 1.
///
/// As a rule a greater factor leaves fewer candidates to compare in a cell, and more cells empty; a
/// greater margin does the reverse.
#[derive(Clone, Copy, Debug, PartialEq)]
pub struct Settings {
    /// From 0.5 to 4.0, ends included; row 19 refuses every other. The side g is the greater of 2
    /// and the ceiling of √(count/6)·factor: quotient, root and product, each rounded once, to
    /// nearest, ties to even (IEEE 754-2019, 5.4.1 and 4.3.1), and the exact ceiling (5.9).
    pub factor: f64,
    /// From 0 to 3; row 20 refuses more. On each cube face that it is in front of, a vertex is
    /// placed in the cells whose row and column are at most so far from its own.
    pub margin: u32,
}

impl Default for Settings {
    fn default() -> Self {
        Settings {
            factor: 1.2,
            margin: 1,
        }
    }
}

/// A grid beside the positions that it was built of. A query takes the slices cut to their lengths.
#[derive(Clone, Copy, Debug)]
pub struct Grid<'a> {
    /// Three coordinates a vertex.
    pub positions: &'a [f64],
    /// The pair that it was built with. A query tests the ranges of both, and the side by the
    /// factor: with another pair whose side is the same it answers from the cells as they are.
    pub settings: Settings,
    /// The cells along an edge of a cube face: g.
    pub side: u32,
    /// Where each cell's ids start: 6g² + 1. Cell face·g·g + ci·g + cj.
    pub cell_starts: &'a [u32],
    /// The cells' ids, ascending in each cell.
    pub cell_ids: &'a [u16],
    /// Where each vertex's triangles start, in whole triples: one more than vertices.
    pub triangle_starts: &'a [u32],
    /// The triangles, three ascending ids each.
    pub triples: &'a [u16],
}

/// A nearest vertex.
#[derive(Clone, Copy, Debug, PartialEq)]
pub struct Nearest {
    /// The vertex.
    pub id: u32,
    /// How many candidates were compared: the ids in the direction's cell.
    pub candidates: u32,
    /// The squared distance from the normalised direction to the vertex's position as it is stored.
    pub distance: f64,
}

/// The triangle of a direction.
#[derive(Clone, Copy, Debug, PartialEq)]
pub struct Located {
    /// The corners' ids, ascending where a builder made the grid.
    pub triple: [u32; 3],
    /// The corners' weights.
    pub weights: Weights,
    /// The least weight: [`least_weight`](crate::least_weight) of the three (IEEE 754-2019, 9.6).
    pub least: f64,
}

/// The slices of a grid lent for writing.
#[derive(Debug)]
pub struct GridMut<'a> {
    /// 6g² + 1 places.
    pub cell_starts: &'a mut [u32],
    /// At most 3(2·margin + 1)² places a vertex: (2·margin + 1)² cells on each of at most three cube
    /// faces.
    pub cell_ids: &'a mut [u16],
    /// A place a vertex and one more.
    pub triangle_starts: &'a mut [u32],
    /// Nine places for each triangle, three ids at each of its three vertices: 180n² for a lattice.
    /// A neighbour list of L entries has at most L(L − 1)/2 triangles at its vertex as the least
    /// corner, so that 4464 places a vertex are always enough.
    pub triples: &'a mut [u16],
}

/// What an accepted build gives.
#[derive(Clone, Copy, Debug, PartialEq, Eq)]
pub struct Built {
    /// The cells along an edge of a cube face: g.
    pub side: u32,
    /// How many conversions were held at an end of the signed range
    /// ([`Conversion::Held`](crate::Conversion::Held)), which tells how often positions are almost
    /// edge-on to a cube face. A vertex has two conversions on each face that it is in front of,
    /// for its row and its column there, and each is counted once: at most six a vertex, as is
    /// proved. One is held where the coordinate along the face's axis isn't 0 and is, in magnitude,
    /// below about g/2^64 of another; the vertex is then in no cell of that face. Positions and
    /// side alone decide the count.
    pub held: u32,
}

/// Writes the grid of a mesh: 6g² + 1 cell starts, the cells' ids, a triangle start a vertex and
/// one more, and the triples. Before a query the slices are cut to these lengths: as many cell ids
/// as the last cell start says, and three ids for each triple that the last triangle start counts.
/// Surplus places are untouched. Rows 2, 3, 17, 18, 3, 4, 5, 19, 20 and 8 change nothing.
///
/// [`FaceGrid::with_settings`](crate::FaceGrid::with_settings) brings the slices itself, and cuts
/// them.
pub fn build_grid(mesh: Mesh, settings: Settings, grid: GridMut) -> Result<Built, Refusal> {
    let answer = ffi::build_grid(mesh, settings, grid);
    Refusal::check_at(answer.refusal, answer.index)?;
    Ok(Built {
        side: answer.side,
        held: answer.held,
    })
}

impl Grid<'_> {
    /// The first candidate of the direction's cell with the least squared distance in total order
    /// (IEEE 754-2019, 5.10). The direction is normalised first; that and the distances are rounded
    /// as [`Vector3`]'s operations are (5.4.1 and 4.3.1). The triples are not read. Rows 2 (count
    /// and positions), 19, 20, 2 (side), 3, 9, then of the cell 18, 3, 11 and 4 refuse, in this
    /// order.
    #[inline]
    pub fn find_nearest_vertex(&self, direction: Vector3) -> Result<Nearest, Refusal> {
        let answer = ffi::grid_nearest(*self, direction);
        Refusal::check_at(answer.refusal, answer.index)?;
        Ok(Nearest {
            id: answer.id,
            candidates: answer.candidates,
            distance: answer.distance,
        })
    }

    /// The triangle at the nearest vertex whose least weight is the greatest, the first of equals.
    /// Leasts are compared by `>` (IEEE 754-2019, 5.11), where −0 and +0 are equal: which triangle
    /// is kept doesn't depend on the sign of a zero least, as is proved.
    ///
    /// Rows as for the nearest vertex, then at that vertex 18, 3, 4 and 12. Which start list falls,
    /// 18 doesn't say: the cell starts where [`Grid::find_nearest_vertex`] is refused too, and the
    /// triangle starts where it isn't.
    #[inline]
    pub fn locate(&self, direction: Vector3) -> Result<Located, Refusal> {
        let answer = ffi::grid_locate(*self, direction);
        Refusal::check_at(answer.refusal, answer.index)?;
        Ok(Located {
            triple: answer.triple,
            weights: answer.weights,
            least: answer.least,
        })
    }
}

/// The greatest count of vertices that row 2 accepts.
const GREATEST_COUNT: usize = 65_536;
/// The greatest length of a neighbour list that row 3 accepts.
const GREATEST_LIST: usize = 32;
/// The greatest factor that row 19 accepts.
const GREATEST_FACTOR: f64 = 4.0;
/// The greatest margin that row 20 accepts.
const GREATEST_MARGIN: u32 = 3;
/// Of two opposite cube faces a vertex is placed on one at most.
const FACES_OF_A_VERTEX: usize = 3;

/// A grid that holds its lists itself, beside the positions of the mesh that it was built of.
///
/// ```
/// use koshirga::{FaceGrid, LatticeGeometry, Vector3};
///
/// let lattice = LatticeGeometry::new(1)?;
/// let grid = FaceGrid::new(lattice.mesh.as_mesh())?;
/// let direction = Vector3::new(1.0, 2.0, 3.0);
/// let located = grid.locate(direction)?;
/// assert_eq!(located.triple, [0, 1, 2]);
/// assert_eq!(grid.find_nearest_vertex(direction)?.id, 0);
/// # Ok::<(), koshirga::Refusal>(())
/// ```
#[derive(Clone, Debug)]
pub struct FaceGrid<'a> {
    positions: &'a [f64],
    settings: Settings,
    built: Built,
    cell_starts: Vec<u32>,
    cell_ids: Vec<u16>,
    triangle_starts: Vec<u32>,
    triples: Vec<u16>,
}

impl<'a> FaceGrid<'a> {
    /// The grid of a mesh with the usual pair. Rows 2, 3, 17, 18, 3, 4 and 5 refuse, in this order.
    pub fn new(mesh: Mesh<'a>) -> Result<Self, Refusal> {
        FaceGrid::with_settings(mesh, Settings::default())
    }

    /// The grid of a mesh with a chosen pair. Rows 2, 3, 17, 18, 3, 4, 5, 19 and 20 refuse, in this
    /// order.
    ///
    /// ```
    /// use koshirga::{FaceGrid, LatticeGeometry, Settings, Vector3};
    ///
    /// let lattice = LatticeGeometry::new(20)?;
    /// let mesh = lattice.mesh.as_mesh();
    /// let direction = Vector3::new(0.3, -0.5, 0.8);
    /// let usual = FaceGrid::new(mesh)?.find_nearest_vertex(direction)?;
    ///
    /// // Smaller cells, and more of them around a vertex: the same vertex, of fewer candidates.
    /// let fine = Settings { factor: 4.0, margin: 3 };
    /// let nearest = FaceGrid::with_settings(mesh, fine)?.find_nearest_vertex(direction)?;
    /// assert_eq!(nearest.id, usual.id);
    /// assert!(nearest.candidates < usual.candidates);
    ///
    /// // So small cells without the ones around them leave gaps.
    /// let gaps = Settings { margin: 0, ..fine };
    /// let refusal = FaceGrid::with_settings(mesh, gaps)?.locate(direction).unwrap_err();
    /// assert_eq!(refusal.number(), 11);
    /// # Ok::<(), koshirga::Refusal>(())
    /// ```
    pub fn with_settings(mesh: Mesh<'a>, settings: Settings) -> Result<Self, Refusal> {
        // What is refused needs no more room than what is accepted: 4.0 stands for a NaN, too.
        let count = (mesh.positions.len() / 3).min(GREATEST_COUNT);
        let factor = settings.factor.min(GREATEST_FACTOR);
        let margin = settings.margin.min(GREATEST_MARGIN) as usize;
        let side = ceil(sqrt(count as f64 / 6.0) * factor).max(2.0) as usize;
        let across = 2 * margin + 1;
        // A triangle is found at its least vertex, as a pair of places of that one's list.
        let lists = mesh.starts.windows(2).take(count);
        let pairs = lists.map(|ends| {
            let length = (ends[1].saturating_sub(ends[0]) as usize).min(GREATEST_LIST);
            length * length.saturating_sub(1) / 2
        });
        let triangles: usize = pairs.sum();
        let mut grid = FaceGrid {
            positions: mesh.positions,
            settings,
            built: Built { side: 0, held: 0 },
            cell_starts: vec![0; 6 * side * side + 1],
            cell_ids: vec![0; FACES_OF_A_VERTEX * across * across * count],
            triangle_starts: vec![0; count + 1],
            triples: vec![0; 9 * triangles],
        };
        let lent = GridMut {
            cell_starts: &mut grid.cell_starts,
            cell_ids: &mut grid.cell_ids,
            triangle_starts: &mut grid.triangle_starts,
            triples: &mut grid.triples,
        };
        grid.built = build_grid(mesh, settings, lent)?;
        cut(&mut grid.cell_ids, &grid.cell_starts, 1);
        cut(&mut grid.triples, &grid.triangle_starts, 3);
        Ok(grid)
    }

    /// The grid lent to queries.
    #[inline]
    pub fn as_grid(&self) -> Grid<'_> {
        Grid {
            positions: self.positions,
            settings: self.settings,
            side: self.built.side,
            cell_starts: &self.cell_starts,
            cell_ids: &self.cell_ids,
            triangle_starts: &self.triangle_starts,
            triples: &self.triples,
        }
    }

    /// How many of the builder's conversions were held at an end: see [`Built::held`].
    ///
    /// ```
    /// use koshirga::{FaceGrid, MeshData};
    ///
    /// let held = |y| {
    ///     let mesh = MeshData {
    ///         positions: vec![1.0, y, 1.0],
    ///         starts: vec![0, 0],
    ///         entries: vec![],
    ///         lists_ascend: false,
    ///     };
    ///     FaceGrid::new(mesh.as_mesh()).map(|grid| grid.held())
    /// };
    /// // In front of the face +y, and almost edge-on to it: x/y and z/y are beyond the range.
    /// assert_eq!(held(1e-30)?, 2);
    /// // In front of neither +y nor -y.
    /// assert_eq!(held(0.0)?, 0);
    /// # Ok::<(), koshirga::Refusal>(())
    /// ```
    pub fn held(&self) -> u32 {
        self.built.held
    }

    /// See [`Grid::find_nearest_vertex`].
    #[inline]
    pub fn find_nearest_vertex(&self, direction: Vector3) -> Result<Nearest, Refusal> {
        self.as_grid().find_nearest_vertex(direction)
    }

    /// See [`Grid::locate`].
    #[inline]
    pub fn locate(&self, direction: Vector3) -> Result<Located, Refusal> {
        self.as_grid().locate(direction)
    }

    /// See [`GpuBuffers::append`].
    pub fn pack(&self, buffers: &mut GpuBuffers) -> Result<LevelRecord, Refusal> {
        buffers.append(&self.as_grid())
    }
}

/// Cuts ids to the last start, which counts them by `width`.
fn cut(ids: &mut Vec<u16>, starts: &[u32], width: usize) {
    let last = starts.last().copied().unwrap_or(0);
    ids.truncate(width * last as usize);
    ids.shrink_to_fit();
}

#[cfg(test)]
mod tests {
    use super::*;
    use crate::{LatticeGeometry, MeshData};

    /// Three vertices on the axes and their one triangle, as candidates of every cell.
    const POSITIONS: [f64; 9] = [1.0, 0.0, 0.0, 0.0, 1.0, 0.0, 0.0, 0.0, 1.0];
    const IDS: [u16; 72] = {
        let mut ids = [0; 72];
        let mut at = 0;
        while at < 72 {
            ids[at] = (at % 3) as u16;
            at += 1;
        }
        ids
    };

    fn cell_starts() -> Vec<u32> {
        (0..=24).map(|cell| 3 * cell).collect()
    }

    fn grid(cell_starts: &[u32]) -> Grid<'_> {
        Grid {
            positions: &POSITIONS,
            settings: Settings::default(),
            side: 2,
            cell_starts,
            cell_ids: &IDS,
            triangle_starts: &[0, 1, 2, 3],
            triples: &[0, 1, 2, 0, 1, 2, 0, 1, 2],
        }
    }

    fn number<T>(answer: Result<T, Refusal>) -> Option<u32> {
        answer.err().map(Refusal::number)
    }

    #[test]
    fn nearest_and_located() {
        let starts = cell_starts();
        let direction = Vector3::new(0.0, 7.0, 0.0);
        let nearest = Nearest {
            id: 1,
            candidates: 3,
            distance: 0.0,
        };
        assert_eq!(grid(&starts).find_nearest_vertex(direction), Ok(nearest));
        let weights = Weights {
            u: 0.0,
            v: 1.0,
            w: 0.0,
        };
        let located = Located {
            triple: [0, 1, 2],
            weights,
            least: 0.0,
        };
        assert_eq!(grid(&starts).locate(direction), Ok(located));
    }

    /// Of equal distances the first stays.
    #[test]
    fn first_of_equals() {
        let starts = cell_starts();
        let nearest = grid(&starts).find_nearest_vertex(Vector3::new(-1.0, -1.0, -1.0));
        assert_eq!(nearest.unwrap().id, 0);
    }

    #[test]
    fn refusals() {
        let starts = cell_starts();
        let direction = Vector3::new(1.0, 0.0, 0.0);
        let whole = grid(&starts);
        let other_side = Grid { side: 3, ..whole };
        assert_eq!(number(other_side.locate(direction)), Some(2));
        assert_eq!(number(grid(&starts[1..]).locate(direction)), Some(3));
        assert_eq!(number(whole.locate(Vector3::ZERO)), Some(9));
        let short = Grid {
            cell_ids: &[],
            ..whole
        };
        assert_eq!(number(short.locate(direction)), Some(3));
        assert_eq!(number(grid(&[0; 25]).locate(direction)), Some(11));
        let foreign = Grid {
            cell_ids: &[3; 72],
            ..whole
        };
        assert_eq!(number(foreign.find_nearest_vertex(direction)), Some(4));
        let no_triangles = Grid {
            triangle_starts: &[0; 4],
            ..whole
        };
        assert_eq!(number(no_triangles.locate(direction)), Some(12));
    }

    /// Room is right for every accepted mesh: lattices, and every vertex joined to every other.
    #[test]
    fn grids_with_own_lists() {
        for frequency in [1, 2, 3, 20, 80] {
            let lattice = LatticeGeometry::new(frequency).unwrap();
            let usual = FaceGrid::new(lattice.mesh.as_mesh()).unwrap();
            assert_eq!(usual.settings, Settings::default());
            check_room(&lattice, &usual);
            for factor in [0.5, 1.2, 4.0] {
                for margin in 0..=3 {
                    let settings = Settings { factor, margin };
                    let grid = FaceGrid::with_settings(lattice.mesh.as_mesh(), settings).unwrap();
                    check_room(&lattice, &grid);
                }
            }
        }
    }

    fn check_room(lattice: &LatticeGeometry, grid: &FaceGrid) {
        let lent = grid.as_grid();
        let n = lattice.frequency as usize;
        assert_eq!(lent.triples.len(), 3 * 60 * n * n);
        let cells = 6 * lent.side as usize * lent.side as usize;
        assert_eq!(lent.cell_starts.len(), cells + 1);
        assert_eq!(lent.cell_starts[cells] as usize, lent.cell_ids.len());
        let vertex = lattice.mesh.position(5);
        let nearest = grid.find_nearest_vertex(vertex).unwrap();
        assert_eq!(nearest.id, 5);
        assert!(nearest.distance < 1e-30, "{nearest:?}");
        assert!(grid.locate(vertex).unwrap().triple.contains(&5));
    }

    #[test]
    fn grid_of_a_complete_mesh() {
        let count = 33;
        let position = |id: i32| [1.0, f64::from(id), 1.0];
        let mesh = MeshData {
            positions: (0..count).flat_map(position).collect(),
            starts: (0..=count as u32).map(|id| 32 * id).collect(),
            entries: (0..33)
                .flat_map(|id| (0..33).filter(move |&other| other != id))
                .collect(),
            lists_ascend: false,
        };
        let grid = FaceGrid::new(mesh.as_mesh()).unwrap();
        assert_eq!(grid.as_grid().triples.len(), 9 * 33 * 32 * 31 / 6);
    }

    #[test]
    fn meshes_that_are_refused() {
        let refused = |positions: &[f64], starts: &[u32], entries: &[u16]| {
            number(FaceGrid::new(Mesh {
                positions,
                starts,
                entries,
            }))
        };
        assert_eq!(refused(&[], &[0], &[]), Some(2));
        assert_eq!(refused(&vec![1.0; 3 * 65_537], &[0], &[]), Some(2));
        assert_eq!(refused(&POSITIONS, &[], &[]), Some(3));
        assert_eq!(refused(&POSITIONS, &[0, u32::MAX, 0, 0], &[]), Some(18));
        assert_eq!(refused(&POSITIONS, &[0, 1, 1, 1], &[3]), Some(4));
        assert_eq!(refused(&[0.0; 9], &[0; 4], &[]), Some(5));
        assert_eq!(refused(&POSITIONS, &[0; 4], &[]), None);
    }

    /// The count of vertices without neighbours, with each margin.
    fn held(positions: &[f64], factor: f64) -> u32 {
        let mesh = Mesh {
            positions,
            starts: &vec![0; positions.len() / 3 + 1],
            entries: &[],
        };
        let [own, others @ ..] = [0, 1, 2, 3].map(|margin| {
            let settings = Settings { factor, margin };
            FaceGrid::with_settings(mesh, settings).unwrap().held()
        });
        assert_eq!(others, [own; 3]);
        own
    }

    const LEAST: f64 = f64::from_bits(1);
    const TWO_TO_MINUS_63: f64 = f64::from_bits(0x3c00_0000_0000_0000);

    /// With side 2 the number across the cells is t + 1, rounded, for the quotient t.
    #[test]
    fn held_of_one_vertex() {
        for (position, count) in [
            ([1.0, 1.0, 1.0], 0),
            ([1.0, 0.0, -0.0], 0),
            // x/y and x/z: at the upper end, at the lower, and on the faces -y and -z.
            ([1.0, LEAST, LEAST], 2),
            ([-1.0, LEAST, LEAST], 2),
            ([-1.0, -LEAST, -LEAST], 2),
            // Both of one face: at the upper end, and at either.
            ([1.0, 1.0, 1e-30], 2),
            ([LEAST, 1.0, -1.0], 2),
            // x/y, x/z and y/z.
            ([1.0, 1e-30, 1e-60], 3),
            // 2^63 is held, and 2^63 - 2^11 kept.
            ([1.0, TWO_TO_MINUS_63, 0.0], 1),
            ([1.0, TWO_TO_MINUS_63.next_up(), 0.0], 0),
            // -2^63 is kept, and -2^63 - 2^11 held.
            ([-1.0, TWO_TO_MINUS_63, 0.0], 0),
            ([-1.0, TWO_TO_MINUS_63.next_down(), 0.0], 1),
        ] {
            for factor in [0.5, 1.2, 4.0] {
                assert_eq!(held(&position, factor), count, "{position:?}");
            }
        }
    }

    /// Six vertices have side 2 or 4: the quotient 2^62 gives 2^62 or 2^63 across the cells.
    #[test]
    fn held_depends_on_the_side() {
        let positions = [1.0, 2.0 * TWO_TO_MINUS_63, 0.0].repeat(6);
        assert_eq!(held(&positions, 0.5), 0);
        assert_eq!(held(&positions, 4.0), 6);
    }

    /// A refused build has no count.
    #[test]
    fn held_of_a_refused_build() {
        let build = |room: usize| {
            let mesh = Mesh {
                positions: &[1.0, LEAST, LEAST],
                starts: &[0, 0],
                entries: &[],
            };
            let lent = GridMut {
                cell_starts: &mut vec![0; room],
                cell_ids: &mut vec![0; room],
                triangle_starts: &mut vec![0; room],
                triples: &mut vec![0; room],
            };
            let answer = ffi::build_grid(mesh, Settings::default(), lent);
            (answer.refusal, answer.side, answer.index, answer.held)
        };
        assert_eq!(build(27), (0, 2, 0, 2));
        assert_eq!(build(1), (8, 0, 0, 0));
    }

    /// Room is worked out before a pair is refused, and such a pair asks for no more of it.
    #[test]
    fn room_of_refused_pairs() {
        let positions = vec![1.0; 3 * GREATEST_COUNT];
        let starts = vec![0; GREATEST_COUNT + 1];
        let mesh = Mesh {
            positions: &positions,
            starts: &starts,
            entries: &[],
        };
        let refused = |factor, margin| {
            let settings = Settings { factor, margin };
            number(FaceGrid::with_settings(mesh, settings))
        };
        for factor in [1e9, f64::MAX, f64::INFINITY, f64::NAN, -1e9] {
            assert_eq!(refused(factor, 0), Some(19), "{factor}");
        }
        assert_eq!(refused(1.2, u32::MAX), Some(20));
        assert_eq!(refused(4.0, 3), None);
    }
}
