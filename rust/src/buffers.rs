//! Buffers for the graphics card: grids packed one behind another.

use crate::{ffi, Grid, Refusal};

/// How many places of the two slices are taken before a grid is packed: none by default.
#[derive(Clone, Copy, Debug, Default, PartialEq, Eq)]
pub struct Taken {
    /// Of the words.
    pub words: usize,
    /// Of the floats.
    pub floats: usize,
}

/// Where a packed grid stands: the vertex count, the side, and five offsets, each counted in elements
/// of its own slice. The archive answers with it as C lays it out.
#[repr(C)]
#[derive(Clone, Copy, Debug, Default, PartialEq, Eq)]
pub struct LevelRecord {
    /// How many vertices there are.
    pub vertices: u32,
    /// The cells along an edge of a cube face: g.
    pub side: u32,
    /// Where the cell starts begin, in the words: at the taken count.
    pub cell_starts: u32,
    /// Where the cells' ids begin, in the words.
    pub cell_ids: u32,
    /// Where the triangle starts begin, in the words.
    pub triangle_starts: u32,
    /// Where the triples begin, in the words.
    pub triples: u32,
    /// Where the positions begin, in the floats: at the taken count.
    pub positions: u32,
}

impl LevelRecord {
    /// The seven numbers, in the order of the fields.
    pub fn to_array(self) -> [u32; 7] {
        [
            self.vertices,
            self.side,
            self.cell_starts,
            self.cell_ids,
            self.triangle_starts,
            self.triples,
            self.positions,
        ]
    }
}

impl Grid<'_> {
    /// Writes the grid behind the taken places of two slices, and gives its level record. Behind the
    /// taken words: cell starts, cell ids, triangle starts and triples, one list behind another, each
    /// element as a `u32`. The starts stay as they are: they count from the grid's own first id or
    /// triple. Behind the taken floats: the coordinates, each rounded by [`to_f32`](crate::to_f32) (IEEE 754-2019,
    /// 5.4.2 and 4.3.1). What stands before and behind is untouched.
    ///
    /// The next grid goes behind it, with `level.triples` and the length of the triples as its taken
    /// words, `level.positions` and the length of the positions as its taken floats.
    ///
    /// Rows 2 (count and positions), 19, 20, 2 (side), 3, 17, 18, 4, 5 and 8 change nothing. All
    /// lists are read whole, with no limit of 32: in 3, 17 and 18 the cell starts and then the
    /// triangle starts, in 4 the cell ids and then the triples. Row 8 also refuses taken places
    /// beyond their slice, and an offset above `u32::MAX`.
    ///
    /// [`GpuBuffers::append`] brings the slices itself.
    ///
    /// ```
    /// use koshirga::{FaceGrid, LatticeGeometry, Taken};
    ///
    /// let lattice = LatticeGeometry::new(1)?;
    /// let own = FaceGrid::new(lattice.mesh.as_mesh())?;
    /// let grid = own.as_grid();
    /// let (mut words, mut floats) = (vec![0; 1000], vec![0.0; 100]);
    /// let first = grid.pack(&mut words, &mut floats, Taken::default())?;
    /// assert_eq!(first.to_array(), [12, 2, 0, 25, 111, 124, 0]);
    ///
    /// let behind = Taken {
    ///     words: first.triples as usize + grid.triples.len(),
    ///     floats: first.positions as usize + grid.positions.len(),
    /// };
    /// let second = grid.pack(&mut words, &mut floats, behind)?;
    /// assert_eq!(second.to_array(), [12, 2, 304, 329, 415, 428, 36]);
    /// # Ok::<(), koshirga::Refusal>(())
    /// ```
    pub fn pack(
        &self,
        words: &mut [u32],
        floats: &mut [f32],
        taken: Taken,
    ) -> Result<LevelRecord, Refusal> {
        let answer = ffi::pack(*self, words, floats, taken);
        Refusal::check_at(answer.refusal, answer.index)?;
        Ok(answer.level)
    }
}

/// The two lists of packed grids, which grow with each.
///
/// ```
/// use koshirga::{FaceGrid, GpuBuffers, LatticeGeometry};
///
/// let mut buffers = GpuBuffers::default();
/// for (frequency, record) in [
///     (1, [12, 2, 0, 25, 111, 124, 0]),
///     (2, [42, 4, 304, 401, 753, 796, 36]),
/// ] {
///     let lattice = LatticeGeometry::new(frequency)?;
///     let level = FaceGrid::new(lattice.mesh.as_mesh())?.pack(&mut buffers)?;
///     assert_eq!(level.to_array(), record);
/// }
/// assert_eq!((buffers.words.len(), buffers.floats.len()), (1516, 162));
/// # Ok::<(), koshirga::Refusal>(())
/// ```
#[derive(Clone, Debug, Default, PartialEq)]
pub struct GpuBuffers {
    /// The lists of each grid.
    pub words: Vec<u32>,
    /// The positions of each grid.
    pub floats: Vec<f32>,
}

impl GpuBuffers {
    /// Packs a grid behind what is there, by [`Grid::pack`]. All that is there counts as taken.
    ///
    /// Rows as there; of row 8 nothing but an offset above `u32::MAX` is left. Both lists then are as
    /// they were.
    pub fn append(&mut self, grid: &Grid) -> Result<LevelRecord, Refusal> {
        let taken = Taken {
            words: self.words.len(),
            floats: self.floats.len(),
        };
        let starts = grid.cell_starts.len() + grid.triangle_starts.len();
        let ids = grid.cell_ids.len() + grid.triples.len();
        self.words.resize(taken.words + starts + ids, 0);
        self.floats.resize(taken.floats + grid.positions.len(), 0.0);
        let packed = grid.pack(&mut self.words, &mut self.floats, taken);
        if packed.is_err() {
            self.words.truncate(taken.words);
            self.floats.truncate(taken.floats);
        }
        packed
    }
}
