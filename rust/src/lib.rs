//! Safe calls of Koshirga, whose code is proved in Rattle and linked as a static archive.
//!
//! The exports are those of `include/koshirga.h`; each has its call here, over lent slices.
//! [`LatticeGeometry`], [`MeshData`], [`FaceGrid`] and [`GpuBuffers`] make the same calls with lists
//! of their own.
//! Why a call may be refused is listed at [`Refusal`]; what each call does, step by step, is in
//! `docs/DATASHEET.md`.
//!
//! Which measured points stand around a direction, and with which weights:
//!
//! ```
//! use koshirga::{FaceGrid, LatticeGeometry, Vector3};
//!
//! let lattice = LatticeGeometry::new(20)?;
//! let grid = FaceGrid::new(lattice.mesh.as_mesh())?;
//! let located = grid.locate(Vector3::new(0.3, -0.5, 0.8))?;
//! let [first, second, third] = located.triple;
//! assert!(first < second && second < third);
//! assert!(located.least >= 0.0);
//! # Ok::<(), koshirga::Refusal>(())
//! ```

#![deny(missing_docs)]
#![deny(unsafe_code)]

mod analytic;
mod binary64;
mod buffers;
#[allow(unsafe_code)]
mod ffi;
mod grid;
mod lattice;
mod mesh;
mod refusal;
mod vector;
mod weights;

pub use analytic::{choose_face, AnalyticLattice, Outside, Signs};
pub use binary64::{
    ceil, floor, minimum_number, mul_add, rank, sqrt, sqrt_by_digits, to_f32, to_i64, total_cmp,
    Conversion, Converted,
};
pub use buffers::{GpuBuffers, LevelRecord, Taken};
pub use grid::{build_grid, Built, FaceGrid, Grid, GridMut, Located, Nearest, Settings};
pub use lattice::{lattice_geometry, LatticeGeometry};
pub use mesh::{
    apply_vertex_permutation, bfs_vertex_permutation, mark_ascending, steps_between,
    vertices_within, walk_islands, IslandCount, IslandWalk, Mesh, MeshData, MeshMut, Scratch,
    Steps, Walk,
};
pub use refusal::Refusal;
pub use vector::Vector3;
pub use weights::{least_weight, projected_barycentric, Weights};
