//! Two balloons for the graphics card: a lattice, and the same one renumbered in the order of its
//! walk, are packed one behind the other, and a viewer then finds in words and floats what it draws,
//! by each level record alone.
//!
//! Usage: `buffers [FREQUENCY]`. Exit status: 0; 1 where the engine refuses, or a grid doesn't stand
//! where its record says; 2 where the argument can't be read.

use koshirga::{to_f32, FaceGrid, GpuBuffers, LatticeGeometry, LevelRecord, Refusal};
use std::process::ExitCode;

fn main() -> ExitCode {
    let given: Vec<String> = std::env::args().skip(1).collect();
    let frequency = match given.as_slice() {
        [] => Some(20),
        [frequency] => frequency.parse().ok(),
        _ => None,
    };
    let Some(frequency) = frequency else {
        eprintln!("usage: buffers [FREQUENCY]");
        return ExitCode::from(2);
    };
    match buffers(frequency) {
        Ok(true) => ExitCode::SUCCESS,
        Ok(false) => {
            eprintln!("buffers: a grid doesn't stand where its record says");
            ExitCode::FAILURE
        }
        Err(refusal) => {
            eprintln!("buffers: {refusal}");
            ExitCode::FAILURE
        }
    }
}

/// Whether each grid stands where its record says.
fn buffers(frequency: u32) -> Result<bool, Refusal> {
    let lattice = LatticeGeometry::new(frequency)?;
    let mut renumbered = lattice.mesh.clone();
    let walk = renumbered.bfs_vertex_permutation()?;
    renumbered.apply_vertex_permutation(&mut [], &walk.order, 1)?;

    let first = FaceGrid::new(lattice.mesh.as_mesh())?;
    let second = FaceGrid::new(renumbered.as_mesh())?;
    let mut buffers = GpuBuffers::default();
    let levels = [first.pack(&mut buffers)?, second.pack(&mut buffers)?];
    println!(
        "{} words and {} floats",
        buffers.words.len(),
        buffers.floats.len()
    );
    for level in levels {
        println!("\nRecord {:?}", level.to_array());
        draw_first(&buffers, level);
    }
    Ok(holds(&buffers, levels[0], &first) && holds(&buffers, levels[1], &second))
}

/// What a viewer does: nothing but words, floats and the record is read.
fn draw_first(buffers: &GpuBuffers, level: LevelRecord) {
    let words = |offset: u32| &buffers.words[offset as usize..];
    let (cell_starts, cell_ids) = (words(level.cell_starts), words(level.cell_ids));
    let (triangle_starts, triples) = (words(level.triangle_starts), words(level.triples));
    let ids = &cell_ids[cell_starts[0] as usize..cell_starts[1] as usize];
    println!("  cell 0       the ids {ids:?}");
    let triangles = triangle_starts[1] as usize..triangle_starts[2] as usize;
    println!(
        "  vertex 1     {} triangles, of the first of them:",
        triangles.len()
    );
    let positions = &buffers.floats[level.positions as usize..];
    for &id in &triples[3 * triangles.start..][..3] {
        let position = &positions[3 * id as usize..][..3];
        println!("  {id:>8}     at {position:?}");
    }
}

/// Whether the words and floats that a record names are a grid's.
fn holds(buffers: &GpuBuffers, level: LevelRecord, grid: &FaceGrid) -> bool {
    let grid = grid.as_grid();
    let words = |offset: u32, length: usize| buffers.words[offset as usize..][..length].iter();
    let wide = |ids: &'_ [u16]| ids.iter().map(|&id| u32::from(id)).collect::<Vec<_>>();
    let rounded = grid.positions.iter().map(|&x| to_f32(x));
    let floats = &buffers.floats[level.positions as usize..][..grid.positions.len()];
    words(level.cell_starts, grid.cell_starts.len()).eq(grid.cell_starts)
        && words(level.cell_ids, grid.cell_ids.len()).eq(&wide(grid.cell_ids))
        && words(level.triangle_starts, grid.triangle_starts.len()).eq(grid.triangle_starts)
        && words(level.triples, grid.triples.len()).eq(&wide(grid.triples))
        && rounded.eq(floats.iter().copied())
}
