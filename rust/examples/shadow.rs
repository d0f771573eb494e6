//! A balloon whose rear was shadowed, by the ring of a stand and by its pole: which of the measured
//! points belong together, and where too few do to interpolate between them.
//!
//! Usage: `shadow [FREQUENCY]`. Exit status: 0; 1 where the engine refuses, or an island isn't what a
//! walk from its first point reaches; 2 where the argument can't be read.

use koshirga::{LatticeGeometry, MeshData, Refusal};
use std::process::ExitCode;

/// A triangle has so many points.
const LEAST: usize = 3;

fn main() -> ExitCode {
    let given: Vec<String> = std::env::args().skip(1).collect();
    let frequency = match given.as_slice() {
        [] => Some(4),
        [frequency] => frequency.parse().ok(),
        _ => None,
    };
    let Some(frequency) = frequency else {
        eprintln!("usage: shadow [FREQUENCY]");
        return ExitCode::from(2);
    };
    match shadow(frequency) {
        Ok(true) => ExitCode::SUCCESS,
        Ok(false) => {
            eprintln!("shadow: an island isn't what its first point leads to");
            ExitCode::FAILURE
        }
        Err(refusal) => {
            eprintln!("shadow: {refusal}");
            ExitCode::FAILURE
        }
    }
}

/// The rear is where x is below 0.
fn in_shadow(mesh: &MeshData, id: u32) -> bool {
    let at = mesh.position(id as usize);
    (at.x > -0.85 && at.x < -0.6) || (at.x < 0.0 && at.y > 0.05 && at.y < 0.35)
}

/// The mesh of the points that aren't in the shadow, its lists without those that are, and the old
/// id of each vertex.
fn measured(whole: &MeshData) -> (MeshData, Vec<u32>) {
    let ids: Vec<u32> = (0..whole.vertex_count() as u32)
        .filter(|&id| !in_shadow(whole, id))
        .collect();
    let mut left = MeshData {
        positions: Vec::new(),
        starts: vec![0],
        entries: Vec::new(),
        lists_ascend: false,
    };
    for &id in &ids {
        let at = whole.position(id as usize);
        left.positions.extend([at.x, at.y, at.z]);
        let neighbors = whole.neighbors(id as usize).iter();
        let places = neighbors.filter_map(|&near| ids.binary_search(&near.into()).ok());
        left.entries.extend(places.map(|place| place as u16));
        left.starts.push(left.entries.len() as u32);
    }
    (left, ids)
}

/// Whether each island has the points that a walk from its first one reaches.
fn shadow(frequency: u32) -> Result<bool, Refusal> {
    let whole = LatticeGeometry::new(frequency)?.mesh;
    let (mesh, ids) = measured(&whole);
    println!(
        "{} of {} points are measured",
        ids.len(),
        whole.vertex_count()
    );
    if let Err(refusal) = mesh.bfs_vertex_permutation() {
        println!("the ordinary walk: refused {}", refusal.number());
    }

    let walk = mesh.walk_islands()?;
    println!("{:>6} {:>6} {:>6}", "island", "points", "first");
    let mut right = true;
    let mut small = 0;
    for (island, &start) in walk.island_starts.iter().enumerate() {
        let end = walk.island_starts.get(island + 1);
        let end = end.map_or(ids.len(), |&end| end as usize);
        // Side by side in the queue, the lowest id first.
        let points = &walk.queue[start as usize..end];
        let too_small = points.len() < LEAST;
        let remark = if too_small { "  too small" } else { "" };
        let first = ids[points[0] as usize];
        println!("{island:>6} {:>6} {first:>6}{remark}", points.len());
        small += u32::from(too_small);
        right &= mesh.vertices_within(points[0], usize::MAX)? == points;
    }
    let islands = walk.island_starts.len();
    println!("{islands} islands, {small} of them too small to interpolate in");
    Ok(right)
}
