//! The calls one after another, as a balloon is prepared and asked: what a renumbering by the walk's
//! order leaves as it was.

mod common;

use common::directions;
use koshirga::{
    least_weight, projected_barycentric, FaceGrid, LatticeGeometry, MeshData, Settings, Walk,
};

const FREQUENCIES: [u32; 4] = [1, 2, 7, 20];

/// A lattice, and its mesh and levels in the order of the walk. The level at a vertex is its id.
fn prepared(frequency: u32) -> (LatticeGeometry, Walk, MeshData, Vec<f64>) {
    let lattice = LatticeGeometry::new(frequency).unwrap();
    let walk = lattice.mesh.bfs_vertex_permutation().unwrap();
    let mut mesh = lattice.mesh.clone();
    let mut levels: Vec<f64> = (0..mesh.vertex_count()).map(|id| id as f64).collect();
    mesh.apply_vertex_permutation(&mut levels, &walk.order, 1)
        .unwrap();
    (lattice, walk, mesh, levels)
}

#[test]
fn vertices_and_levels_move_together() {
    for frequency in FREQUENCIES {
        let (lattice, walk, mesh, levels) = prepared(frequency);
        assert_eq!(walk.entries_read as usize, mesh.entries.len());
        for (id, &new) in walk.order.iter().enumerate() {
            let new = new as usize;
            assert_eq!(mesh.position(new), lattice.mesh.position(id));
            assert_eq!(levels[new], id as f64);
            assert_eq!(walk.queue[new] as usize, id);
        }
    }
}

/// Each list is the earlier one with new ids, sorted; some of these ids are out of order before.
#[test]
fn neighbors_are_sorted_by_their_new_ids() {
    for frequency in FREQUENCIES {
        let (lattice, walk, mesh, _) = prepared(frequency);
        assert!(lattice.mesh.lists_ascend && mesh.lists_ascend);
        let mut out_of_order = 0;
        for (id, &new) in walk.order.iter().enumerate() {
            let neighbors = lattice.mesh.neighbors(id).iter();
            let mut renumbered: Vec<u16> = neighbors
                .map(|&other| walk.order[usize::from(other)] as u16)
                .collect();
            out_of_order += usize::from(!renumbered.is_sorted());
            renumbered.sort();
            assert_eq!(mesh.neighbors(new as usize), renumbered);
        }
        assert!(out_of_order > 0, "frequency {frequency}");
    }
}

/// The usual pair, and others.
const PAIRS: [(f64, u32); 5] = [(1.2, 1), (0.5, 0), (0.5, 3), (4.0, 0), (4.0, 3)];

#[test]
fn queries_after_a_renumbering() {
    for (factor, margin) in PAIRS {
        for frequency in FREQUENCIES {
            compare_queries(frequency, Settings { factor, margin });
        }
    }
}

/// Both grids are built with one pair. The usual one leaves no cell empty here; one that another
/// leaves so is empty before and after.
fn compare_queries(frequency: u32, settings: Settings) {
    let (lattice, walk, mesh, _) = prepared(frequency);
    let before = FaceGrid::with_settings(lattice.mesh.as_mesh(), settings).unwrap();
    let after = FaceGrid::with_settings(mesh.as_mesh(), settings).unwrap();
    for direction in directions() {
        let nearest = match before.find_nearest_vertex(direction) {
            Ok(nearest) => nearest,
            Err(refusal) => {
                assert_ne!(settings, Settings::default());
                assert_eq!(refusal.number(), 11);
                assert_eq!(before.locate(direction), Err(refusal));
                assert_eq!(after.find_nearest_vertex(direction), Err(refusal));
                assert_eq!(after.locate(direction), Err(refusal));
                continue;
            }
        };
        let later = after.find_nearest_vertex(direction).unwrap();
        assert_eq!(later.id, walk.order[nearest.id as usize]);
        assert_eq!(later.candidates, nearest.candidates);
        assert_eq!(later.distance.to_bits(), nearest.distance.to_bits());

        // The point of an edge that is closest to a direction belongs to two triangles, and each
        // order of the ids has its own first one of them. Their least weight is 0.
        let located = before.locate(direction).unwrap();
        let later = after.locate(direction).unwrap();
        if located.least > 0.0 {
            let mut triple = located.triple.map(|id| walk.order[id as usize]);
            triple.sort();
            assert_eq!(later.triple, triple);
        } else {
            assert_eq!(later.least, 0.0);
        }
    }
}

#[test]
fn weights_are_those_of_the_triangle() {
    for frequency in FREQUENCIES {
        let (_, _, mesh, _) = prepared(frequency);
        let grid = FaceGrid::new(mesh.as_mesh()).unwrap();
        for direction in directions() {
            let located = grid.locate(direction).unwrap();
            let [a, b, c] = located.triple.map(|id| mesh.position(id as usize));
            let weights = projected_barycentric(direction.normalize(), a, b, c);
            assert_eq!(located.weights, weights);
            assert_eq!(located.least.to_bits(), least_weight(weights).to_bits());
            assert!((weights.u + weights.v + weights.w - 1.0).abs() < 1e-12);
        }
    }
}

#[test]
fn closed_form_answers_in_the_lattices_own_ids() {
    for frequency in FREQUENCIES {
        let (lattice, _, _, _) = prepared(frequency);
        for direction in directions() {
            let (triple, weights) = lattice.analytic().locate(direction).unwrap();
            let nearest = lattice.analytic().find_nearest_vertex(direction).unwrap();
            assert!(triple.contains(&nearest));
            let [a, b, c] = triple.map(|id| lattice.mesh.position(id as usize));
            // The corners stand around the direction, so their mean points to it.
            let mean = a
                .scale(weights.u)
                .plus(b.scale(weights.v))
                .plus(c.scale(weights.w));
            let cosine = mean.normalize().dot(direction.normalize());
            assert!(
                cosine > 0.99,
                "frequency {frequency}: {direction:?}, {triple:?}"
            );
        }
    }
}
