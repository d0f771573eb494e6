//! Steps between two vertices, and the vertices within so many steps: numbers and order, which row
//! refuses, and what a call leaves in the lent slices.

use koshirga::{steps_between, vertices_within, LatticeGeometry, MeshData, Refusal};

mod common {
    pub mod lists;
    pub mod refused;
}
use common::lists::mesh;
use common::refused::{self, lent, Row};

fn lattice(frequency: u32) -> MeshData {
    LatticeGeometry::new(frequency).unwrap().mesh
}

/// A path of four vertices, and beside it one that has itself for a neighbour.
fn path_and_island() -> MeshData {
    mesh(&[&[1], &[2, 0], &[3, 1], &[2], &[4]])
}

/// Steps and entries read, or a refusal's number.
fn between(mesh: &MeshData, from: u32, to: u32) -> Result<(u32, u32), u32> {
    mesh.steps_between(from, to)
        .map(|found| (found.steps, found.entries_read))
        .map_err(Refusal::number)
}

fn within(mesh: &MeshData, vertex: u32, steps: usize) -> Vec<u32> {
    mesh.vertices_within(vertex, steps).unwrap()
}

/// Steps and entries read, or a refusal's number and index, with scratch of these lengths. Scratch
/// is what it was where the call is refused, but by row 15.
fn between_with(
    mesh: &MeshData,
    from: u32,
    to: u32,
    (order, queue): (usize, usize),
) -> Result<(u32, u32), Row> {
    let (order_before, queue_before) = (lent(order), lent(queue));
    let (mut order, mut queue) = (order_before.clone(), queue_before.clone());
    let answer = steps_between(mesh.as_mesh(), from, to, &mut order, &mut queue);
    if answer.is_err_and(|refusal| refusal.number() != 15) {
        assert_eq!((order, queue), (order_before, queue_before));
    }
    answer
        .map(|found| (found.steps, found.entries_read))
        .map_err(|refusal| (refusal.number(), refusal.index()))
}

/// The vertices that are filled, or a refusal's number and index, with slices of these lengths.
/// Places behind the filled ones are what they were; where the call is refused, all are.
fn within_with(
    mesh: &MeshData,
    vertex: u32,
    steps: usize,
    (order, list): (usize, usize),
) -> Result<Vec<u32>, Row> {
    let (order_before, list_before) = (lent(order), lent(list));
    let (mut order, mut list) = (order_before.clone(), list_before.clone());
    let answer = vertices_within(mesh.as_mesh(), vertex, steps, &mut order, &mut list);
    let filled = answer.map_or(0, |vertices| vertices as usize);
    assert_eq!(list[filled..], list_before[filled..]);
    if answer.is_err() {
        assert_eq!(order, order_before);
    }
    list.truncate(filled);
    answer
        .map(|_| list)
        .map_err(|refusal| (refusal.number(), refusal.index()))
}

#[test]
fn lattice_of_frequency_1() {
    let mesh = lattice(1);
    assert_eq!(between(&mesh, 0, 4), Ok((2, 14)));
    assert_eq!(between(&mesh, 0, 9), Ok((3, 34)));
    assert_eq!(between(&mesh, 9, 0), Ok((3, 31)));
    assert_eq!(between(&mesh, 4, 9), Ok((1, 5)));
    assert_eq!(between(&mesh, 3, 3), Ok((0, 0)));
    assert_eq!(mesh.bfs_vertex_permutation().unwrap().entries_read, 60);

    assert_eq!(within(&mesh, 4, 0), [4]);
    assert_eq!(within(&mesh, 4, 1), [4, 2, 3, 5, 8, 9]);
    assert_eq!(within(&mesh, 4, 2), [4, 2, 3, 5, 8, 9, 0, 1, 7, 10, 11]);
    assert_eq!(within(&mesh, 4, 3), [4, 2, 3, 5, 8, 9, 0, 1, 7, 10, 11, 6]);
}

#[test]
fn path_beside_an_island() {
    let mesh = path_and_island();
    assert_eq!(between(&mesh, 0, 1), Ok((1, 1)));
    assert_eq!(between(&mesh, 0, 2), Ok((2, 2)));
    assert_eq!(between(&mesh, 0, 3), Ok((3, 4)));
    assert_eq!(between(&mesh, 3, 0), Ok((3, 5)));
    assert_eq!(between(&mesh, 0, 4), Err(15));
    assert_eq!(between(&mesh, 4, 0), Err(15));
    assert_eq!(between(&mesh, 4, 4), Ok((0, 0)));
    assert_eq!(within(&mesh, 1, 1), [1, 2, 0]);
    assert_eq!(within(&mesh, 4, 9), [4]);
}

/// Every entry counts, also one that is there twice, or whose vertex has entered.
#[test]
fn repeats_and_own_vertices() {
    let mesh = mesh(&[&[2, 2, 1], &[0], &[1, 1, 2]]);
    assert_eq!(between(&mesh, 0, 1), Ok((1, 3)));
    assert_eq!(between(&mesh, 0, 2), Ok((1, 1)));
    assert_eq!(between(&mesh, 2, 0), Ok((2, 4)));
    assert_eq!(between(&mesh, 2, 2), Ok((0, 0)));
    assert_eq!(within(&mesh, 2, 1), [2, 1]);
}

#[test]
fn lists_that_are_not_mutual() {
    let mesh = mesh(&[&[1, 2], &[0], &[3], &[]]);
    assert_eq!(between(&mesh, 0, 3), Ok((2, 4)));
    assert_eq!(between(&mesh, 1, 3), Ok((3, 4)));
    assert_eq!(between(&mesh, 3, 0), Err(15));
    assert_eq!(within(&mesh, 1, 2), [1, 0, 2]);
    assert_eq!(within(&mesh, 3, usize::MAX), [3]);
}

/// Only the filled places of a list are written, and surplus stays too.
#[test]
fn places_behind_the_list() {
    let mesh = path_and_island();
    for steps in [3, 9, usize::MAX] {
        assert_eq!(within_with(&mesh, 1, steps, (15, 8)), Ok(vec![1, 2, 0, 3]));
    }
    assert_eq!(within_with(&mesh, 1, 1, (15, 5)), Ok(vec![1, 2, 0]));
    assert_eq!(within_with(&mesh, 1, 0, (40, 5)), Ok(vec![1]));
}

/// Row 14 is before row 8, and row 8 before 15, also where both ends are one vertex.
#[test]
fn rows_behind_those_of_the_mesh() {
    let mesh = path_and_island();
    let between = |from, to, places| between_with(&mesh, from, to, (places, places));
    for past in [5, 65_536, 65_537, u32::MAX] {
        assert_eq!(between(past, 0, 1), Err((14, None)));
        assert_eq!(between(0, past, 1), Err((14, None)));
        assert_eq!(between(past, past, 15), Err((14, None)));
        assert_eq!(within_with(&mesh, past, 0, (1, 1)), Err((14, None)));
    }
    assert_eq!(between(4, 0, 14), Err((8, None)));
    assert_eq!(between(4, 0, 15), Err((15, None)));
    assert_eq!(between(4, 4, 14), Err((8, None)));
    assert_eq!(between(4, 4, 15), Ok((0, 0)));
    assert_eq!(between_with(&mesh, 0, 3, (14, 15)), Err((8, None)));
    assert_eq!(between_with(&mesh, 0, 3, (15, 14)), Err((8, None)));
    assert_eq!(between_with(&mesh, 0, 3, (15, 16)), Ok((3, 4)));
    assert_eq!(within_with(&mesh, 4, 0, (14, 5)), Err((8, None)));
    assert_eq!(within_with(&mesh, 4, 0, (15, 4)), Err((8, None)));
    assert_eq!(within_with(&mesh, 4, 0, (15, 5)), Ok(vec![4]));
}

/// Positions or entries are the longest; there are never more starts than coordinates.
#[test]
fn length_of_scratch() {
    for (mesh, longest) in [(mesh(&[&[]]), 3), (mesh(&[&[1; 32], &[]]), 32)] {
        let (count, short) = (mesh.vertex_count(), longest - 1);
        assert_eq!(between_with(&mesh, 0, 0, (longest, short)), Err((8, None)));
        assert_eq!(between_with(&mesh, 0, 0, (short, longest)), Err((8, None)));
        assert_eq!(between_with(&mesh, 0, 0, (longest, longest)), Ok((0, 0)));
        assert_eq!(within_with(&mesh, 0, 0, (short, count)), Err((8, None)));
        assert_eq!(within_with(&mesh, 0, 0, (longest, count)), Ok(vec![0]));
    }
}

/// The mesh's rows come first, in their order.
#[test]
fn rows_of_the_mesh() {
    for (mesh, row) in refused::meshes() {
        assert_eq!(between_with(&mesh, 9, 9, (0, 0)), Err(row));
        assert_eq!(within_with(&mesh, 9, 0, (0, 0)), Err(row));
        let refused = mesh.steps_between(9, 9).unwrap_err();
        assert_eq!((refused.number(), refused.index()), row);
        assert_eq!(mesh.vertices_within(9, 0), Err(refused));
    }
}

/// A position that row 5 would refuse, as there is no row 5.
#[test]
fn positions_are_only_counted() {
    let mut mesh = path_and_island();
    mesh.positions[3] = f64::NAN;
    assert_eq!(between(&mesh, 0, 3), Ok((3, 4)));
    assert_eq!(within(&mesh, 1, 1), [1, 2, 0]);
}

/// The walk from vertex 0 is the one that renumbers.
#[test]
fn walk_to_its_end() {
    for frequency in [1, 2, 5, 20, 80] {
        let mesh = lattice(frequency);
        let walk = mesh.bfs_vertex_permutation().unwrap();
        assert_eq!(within(&mesh, 0, usize::MAX), walk.queue);
        let last = *walk.queue.last().unwrap();
        let found = mesh.steps_between(0, last).unwrap();
        assert!(found.entries_read <= walk.entries_read);
        let nearer = within(&mesh, 0, found.steps as usize - 1);
        assert!(nearer.len() < walk.queue.len());
        assert_eq!(within(&mesh, 0, found.steps as usize), walk.queue);
    }
}

/// Both calls agree on every pair: a vertex is in the lists from its own number of steps on. Lists
/// of a lattice are mutual, so that the way back takes as many steps.
#[test]
fn all_pairs_of_small_lattices() {
    for frequency in 1..=3 {
        let mesh = lattice(frequency);
        let count = mesh.vertex_count() as u32;
        for from in 0..count {
            let whole = within(&mesh, from, usize::MAX);
            assert_eq!(whole.len(), count as usize);
            let mut steps: Vec<u32> = Vec::new();
            for &to in &whole {
                steps.push(between(&mesh, from, to).unwrap().0);
                assert_eq!(between(&mesh, to, from).unwrap().0, steps[steps.len() - 1]);
            }
            assert!(steps.is_sorted());
            for k in 0..=steps[steps.len() - 1] {
                let filled = steps.iter().filter(|&&far| far <= k).count();
                assert_eq!(within(&mesh, from, k as usize), whole[..filled]);
            }
        }
    }
}
