//! The walk over all islands of a mesh: numbers, islands and their starts, which row refuses, and
//! what a call leaves in the lent slices.

use koshirga::{walk_islands, IslandWalk, LatticeGeometry, MeshData, Refusal};

mod common {
    pub mod lists;
    pub mod refused;
}
use common::lists::mesh;
use common::refused::{self, lent, Row};

fn lattice(frequency: u32) -> MeshData {
    LatticeGeometry::new(frequency).unwrap().mesh
}

/// Vertices 1, 2 and 3 in one piece, 0 and 4 in another, and 5 alone.
fn three_islands() -> MeshData {
    mesh(&[&[4], &[3, 2], &[1], &[1], &[0], &[]])
}

fn walked(mesh: &MeshData) -> IslandWalk {
    mesh.walk_islands().unwrap()
}

fn walk(order: &[u32], queue: &[u32], island_starts: &[u32], entries_read: u32) -> IslandWalk {
    IslandWalk {
        order: order.to_vec(),
        queue: queue.to_vec(),
        island_starts: island_starts.to_vec(),
        entries_read,
    }
}

/// What is filled, or a refusal's number and index. The slices, in their order, have these lengths.
/// Places behind the filled ones are what they were; where the call is refused, all are.
fn walked_with(mesh: &MeshData, lengths: [usize; 3]) -> Result<IslandWalk, Row> {
    let [mut order, mut queue, mut island_starts] = lengths.map(lent);
    let answer = walk_islands(mesh.as_mesh(), &mut order, &mut queue, &mut island_starts);
    let count = mesh.vertex_count();
    let filled = answer.map_or([0; 3], |found| [count, count, found.islands as usize]);
    for (slice, filled) in [&order, &queue, &island_starts].into_iter().zip(filled) {
        assert_eq!(slice[filled..], lent(slice.len())[filled..]);
    }
    let [of_order, of_queue, of_starts] = filled;
    answer
        .map(|found| {
            walk(
                &order[..of_order],
                &queue[..of_queue],
                &island_starts[..of_starts],
                found.entries_read,
            )
        })
        .map_err(|refusal| (refusal.number(), refusal.index()))
}

/// Whole numbers, the same in each run (Knuth's linear congruence).
struct Random(u64);

impl Random {
    fn below(&mut self, n: usize) -> usize {
        self.0 = self
            .0
            .wrapping_mul(6_364_136_223_846_793_005)
            .wrapping_add(1_442_695_040_888_963_407);
        (self.0 >> 33) as usize % n
    }

    fn permutation(&mut self, count: usize) -> Vec<u16> {
        let mut ids: Vec<u16> = (0..count as u16).collect();
        for last in (1..count).rev() {
            ids.swap(last, self.below(last + 1));
        }
        ids
    }
}

fn mesh_of(lists: &[Vec<u16>]) -> MeshData {
    mesh(&lists.iter().map(Vec::as_slice).collect::<Vec<_>>())
}

#[test]
fn islands_behind_one_another() {
    assert_eq!(
        walked(&three_islands()),
        walk(&[0, 2, 4, 3, 1, 5], &[0, 4, 1, 3, 2, 5], &[0, 2, 5], 6)
    );
    let crossed = mesh(&[&[3], &[2], &[1], &[0]]);
    assert_eq!(
        walked(&crossed),
        walk(&[0, 2, 3, 1], &[0, 3, 1, 2], &[0, 2], 4)
    );
    let alone = mesh(&[&[], &[], &[]]);
    assert_eq!(walked(&alone), walk(&[0, 1, 2], &[0, 1, 2], &[0, 1, 2], 0));
    let order = [0, 1, 2, 3, 8, 6, 4, 5, 9, 11, 7, 10];
    let queue = [0, 1, 2, 3, 6, 7, 5, 10, 4, 8, 11, 9];
    assert_eq!(walked(&lattice(1)), walk(&order, &queue, &[0], 60));
}

/// An entry that names an id of an earlier island is read, and nothing enters.
#[test]
fn lists_that_are_not_mutual() {
    let back = mesh(&[&[1], &[0], &[], &[2]]);
    assert_eq!(
        walked(&back),
        walk(&[0, 1, 2, 3], &[0, 1, 2, 3], &[0, 2, 3], 3)
    );
    let second_to_first = mesh(&[&[], &[0]]);
    assert_eq!(walked(&second_to_first), walk(&[0, 1], &[0, 1], &[0, 1], 1));
    let path = mesh(&[&[2], &[], &[1]]);
    assert_eq!(walked(&path), walk(&[0, 2, 1], &[0, 2, 1], &[0], 2));
    let beside_a_pair = mesh(&[&[1], &[0], &[0]]);
    assert_eq!(
        walked(&beside_a_pair),
        walk(&[0, 1, 2], &[0, 1, 2], &[0, 2], 3)
    );
}

/// Every entry counts, also one that is there twice, or whose vertex has entered.
#[test]
fn repeats_and_own_vertices() {
    let mesh = mesh(&[&[0, 2, 2], &[1, 1], &[0]]);
    assert_eq!(walked(&mesh), walk(&[0, 2, 1], &[0, 2, 1], &[0, 2], 6));
}

/// Places behind the islands stay, also below the vertex count, and so does surplus.
#[test]
fn places_behind_the_islands() {
    let mesh = three_islands();
    for lengths in [[6, 6, 6], [9, 7, 8], [6, 40, 6], [6, 6, 40]] {
        assert_eq!(walked_with(&mesh, lengths), Ok(walked(&mesh)));
    }
}

/// Each slice needs a place a vertex, also where there are fewer islands, and none needs more: here
/// coordinates and entries outnumber the vertices.
#[test]
fn length_of_the_slices() {
    for mesh in [three_islands(), lattice(2), mesh(&[&[0; 32]])] {
        let count = mesh.vertex_count();
        assert!(walked_with(&mesh, [count; 3]).is_ok());
        for short in 0..3 {
            let mut lengths = [count; 3];
            lengths[short] -= 1;
            assert_eq!(walked_with(&mesh, lengths), Err((8, None)));
            lengths[short] = 0;
            assert_eq!(walked_with(&mesh, lengths), Err((8, None)));
        }
    }
}

/// The mesh's rows come first, in their order.
#[test]
fn rows_of_the_mesh() {
    for (mesh, row) in refused::meshes() {
        assert_eq!(walked_with(&mesh, [0; 3]), Err(row));
        let refused = mesh.walk_islands().unwrap_err();
        assert_eq!((refused.number(), refused.index()), row);
    }
    let falling = MeshData {
        starts: vec![0, 3, 1, 4, 5, 6, 6],
        ..three_islands()
    };
    assert_eq!(walked_with(&falling, [5; 3]), Err((18, Some(2))));
}

/// A position that row 5 would refuse, as there is no row 5.
#[test]
fn positions_are_only_counted() {
    let mut mesh = three_islands();
    mesh.positions[3] = f64::NAN;
    assert_eq!(walked(&mesh), walked(&three_islands()));
}

#[test]
fn as_many_vertices_as_there_may_be() {
    let most = 65_536;
    let alone = mesh_of(&vec![vec![]; most]);
    let ids: Vec<u32> = (0..most as u32).collect();
    assert_eq!(walked(&alone), walk(&ids, &ids, &ids, 0));

    // In pairs, the first vertex of each in the lower half.
    let across: Vec<Vec<u16>> = (0..most)
        .map(|id| vec![((id + most / 2) % most) as u16])
        .collect();
    let found = walked(&mesh_of(&across));
    assert_eq!(found.island_starts.len(), most / 2);
    for (island, pair) in (0..).zip(found.queue.chunks(2)) {
        assert_eq!(pair, [island, island + most as u32 / 2]);
        assert_eq!(found.island_starts[island as usize], 2 * island);
    }

    let mut more = alone;
    more.positions.extend([1.0; 3]);
    more.starts.push(0);
    let refused = more.walk_islands();
    assert_eq!(refused.map_err(Refusal::number), Err(2));
}

/// One to four lattices side by side, their ids mixed: the neighbour lists, each in the order that
/// its lattice has, and of which lattice each vertex is.
fn mixed_lattices(random: &mut Random) -> (Vec<Vec<u16>>, Vec<usize>) {
    let mut lists: Vec<Vec<u16>> = Vec::new();
    let mut part_of = Vec::new();
    for part in 0..=random.below(4) {
        let own = lattice(1 + random.below(3) as u32);
        let before = lists.len() as u16;
        for id in 0..own.vertex_count() {
            lists.push(own.neighbors(id).iter().map(|&n| before + n).collect());
            part_of.push(part);
        }
    }
    let ids = random.permutation(lists.len());
    let (mut mixed, mut mixed_part_of) = (lists.clone(), part_of.clone());
    for (old, &new) in ids.iter().enumerate() {
        mixed[new as usize] = lists[old].iter().map(|&n| ids[n as usize]).collect();
        mixed_part_of[new as usize] = part_of[old];
    }
    (mixed, mixed_part_of)
}

/// The walk over vertices of a mesh alone, as one of their own, by the ids that they have in it.
/// They ascend, and all their neighbours are among them.
fn walk_alone(lists: &[Vec<u16>], vertices: &[u32]) -> Vec<u32> {
    let place = |&id: &u16| vertices.binary_search(&u32::from(id)).unwrap() as u16;
    let own: Vec<Vec<u16>> = vertices
        .iter()
        .map(|&id| lists[id as usize].iter().map(place).collect())
        .collect();
    let walk = mesh_of(&own).bfs_vertex_permutation().unwrap();
    walk.queue.iter().map(|&id| vertices[id as usize]).collect()
}

/// As many islands as lattices, by their lowest ids, and each is numbered as the walk from its root
/// has it, and as the walk over its vertices alone has it.
#[test]
fn lattices_side_by_side() {
    let mut random = Random(1);
    for _ in 0..300 {
        let (lists, part_of) = mixed_lattices(&mut random);
        let mesh = mesh_of(&lists);
        let found = walked(&mesh);
        assert_eq!(found.entries_read as usize, mesh.entries.len());
        for (new, &old) in (0..).zip(&found.queue) {
            assert_eq!(found.order[old as usize], new);
        }

        let mut bounds = found.island_starts;
        bounds.push(found.queue.len() as u32);
        let mut roots = Vec::new();
        for bound in bounds.windows(2) {
            let island = &found.queue[bound[0] as usize..bound[1] as usize];
            let root = island[0];
            let part = part_of[root as usize];
            let vertices: Vec<u32> = (0..found.queue.len() as u32)
                .filter(|&id| part_of[id as usize] == part)
                .collect();
            assert_eq!(root, vertices[0]);
            assert_eq!(mesh.vertices_within(root, usize::MAX).unwrap(), island);
            assert_eq!(walk_alone(&lists, &vertices), island);
            roots.push(root);
        }
        assert!(roots.is_sorted());
        assert_eq!(roots.len(), part_of.iter().max().unwrap() + 1);
    }
}

/// Where vertex 0 reaches all, the two walks are one; where it doesn't, the ordinary one is refused
/// by row 13.
#[test]
fn beside_the_walk() {
    let beside = |mesh: &MeshData| {
        let found = walked(mesh);
        match mesh.bfs_vertex_permutation() {
            Ok(one) => assert_eq!(found, walk(&one.order, &one.queue, &[0], one.entries_read)),
            Err(refusal) => {
                assert_eq!(refusal.number(), 13);
                assert!(found.island_starts.len() > 1);
            }
        }
        found.island_starts.len() == 1
    };
    for frequency in [1, 2, 5, 20, 80] {
        assert!(beside(&lattice(frequency)));
    }
    let mut random = Random(2);
    let mut in_one = 0;
    for _ in 0..5000 {
        let count = 1 + random.below(12);
        let mut list = || -> Vec<u16> {
            let length = random.below(5);
            (0..length).map(|_| random.below(count) as u16).collect()
        };
        let lists: Vec<Vec<u16>> = (0..count).map(|_| list()).collect();
        in_one += usize::from(beside(&mesh_of(&lists)));
    }
    assert!((1000..4000).contains(&in_one), "{in_one}");
}
