//! The mark that a mesh's neighbour lists ascend: which call sets or clears it, which leaves it, and
//! that nothing else depends on it.

use koshirga::{
    apply_vertex_permutation, lattice_geometry, FaceGrid, LatticeGeometry, MeshData, Refusal,
    Scratch,
};

mod common {
    pub mod lists;
}
use common::lists::mesh;

/// A refusal's number and index.
type Row = (u32, Option<usize>);

fn row(refusal: Refusal) -> Row {
    (refusal.number(), refusal.index())
}

fn marked(mesh: &MeshData, lists_ascend: bool) -> MeshData {
    MeshData {
        lists_ascend,
        ..mesh.clone()
    }
}

fn identity(count: usize) -> Vec<u32> {
    (0..count as u32).collect()
}

fn backwards(count: usize) -> Vec<u32> {
    (0..count as u32).rev().collect()
}

/// Whether no entry of a list is below the one before it, read once more.
fn all_ascend(mesh: &MeshData) -> bool {
    (0..mesh.vertex_count()).all(|id| mesh.neighbors(id).is_sorted())
}

/// Lists out of order, one with repeats, one with a single entry and an empty one.
const LISTS: [&[u16]; 4] = [&[3, 1, 2], &[0], &[3, 0, 3, 0], &[]];
const LEVELS: [f64; 4] = [10.0, 11.0, 12.0, 13.0];

#[test]
fn an_accepted_lattice_is_marked() {
    for frequency in [1, 2, 7, 80] {
        let lattice = LatticeGeometry::new(frequency).unwrap();
        assert!(lattice.mesh.lists_ascend);
        assert!(all_ascend(&lattice.mesh));
    }
}

/// Both rows of the lattice, with either mark before it.
#[test]
fn a_refused_lattice_leaves_the_mark() {
    for before in [false, true] {
        let lattice = |frequency, [positions, starts, entries, ids]: [usize; 4]| {
            let mut mesh = MeshData {
                positions: vec![7.0; positions],
                starts: vec![7; starts],
                entries: vec![7; entries],
                lists_ascend: before,
            };
            let as_it_was = mesh.clone();
            let mut ids = vec![7; ids];
            let answer = lattice_geometry(frequency, mesh.as_mesh_mut(), &mut ids);
            match answer {
                Ok(()) => assert!(mesh.lists_ascend),
                Err(_) => assert_eq!(mesh, as_it_was),
            }
            answer.err().map(Refusal::number)
        };
        assert_eq!(lattice(1, [36, 13, 60, 60]), None);
        for frequency in [0, 81, u32::MAX] {
            assert_eq!(lattice(frequency, [36, 13, 60, 60]), Some(1));
        }
        for short in 0..4 {
            let mut lengths = [36, 13, 60, 60];
            lengths[short] -= 1;
            assert_eq!(lattice(1, lengths), Some(8));
        }
    }
}

/// Vertices 0 to 3 become 2, 0, 3 and 1. Their lists are then 1 0 3, 2, 1 2 1 2 and an empty one,
/// before they are sorted.
#[test]
fn a_renumbering_by_hand() {
    for before in [false, true] {
        let from_outside = mesh(&LISTS);
        let (mut mesh, mut levels) = (marked(&from_outside, before), LEVELS);
        let answer = mesh.apply_vertex_permutation(&mut levels, &[2, 0, 3, 1], 1);
        assert_eq!(answer, Ok(()));
        assert!(mesh.lists_ascend);
        assert_eq!(mesh.starts, [0, 1, 1, 4, 8]);
        assert_eq!(mesh.entries, [2, 0, 1, 3, 1, 1, 2, 2]);
        assert_eq!(levels, [11.0, 13.0, 10.0, 12.0]);
        for (old, new) in [(0, 2), (1, 0), (2, 3), (3, 1)] {
            assert_eq!(mesh.position(new), from_outside.position(old));
        }
    }
}

/// The identity sorts the lists and moves nothing else, and sorts no second time.
#[test]
fn the_identity_sorts() {
    for before in [false, true] {
        let (mut mesh, mut levels) = (marked(&mesh(&LISTS), before), LEVELS);
        let sorted = MeshData {
            entries: vec![1, 2, 3, 0, 0, 0, 3, 3],
            ..marked(&mesh, true)
        };
        for _ in 0..2 {
            let answer = mesh.apply_vertex_permutation(&mut levels, &identity(4), 1);
            assert_eq!(answer, Ok(()));
            assert_eq!(mesh, sorted);
            assert_eq!(levels, LEVELS);
        }
    }
}

/// Lists of 32 entries: falling, with each id twice, and one id alone.
#[test]
fn the_longest_lists() {
    let falling: Vec<u16> = (1..=32).rev().collect();
    let twice: Vec<u16> = (0..32).map(|place| 7 * place % 16).collect();
    let mut lists: Vec<&[u16]> = vec![&[]; 33];
    (lists[0], lists[1], lists[32]) = (&falling, &twice, &[5; 32]);
    let rising: Vec<u16> = (1..=32).collect();
    let pairs: Vec<u16> = (0..32).map(|place| place / 2).collect();

    let mut sorted = mesh(&lists);
    assert_eq!(sorted.mark_ascending(), Ok(false));
    let answer = sorted.apply_vertex_permutation(&mut [], &identity(33), 1);
    assert_eq!(answer, Ok(()));
    assert!(sorted.lists_ascend);
    assert_eq!(sorted.neighbors(0), rising);
    assert_eq!(sorted.neighbors(1), pairs);
    assert_eq!(sorted.neighbors(32), [5; 32]);

    // Each id v becomes 32 - v, and so 1 to 32 become 31 to 0.
    let answer = sorted.apply_vertex_permutation(&mut [], &backwards(33), 1);
    assert_eq!(answer, Ok(()));
    assert!(sorted.lists_ascend);
    assert!(sorted.neighbors(32).iter().copied().eq(0..32));
    let pairs = (0..32).map(|place| 17 + place / 2);
    assert!(sorted.neighbors(31).iter().copied().eq(pairs));
    assert_eq!(sorted.neighbors(0), [27; 32]);
}

/// Ids are compared as unsigned numbers up to the greatest, 65535.
#[test]
fn the_greatest_ids() {
    let with_first = |list: &[u16]| {
        let mut lists: Vec<&[u16]> = vec![&[]; 65_536];
        lists[0] = list;
        mesh(&lists)
    };
    let mut rising = with_first(&[0, 32_767, 32_768, 65_535]);
    assert_eq!(rising.mark_ascending(), Ok(true));
    for list in [[65_535, 32_768, 32_767, 0], [32_768, 65_535, 0, 32_767]] {
        let mut sorted = with_first(&list);
        assert_eq!(sorted.mark_ascending(), Ok(false));
        let answer = sorted.apply_vertex_permutation(&mut [], &identity(65_536), 1);
        assert_eq!(answer, Ok(()));
        assert_eq!(sorted, rising);
    }
}

/// Meshes that rows 2 to 4 refuse. The lists that they have are out of order.
fn refused_meshes() -> Vec<(MeshData, Row)> {
    let damaged = |damage: fn(&mut MeshData), row| {
        let mut mesh = mesh(&LISTS);
        damage(&mut mesh);
        (mesh, row)
    };
    vec![
        damaged(|mesh| mesh.positions.clear(), (2, None)),
        damaged(|mesh| mesh.positions.push(1.0), (2, None)),
        damaged(|mesh| mesh.positions.resize(3 * 65_537, 1.0), (2, None)),
        damaged(|mesh| mesh.starts.push(8), (3, None)),
        damaged(|mesh| mesh.starts.clear(), (3, None)),
        damaged(|mesh| mesh.starts[0] = 1, (17, None)),
        damaged(|mesh| mesh.starts[4] = 7, (17, None)),
        damaged(|mesh| mesh.starts[1] = 5, (18, Some(2))),
        damaged(|mesh| mesh.starts[3] = 9, (18, Some(4))),
        damaged(|mesh| mesh.starts[1..4].fill(9), (18, Some(4))),
        damaged(
            |mesh| {
                mesh.entries.resize(33, 0);
                mesh.starts[1..].fill(33);
            },
            (3, None),
        ),
        damaged(|mesh| mesh.entries[0] = 4, (4, None)),
        damaged(|mesh| mesh.entries[7] = u16::MAX, (4, None)),
    ]
}

/// A renumbering with scratch slices of these lengths.
fn renumber(
    mesh: &mut MeshData,
    levels: &mut [f64],
    permutation: &[u32],
    entries_per_vertex: usize,
    [sources, old_starts, old_entries, done, held]: [usize; 5],
) -> Option<Row> {
    let lent = mesh.as_mesh_mut();
    let scratch = Scratch {
        sources: &mut vec![0; sources],
        old_starts: &mut vec![0; old_starts],
        old_entries: &mut vec![0; old_entries],
        done: &mut vec![0; done],
        held: &mut vec![0.0; held],
    };
    let answer = apply_vertex_permutation(lent, levels, permutation, entries_per_vertex, scratch);
    answer.err().map(row)
}

/// Each row of the renumbering, with either mark before it: mesh, mark and levels stay.
#[test]
fn a_refused_renumbering_leaves_the_mark() {
    // As long as the longest slice, which are the positions of four vertices.
    const ROOM: [usize; 5] = [12; 5];
    const FITTING: [u32; 4] = [2, 0, 3, 1];
    for before in [false, true] {
        let refused = |mesh: &MeshData, permutation: &[u32], entries_per_vertex, room| {
            let (mut mesh, mut levels) = (marked(mesh, before), LEVELS);
            let as_it_was = mesh.clone();
            let row = renumber(
                &mut mesh,
                &mut levels,
                permutation,
                entries_per_vertex,
                room,
            );
            if row.is_some() {
                assert_eq!((mesh, levels), (as_it_was, LEVELS), "{row:?}");
            } else {
                assert!(mesh.lists_ascend);
            }
            row
        };
        for (mesh, row) in refused_meshes() {
            assert_eq!(refused(&mesh, &FITTING, 1, ROOM), Some(row));
        }
        let sound = mesh(&LISTS);
        for permutation in [
            &[0, 1, 2][..],
            &[0, 1, 2, 3, 4],
            &[0, 0, 1, 2],
            &[1, 2, 3, 4],
        ] {
            assert_eq!(refused(&sound, permutation, 1, ROOM), Some((6, None)));
        }
        for entries_per_vertex in [0, 2, 5] {
            let row = refused(&sound, &FITTING, entries_per_vertex, ROOM);
            assert_eq!(row, Some((7, None)));
        }
        for short in 0..5 {
            let mut room = ROOM;
            room[short] -= 1;
            assert_eq!(refused(&sound, &FITTING, 1, room), Some((8, None)));
        }
        assert_eq!(refused(&sound, &FITTING, 1, ROOM), None);
    }
}

/// The mark that the reading call leaves, which is the same whatever it was before. Nothing else of
/// the mesh changes.
fn read(lists: &[&[u16]]) -> bool {
    let [of_unmarked, of_marked] = [false, true].map(|before| {
        let mut mesh = marked(&mesh(lists), before);
        let as_it_was = mesh.clone();
        let mark = mesh.mark_ascending().unwrap();
        assert_eq!(mesh, marked(&as_it_was, mark));
        mark
    });
    assert_eq!(of_unmarked, of_marked, "{lists:?}");
    of_unmarked
}

#[test]
fn reading_lists_that_ascend() {
    assert!(read(&[&[1, 2], &[0, 2], &[0, 1]]));
    // Repeats side by side: at the front, in the middle, at the end, and nothing else.
    assert!(read(&[&[0, 0, 1, 2], &[0, 1, 1, 2], &[0, 1, 2, 2]]));
    assert!(read(&[&[1, 1, 1], &[0, 0], &[2; 32]]));
    // One entry each, and a list that begins below the end of the one before it.
    assert!(read(&[&[2], &[1], &[0]]));
    assert!(read(&[&[1, 2], &[0, 2], &[0, 0]]));
    // Empty lists: all, the first, one between others, the last.
    assert!(read(&[&[]]));
    assert!(read(&[&[], &[], &[]]));
    assert!(read(&[&[], &[0, 2], &[0, 1]]));
    assert!(read(&[&[1, 2], &[], &[0, 1]]));
    assert!(read(&[&[1, 2], &[0, 2], &[]]));
    assert!(read(&[&[0]]));
}

/// One pair out of order is enough, in each list and at each place of it.
#[test]
fn reading_lists_out_of_order() {
    const RISING: [u16; 4] = [0, 1, 2, 3];
    assert!(read(&[&RISING[..]; 4]));
    for list in 0..4 {
        for place in 0..3 {
            let mut exchanged = RISING;
            exchanged.swap(place, place + 1);
            let mut lists: [&[u16]; 4] = [&RISING; 4];
            lists[list] = &exchanged;
            assert!(!read(&lists), "list {list}, place {place}");
        }
    }
    assert!(!read(&LISTS));
    // Repeats that don't stand side by side.
    assert!(!read(&[&[0, 1, 0], &[], &[]]));
    assert!(!read(&[&[], &[], &[1, 0, 1]]));
    // Two entries, between empty lists.
    assert!(!read(&[&[], &[2, 0], &[]]));
    // The last of 32.
    let mut longest = [1; 32];
    longest[31] = 0;
    assert!(!read(&[&[1], &longest]));
}

/// Each row of the reading call, with either mark before it: mesh and mark stay.
#[test]
fn a_refused_reading_leaves_the_mark() {
    for before in [false, true] {
        for (mesh, expected) in refused_meshes() {
            let mut mesh = marked(&mesh, before);
            let as_it_was = mesh.clone();
            assert_eq!(mesh.mark_ascending().map_err(row), Err(expected));
            assert_eq!(mesh, as_it_was);
        }
    }
}

/// The order of the rows: each wrong alone, and with more and more of what is tested behind it.
#[test]
fn order_of_the_readings_rows() {
    let rows = [
        (2, None),
        (3, None),
        (17, None),
        (18, Some(3)),
        (3, None),
        (4, None),
    ];
    for (first, expected) in rows.into_iter().enumerate() {
        for last in first..6 {
            let wrong = |place: usize| (first..=last).contains(&place);
            let mut mesh = mesh(&LISTS);
            if wrong(4) {
                // The first list gets 33 entries, and so all ends move by 30.
                mesh.entries.splice(..0, [0; 30]);
                mesh.starts[1..].iter_mut().for_each(|start| *start += 30);
            }
            if wrong(5) {
                mesh.entries[0] = 4;
            }
            if wrong(3) {
                mesh.starts[3] = 0;
            }
            if wrong(2) {
                mesh.starts[4] += 1;
            }
            if wrong(1) {
                mesh.starts.remove(1);
            }
            if wrong(0) {
                mesh.positions.pop();
            }
            let answer = mesh.mark_ascending().map_err(row);
            assert_eq!(answer, Err(expected), "{first}..={last}");
        }
    }
}

/// The reading call has no row 5: positions that the builder refuses are no matter to it.
#[test]
fn positions_are_not_read() {
    for coordinate in [f64::NAN, f64::INFINITY, 0.0, 1e300] {
        for (lists, ascend) in [
            ([&[1_u16, 2][..], &[0], &[0]], true),
            ([&[2, 1], &[0], &[0]], false),
        ] {
            let mut mesh = mesh(&lists);
            mesh.positions.fill(coordinate);
            assert_eq!(mesh.mark_ascending(), Ok(ascend));
            assert_eq!(mesh.lists_ascend, ascend);
            let built = FaceGrid::new(mesh.as_mesh());
            assert_eq!(built.err().map(row), Some((5, None)));
        }
    }
}

/// A mark tells the truth after every call that may change it, and the reading agrees with it.
#[test]
fn marks_of_renumbered_lattices() {
    for frequency in [1, 2, 7, 20] {
        let mut mesh = LatticeGeometry::new(frequency).unwrap().mesh;
        let count = mesh.vertex_count();
        let walk = mesh.bfs_vertex_permutation().unwrap().order;
        for permutation in [backwards(count), walk, identity(count)] {
            mesh.lists_ascend = false;
            let answer = mesh.apply_vertex_permutation(&mut [], &permutation, 1);
            assert_eq!(answer, Ok(()));
            assert!(mesh.lists_ascend && all_ascend(&mesh));
            assert_eq!(mesh.mark_ascending(), Ok(true));
        }
        // Behind the mark of a mesh its lists may be changed: the reading sees it.
        let last = mesh.entries.len() - 1;
        mesh.entries.swap(last - 1, last);
        assert!(mesh.lists_ascend);
        assert_eq!(mesh.mark_ascending(), Ok(false));
    }
}

/// All that walk, builder and renumbering make of a mesh, but for the mark.
fn outcomes(mesh: &MeshData) -> impl PartialEq + std::fmt::Debug {
    let walk = mesh.bfs_vertex_permutation();
    let built = FaceGrid::new(mesh.as_mesh());
    let grid = built.map(|built| {
        let grid = built.as_grid();
        (
            (grid.side, built.held()),
            (grid.cell_starts.to_vec(), grid.cell_ids.to_vec()),
            (grid.triangle_starts.to_vec(), grid.triples.to_vec()),
        )
    });
    let mut renumbered = mesh.clone();
    let mut levels: Vec<f64> = (0..mesh.vertex_count()).map(|id| id as f64).collect();
    let order = backwards(mesh.vertex_count());
    let answer = renumbered.apply_vertex_permutation(&mut levels, &order, 1);
    (walk, grid, answer, marked(&renumbered, false), levels)
}

/// With a true mark and with a false one, right or wrong.
#[test]
fn no_other_outcome_depends_on_the_mark() {
    let lattice = LatticeGeometry::new(3).unwrap().mesh;
    let mut meshes = vec![lattice, mesh(&LISTS), mesh(&[&[2, 1], &[0, 2], &[1, 0]])];
    meshes.extend(refused_meshes().into_iter().map(|(mesh, _)| mesh));
    for mesh in meshes {
        let [of_unmarked, of_marked] = [false, true].map(|mark| outcomes(&marked(&mesh, mark)));
        assert_eq!(of_unmarked, of_marked);
    }
}

/// A walk takes neighbours in the order of their list.
#[test]
fn walks_follow_the_sorted_lists() {
    let mut mesh = mesh(&[&[2, 1], &[0], &[0]]);
    let walk = mesh.bfs_vertex_permutation().unwrap();
    assert_eq!(walk.queue, [0, 2, 1]);
    let answer = mesh.apply_vertex_permutation(&mut [], &identity(3), 1);
    assert_eq!(answer, Ok(()));
    let walk = mesh.bfs_vertex_permutation().unwrap();
    assert_eq!(walk.queue, [0, 1, 2]);
}

/// Four vertices, each the neighbour of each other one: the triples at a vertex come in the order in
/// which the list of 0 has them, and stay the same set.
#[test]
fn triples_follow_the_sorted_lists() {
    let mut mesh = mesh(&[&[3, 2, 1], &[0, 2, 3], &[0, 1, 3], &[0, 1, 2]]);
    let triples = |mesh: &MeshData| {
        let grid = FaceGrid::new(mesh.as_mesh()).unwrap();
        assert_eq!(grid.as_grid().triangle_starts, [0, 3, 6, 9, 12]);
        let triples = grid.as_grid().triples.chunks(3);
        triples
            .map(|ids| [ids[0], ids[1], ids[2]])
            .collect::<Vec<_>>()
    };
    const A: [u16; 3] = [0, 1, 2];
    const B: [u16; 3] = [0, 1, 3];
    const C: [u16; 3] = [0, 2, 3];
    const D: [u16; 3] = [1, 2, 3];
    assert_eq!(triples(&mesh), [C, B, A, B, A, D, C, A, D, C, B, D]);
    let answer = mesh.apply_vertex_permutation(&mut [], &identity(4), 1);
    assert_eq!(answer, Ok(()));
    assert_eq!(triples(&mesh), [A, B, C, A, B, D, A, C, D, B, C, D]);
}
