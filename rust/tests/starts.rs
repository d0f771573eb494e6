//! Which row refuses a start list, and with which index: every call that reads one.

use koshirga::{FaceGrid, Grid, LatticeGeometry, MeshData, Refusal, Vector3};

/// A refusal's number and index.
type Row = (u32, Option<usize>);

fn row(refusal: Refusal) -> Row {
    (refusal.number(), refusal.index())
}

fn mesh(vertices: u16, starts: &[u32], entries: &[u16]) -> MeshData {
    MeshData {
        positions: (0..vertices)
            .flat_map(|id| [1.0, f64::from(id), 1.0])
            .collect(),
        starts: starts.to_vec(),
        entries: entries.to_vec(),
        lists_ascend: false,
    }
}

/// The one refusal of the walk, both calls for steps, the renumbering, the reading call and the
/// builder. The mesh stays as it is, its mark too.
fn refusal_of(mut mesh: MeshData) -> Refusal {
    let count = mesh.vertex_count() as u32;
    let backwards: Vec<u32> = (0..count).rev().collect();
    let mut levels: Vec<f64> = (0..count).map(f64::from).collect();
    let walk = mesh.bfs_vertex_permutation().unwrap_err();
    assert_eq!(mesh.steps_between(0, 0), Err(walk));
    assert_eq!(mesh.vertices_within(0, 0), Err(walk));
    for lists_ascend in [false, true] {
        mesh.lists_ascend = lists_ascend;
        let before = mesh.clone();
        let renumbering = mesh.apply_vertex_permutation(&mut levels, &backwards, 1);
        assert_eq!(renumbering, Err(walk));
        assert_eq!(mesh.mark_ascending(), Err(walk));
        assert_eq!(mesh, before);
    }
    assert!(levels.into_iter().eq((0..count).map(f64::from)));
    assert_eq!(FaceGrid::new(mesh.as_mesh()).unwrap_err(), walk);
    walk
}

fn row_of(vertices: u16, starts: &[u32], entries: &[u16]) -> Row {
    row(refusal_of(mesh(vertices, starts, entries)))
}

/// The first start that falls is named, and it stands before a list over 32 and a wrong id.
#[test]
fn starts_that_fall() {
    let refusal = refusal_of(mesh(3, &[0, 3, 2, 4], &[0; 4]));
    assert_eq!(row(refusal), (18, Some(2)));
    assert_eq!(
        refusal.to_string(),
        "refusal 18 (mesh): a start is below the one before it: the start at index 2 of its list, \
         counted from 0"
    );
    assert_eq!(row_of(3, &[0, 5, 3, 2], &[0; 2]), (18, Some(2)));
    assert_eq!(row_of(3, &[0, 2, 4, 3], &[0; 3]), (18, Some(3)));
    assert_eq!(row_of(3, &[0, 33, 2, 4], &[0; 4]), (18, Some(2)));
    assert_eq!(row_of(3, &[0, 3, 2, 4], &[3; 4]), (18, Some(2)));
}

/// First and last start are tested before the others.
#[test]
fn starts_that_do_not_span() {
    let refusal = refusal_of(mesh(2, &[1, 3, 4], &[0; 4]));
    assert_eq!(row(refusal), (17, None));
    assert_eq!(
        refusal.to_string(),
        "refusal 17 (mesh): the first start is not 0, or the last is not the number of entries, ids \
         or triples"
    );
    for starts in [[0, 2, 5], [0, 2, 3], [3, 2, 4], [0, 5, 3], [0, 40, 41]] {
        assert_eq!(row_of(2, &starts, &[0; 4]), (17, None), "{starts:?}");
    }
    assert_eq!(row_of(2, &[1, 3, 4], &[2; 4]), (17, None));
}

/// What is left for row 3: a length, before rows 17 and 18, and a list over 32, behind them.
#[test]
fn lengths() {
    for starts in [&[][..], &[0, 3, 2], &[0, 3, 2, 4, 4], &[1, 3, 2]] {
        assert_eq!(row_of(3, starts, &[0; 4]), (3, None), "{starts:?}");
    }
    assert_eq!(row_of(1, &[0, 33], &[0; 33]), (3, None));
    assert_eq!(row_of(1, &[0, 33], &[1; 33]), (3, None));
    assert_eq!(row_of(2, &[0, 3, 36], &[0; 36]), (3, None));
    assert_eq!(row_of(1, &[0, 32], &[1; 32]), (4, None));
}

/// Equal starts don't fall, and 32 entries are no list over 32.
#[test]
fn starts_that_are_accepted() {
    for mesh in [
        mesh(3, &[0, 2, 2, 2], &[1, 2]),
        mesh(1, &[0, 32], &[0; 32]),
        mesh(1, &[0, 0], &[]),
    ] {
        let walk = mesh.bfs_vertex_permutation().unwrap();
        let mut levels = vec![0.0; mesh.vertex_count()];
        let renumbering = mesh
            .clone()
            .apply_vertex_permutation(&mut levels, &walk.order, 1);
        assert_eq!(renumbering, Ok(()));
        assert_eq!(mesh.clone().mark_ascending(), Ok(true));
        assert!(FaceGrid::new(mesh.as_mesh()).is_ok());
    }
}

/// The data sheet's direction on the lattice of frequency 1: its cell, and the vertex that is
/// nearest.
const DIRECTION: Vector3 = Vector3::new(0.3, -0.5, 0.8);
const CELL: usize = 18;
const VERTEX: usize = 5;

/// Asks a grid whose starts are damaged, and gives the rows of both queries where they refuse.
fn queries(
    direction: Vector3,
    damage: impl FnOnce(&mut [u32], &mut [u32]),
) -> (Option<Row>, Option<Row>) {
    let lattice = LatticeGeometry::new(1).unwrap();
    let built = FaceGrid::new(lattice.mesh.as_mesh()).unwrap();
    let whole = built.as_grid();
    let mut cell_starts = whole.cell_starts.to_vec();
    let mut triangle_starts = whole.triangle_starts.to_vec();
    damage(&mut cell_starts, &mut triangle_starts);
    let grid = Grid {
        cell_starts: &cell_starts,
        triangle_starts: &triangle_starts,
        ..whole
    };
    let (nearest, located) = (grid.find_nearest_vertex(direction), grid.locate(direction));
    // What is accepted is the answer of the grid as it was.
    if nearest.is_ok() {
        assert_eq!(nearest, whole.find_nearest_vertex(direction));
    }
    if located.is_ok() {
        assert_eq!(located, whole.locate(direction));
    }
    (nearest.err().map(row), located.err().map(row))
}

#[test]
fn cell_starts_in_a_query() {
    let both = |row| (Some(row), Some(row));
    let falls = queries(DIRECTION, |cells, _| cells[CELL + 1] = cells[CELL] - 1);
    assert_eq!(falls, both((18, Some(CELL + 1))));
    let past_the_ids = queries(DIRECTION, |cells, _| cells[CELL + 1] = cells[24] + 1);
    assert_eq!(past_the_ids, both((3, None)));
    let falls_past_the_ids = queries(DIRECTION, |cells, _| {
        (cells[CELL], cells[CELL + 1]) = (u32::MAX, u32::MAX - 1);
    });
    assert_eq!(falls_past_the_ids, both((18, Some(CELL + 1))));
    let empty = queries(DIRECTION, |cells, _| cells[CELL + 1] = cells[CELL]);
    assert_eq!(empty, both((11, None)));
    // Cell 0: the second start is the first that can fall.
    let cell_0 = Vector3::new(1.0, -0.5, -0.5);
    let first = queries(cell_0, |cells, _| cells[0] = cells[1] + 1);
    assert_eq!(first, both((18, Some(1))));
}

#[test]
fn triangle_starts_in_a_query() {
    let located = |row| (None, Some(row));
    let falls = queries(DIRECTION, |_, triangles| triangles[VERTEX + 1] = 0);
    assert_eq!(falls, located((18, Some(VERTEX + 1))));
    let past_the_triples = queries(DIRECTION, |_, triangles| triangles[VERTEX + 1] = 61);
    assert_eq!(past_the_triples, located((3, None)));
    let falls_past_the_triples = queries(DIRECTION, |_, triangles| {
        (triangles[VERTEX], triangles[VERTEX + 1]) = (u32::MAX, u32::MAX - 1);
    });
    assert_eq!(falls_past_the_triples, located((18, Some(VERTEX + 1))));
    let empty = queries(DIRECTION, |_, triangles| {
        triangles[VERTEX + 1] = triangles[VERTEX];
    });
    assert_eq!(empty, located((12, None)));
}

/// Starts that a query doesn't read are not tested: it never returns 17.
#[test]
fn starts_that_a_query_does_not_read() {
    let elsewhere = queries(DIRECTION, |cells, triangles| {
        for starts in [cells, triangles] {
            let last = starts.len() - 1;
            (starts[0], starts[1], starts[last]) = (7, 0, 0);
        }
    });
    assert_eq!(elsewhere, (None, None));
}
