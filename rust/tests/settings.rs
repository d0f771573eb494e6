//! The pair of a grid, factor and margin: which row refuses it, after which others, and what it does.

mod common;

use common::directions;
use koshirga::{
    build_grid, FaceGrid, Grid, GridMut, LatticeGeometry, MeshData, Refusal, Settings, Vector3,
};

const FACTORS: [f64; 3] = [0.5, 1.2, 4.0];
/// One step outside either end, below it and above, and what isn't near the range.
const REFUSED_FACTORS: [f64; 10] = [
    0.499_999_999_999_999_94,
    4.000_000_000_000_001,
    -1.2,
    0.0,
    -0.0,
    f64::MIN_POSITIVE,
    1e9,
    f64::INFINITY,
    f64::NEG_INFINITY,
    f64::NAN,
];
const REFUSED_MARGINS: [u32; 3] = [4, 5, u32::MAX];

const DIRECTION: Vector3 = Vector3::new(0.3, -0.5, 0.8);

fn pair(factor: f64, margin: u32) -> Settings {
    Settings { factor, margin }
}

fn number<T>(answer: Result<T, Refusal>) -> Option<u32> {
    answer.err().map(Refusal::number)
}

/// What both queries say of a grid.
fn queries(grid: Grid, direction: Vector3) -> [Option<u32>; 2] {
    let nearest = grid.find_nearest_vertex(direction);
    [number(nearest), number(grid.locate(direction))]
}

/// Vertices without neighbours.
fn points(positions: impl IntoIterator<Item = Vector3>) -> MeshData {
    let positions: Vec<f64> = positions
        .into_iter()
        .flat_map(|Vector3 { x, y, z }| [x, y, z])
        .collect();
    MeshData {
        starts: vec![0; positions.len() / 3 + 1],
        positions,
        entries: vec![],
        lists_ascend: false,
    }
}

/// The ids of each cell.
fn cells(grid: &FaceGrid) -> Vec<Vec<u16>> {
    let grid = grid.as_grid();
    let parts = grid.cell_starts.windows(2);
    parts
        .map(|ends| grid.cell_ids[ends[0] as usize..ends[1] as usize].to_vec())
        .collect()
}

#[test]
fn ends_are_accepted() {
    assert_eq!(REFUSED_FACTORS[0], 0.5_f64.next_down());
    assert_eq!(REFUSED_FACTORS[1], 4.0_f64.next_up());
    let lattice = LatticeGeometry::new(7).unwrap();
    for factor in [0.5, 0.5_f64.next_up(), 4.0_f64.next_down(), 4.0] {
        for margin in 0..=3 {
            let settings = pair(factor, margin);
            let grid = FaceGrid::with_settings(lattice.mesh.as_mesh(), settings).unwrap();
            assert_eq!(grid.as_grid().settings, settings);
            for direction in directions() {
                let [nearest, located] = queries(grid.as_grid(), direction);
                assert_eq!(nearest, located);
                // Smaller cells than there are vertices leave gaps.
                assert!(matches!(nearest, None | Some(11)), "{nearest:?}");
            }
        }
    }
}

/// The builder and the queries refuse the same pairs by the same rows: 19 before 20.
#[test]
fn pairs_that_are_refused() {
    let lattice = LatticeGeometry::new(2).unwrap();
    let built = FaceGrid::new(lattice.mesh.as_mesh()).unwrap();
    let refused = |settings| {
        let row = number(FaceGrid::with_settings(lattice.mesh.as_mesh(), settings));
        let recorded = Grid {
            settings,
            ..built.as_grid()
        };
        assert_eq!(queries(recorded, DIRECTION), [row; 2], "{settings:?}");
        row
    };
    for factor in REFUSED_FACTORS {
        for margin in (0..=3).chain(REFUSED_MARGINS) {
            let row = refused(pair(factor, margin));
            assert_eq!(row, Some(19), "{factor}, {margin}");
        }
    }
    for factor in FACTORS {
        for margin in REFUSED_MARGINS {
            let row = refused(pair(factor, margin));
            assert_eq!(row, Some(20), "{factor}, {margin}");
        }
    }
    assert_eq!(refused(Settings::default()), None);
}

#[test]
fn a_mesh_is_refused_before_the_pair() {
    let sound = LatticeGeometry::new(1).unwrap().mesh;
    let damaged = |damage: fn(&mut MeshData)| {
        let mut mesh = sound.clone();
        damage(&mut mesh);
        let row = |settings| number(FaceGrid::with_settings(mesh.as_mesh(), settings));
        let rows = [
            pair(f64::NAN, 1),
            pair(1.2, u32::MAX),
            pair(1e9, 4),
            Settings::default(),
        ]
        .map(row);
        assert!(rows.iter().all(|&row| row == rows[3]), "{rows:?}");
        rows[3]
    };
    assert_eq!(damaged(|mesh| mesh.positions.clear()), Some(2));
    assert_eq!(damaged(|mesh| mesh.positions.push(1.0)), Some(2));
    assert_eq!(damaged(|mesh| mesh.starts.push(60)), Some(3));
    assert_eq!(damaged(|mesh| mesh.starts[0] = 1), Some(17));
    assert_eq!(damaged(|mesh| mesh.starts[1] = 11), Some(18));
    assert_eq!(damaged(|mesh| mesh.starts[1..12].fill(60)), Some(3));
    assert_eq!(damaged(|mesh| mesh.entries[59] = 12), Some(4));
    assert_eq!(damaged(|mesh| mesh.positions[35] = f64::NAN), Some(5));
    assert_eq!(damaged(|mesh| mesh.positions[33..].fill(0.0)), Some(5));
}

/// The pair is refused before lent slices that are too short, and nothing is written.
#[test]
fn room_is_refused_behind_the_pair() {
    let lattice = LatticeGeometry::new(1).unwrap();
    let build = |settings, room: usize| {
        let (mut cell_starts, mut cell_ids) = (vec![7; room], vec![7; room]);
        let (mut triangle_starts, mut triples) = (vec![7; room], vec![7; room]);
        let lent = GridMut {
            cell_starts: &mut cell_starts,
            cell_ids: &mut cell_ids,
            triangle_starts: &mut triangle_starts,
            triples: &mut triples,
        };
        let row = number(build_grid(lattice.mesh.as_mesh(), settings, lent));
        let untouched = [cell_starts, triangle_starts]
            .iter()
            .flatten()
            .all(|&x| x == 7)
            && [cell_ids, triples].iter().flatten().all(|&x| x == 7);
        assert_eq!(untouched, row.is_some());
        row
    };
    for room in [0, 1, 2000] {
        assert_eq!(build(pair(f64::NAN, 4), room), Some(19));
        assert_eq!(build(pair(4.000_000_000_000_001, 1), room), Some(19));
        assert_eq!(build(pair(1.2, 4), room), Some(20));
    }
    assert_eq!(build(Settings::default(), 0), Some(8));
    assert_eq!(build(Settings::default(), 1), Some(8));
    assert_eq!(build(Settings::default(), 2000), None);
    assert_eq!(build(pair(4.0, 3), 2000), None);
}

/// Count and positions, factor, margin, side, lengths, direction: each wrong alone, and with more and
/// more of what is tested behind it.
#[test]
fn order_of_a_querys_rows() {
    let lattice = LatticeGeometry::new(3).unwrap();
    let built = FaceGrid::new(lattice.mesh.as_mesh()).unwrap();
    let whole = built.as_grid();
    for (first, row) in [2, 19, 20, 2, 3, 9].into_iter().enumerate() {
        for last in first..6 {
            let wrong = |place: usize| (first..=last).contains(&place);
            let grid = Grid {
                positions: &whole.positions[usize::from(wrong(0))..],
                settings: pair(
                    if wrong(1) { f64::NAN } else { 1.2 },
                    if wrong(2) { 4 } else { 1 },
                ),
                side: whole.side + u32::from(wrong(3)),
                cell_starts: &whole.cell_starts[usize::from(wrong(4))..],
                ..whole
            };
            let direction = if wrong(5) { Vector3::ZERO } else { DIRECTION };
            assert_eq!(queries(grid, direction), [Some(row); 2], "{first}..={last}");
        }
    }
    assert_eq!(queries(whole, DIRECTION), [None; 2]);
}

/// A recorded pair that isn't the grid's is seen by the side alone. For 4,002 vertices this is 31
/// with the usual factor: the root of 4002/6 is about 25.826.
#[test]
fn a_recorded_pair_that_was_changed() {
    let lattice = LatticeGeometry::new(20).unwrap();
    let built = FaceGrid::new(lattice.mesh.as_mesh()).unwrap();
    let whole = built.as_grid();
    assert_eq!(whole.side, 31);
    for direction in directions() {
        let recorded = |factor, margin| Grid {
            settings: pair(factor, margin),
            ..whole
        };
        for (factor, margin) in [(1.17, 1), (1.2, 0), (1.2, 3), (1.1999999, 2), (1.2003, 1)] {
            let grid = recorded(factor, margin);
            assert_eq!(
                grid.find_nearest_vertex(direction),
                whole.find_nearest_vertex(direction)
            );
            assert_eq!(grid.locate(direction), whole.locate(direction));
        }
        for factor in [0.5, 1.16, 1.21, 4.0] {
            assert_eq!(queries(recorded(factor, 1), direction), [Some(2); 2]);
        }
    }
}

/// The corner of three faces: its coordinate there converts to 2, one behind the last of two cells.
#[test]
fn one_vertex_by_hand() {
    let mesh = points([Vector3::new(1.0, 1.0, 1.0)]);
    let filled = |factor, margin| {
        let grid = FaceGrid::with_settings(mesh.as_mesh(), pair(factor, margin)).unwrap();
        assert_eq!(grid.as_grid().side, 2);
        let cells = cells(&grid).into_iter().enumerate();
        let filled: Vec<usize> = cells
            .filter(|(_, ids)| ids == &[0])
            .map(|(cell, _)| cell)
            .collect();
        assert_eq!(grid.as_grid().cell_ids.len(), filled.len());
        filled
    };
    for factor in FACTORS {
        assert_eq!(filled(factor, 0), []);
        assert_eq!(filled(factor, 1), [3, 11, 19]);
        for margin in [2, 3] {
            let whole_faces = (0..4).chain(8..12).chain(16..20);
            assert!(whole_faces.eq(filled(factor, margin)));
        }
    }
}

#[test]
fn sides_by_hand() {
    let lattice = LatticeGeometry::new(80).unwrap();
    assert_eq!(lattice.mesh.vertex_count(), 64_002);
    for (factor, side) in [(0.5, 52), (1.2, 124), (4.0, 414)] {
        let grid = FaceGrid::with_settings(lattice.mesh.as_mesh(), pair(factor, 0)).unwrap();
        assert_eq!(grid.as_grid().side, side);
    }
}

/// The faces' u, w and d.
fn projections(Vector3 { x, y, z }: Vector3) -> [[f64; 3]; 6] {
    [
        [y, z, x],
        [-y, z, -x],
        [x, z, y],
        [-x, z, -y],
        [x, y, z],
        [-x, y, -z],
    ]
}

/// Where u or w lies across a face of g cells.
fn across(t: f64, d: f64, g: usize) -> f64 {
    (t / d).mul_add(0.5, 0.5) * g as f64
}

/// Whether a vertex is placed in a cell, read once more from docs/DATASHEET.md.
fn is_placed(v: Vector3, cell: usize, g: usize, margin: u32) -> bool {
    let (face, row, column) = (cell / (g * g), cell % (g * g) / g, cell % g);
    let [u, w, d] = projections(v)[face];
    // A conversion rounds toward zero and ends at the range's ends (IEEE 754-2019, 5.8).
    let own = |t: f64| across(t, d, g) as i64;
    let is_near = |own: i64, index: usize| own.abs_diff(index as i64) <= u64::from(margin);
    d > 0.0 && is_near(own(u), row) && is_near(own(w), column)
}

/// Every cell of every pair, for vertices in front of one, two and three faces.
#[test]
fn cells_hold_what_is_placed_there() {
    let lattice = LatticeGeometry::new(3).unwrap();
    let scattered = points(directions().take(60));
    for mesh in [&lattice.mesh, &scattered] {
        for factor in FACTORS {
            for margin in 0..=3 {
                let grid = FaceGrid::with_settings(mesh.as_mesh(), pair(factor, margin)).unwrap();
                let g = grid.as_grid().side as usize;
                for (cell, ids) in cells(&grid).into_iter().enumerate() {
                    let placed = (0..mesh.vertex_count())
                        .filter(|&id| is_placed(mesh.position(id), cell, g, margin));
                    let ids = ids.into_iter().map(usize::from);
                    assert!(ids.eq(placed), "{factor}, {margin}: cell {cell}");
                }
            }
        }
    }
}

/// How many conversions of a mesh are held at an end, counted once more.
fn held(mesh: &MeshData, g: usize) -> usize {
    const END: f64 = 9_223_372_036_854_775_808.0;
    let vertices = (0..mesh.vertex_count()).map(|id| mesh.position(id));
    let in_front = vertices.flat_map(projections).filter(|[_, _, d]| *d > 0.0);
    in_front
        .flat_map(|[u, w, d]| [across(u, d, g), across(w, d, g)])
        .filter(|x| !(-END..END).contains(x))
        .count()
}

/// The factor decides by the side how many are held. The margin changes nothing, nor does the order
/// of the vertices.
#[test]
fn held_conversions() {
    for (frequency, counts) in [(7, [0, 0, 0]), (20, [0, 0, 1]), (80, [4, 13, 39])] {
        let mesh = LatticeGeometry::new(frequency).unwrap().mesh;
        let backwards: Vec<u32> = (0..mesh.vertex_count() as u32).rev().collect();
        let mut renumbered = mesh.clone();
        renumbered
            .apply_vertex_permutation(&mut [], &backwards, 1)
            .unwrap();
        assert_ne!(renumbered, mesh);
        for (factor, count) in FACTORS.into_iter().zip(counts) {
            let grid = FaceGrid::with_settings(mesh.as_mesh(), pair(factor, 0)).unwrap();
            assert_eq!(held(&mesh, grid.as_grid().side as usize), count as usize);
            for margin in 0..=3 {
                let answered = [&mesh, &renumbered].map(|mesh| {
                    let grid = FaceGrid::with_settings(mesh.as_mesh(), pair(factor, margin));
                    grid.unwrap().held()
                });
                assert_eq!(answered, [count; 2], "{frequency}, {factor}, {margin}");
            }
        }
    }
}

/// A cell keeps its ids where the margin grows.
#[test]
fn a_greater_margin_adds_ids() {
    let lattice = LatticeGeometry::new(7).unwrap();
    for factor in FACTORS {
        let [own, near, wider, widest] = [0, 1, 2, 3].map(|margin| {
            let settings = pair(factor, margin);
            cells(&FaceGrid::with_settings(lattice.mesh.as_mesh(), settings).unwrap())
        });
        for (fewer, more) in [(&own, &near), (&near, &wider), (&wider, &widest)] {
            assert!(fewer.iter().flatten().count() < more.iter().flatten().count());
            for (ids, all) in fewer.iter().zip(more) {
                assert!(ids.iter().all(|id| all.contains(id)));
            }
        }
    }
}

/// What the pair is for: points around the z axis alone. With the usual one most of them stand in
/// the cells at the axis, and none in cells away from it.
#[test]
fn points_around_one_axis() {
    let mesh = points((0..400).map(|id| {
        let angle = std::f64::consts::TAU * f64::from(id % 20) / 20.0;
        let distance = 0.01 * f64::from(id / 20 + 1);
        Vector3::new(distance * angle.cos(), distance * angle.sin(), 1.0)
    }));
    let nearest = |settings, direction| {
        let grid = FaceGrid::with_settings(mesh.as_mesh(), settings).unwrap();
        grid.find_nearest_vertex(direction)
    };
    let at_the_axis = Vector3::new(0.05, 0.03, 1.0);
    let usual = nearest(Settings::default(), at_the_axis).unwrap();
    let fine = nearest(pair(4.0, 1), at_the_axis).unwrap();
    assert_eq!(fine.id, usual.id);
    assert!(2 * fine.candidates < usual.candidates, "{fine:?} {usual:?}");
    let away = Vector3::new(0.9, 0.0, 1.0);
    assert_eq!(number(nearest(Settings::default(), away)), Some(11));
    assert_eq!(number(nearest(pair(0.5, 2), away)), None);
}
