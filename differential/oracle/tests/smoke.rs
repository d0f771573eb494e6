//! The oracle is whole: facts of document 01, on the compiled source.

use icotable_oracle::*;

/// Document 01, "Lattice of frequency n": the lines of `lattice-list` for N = 1.
const NEIGHBORS_OF_LATTICE_1: [[u16; 5]; 12] = [
    [1, 2, 3, 6, 7],
    [0, 2, 5, 6, 10],
    [0, 1, 3, 4, 5],
    [0, 2, 4, 7, 8],
    [2, 3, 5, 8, 9],
    [1, 2, 4, 9, 10],
    [0, 1, 7, 10, 11],
    [0, 3, 6, 8, 11],
    [3, 4, 7, 9, 11],
    [4, 5, 8, 10, 11],
    [1, 5, 6, 9, 11],
    [6, 7, 8, 9, 10],
];
const WALK_OF_LATTICE_1: [usize; 12] = [0, 1, 2, 3, 6, 7, 5, 10, 4, 8, 11, 9];

/// Directions spread over the sphere, none special.
fn directions() -> impl Iterator<Item = Vector3> {
    (1..1000).map(|i| {
        let i = f64::from(i);
        Vector3::new((1.7 * i).sin(), (2.9 * i).cos(), (0.6 * i).sin() + 0.01)
    })
}

#[test]
fn points_are_of_unit_length() {
    assert_eq!(icosahedron_points().len(), POINTS.len());
    assert!(icosahedron_points()
        .iter()
        .all(|p| (p.norm() - 1.0).abs() < 1e-15));
}

#[test]
fn lattice_1_is_the_printed_one() {
    let lattice = lattice_geometry(1);
    assert_eq!(lattice.vertices.len(), 12);
    assert_eq!(lattice.neighbors.iter().map(Vec::len).sum::<usize>(), 60);
    assert_eq!(lattice.neighbors, NEIGHBORS_OF_LATTICE_1);
    let permutation = bfs_vertex_permutation(&lattice.neighbors);
    for (new, &old) in WALK_OF_LATTICE_1.iter().enumerate() {
        assert_eq!(permutation[old], new);
    }
}

#[test]
fn counts_at_every_frequency() {
    for n in 1..=80 {
        let lattice = lattice_geometry(n);
        let count = 10 * n * n + 2;
        let of_five = lattice.neighbors.iter().filter(|list| list.len() == 5);
        assert_eq!(lattice.vertices.len(), count);
        assert_eq!(
            lattice.neighbors.iter().map(Vec::len).sum::<usize>(),
            60 * n * n
        );
        assert_eq!(of_five.count(), 12);
        assert!(lattice
            .face_ids
            .iter()
            .all(|ids| ids.len() == (n + 1) * (n + 2) / 2));

        let grid = FaceGrid::new(&lattice.vertices, &lattice.neighbors);
        let cells = 6 * grid.grid_size() * grid.grid_size();
        let (ids, faces) = (grid.vertex_ids().len(), grid.adj_faces().len());
        assert_eq!(grid.vtx_offsets().len(), cells + 1);
        assert_eq!(grid.vtx_offsets()[cells] as usize, ids);
        assert_eq!(grid.adj_offsets().len(), count + 1);
        assert_eq!(grid.adj_offsets()[count] as usize, faces);
        assert_eq!(faces, 60 * n * n);
    }
}

#[test]
fn stated_numbers() {
    for (n, count, side) in [(1, 12, 2), (2, 42, 4), (80, 64_002, 124)] {
        let lattice = lattice_geometry(n);
        assert_eq!(lattice.vertices.len(), count);
        assert_eq!(
            FaceGrid::new(&lattice.vertices, &lattice.neighbors).grid_size(),
            side
        );
    }
    assert_eq!(tri_index(3, 2, 0), 7);
}

#[test]
fn grid_of_one_vertex() {
    let grid = FaceGrid::new(&[[1.0, 1.0, 1.0]], &[vec![]]);
    let occupied = |cell: &usize| grid.vtx_offsets()[*cell] < grid.vtx_offsets()[cell + 1];
    assert_eq!((0..24).filter(occupied).collect::<Vec<_>>(), [3, 11, 19]);
}

/// Vertex count, side, and the offsets of cell starts, cell ids, triangle starts, triples and positions.
#[test]
fn packed_one_behind_another() {
    let grid = FaceGrid::new(&[[1.0, 1.0, 1.0]], &[vec![]]);
    let (mut words, mut floats) = (Vec::new(), Vec::new());
    assert_eq!(grid.pack(&mut words, &mut floats), [1, 2, 0, 25, 28, 30, 0]);
    assert_eq!(
        grid.pack(&mut words, &mut floats),
        [1, 2, 30, 55, 58, 60, 3]
    );
    assert_eq!((words.len(), floats.len()), (60, 6));
    assert_eq!(words[..30], words[30..]);
    assert_eq!(floats, [1.0; 6]);
}

#[test]
fn cube_faces() {
    assert_eq!(cube_project(&[0.0, 0.0, -2.0]), (5, -0.0, 0.0));
    for direction in directions() {
        let v = [direction.x, direction.y, direction.z];
        let (face, u, w) = cube_project(&v);
        let (u_on_face, w_on_face, depth) = cube_face_project(v, face);
        assert_eq!((u, w), (u_on_face / depth, w_on_face / depth));
    }
}

#[test]
fn triangles_of_lattice_1_are_the_master_faces() {
    let lattice = lattice_geometry(1);
    let mut faces: Vec<Face> = Vec::new();
    for (ids, corners) in lattice.face_ids.iter().zip(FACE_VERTICES) {
        let mut face = [(1, 0), (0, 1), (0, 0)].map(|(a, b)| ids[tri_index(1, a, b)] as usize);
        for (id, corner) in face.iter().zip(corners) {
            assert_eq!(
                Vector3::from(lattice.vertices[*id]),
                icosahedron_points()[corner].normalize()
            );
        }
        face.sort_unstable();
        faces.push(face);
    }
    faces.sort_unstable();
    assert_eq!(extract_faces(&lattice.neighbors), faces);
}

#[test]
fn grid_answers() {
    let lattice = lattice_geometry(5);
    let grid = FaceGrid::new(&lattice.vertices, &lattice.neighbors);
    for direction in directions() {
        let unit = direction.normalize();
        let cell = grid.cell_index(&unit);
        let candidates = grid.vtx_offsets()[cell] as usize..grid.vtx_offsets()[cell + 1] as usize;
        let nearest = grid.find_nearest_vertex(&direction);
        assert!(grid.vertex_ids()[candidates].contains(&(nearest as u16)));
        let (face, weights) = grid.locate(&direction);
        assert!(face.contains(&nearest));
        let [a, b, c] = face.map(|id| Vector3::from(lattice.vertices[id]));
        assert_eq!(weights, projected_barycentric(&unit, &a, &b, &c));
    }
}

#[test]
fn analytic_answers() {
    let lattice = lattice_geometry(5);
    let analytic = AnalyticLattice::new(5);
    let faces = analytic.faces();
    for direction in directions() {
        let number = analytic.master_face(&direction);
        let signs = analytic
            .symmetry_planes()
            .map(|plane| usize::from(direction.dot(&plane) < 0.0));
        assert!(FACE_MAPPING[signs[0]][signs[1]][signs[2]].contains(&number));
        assert_eq!(faces[number].index, number);
        assert_eq!(
            faces[number].plane_offset,
            faces[number].normal.dot(&faces[number].corners[0])
        );
        let (face, weights) = analytic.locate(&direction);
        assert!(face
            .iter()
            .all(|id| lattice.face_ids[number].contains(&(*id as u32))));
        assert!((weights.iter().sum::<f64>() - 1.0).abs() < 1e-9);
        assert!(face.contains(&analytic.find_nearest_vertex(&direction)));
    }
}

#[test]
fn renumbering_moves_positions_lists_and_data() {
    let before = lattice_geometry(2);
    let count = before.vertices.len();
    let permutation = bfs_vertex_permutation(&before.neighbors);
    let mut after = lattice_geometry(2);
    let mut data: Vec<usize> = (0..count).collect();
    apply_vertex_permutation(
        &permutation,
        &mut after.vertices,
        &mut after.neighbors,
        &mut data,
        count,
        1,
    );
    for old in 0..count {
        let new = permutation[old];
        assert_eq!(data[new], old);
        assert_eq!(after.vertices[new], before.vertices[old]);
        let moved = before.neighbors[old]
            .iter()
            .map(|&id| permutation[id as usize] as u16);
        assert!(moved.eq(after.neighbors[new].iter().copied()));
    }
}
