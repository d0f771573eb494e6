//! Grids packed for the graphics card: records, words and floats, which row refuses, and that a
//! refused call changes nothing.

use koshirga::{
    FaceGrid, GpuBuffers, Grid, LatticeGeometry, LevelRecord, MeshData, Refusal, Settings, Taken,
};

/// Vertices without neighbours.
fn points(positions: &[[f64; 3]]) -> MeshData {
    MeshData {
        positions: positions.concat(),
        starts: vec![0; positions.len() + 1],
        entries: vec![],
        lists_ascend: false,
    }
}

/// The words of a grid: its lists, one behind another.
fn words_of(grid: Grid) -> Vec<u32> {
    let wide = |ids: &[u16]| ids.iter().copied().map(u32::from).collect::<Vec<_>>();
    let mut words = grid.cell_starts.to_vec();
    words.extend(wide(grid.cell_ids));
    words.extend(grid.triangle_starts);
    words.extend(wide(grid.triples));
    words
}

fn bits(floats: &[f32]) -> Vec<u32> {
    floats.iter().map(|float| float.to_bits()).collect()
}

/// The bits of a grid's floats, rounded by Rust's own conversion.
fn bits_of(grid: Grid) -> Vec<u32> {
    grid.positions
        .iter()
        .map(|&x| (x as f32).to_bits())
        .collect()
}

/// The record of a grid behind these taken places.
fn record_of(grid: Grid, taken: Taken) -> [u32; 7] {
    let cell_ids = taken.words + grid.cell_starts.len();
    let triangle_starts = cell_ids + grid.cell_ids.len();
    let triples = triangle_starts + grid.triangle_starts.len();
    let offsets = [
        taken.words,
        cell_ids,
        triangle_starts,
        triples,
        taken.floats,
    ];
    let [words, cell_ids, triangle_starts, triples, floats] = offsets.map(|offset| offset as u32);
    let vertices = (grid.positions.len() / 3) as u32;
    [
        vertices,
        grid.side,
        words,
        cell_ids,
        triangle_starts,
        triples,
        floats,
    ]
}

/// Words and floats of which no two are equal; the floats are NaNs, signaling ones too.
fn lent(words: usize, floats: usize) -> (Vec<u32>, Vec<f32>) {
    let words = (0..words as u32).map(|at| 0xa500_0000 | at).collect();
    let floats = (0..floats as u32).map(|at| f32::from_bits(0x7f80_0001 + 0x1357 * at));
    (words, floats.collect())
}

/// A grid with lists of its own, which can be damaged.
#[derive(Clone)]
struct Parts {
    positions: Vec<f64>,
    settings: Settings,
    side: u32,
    cell_starts: Vec<u32>,
    cell_ids: Vec<u16>,
    triangle_starts: Vec<u32>,
    triples: Vec<u16>,
}

impl Parts {
    fn of_lattice(frequency: u32) -> Parts {
        let lattice = LatticeGeometry::new(frequency).unwrap();
        let built = FaceGrid::new(lattice.mesh.as_mesh()).unwrap();
        let grid = built.as_grid();
        Parts {
            positions: grid.positions.to_vec(),
            settings: grid.settings,
            side: grid.side,
            cell_starts: grid.cell_starts.to_vec(),
            cell_ids: grid.cell_ids.to_vec(),
            triangle_starts: grid.triangle_starts.to_vec(),
            triples: grid.triples.to_vec(),
        }
    }

    fn as_grid(&self) -> Grid<'_> {
        Grid {
            positions: &self.positions,
            settings: self.settings,
            side: self.side,
            cell_starts: &self.cell_starts,
            cell_ids: &self.cell_ids,
            triangle_starts: &self.triangle_starts,
            triples: &self.triples,
        }
    }
}

/// Packs into lent slices of these lengths. What the call is to leave alone is what it was; so is
/// everything where it is refused.
fn packed(
    grid: Grid,
    (words, floats): (usize, usize),
    taken: Taken,
) -> Result<[u32; 7], (u32, Option<usize>)> {
    let (mut words, mut floats) = lent(words, floats);
    let (mut words_left, mut bits_left) = (words.clone(), bits(&floats));
    let answer = grid.pack(&mut words, &mut floats, taken);
    if answer.is_ok() {
        let (list, rounded) = (words_of(grid), bits_of(grid));
        words_left[taken.words..][..list.len()].copy_from_slice(&list);
        bits_left[taken.floats..][..rounded.len()].copy_from_slice(&rounded);
    }
    assert!(
        words == words_left && bits(&floats) == bits_left,
        "{taken:?}: {answer:?}"
    );
    answer
        .map(LevelRecord::to_array)
        .map_err(|refusal| (refusal.number(), refusal.index()))
}

#[test]
fn one_vertex_twice() {
    let mesh = points(&[[1.0; 3]]);
    let grid = FaceGrid::new(mesh.as_mesh()).unwrap();
    let mut buffers = GpuBuffers::default();
    let first = grid.pack(&mut buffers).unwrap();
    assert_eq!(first.to_array(), [1, 2, 0, 25, 28, 30, 0]);
    let starts = [[0; 4].as_slice(), &[1; 8], &[2; 8], &[3; 5]].concat();
    let list = [starts.as_slice(), &[0; 3], &[0; 2]].concat();
    assert_eq!(buffers.words, list);
    assert_eq!(buffers.floats, [1.0; 3]);
    let second = grid.pack(&mut buffers).unwrap();
    assert_eq!(second.to_array(), [1, 2, 30, 55, 58, 60, 3]);
    assert_eq!(buffers.words, list.repeat(2));
    assert_eq!(buffers.floats, [1.0; 6]);
}

/// Each lattice behind the last; the lists of each then stand where its record says.
#[test]
fn all_lattices() {
    let mut buffers = GpuBuffers::default();
    for frequency in 1..=80 {
        let lattice = LatticeGeometry::new(frequency).unwrap();
        let grid = FaceGrid::new(lattice.mesh.as_mesh()).unwrap();
        let taken = Taken {
            words: buffers.words.len(),
            floats: buffers.floats.len(),
        };
        let level = grid.pack(&mut buffers).unwrap();
        let expected = match frequency {
            1 => [12, 2, 0, 25, 111, 124, 0],
            2 => [42, 4, 304, 401, 753, 796, 36],
            3 => [92, 5, 1516, 1667, 2488, 2581, 162],
            80 => [
                64002, 124, 49_459_764, 49_552_021, 50_131_180, 50_195_183, 5_024_874,
            ],
            _ => record_of(grid.as_grid(), taken),
        };
        assert_eq!(level.to_array(), expected);
        assert!(buffers.words[taken.words..] == words_of(grid.as_grid()));
        assert!(bits(&buffers.floats[taken.floats..]) == bits_of(grid.as_grid()));
    }
    assert_eq!(buffers.words.len(), 51_347_183);
    assert_eq!(buffers.floats.len(), 5_216_880);
}

/// Two grids in lent slices are those of `GpuBuffers`; the first stays whole beside the second.
#[test]
fn lent_slices_and_own_lists() {
    let (first, second) = (Parts::of_lattice(3), Parts::of_lattice(1));
    let mut buffers = GpuBuffers::default();
    let (mut words, mut floats) = lent(4000, 400);
    let mut taken = Taken::default();
    for grid in [first.as_grid(), second.as_grid()] {
        let level = grid.pack(&mut words, &mut floats, taken).unwrap();
        assert_eq!(level.to_array(), record_of(grid, taken));
        assert_eq!(buffers.append(&grid), Ok(level));
        taken = Taken {
            words: level.triples as usize + grid.triples.len(),
            floats: level.positions as usize + 3 * level.vertices as usize,
        };
        assert_eq!(taken.words, buffers.words.len());
        assert_eq!(taken.floats, buffers.floats.len());
    }
    assert_eq!(words[..taken.words], buffers.words);
    assert_eq!(floats[..taken.floats], buffers.floats);
    let (list, rounded) = (words_of(first.as_grid()), bits_of(first.as_grid()));
    assert_eq!(words[..list.len()], list);
    assert_eq!(bits(&floats[..rounded.len()]), rounded);
    let (surplus, others) = lent(4000, 400);
    assert_eq!(words[taken.words..], surplus[taken.words..]);
    assert_eq!(bits(&floats[taken.floats..]), bits(&others[taken.floats..]));
}

/// The places behind the taken ones are enough to the last, and one too few is too few.
#[test]
fn room() {
    let parts = Parts::of_lattice(2);
    let grid = parts.as_grid();
    let (words, floats) = (words_of(grid).len(), grid.positions.len());
    for (more_words, more_floats) in [(0, 0), (0, 7), (5, 0), (40, 90)] {
        for surplus in [0, 1, 30] {
            let taken = Taken {
                words: more_words,
                floats: more_floats,
            };
            let (words, floats) = (words + more_words, floats + more_floats);
            let accepted = packed(grid, (words + surplus, floats + surplus), taken);
            assert_eq!(accepted, Ok(record_of(grid, taken)));
            let short = [(words - 1, floats + surplus), (words + surplus, floats - 1)];
            for lengths in short {
                assert_eq!(packed(grid, lengths, taken), Err((8, None)));
            }
        }
    }
}

/// Taken counts at the length, past it, and so large that a sum would wrap.
#[test]
fn taken_places() {
    let parts = Parts::of_lattice(1);
    let grid = parts.as_grid();
    let (words, floats) = (words_of(grid).len(), grid.positions.len());
    let lengths = (words + 10, floats + 10);
    let wrapped = usize::MAX - words + 2;
    for taken_words in [11, words + 10, words + 11, 1 << 32, wrapped, usize::MAX] {
        let taken = Taken {
            words: taken_words,
            floats: 0,
        };
        assert_eq!(packed(grid, lengths, taken), Err((8, None)), "{taken:?}");
    }
    let wrapped = usize::MAX - floats + 2;
    for taken_floats in [11, floats + 10, floats + 11, 1 << 32, wrapped, usize::MAX] {
        let taken = Taken {
            words: 0,
            floats: taken_floats,
        };
        assert_eq!(packed(grid, lengths, taken), Err((8, None)), "{taken:?}");
    }
    let both = Taken {
        words: 10,
        floats: 10,
    };
    assert_eq!(packed(grid, lengths, both), Ok(record_of(grid, both)));
}

/// A damage, and the row that refuses it.
type Damage = (fn(&mut Parts), u32, Option<usize>);

/// In the order of the checks.
const DAMAGES: [Damage; 16] = [
    (|parts| parts.positions.truncate(35), 2, None),
    (|parts| parts.settings.factor = f64::NAN, 19, None),
    (|parts| parts.settings.margin = 4, 20, None),
    (|parts| parts.side = 3, 2, None),
    (|parts| parts.cell_starts.push(0), 3, None),
    (|parts| parts.triangle_starts.push(0), 3, None),
    (|parts| parts.cell_starts[0] = 1, 17, None),
    (|parts| parts.cell_ids.push(0), 17, None),
    (|parts| parts.triangle_starts[0] = 1, 17, None),
    // No last start is a third of such a length.
    (|parts| parts.triples.push(0), 17, None),
    (|parts| parts.cell_starts[7] = 1000, 18, Some(8)),
    (|parts| parts.triangle_starts[5] = 1000, 18, Some(6)),
    (|parts| parts.cell_ids[40] = 12, 4, None),
    (|parts| parts.triples[100] = u16::MAX, 4, None),
    (|parts| parts.positions[3..6].fill(0.0), 5, None),
    (|_| (), 8, None),
];

/// Each damage alone, and each two of them at once: the one that is tested first decides. The last
/// is that of the lent space, which the others are given, too.
#[test]
fn rows_in_their_order() {
    let whole = Parts::of_lattice(1);
    let enough = (1000, 100);
    let cases = |second: usize| match second {
        15 => vec![(303, 100), (1000, 35)],
        _ => vec![enough],
    };
    assert!(packed(whole.as_grid(), enough, Taken::default()).is_ok());
    for (first, &(damage, number, index)) in DAMAGES.iter().enumerate() {
        for (second, &(further, ..)) in DAMAGES.iter().enumerate().skip(first) {
            let mut parts = whole.clone();
            further(&mut parts);
            damage(&mut parts);
            for lengths in cases(second) {
                let refused = packed(parts.as_grid(), lengths, Taken::default());
                assert_eq!(refused, Err((number, index)), "{first}, {second}");
            }
        }
    }
}

/// Of several starts that fall the first is named.
#[test]
fn first_of_several() {
    let mut parts = Parts::of_lattice(1);
    parts.triangle_starts[3..6].copy_from_slice(&[1003, 1002, 1001]);
    let refused = packed(parts.as_grid(), (1000, 100), Taken::default());
    assert_eq!(refused, Err((18, Some(4))));
    parts.cell_starts[20..23].copy_from_slice(&[1003, 1002, 1001]);
    let refused = packed(parts.as_grid(), (1000, 100), Taken::default());
    assert_eq!(refused, Err((18, Some(21))));
}

/// A last start that would be right for ids, not triples; and triples that are cut by one or more.
#[test]
fn triples_are_counted_by_three() {
    let whole = Parts::of_lattice(1);
    for length in [0, 59, 60, 177, 178, 179] {
        let mut parts = whole.clone();
        parts.triples.truncate(length);
        let refused = packed(parts.as_grid(), (1000, 100), Taken::default());
        assert_eq!(refused, Err((17, None)), "{length}");
    }
}

/// More than 32 ids in a cell, and more than 32 triangles at a vertex.
#[test]
fn no_limit_of_32() {
    let mesh = points(&[[1.0, 0.5, 0.25]; 50]);
    let built = FaceGrid::new(mesh.as_mesh()).unwrap();
    let grid = Grid {
        triangle_starts: &[vec![0], vec![40; 50]].concat(),
        triples: &[0; 120],
        ..built.as_grid()
    };
    assert!(grid
        .cell_starts
        .windows(2)
        .any(|ends| ends[1] - ends[0] == 50));
    let taken = Taken {
        words: 3,
        floats: 1,
    };
    assert_eq!(packed(grid, (1000, 200), taken), Ok(record_of(grid, taken)));
}

/// What isn't asked: whether ids and triples ascend, and whether the cells are those of the mesh.
#[test]
fn what_is_not_asked() {
    let mut parts = Parts::of_lattice(1);
    parts.cell_ids.fill(11);
    parts.triples.fill(7);
    for start in &mut parts.cell_starts[1..24] {
        *start = 86;
    }
    let answer = packed(parts.as_grid(), (304, 36), Taken::default());
    assert_eq!(answer, Ok([12, 2, 0, 25, 111, 124, 0]));
}

/// A refused grid leaves both lists as they were, and one behind it is packed as if it had not been.
#[test]
fn own_lists_after_a_refusal() {
    let whole = Parts::of_lattice(1);
    let mut buffers = GpuBuffers::default();
    let number = |answer: Result<LevelRecord, Refusal>| answer.map_err(Refusal::number);
    for before in 0..2 {
        for &(damage, row, _) in &DAMAGES[..15] {
            let mut parts = whole.clone();
            damage(&mut parts);
            let kept = buffers.clone();
            assert_eq!(number(buffers.append(&parts.as_grid())), Err(row));
            assert_eq!(buffers, kept);
        }
        let level = buffers.append(&whole.as_grid()).unwrap();
        assert_eq!(level.cell_starts, 304 * before);
        assert_eq!(level.positions, 36 * before);
    }
}

/// Each packed float is the rounded coordinate, a zero with its sign.
#[test]
fn rounded_positions() {
    let coordinates = [
        (0.1, 0x3dcc_cccd),
        (1.0 + 2f64.powi(-24), 0x3f80_0000),
        (1.0 + 3.0 * 2f64.powi(-24), 0x3f80_0002),
        (2f64.powi(-150), 0),
        (2f64.powi(-150).next_up(), 1),
        (-(2f64.powi(-151)), 0x8000_0000),
        (3.0 * 2f64.powi(-150), 2),
        (0.0, 0),
        (-0.0, 0x8000_0000),
        (-f64::from_bits(1), 0x8000_0000),
    ];
    let mesh = points(&coordinates.map(|(x, _)| [x, 1.0, -x]));
    let mut buffers = GpuBuffers::default();
    FaceGrid::new(mesh.as_mesh())
        .unwrap()
        .pack(&mut buffers)
        .unwrap();
    let rounded = coordinates.map(|(_, rounded)| [rounded, 0x3f80_0000, rounded ^ 0x8000_0000]);
    assert_eq!(bits(&buffers.floats), rounded.concat());
}
