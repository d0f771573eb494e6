//! The grids of all 80 lattices and of random meshes, also renumbered, beside the Rust's at the usual
//! pair, and at other pairs beside a second reading; the count of conversions held beside a loop over
//! the numbers that the Rust converts; the builder's refusals beside the rows' text.

use crate::check::{Check, Judge, Kinds, Rows, Tally};
use crate::directions::row_9;
use crate::helpers::is_held;
use crate::meshes::{permutation, Flat, Lattice, Lists, FREQUENCIES};
use crate::pairs::{self, kinds_of_pair, pair, settings_row, USUAL};
use crate::patterns::{Random, BIAS, SIGNIFICAND_DIGITS};
use crate::queries::Slices;
use crate::renumber::{self, drawn, Renumbered};
use crate::rows::{adjacency_row, by_hand, damage, kinds_of_starts, Reason};
use icotable_oracle as rust;
use koshirga::{Built, GridMut, Settings, Vector3};

/// Random meshes, and damaged ones.
const MESHES: usize = 20_000;
/// Meshes about an axis, the most vertices that one has, and the pairs of each.
const ABOUT_AN_AXIS: usize = 300;
const ABOUT_AN_AXIS_COUNT: u64 = 1_000;
const ABOUT_AN_AXIS_PAIRS: usize = 4;
/// Random meshes with vertices almost edge-on to a cube face, and frequencies of such lattices.
const EDGE_ON: usize = 6_000;
const EDGE_ON_LATTICES: [usize; 9] = [1, 2, 3, 5, 8, 13, 21, 34, 80];
/// The most vertices that row 2 lets pass.
const GREATEST_COUNT: usize = 65_536;
/// The ends of both ranges.
const ENDS: [Settings; 4] = [pair(0.5, 0), pair(0.5, 3), pair(4.0, 0), pair(4.0, 3)];

pub fn checks() -> Vec<Check> {
    vec![
        Check::new("80 lattices", lattices),
        Check::new("random meshes", random_meshes),
        Check::new("80 lattices, renumbered", renumbered_lattices),
        Check::new("random meshes, renumbered", renumbered_meshes),
        Check::new("80 lattices, other pairs", lattices_at_pairs),
        Check::new("random meshes, other pairs", random_meshes_at_pairs),
        Check::new("meshes about an axis", meshes_about_an_axis),
        Check::new("65,536 vertices", most_vertices),
        Check::new("almost edge-on", almost_edge_on),
        Check::new("held by hand", held_by_hand),
        Check::new("pairs by hand", pairs_by_hand),
        Check::new("starts by hand", starts_by_hand),
        Check::new("refusals", refusals),
    ]
}

/// What a call is lent, and leaves.
#[derive(Clone, Debug, PartialEq)]
struct Lent {
    cell_starts: Vec<u32>,
    cell_ids: Vec<u16>,
    triangle_starts: Vec<u32>,
    triples: Vec<u16>,
}

fn before(lengths: [usize; 4]) -> Lent {
    Lent {
        cell_starts: vec![0xdead_beef; lengths[0]],
        cell_ids: vec![0xbeef; lengths[1]],
        triangle_starts: vec![0xfeed_beef; lengths[2]],
        triples: vec![0xdead; lengths[3]],
    }
}

fn built(mesh: &Flat, settings: Settings, lent: &mut Lent) -> Result<Built, Reason> {
    let grid = GridMut {
        cell_starts: &mut lent.cell_starts,
        cell_ids: &mut lent.cell_ids,
        triangle_starts: &mut lent.triangle_starts,
        triples: &mut lent.triples,
    };
    koshirga::build_grid(mesh.as_mesh(), settings, grid).map_err(Reason::from)
}

fn needed(grid: &Slices) -> [usize; 4] {
    [
        grid.cell_starts.len(),
        grid.cell_ids.len(),
        grid.triangle_starts.len(),
        grid.triples.len(),
    ]
}

/// The slices after a grid was written from the front of each.
fn with_grid(mut lent: Lent, grid: &Slices) -> Lent {
    let [a, b, c, d] = needed(grid);
    lent.cell_starts[..a].copy_from_slice(&grid.cell_starts);
    lent.cell_ids[..b].copy_from_slice(&grid.cell_ids);
    lent.triangle_starts[..c].copy_from_slice(&grid.triangle_starts);
    lent.triples[..d].copy_from_slice(&grid.triples);
    lent
}

pub fn rust_grid(lists: &Lists) -> Slices {
    Slices::new(
        lists,
        &rust::FaceGrid::new(&lists.vertices, &lists.neighbors),
    )
}

/// The numbers across the cells of u and w, for a vertex on each cube face that has d > 0. They
/// stand inside the Rust's builder, which converts them to row and column, so they are restated.
/// That their cells are the Rust's is seen wherever its grid is compared: `compare_with_rust`.
fn across_cells(position: [f64; 3], side: usize) -> impl Iterator<Item = (usize, [f64; 2])> {
    (0..6).filter_map(move |face| {
        let (u, w, d) = rust::cube_face_project(position, face);
        let across = |x: f64| (x / d).mul_add(0.5, 0.5) * side as f64;
        (d > 0.0).then(|| (face, [u, w].map(across)))
    })
}

/// All numbers that are converted for a grid, each once.
fn numbers_across(positions: &[f64], side: usize) -> impl Iterator<Item = f64> + '_ {
    positions
        .chunks(3)
        .flat_map(move |p| across_cells([p[0], p[1], p[2]], side))
        .flat_map(|(_, numbers)| numbers)
}

/// W-207's count, which the Rust has not: how many of these numbers its conversion holds at an end.
pub fn held_beside(positions: &[f64], side: u32) -> u32 {
    let mut held = 0;
    for x in numbers_across(positions, side as usize) {
        held += u32::from(is_held(x));
    }
    held
}

/// A line for each lattice at the usual pair, a table's: how many numbers are converted for its
/// grid, and how many of them are held.
pub fn print_held() {
    println!("| Frequency | Vertices | Side | Conversions | Held |\n|---:|---:|---:|---:|---:|");
    for frequency in FREQUENCIES {
        let Slices {
            positions, side, ..
        } = rust_grid(&Lattice::new(frequency).lists);
        let conversions = numbers_across(&positions, side as usize).count();
        let (vertices, held) = (positions.len() / 3, held_beside(&positions, side));
        println!("| {frequency} | {vertices} | {side} | {conversions} | {held} |");
    }
}

/// The grid at a pair, worked out beside the Rust, which has the usual one fixed. By document 01 and
/// W-210 a vertex stands, on each of these faces, in the cells whose row and column are at most the
/// margin from its own; the sums are over whole numbers. Triangles don't depend on the pair: they are
/// those of the Rust's grid.
pub fn grid_beside(usual: &Slices, settings: Settings) -> Slices {
    let side = pairs::side(usual.positions.len() / 3, settings.factor);
    let margin = i128::from(settings.margin);
    let near = |at: i64| {
        let at = i128::from(at);
        (at - margin..=at + margin).filter(|cell| (0..side as i128).contains(cell))
    };
    let mut placed: Vec<(u32, u16)> = Vec::new();
    for (id, p) in usual.positions.chunks(3).enumerate() {
        for (face, numbers) in across_cells([p[0], p[1], p[2]], side) {
            // Toward zero (IEEE 754-2019, 5.8), and held at the ends of the signed range.
            let [row, column] = numbers.map(|x| x as i64);
            for row in near(row) {
                for column in near(column) {
                    let cell = (face * side + row as usize) * side + column as usize;
                    placed.push((cell as u32, id as u16));
                }
            }
        }
    }
    let mut cell_starts = vec![0; 6 * side * side + 1];
    for &(cell, _) in &placed {
        cell_starts[cell as usize + 1] += 1;
    }
    for cell in 1..cell_starts.len() {
        cell_starts[cell] += cell_starts[cell - 1];
    }
    // The ids come in ascending order.
    let mut free = cell_starts.clone();
    let mut cell_ids = vec![0; placed.len()];
    for (cell, id) in placed {
        let free = &mut free[cell as usize];
        cell_ids[*free as usize] = id;
        *free += 1;
    }
    Slices {
        settings,
        side: side as u32,
        cell_starts,
        cell_ids,
        ..usual.clone()
    }
}

/// Three faces have d > 0 at most, and on each there are 2·margin + 1 rows and columns at most.
pub fn greatest_ids(count: usize, margin: u32) -> usize {
    let width = 2 * margin as usize + 1;
    3 * width * width * count
}

/// The engine's answer, and whether it is this grid, with so many surplus places, and keeps the bound
/// of its ids. The count of conversions held is compared apart.
fn outcome(mesh: &Flat, grid: &Slices, surplus: [usize; 4]) -> (Result<Built, Reason>, bool) {
    let places = needed(grid);
    let lent = before([0, 1, 2, 3].map(|i| places[i] + surplus[i]));
    let mut ours = lent.clone();
    let answer = built(mesh, grid.settings, &mut ours);
    let bounded = places[1] <= greatest_ids(mesh.count(), grid.settings.margin);
    let same = bounded && has_side(answer, grid) && ours == with_grid(lent, grid);
    (answer, same)
}

fn has_side(answer: Result<Built, Reason>, grid: &Slices) -> bool {
    answer.is_ok_and(|built| built.side == grid.side)
}

/// The count of an accepted build.
fn compare_held(
    tally: &mut Tally,
    answer: Result<Built, Reason>,
    grid: &Slices,
    name: impl Fn() -> String,
) {
    let held = held_beside(&grid.positions, grid.side);
    let same = answer.is_ok_and(|built| built.held == held);
    tally.compare(Judge::Beside, same, || {
        let name = name();
        format!("conversions of {name}: {answer:?}, held beside the Rust {held}")
    });
}

/// At the usual pair.
fn compare_with_rust(tally: &mut Tally, lists: &Lists, surplus: [usize; 4], name: &str) -> Slices {
    compare_grids(tally, &lists.flat(), lists, surplus, name)
}

/// The engine's grid of its mesh, and the Rust's of its own, at the usual pair. What is worked out
/// beside the Rust's grid has to be that grid there.
fn compare_grids(
    tally: &mut Tally,
    mesh: &Flat,
    lists: &Lists,
    surplus: [usize; 4],
    name: &str,
) -> Slices {
    let grid = rust_grid(lists);
    let beside = grid_beside(&grid, USUAL) == grid;
    let (answer, same) = outcome(mesh, &grid, surplus);
    tally.compare(Judge::Rust, same && beside, || {
        let side = grid.side;
        format!("grid of {name}: {answer:?}, Rust's side {side}, the same beside it: {beside}")
    });
    compare_held(tally, answer, &grid, || name.to_string());
    grid
}

/// At another pair.
fn compare_beside(
    tally: &mut Tally,
    mesh: &Flat,
    grid: &Slices,
    surplus: [usize; 4],
    name: impl Fn() -> String,
) {
    let (answer, same) = outcome(mesh, grid, surplus);
    tally.compare(Judge::Beside, same, || {
        let Slices { settings, side, .. } = grid;
        let name = name();
        format!("grid of {name}, {settings:?}: {answer:?}, side beside the Rust {side}")
    });
    compare_held(tally, answer, grid, name);
}

fn lattices(tally: &mut Tally) {
    let mut kinds = Kinds::default();
    for frequency in FREQUENCIES {
        let lattice = Lattice::new(frequency);
        let name = format!("the lattice of frequency {frequency}");
        compare_with_rust(tally, &lattice.lists, [0; 4], &name);
        let grid = compare_with_rust(tally, &lattice.lists, [1, 2, 3, 4], &name);
        let held = held_beside(&grid.positions, grid.side);
        kinds.count(&[
            ("a lattice without a conversion held", held == 0),
            ("a lattice with some", held > 0),
        ]);
    }
    kinds.all_reached(tally);
}

/// Each at the ends of both ranges and at two more pairs.
fn lattices_at_pairs(tally: &mut Tally) {
    let mut random = Random::new(83);
    let mut kinds = Kinds::default();
    for frequency in FREQUENCIES {
        let lists = Lattice::new(frequency).lists;
        let (flat, usual) = (lists.flat(), rust_grid(&lists));
        let drawn = [0; 2].map(|_| pairs::accepted(&mut random));
        for settings in [&ENDS[..], &drawn].concat() {
            kinds.count(&kinds_of_pair(settings));
            let grid = grid_beside(&usual, settings);
            compare_beside(tally, &flat, &grid, [0, 1, 2, 3], || {
                format!("the lattice of frequency {frequency}")
            });
        }
    }
    kinds.all_reached(tally);
}

/// Document 01, row 5, read anew.
pub fn row_5(mesh: &Flat) -> bool {
    mesh.positions
        .chunks(3)
        .any(|p| row_9(Vector3::new(p[0], p[1], p[2])))
}

/// Which row is to refuse a mesh, before the lengths of the slices matter.
pub fn mesh_row(mesh: &Flat) -> Option<Reason> {
    adjacency_row(mesh).or_else(|| row_5(mesh).then_some(Reason::row(5)))
}

fn random_meshes(tally: &mut Tally) {
    let mut random = Random::new(81);
    for _ in 0..MESHES {
        let lists = Lists::random(&mut random);
        if !row_5(&lists.flat()) {
            let surplus = [0; 4].map(|_: usize| random.below(3) as usize);
            compare_with_rust(tally, &lists, surplus, &format!("{:?}", lists.neighbors));
        }
    }
}

/// A mesh renumbered on both sides, and then the grids. Whether the triples of the Rust's grid had
/// another order before its lists were sorted.
fn renumbered(
    tally: &mut Tally,
    random: &mut Random,
    lists: &Lists,
    by: &[usize],
    name: &str,
) -> bool {
    let start = drawn(random, lists);
    let (ours, Renumbered { state, unsorted }) = renumber::compare(tally, &start, by, 1, name);
    let grid = compare_grids(tally, &ours.mesh, &state.mesh.lists(), [0; 4], name);
    grid.triples != rust_grid(&unsorted).triples
}

/// Each by its walk and at random.
fn renumbered_lattices(tally: &mut Tally) {
    let mut random = Random::new(88);
    let mut kinds = Kinds::default();
    for frequency in FREQUENCIES {
        let lists = Lattice::new(frequency).lists;
        let walk = rust::bfs_vertex_permutation(&lists.neighbors);
        let name = format!("the lattice of frequency {frequency}, by its walk");
        let walk_differs = renumbered(tally, &mut random, &lists, &walk, &name);
        let other = permutation(&mut random, lists.vertices.len());
        let name = format!("the lattice of frequency {frequency}, renumbered at random");
        let other_differs = renumbered(tally, &mut random, &lists, &other, &name);
        kinds.count(&[
            ("by the walk: other triples before the sort", walk_differs),
            ("at random: other triples before the sort", other_differs),
        ]);
    }
    kinds.all_reached(tally);
}

/// At random, and one of four by the identity.
fn renumbered_meshes(tally: &mut Tally) {
    let mut random = Random::new(89);
    let mut kinds = Kinds::default();
    for at in 0..MESHES {
        let lists = Lists::random(&mut random);
        if row_5(&lists.flat()) {
            continue;
        }
        let count = lists.vertices.len();
        let identity = random.below(4) == 0;
        let by = if identity {
            (0..count).collect()
        } else {
            permutation(&mut random, count)
        };
        let name = format!("mesh {at}, renumbered by {by:?}");
        let differs = renumbered(tally, &mut random, &lists, &by, &name);
        kinds.count(&[
            (
                "the identity: other triples before the sort",
                identity && differs,
            ),
            (
                "at random: other triples before the sort",
                !identity && differs,
            ),
            ("the same triples before the sort", !differs),
        ]);
    }
    kinds.all_reached(tally);
    let repeats = tally.left.with_repeats;
    tally.reached("a list out of order, with a repeat".to_string(), repeats);
}

/// Components that put a vertex on an axis or a diagonal, or almost edge-on to a cube face.
const COMPONENTS: [f64; 8] = [0.0, -0.0, 1.0, -1.0, 1e-30, -1e-30, 1e-300, -1e-300];

/// Whether a number is held at this end.
fn held_at(numbers: &[f64], end: i64) -> bool {
    numbers.iter().any(|&x| is_held(x) && x as i64 == end)
}

/// The converted coordinates beside the first and the last cell that are near it with a margin and no
/// more, and the ends of the conversion; whether a mesh has them at a pair.
fn kinds_of_placing(grid: &Slices) -> [(&'static str, bool); 16] {
    let numbers: Vec<f64> = numbers_across(&grid.positions, grid.side as usize).collect();
    let g = i64::from(grid.side);
    let any = |coordinate| numbers.iter().any(|&x| x as i64 == coordinate);
    let held = |end| held_at(&numbers, end);
    let at = |margin, coordinate| grid.settings.margin == margin && any(coordinate);
    [
        ("margin 0: coordinate -1, near none", at(0, -1)),
        ("margin 1: coordinate -1, near cell 0", at(1, -1)),
        ("margin 1: coordinate -2, near none", at(1, -2)),
        ("margin 2: coordinate -2, near cell 0", at(2, -2)),
        ("margin 2: coordinate -3, near none", at(2, -3)),
        ("margin 3: coordinate -3, near cell 0", at(3, -3)),
        ("margin 3: coordinate -4, near none", at(3, -4)),
        ("margin 0: coordinate g, near none", at(0, g)),
        ("margin 1: coordinate g, near the last cell", at(1, g)),
        ("margin 1: coordinate g + 1, near none", at(1, g + 1)),
        (
            "margin 2: coordinate g + 1, near the last cell",
            at(2, g + 1),
        ),
        ("margin 2: coordinate g + 2, near none", at(2, g + 2)),
        (
            "margin 3: coordinate g + 2, near the last cell",
            at(3, g + 2),
        ),
        ("margin 3: coordinate g + 3, near none", at(3, g + 3)),
        ("a coordinate held at the least end", held(i64::MIN)),
        ("a coordinate held at the greatest end", held(i64::MAX)),
    ]
}

fn random_meshes_at_pairs(tally: &mut Tally) {
    let mut random = Random::new(84);
    let (mut kinds, mut placing) = (Kinds::default(), Kinds::default());
    for _ in 0..MESHES {
        let mut lists = Lists::random(&mut random);
        for _ in 0..random.below(4) {
            let at = random.below(lists.vertices.len() as u64) as usize;
            let component = COMPONENTS[random.below(COMPONENTS.len() as u64) as usize];
            lists.vertices[at][random.below(3) as usize] = component;
        }
        let flat = lists.flat();
        if row_5(&flat) {
            continue;
        }
        let grid = grid_beside(&rust_grid(&lists), pairs::accepted(&mut random));
        kinds.count(&kinds_of_pair(grid.settings));
        placing.count(&kinds_of_placing(&grid));
        let surplus = [0; 4].map(|_: usize| random.below(3) as usize);
        compare_beside(tally, &flat, &grid, surplus, || format!("{flat:?}"));
    }
    kinds.all_reached(tally);
    placing.all_reached(tally);
}

/// A ring of vertices, each beside the two before it and the two behind it.
fn ring(vertices: Vec<[f64; 3]>) -> Lists {
    let count = vertices.len();
    let beside = |id: usize, steps: usize| ((id + steps) % count) as u16;
    Lists {
        neighbors: (0..count)
            .map(|id| [1, 2, count - 1, 2 * count - 2].map(|steps| beside(id, steps)))
            .map(Vec::from)
            .collect(),
        vertices,
    }
}

/// All vertices about one end of an axis, or in a belt around the axis.
fn about_an_axis(random: &mut Random) -> Lists {
    let count = 1 + random.below(ABOUT_AN_AXIS_COUNT) as usize;
    let axis = random.below(3) as usize;
    let width = 2f64.powi(-(random.below(12) as i32));
    let belt = random.below(2) == 0;
    let end = [1.0, -1.0][random.below(2) as usize];
    let mut vertex = || {
        let mut v = [0; 3].map(|_| random.unit() * if belt { 1.0 } else { width });
        v[axis] = if belt { random.unit() * width } else { end };
        v
    };
    ring((0..count).map(|_| vertex()).collect())
}

/// What W-210 is for: "all their points around one axis, and a cell then holds too many or none".
fn meshes_about_an_axis(tally: &mut Tally) {
    let mut random = Random::new(85);
    for at in 0..ABOUT_AN_AXIS {
        let lists = about_an_axis(&mut random);
        let flat = lists.flat();
        if row_5(&flat) {
            continue;
        }
        let name = format!("mesh {at} about an axis");
        let usual = compare_with_rust(tally, &lists, [0; 4], &name);
        for _ in 0..ABOUT_AN_AXIS_PAIRS {
            let grid = grid_beside(&usual, pairs::accepted(&mut random));
            compare_beside(tally, &flat, &grid, [0; 4], || name.clone());
        }
    }
}

/// The most vertices, in all directions, at the ends of both ranges.
fn most_vertices(tally: &mut Tally) {
    let mut random = Random::new(86);
    let mut vertex = || [0; 3].map(|_| random.unit());
    let lists = ring((0..GREATEST_COUNT).map(|_| vertex()).collect());
    let name = "65,536 vertices";
    let usual = compare_with_rust(tally, &lists, [0; 4], name);
    let flat = lists.flat();
    for settings in ENDS {
        let grid = grid_beside(&usual, settings);
        compare_beside(tally, &flat, &grid, [0; 4], || name.to_string());
    }
}

/// Numbers at the ends of the signed range and beside them; whether a mesh has them at a pair.
fn kinds_of_held(grid: &Slices) -> [(&'static str, bool); 10] {
    let numbers: Vec<f64> = numbers_across(&grid.positions, grid.side as usize).collect();
    let above_range = 2f64.powi(63);
    let any = |number: f64| numbers.contains(&number);
    let [least, greatest] = [i64::MIN, i64::MAX].map(|end| held_at(&numbers, end));
    let held = least || greatest;
    [
        ("no conversion held", !held),
        (
            "some held, at the usual pair",
            held && grid.settings == USUAL,
        ),
        ("some held, at another pair", held && grid.settings != USUAL),
        ("some held at each end", least && greatest),
        ("kept: -2^63", any(-above_range)),
        (
            "held: the next double below it",
            any((-above_range).next_down()),
        ),
        ("held: 2^63", any(above_range)),
        (
            "kept: the next double below it",
            any(above_range.next_down()),
        ),
        ("held: minus infinity", any(f64::NEG_INFINITY)),
        ("held: infinity", any(f64::INFINITY)),
    ]
}

/// A mesh at the usual pair and at another, with vertices brought almost edge-on for either side.
fn edge_on(tally: &mut Tally, kinds: &mut Kinds, random: &mut Random, lists: &Lists, name: &str) {
    for settings in [USUAL, pairs::accepted(random)] {
        let mut lists = lists.clone();
        lists.bring_edge_on(random, pairs::side(lists.vertices.len(), settings.factor));
        let flat = lists.flat();
        if row_5(&flat) {
            continue;
        }
        let mut grid = compare_with_rust(tally, &lists, [0; 4], name);
        if settings != USUAL {
            grid = grid_beside(&grid, settings);
            compare_beside(tally, &flat, &grid, [0; 4], || name.to_string());
        }
        kinds.count(&kinds_of_held(&grid));
    }
}

/// Numbers at the ends of the signed range and beyond them.
fn almost_edge_on(tally: &mut Tally) {
    let mut random = Random::new(87);
    let mut kinds = Kinds::default();
    for at in 0..EDGE_ON {
        let lists = Lists::random(&mut random);
        let name = format!("mesh {at} almost edge-on");
        edge_on(tally, &mut kinds, &mut random, &lists, &name);
    }
    for frequency in EDGE_ON_LATTICES {
        let lists = Lattice::new(frequency).lists;
        let name = format!("the lattice of frequency {frequency} almost edge-on");
        edge_on(tally, &mut kinds, &mut random, &lists, &name);
    }
    kinds.all_reached(tally);
}

/// 2^−1074 and 2^−63.
const LEAST: f64 = f64::from_bits(1);
const PART: f64 = f64::from_bits((BIAS - 63) << SIGNIFICAND_DIGITS);

/// One vertex, whose side is 2 at every pair, by hand: how many numbers are converted, and how many
/// of them are held. Where u/d is ±2^63 the number is ±2^63, as ±2^62 + 0.5 rounds to ±2^62 (to
/// nearest, IEEE 754-2019, 4.3.1): 2^63 is held, and −2^63 isn't.
const HELD_BY_HAND: [([f64; 3], usize, u32); 12] = [
    ([1.0, 1.0, 1.0], 6, 0),
    ([1.0, LEAST, LEAST], 6, 2),
    ([-1.0, LEAST, LEAST], 6, 2),
    ([1.0, -LEAST, 0.0], 4, 1),
    ([1.0, 0.0, -0.0], 2, 0),
    // Both on face 4, one at each end.
    ([1.0, -1.0, LEAST], 6, 2),
    ([1.0, PART, 0.0], 4, 1),
    ([-1.0, PART, 0.0], 4, 0),
    ([1.0, PART.next_up(), 0.0], 4, 0),
    ([-1.0, PART.next_down(), 0.0], 4, 1),
    ([0.0, 1.0, PART], 4, 1),
    ([PART, 0.0, 1.0], 4, 1),
];

/// The loop and the engine, both held to what is known by hand.
fn held_by_hand(tally: &mut Tally) {
    for (vertex, conversions, held) in HELD_BY_HAND {
        let lists = Lists {
            vertices: vec![vertex],
            neighbors: vec![vec![]],
        };
        let usual = rust_grid(&lists);
        let by_hand =
            numbers_across(&vertex, 2).count() == conversions && held_beside(&vertex, 2) == held;
        for settings in [&[USUAL][..], &ENDS].concat() {
            let grid = grid_beside(&usual, settings);
            let mut ours = before(needed(&grid));
            let answer = built(&lists.flat(), settings, &mut ours);
            let same = answer == Ok(Built { side: 2, held });
            tally.compare(Judge::Beside, same && by_hand, || {
                format!(
                    "{vertex:?}, {settings:?}: {answer:?}, by hand {held}, so the loop: {by_hand}"
                )
            });
        }
    }
}

/// Margins and the cells of one vertex (1, 1, 1) at the usual factor, by hand: its coordinates
/// convert to 2, behind the last row and column of the faces 0, 2 and 4.
const CELLS_BY_HAND: [(u32, &[usize]); 4] = [
    (0, &[]),
    (1, &[3, 11, 19]),
    (2, &[0, 1, 2, 3, 8, 9, 10, 11, 16, 17, 18, 19]),
    (3, &[0, 1, 2, 3, 8, 9, 10, 11, 16, 17, 18, 19]),
];

/// The readings and the engine, both held to what is known by hand.
fn pairs_by_hand(tally: &mut Tally) {
    let of_vertex = |x: f64| Lists {
        vertices: vec![[x, 1.0, 1.0]],
        neighbors: vec![vec![]],
    };
    let lists = of_vertex(1.0);
    let (mesh, usual) = (lists.flat(), rust_grid(&lists));
    for (margin, cells) in CELLS_BY_HAND {
        let settings = pair(1.2, margin);
        let hand = Slices {
            settings,
            side: 2,
            cell_starts: (0..=24)
                .map(|at| cells.iter().filter(|&&cell| cell < at).count() as u32)
                .collect(),
            cell_ids: vec![0; cells.len()],
            ..usual.clone()
        };
        let beside = grid_beside(&usual, settings) == hand;
        let (answer, same) = outcome(&mesh, &hand, [0; 4]);
        tally.compare(Judge::Beside, same && beside, || {
            format!("cells of (1, 1, 1), margin {margin}: {answer:?}, by hand beside the Rust: {beside}")
        });
        compare_held(tally, answer, &hand, || {
            format!("(1, 1, 1), margin {margin}")
        });
    }
    for (settings, row) in pairs::BY_HAND {
        let row = row.map(Reason::row);
        // Behind the mesh's rows, and before row 8.
        for (mesh, places, expected) in [
            (&mesh, 100, row),
            (&mesh, 0, row.or(Some(Reason::row(8)))),
            (&of_vertex(f64::NAN).flat(), 100, Some(Reason::row(5))),
            (&Flat::default(), 100, Some(Reason::row(2))),
        ] {
            let lent = before([places; 4]);
            let mut ours = lent.clone();
            let answer = built(mesh, settings, &mut ours);
            let left = match expected {
                None => answer == Ok(Built { side: 2, held: 0 }),
                Some(reason) => answer == Err(reason) && ours == lent,
            };
            tally.compare(Judge::Rows, left && settings_row(settings) == row, || {
                format!("grid of {mesh:?}, {settings:?}, {places} places: {answer:?}, by hand {expected:?}")
            });
        }
    }
}

/// The rows' reading and the engine, both held to what is known by hand.
fn starts_by_hand(tally: &mut Tally) {
    for (mesh, reason) in by_hand() {
        let row = mesh_row(&mesh);
        let lent = before([100; 4]);
        let mut ours = lent.clone();
        let answer = built(&mesh, USUAL, &mut ours);
        let same = row == Some(reason) && answer == Err(reason) && ours == lent;
        tally.compare(Judge::Rows, same, || {
            format!("grid of {mesh:?}: {answer:?}, by hand {reason:?}, rows {row:?}")
        });
    }
}

/// The kinds of pairs and of what they meet, each behind the row that is to refuse it; `short`:
/// whether the slices are too short for every grid.
fn kinds_of_refusal(
    settings: Settings,
    row: Option<Reason>,
    short: bool,
) -> [(&'static str, bool); 14] {
    let Settings { factor, margin } = settings;
    let by = |number| row.is_some_and(|reason| reason.number == number);
    let pair_too = settings_row(settings).is_some();
    let by_mesh = [2, 3, 17, 18, 4].into_iter().any(by);
    [
        (
            "2, 3, 17, 18 or 4: and a pair out of range",
            by_mesh && pair_too,
        ),
        ("5: and a pair out of range", by(5) && pair_too),
        (
            "19: the next double below 0.5",
            by(19) && factor == 0.5f64.next_down(),
        ),
        (
            "19: the next double above 4.0",
            by(19) && factor == 4.0f64.next_up(),
        ),
        ("19: a zero", by(19) && factor == 0.0),
        ("19: below zero", by(19) && factor < 0.0),
        ("19: an infinity", by(19) && factor.is_infinite()),
        ("19: NaN", by(19) && factor.is_nan()),
        ("19: and a margin above 3", by(19) && margin > 3),
        ("19: and slices too short", by(19) && short),
        ("20: margin 4", by(20) && margin == 4),
        ("20: the greatest margin", by(20) && margin == u32::MAX),
        ("20: and slices too short", by(20) && short),
        (
            "8: at another pair than the usual",
            by(8) && settings != USUAL,
        ),
    ]
}

/// Enough places for the grid of a mesh at every pair.
fn enough(usual: &Slices) -> [usize; 4] {
    let count = usual.positions.len() / 3;
    let side = pairs::side(count, 4.0);
    let [_, _, triangle_starts, triples] = needed(usual);
    let cell_ids = greatest_ids(count, 3);
    [6 * side * side + 1, cell_ids, triangle_starts, triples]
}

/// Rows 2, 3, 17, 18, 4, 5, 19, 20 and 8 leave all slices as they were. Where no row holds the grid
/// is the Rust's, and at another pair than the usual what is worked out beside it.
fn refusals(tally: &mut Tally) {
    let mut random = Random::new(82);
    let mut rows = Rows::default();
    let (mut starts, mut kinds) = (Kinds::default(), Kinds::default());
    for _ in 0..MESHES {
        let mut flat = Lists::random(&mut random).flat();
        for _ in 0..random.below(3) {
            damage(&mut random, &mut flat);
        }
        if random.below(4) == 0 && !flat.positions.is_empty() {
            let at = random.below(flat.positions.len() as u64) as usize;
            flat.positions[at] = [f64::NAN, f64::INFINITY, 1e7, -2e6][random.below(4) as usize];
        }
        let settings = match random.below(4) {
            0 | 1 => USUAL,
            2 => pairs::accepted(&mut random),
            _ => pairs::refused(&mut random),
        };
        let row = mesh_row(&flat);
        let usual = row.is_none().then(|| rust_grid(&flat.lists()));
        let row = row.or(settings_row(settings));
        let places = usual.as_ref().map_or([40; 4], enough);
        let judge = if settings == USUAL {
            Judge::Rust
        } else {
            Judge::Beside
        };
        let grid = usual.filter(|_| row.is_none()).map(|usual| match judge {
            Judge::Rust => usual,
            _ => grid_beside(&usual, settings),
        });
        let places = grid.as_ref().map_or(places, needed);
        // A refused call may have no places at all.
        let short = random.below(8) as usize;
        let lengths = match row {
            None => [0, 1, 2, 3].map(|i| places[i].saturating_sub(usize::from(short == i))),
            Some(_) if short < 4 => [0; 4],
            Some(_) => places,
        };
        let row = row.or((lengths != places).then_some(Reason::row(8)));
        let lent = before(lengths);
        let mut ours = lent.clone();
        let answer = built(&flat, settings, &mut ours);
        rows.count(row);
        starts.count(&kinds_of_starts(&flat, row));
        kinds.count(&kinds_of_refusal(settings, row, lengths == [0; 4]));
        let (judge, same) = match (row, &grid) {
            (None, Some(grid)) => {
                compare_held(tally, answer, grid, || format!("{flat:?}, {settings:?}"));
                (
                    judge,
                    has_side(answer, grid) && ours == with_grid(lent, grid),
                )
            }
            _ => (Judge::Rows, answer.err() == row && ours == lent),
        };
        tally.compare(judge, same, || {
            format!(
                "grid of {flat:?}, {settings:?}, in {lengths:?} places: {answer:?}, row {row:?}"
            )
        });
    }
    rows.all_reached(tally, &[2, 3, 17, 18, 4, 5, 19, 20, 8]);
    starts.all_reached(tally);
    kinds.all_reached(tally);
}
