//! Nanoseconds a call on both sides, from the same inputs in the same run.

use crate::grids::greatest_ids;
use crate::helpers::place;
use crate::islands::side_by_side;
use crate::meshes::{Flat, Lattice, Lists};
use crate::pairs::{self, pair, USUAL};
use crate::patterns::Random;
use crate::queries::Slices;
use crate::stored::needed;
use icotable_oracle as rust;
use koshirga::{GpuBuffers, GridMut, MeshMut, Scratch, Settings, Taken, Vector3, Weights};
use std::hint::black_box;
use std::time::Instant;

/// Calls of a round: few, so that most rounds end before another program gets the core.
const CALLS: usize = 1024;
/// Rounds, whose median is printed. Each has new inputs, so that no branch is learnt by heart, and
/// both sides take their turn in it.
const ROUNDS: usize = 1001;
/// Rounds of the calls that take a whole mesh.
const MESH_ROUNDS: usize = 31;

/// Prints a line for each function.
pub fn run() {
    println!(
        "function                    Koshirga    Rust  (nanoseconds a call, medians of {ROUNDS} rounds)"
    );
    print_line(
        "mul_add",
        |random| [random.unit(), random.unit(), random.unit()],
        |&[a, b, c]| koshirga::mul_add(a, b, c),
        |&[a, b, c]| a.mul_add(b, c),
    );
    print_line("sqrt", positive, |&x| koshirga::sqrt(x), |&x| x.sqrt());
    print_line(
        "sqrt_by_digits, Rust sqrt",
        positive,
        |&x| koshirga::sqrt_by_digits(x),
        |&x| x.sqrt(),
    );
    print_line("floor", mixed, |&x| koshirga::floor(x), |&x| x.floor());
    print_line("ceil", mixed, |&x| koshirga::ceil(x), |&x| x.ceil());
    print_line("to_i64", mixed, |&x| koshirga::to_i64(x), |&x| x as i64);
    print_line(
        "to_f32, Rust as f32",
        mixed,
        |&x| koshirga::to_f32(x),
        |&x| x as f32,
    );
    print_line("rank", mixed, |&x| koshirga::rank(x), |&x| place(x));
    // Not the same operation: Rust's min may give either of two zeros.
    print_line(
        "minimum_number, Rust min",
        |random| [mixed(random), mixed(random)],
        |&[x, y]| koshirga::minimum_number(x, y),
        |&[x, y]| x.min(y),
    );
    print_line(
        "least_weight, Rust min",
        |random| [random.unit(), random.unit(), random.unit()],
        |&[u, v, w]| koshirga::least_weight(Weights { u, v, w }),
        |&[u, v, w]| u.min(v).min(w),
    );
    print_line("norm", vectors, |(v, _)| v.norm(), |(_, v)| v.norm());
    print_line(
        "normalize",
        vectors,
        |(v, _)| v.normalize(),
        |(_, v)| v.normalize(),
    );
    for frequency in [20, 80] {
        queries(frequency);
    }
    println!("function                    Koshirga    Rust  (microseconds a call, medians of {MESH_ROUNDS} rounds)");
    for frequency in [20, 80] {
        builders(frequency);
        grid_at_the_ends(frequency);
        packing(frequency);
    }
    meshes(80);
    for frequency in [20, 80] {
        islands(frequency);
    }
    for frequency in [20, 40, 80] {
        steps(frequency);
    }
}

/// Both locators and the nearest query of a grid at the usual pair; the nearest query also where the
/// factor is the next double above 1.2. The grid is the same for it, and its side takes a root.
fn queries(frequency: usize) {
    let lattice = Lattice::new(frequency);
    let analytic = rust::AnalyticLattice::new(frequency);
    let ours = koshirga::AnalyticLattice {
        frequency: frequency as u32,
        ids: &lattice.ids,
    };
    print_line(
        &format!("analytic {frequency}"),
        vectors,
        |&(v, _)| ours.locate(v),
        |(_, v)| analytic.locate(v),
    );
    let grid = rust::FaceGrid::new(&lattice.lists.vertices, &lattice.lists.neighbors);
    let slices = Slices::new(&lattice.lists, &grid);
    let ours = slices.as_grid();
    print_line(
        &format!("grid nearest {frequency}"),
        vectors,
        |&(v, _)| ours.find_nearest_vertex(v),
        |(_, v)| grid.find_nearest_vertex(v),
    );
    let factor = USUAL.factor.next_up();
    let count = lattice.lists.vertices.len();
    assert_eq!(pairs::side(count, factor), grid.grid_size());
    let next_factor = koshirga::Grid {
        settings: pair(factor, USUAL.margin),
        ..ours
    };
    print_line(
        &format!("grid nearest {frequency}, 1.2 + ulp"),
        vectors,
        |&(v, _)| next_factor.find_nearest_vertex(v),
        |(_, v)| grid.find_nearest_vertex(v),
    );
    print_line(
        &format!("grid locate {frequency}"),
        vectors,
        |&(v, _)| ours.locate(v),
        |(_, v)| grid.locate(v),
    );
}

/// The lattice, and the grid of it at the usual pair. The Rust allocates what it returns; Koshirga
/// fills lent slices.
fn builders(frequency: usize) {
    let lists = Lattice::new(frequency).lists;
    let flat = lists.flat();
    let count = flat.count();
    let mut mesh = flat.clone();
    let mut lists_ascend = false;
    let mut ids = vec![0; 10 * (frequency + 1) * (frequency + 2)];
    let mut cell_starts = vec![0; 6 * 126 * 126 + 1];
    let mut cell_ids = vec![0; 27 * count];
    let mut triangle_starts = vec![0; count + 1];
    let mut triples = vec![0; 3 * flat.entries.len()];
    let mut times = [const { Vec::new() }; 4];
    for _ in 0..MESH_ROUNDS {
        times[0].push(once(|| {
            let mesh = MeshMut {
                positions: &mut mesh.positions,
                starts: &mut mesh.starts,
                entries: &mut mesh.entries,
                lists_ascend: &mut lists_ascend,
            };
            koshirga::lattice_geometry(frequency as u32, mesh, &mut ids)
        }));
        times[1].push(once(|| rust::lattice_geometry(frequency)));
        times[2].push(once(|| {
            let grid = GridMut {
                cell_starts: &mut cell_starts,
                cell_ids: &mut cell_ids,
                triangle_starts: &mut triangle_starts,
                triples: &mut triples,
            };
            koshirga::build_grid(flat.as_mesh(), USUAL, grid)
        }));
        times[3].push(once(|| {
            rust::FaceGrid::new(&lists.vertices, &lists.neighbors)
        }));
    }
    let [lattice, rust_lattice, grid, rust_grid] = times.map(median);
    print_times(&format!("lattice {frequency}"), lattice, rust_lattice);
    print_times(&format!("grid {frequency}"), grid, rust_grid);
}

/// The grid at the least pair and at the greatest, which the Rust has not.
fn grid_at_the_ends(frequency: usize) {
    let flat = Lattice::new(frequency).lists.flat();
    let count = flat.count();
    for settings in [pair(0.5, 0), pair(4.0, 3)] {
        let Settings { factor, margin } = settings;
        let side = pairs::side(count, factor);
        let mut cell_starts = vec![0; 6 * side * side + 1];
        let mut cell_ids = vec![0; greatest_ids(count, margin)];
        let mut triangle_starts = vec![0; count + 1];
        let mut triples = vec![0; 3 * flat.entries.len()];
        let times = (0..MESH_ROUNDS).map(|_| {
            once(|| {
                let grid = GridMut {
                    cell_starts: &mut cell_starts,
                    cell_ids: &mut cell_ids,
                    triangle_starts: &mut triangle_starts,
                    triples: &mut triples,
                };
                koshirga::build_grid(flat.as_mesh(), settings, grid)
            })
        });
        let name = format!("grid {frequency}, {factor:?} and {margin}");
        println!(
            "{name:<26}  {:>8.1}  {:>6}",
            median(times.collect()),
            "none"
        );
    }
}

/// The grid at the usual pair packed into slices that are long enough, and by buffers that have grown
/// before and are empty; beside both the Rust's packing, into vectors that have grown before.
fn packing(frequency: usize) {
    let lists = Lattice::new(frequency).lists;
    let rust_grid = rust::FaceGrid::new(&lists.vertices, &lists.neighbors);
    let slices = Slices::new(&lists, &rust_grid);
    let grid = slices.as_grid();
    let [words, floats] = needed(&slices);
    let (mut words, mut floats) = (vec![0; words], vec![0.0; floats]);
    let (mut rust_words, mut rust_floats) = (words.clone(), floats.clone());
    let mut buffers = GpuBuffers {
        words: words.clone(),
        floats: floats.clone(),
    };
    let mut times = [const { Vec::new() }; 3];
    for _ in 0..MESH_ROUNDS {
        times[0].push(once(|| {
            grid.pack(&mut words, &mut floats, Taken::default())
        }));
        buffers.words.clear();
        buffers.floats.clear();
        times[1].push(once(|| buffers.append(&grid)));
        rust_words.clear();
        rust_floats.clear();
        times[2].push(once(|| rust_grid.pack(&mut rust_words, &mut rust_floats)));
    }
    let [lent, grown, rust] = times.map(median);
    print_times(&format!("pack {frequency}"), lent, rust);
    print_times(&format!("pack {frequency}, GpuBuffers"), grown, rust);
}

/// The walk, and the renumbering by its order with one value a vertex. The Rust's slices and
/// scratch are its own, allocated in the call. Its renumbering keeps the order of a list, where the
/// engine's sorts each (W-208); so the engine's time stands once beside the Rust's own, and once
/// beside the Rust's with a sort of each list behind it.
fn meshes(frequency: usize) {
    let lists = Lattice::new(frequency).lists;
    let flat = lists.flat();
    let count = flat.count();
    let (mut order, mut queue) = (vec![0; count], vec![0; count]);
    let mut times = [const { Vec::new() }; 5];
    for _ in 0..MESH_ROUNDS {
        times[0].push(once(|| {
            koshirga::bfs_vertex_permutation(flat.as_mesh(), &mut order, &mut queue)
        }));
        let mut permutation = Vec::new();
        times[1].push(once(|| {
            permutation = rust::bfs_vertex_permutation(&lists.neighbors)
        }));
        times[2].push(renumbering(&flat, &order));
        times[3].push(rust_renumbering(&lists, &permutation, false));
        times[4].push(rust_renumbering(&lists, &permutation, true));
    }
    let [walk, rust_walk, renumber, rust_renumber, rust_sorted] = times.map(median);
    print_times(&format!("walk {frequency}"), walk, rust_walk);
    print_times(&format!("renumber {frequency}"), renumber, rust_renumber);
    let name = format!("renumber {frequency}, Rust + sort");
    print_times(&name, renumber, rust_sorted);
}

/// The walk over all islands of the lattice, which is one, beside the Rust's walk of it; and of four
/// lattices of half the frequency in one mesh, beside the Rust's four walks of these. The Rust allocates
/// its slices in each call.
fn islands(frequency: usize) {
    let whole = Lattice::new(frequency).lists;
    let part = Lattice::new(frequency / 2).lists;
    let parts = side_by_side(&[&part; 4]).flat();
    let flat = whole.flat();
    let [mut order, mut queue, mut starts] = [(); 3].map(|()| vec![0; parts.count()]);
    let mut walk = |mesh: &Flat| {
        koshirga::walk_islands(mesh.as_mesh(), &mut order, &mut queue, &mut starts)
            .map(|found| found.islands)
    };
    assert_eq!([walk(&flat), walk(&parts)], [Ok(1), Ok(4)]);
    let mut times = [const { Vec::new() }; 4];
    for _ in 0..MESH_ROUNDS {
        times[0].push(once(|| walk(&flat)));
        times[1].push(once(|| rust::bfs_vertex_permutation(&whole.neighbors)));
        times[2].push(once(|| walk(&parts)));
        times[3].push(once(|| {
            [(); 4].map(|()| rust::bfs_vertex_permutation(&part.neighbors))
        }));
    }
    let [one, rust_one, four, rust_four] = times.map(median);
    print_times(&format!("islands {frequency}, one"), one, rust_one);
    print_times(&format!("islands {frequency}, four"), four, rust_four);
}

/// The list of all vertices beside the Rust's walk, which gives the same order and allocates its own
/// slices. Steps to the last vertex of that walk and to the one halfway beside a plain search in the
/// slices that the engine is lent. The search tests no rows: their share is the time of a call that
/// row 14, behind those of the mesh, refuses.
fn steps(frequency: usize) {
    let lists = Lattice::new(frequency).lists;
    let neighbors = &lists.neighbors;
    let flat = lists.flat();
    let room = flat.positions.len().max(flat.entries.len());
    let (mut order, mut queue) = (vec![0; room], vec![0; room]);
    let walk = koshirga::bfs_vertex_permutation(flat.as_mesh(), &mut order, &mut queue);
    assert!(walk.is_ok());
    let [last, halfway] = [flat.count() - 1, flat.count() / 2].map(|at| queue[at]);
    let mut times = [const { Vec::new() }; 7];
    for _ in 0..MESH_ROUNDS {
        times[0].push(once(|| {
            koshirga::vertices_within(flat.as_mesh(), 0, usize::MAX, &mut order, &mut queue)
        }));
        times[1].push(once(|| rust::bfs_vertex_permutation(neighbors)));
        times[2].push(once(|| {
            koshirga::steps_between(flat.as_mesh(), 0, u32::MAX, &mut order, &mut queue)
        }));
        for (pair, to) in [last, halfway].into_iter().enumerate() {
            times[3 + 2 * pair].push(once(|| {
                koshirga::steps_between(flat.as_mesh(), 0, to, &mut order, &mut queue)
            }));
            times[4 + 2 * pair].push(once(|| search(&flat, 0, to, &mut order, &mut queue)));
        }
    }
    let [within, rust_walk, refused, last, plain_last, halfway, plain_halfway] = times.map(median);
    print_times(&format!("within, all {frequency}"), within, rust_walk);
    print_times(&format!("steps {frequency}, Rust search"), last, plain_last);
    let name = format!("steps {frequency}, search halfway");
    print_times(&name, halfway, plain_halfway);
    let name = format!("steps {frequency}, refused by 14");
    println!("{name:<26}  {refused:>8.1}  {:>6}", "none");
}

/// Steps and entries read, breadth first, one pass over each list, stopped at the target.
fn search(
    mesh: &Flat,
    from: u32,
    to: u32,
    steps: &mut [u32],
    queue: &mut [u32],
) -> Option<[u32; 2]> {
    if from == to {
        return Some([0, 0]);
    }
    let steps = &mut steps[..mesh.count()];
    steps.fill(u32::MAX);
    steps[from as usize] = 0;
    queue[0] = from;
    let (mut head, mut reached, mut read) = (0, 1, 0);
    while head < reached {
        let id = queue[head] as usize;
        let list = mesh.starts[id] as usize..mesh.starts[id + 1] as usize;
        let next = steps[id] + 1;
        for &entry in &mesh.entries[list] {
            read += 1;
            if steps[usize::from(entry)] == u32::MAX {
                let entry = u32::from(entry);
                if entry == to {
                    return Some([next, read]);
                }
                steps[entry as usize] = next;
                queue[reached] = entry;
                reached += 1;
            }
        }
        head += 1;
    }
    None
}

fn renumbering(flat: &Flat, permutation: &[u32]) -> f64 {
    let mut mesh = flat.clone();
    let mut values = vec![1.0; flat.count()];
    let room = flat.positions.len().max(flat.entries.len());
    let scratch = Scratch {
        sources: &mut vec![0; room],
        old_starts: &mut vec![0; room],
        old_entries: &mut vec![0; room],
        done: &mut vec![0; room],
        held: &mut vec![0.0; room],
    };
    let mut lists_ascend = false;
    let mesh = MeshMut {
        positions: &mut mesh.positions,
        starts: &mut mesh.starts,
        entries: &mut mesh.entries,
        lists_ascend: &mut lists_ascend,
    };
    once(|| koshirga::apply_vertex_permutation(mesh, &mut values, permutation, 1, scratch))
}

fn rust_renumbering(lists: &Lists, permutation: &[usize], sorts: bool) -> f64 {
    let mut lists = lists.clone();
    let count = lists.vertices.len();
    let mut values = vec![1.0; count];
    once(|| {
        rust::apply_vertex_permutation(
            permutation,
            &mut lists.vertices,
            &mut lists.neighbors,
            &mut values,
            count,
            1,
        );
        if sorts {
            lists.sort();
        }
        black_box(&lists);
    })
}

/// Microseconds of one call.
fn once<R>(call: impl FnOnce() -> R) -> f64 {
    let start = Instant::now();
    black_box(call());
    start.elapsed().as_nanos() as f64 / 1000.0
}

/// From 0 to 1.
fn positive(random: &mut Random) -> f64 {
    random.unit().abs()
}

/// Fractions from −1000 to 1000.
fn mixed(random: &mut Random) -> f64 {
    random.unit() * 1000.0
}

/// Components from −1 to 1, one vector for each side.
fn vectors(random: &mut Random) -> (Vector3, rust::Vector3) {
    let [x, y, z] = [random.unit(), random.unit(), random.unit()];
    (Vector3::new(x, y, z), rust::Vector3::new(x, y, z))
}

fn print_line<T, R, S>(
    name: &str,
    draw: impl Fn(&mut Random) -> T,
    ours: impl Fn(&T) -> R,
    rust: impl Fn(&T) -> S,
) {
    let mut random = Random::new(71);
    let mut times = [Vec::new(), Vec::new()];
    for _ in 0..ROUNDS {
        let inputs: Vec<T> = (0..CALLS).map(|_| draw(&mut random)).collect();
        times[0].push(time(&inputs, &ours));
        times[1].push(time(&inputs, &rust));
    }
    let [ours, rust] = times.map(median);
    print_times(name, ours, rust);
}

fn print_times(name: &str, ours: f64, rust: f64) {
    println!("{name:<26}  {ours:>8.1}  {rust:>6.1}");
}

/// Nanoseconds a call.
fn time<T, R>(inputs: &[T], call: impl Fn(&T) -> R) -> f64 {
    let start = Instant::now();
    for input in inputs {
        black_box(call(black_box(input)));
    }
    start.elapsed().as_nanos() as f64 / inputs.len() as f64
}

fn median(mut times: Vec<f64>) -> f64 {
    times.sort_by(f64::total_cmp);
    times[times.len() / 2]
}
