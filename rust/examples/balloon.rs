//! A balloon from end to end: a lattice with a level at each vertex, renumbered by the order of the
//! walk, its grid, and what the two locators say about a direction.
//!
//! Usage: `balloon [X Y Z [FREQUENCY]]`. Exit status: 0; 1 where the engine refuses; 2 where the
//! arguments can't be read.

mod arguments;

use arguments::Arguments;
use koshirga::{FaceGrid, LatticeGeometry, MeshData, Refusal, Vector3, Walk, Weights};
use std::process::ExitCode;

/// The level on the axis, in dB.
const ON_AXIS: f64 = 90.0;
/// The least pressure beside that on the axis: no measured balloon falls to nothing.
const LEAST_PRESSURE: f64 = 0.01;

fn main() -> ExitCode {
    let arguments = arguments::read("balloon", "[X Y Z [FREQUENCY]]", |given| {
        arguments::parse(given, 20)
    });
    match balloon(&arguments) {
        Ok(()) => ExitCode::SUCCESS,
        Err(refusal) => {
            eprintln!("balloon: {refusal}");
            ExitCode::FAILURE
        }
    }
}

fn balloon(arguments: &Arguments) -> Result<(), Refusal> {
    let direction = arguments.direction;
    let lattice = LatticeGeometry::new(arguments.frequency)?;
    direction.check_direction()?;

    // The measured balloon, numbered as the lattice is.
    let mut mesh = lattice.mesh.clone();
    let mut levels: Vec<f64> = (0..mesh.vertex_count())
        .map(|id| level(mesh.position(id)))
        .collect();

    // Mesh and levels in the order of the walk.
    let walk = mesh.bfs_vertex_permutation()?;
    mesh.apply_vertex_permutation(&mut levels, &walk.order, 1)?;
    let grid = FaceGrid::new(mesh.as_mesh())?;

    print_balloon(&mesh, &levels, &walk, &grid, arguments.frequency);
    let Vector3 { x, y, z } = direction;
    println!("\nDirection ({x}, {y}, {z})");
    let formula = level(direction.normalize());
    println!("  formula      {formula:>12.4} dB");
    print_grid(&grid, &levels, direction)?;
    print_analytic(&lattice, &walk, &levels, direction)
}

/// A cardioid about the x axis that is narrower in the vertical, of a unit vector.
fn level(v: Vector3) -> f64 {
    let pressure = (1.0 + v.x) / 2.0 * (1.0 - v.z * v.z / 2.0);
    ON_AXIS + 20.0 * pressure.max(LEAST_PRESSURE).log10()
}

fn print_balloon(mesh: &MeshData, levels: &[f64], walk: &Walk, grid: &FaceGrid, frequency: u32) {
    let held = grid.held();
    let grid = grid.as_grid();
    let cells = grid.cell_starts.windows(2).map(|ends| ends[1] - ends[0]);
    let (fewest, most) = (
        cells.clone().min().unwrap_or(0),
        cells.clone().max().unwrap_or(0),
    );
    let least = levels.iter().copied().fold(f64::INFINITY, f64::min);
    let greatest = levels.iter().copied().fold(f64::NEG_INFINITY, f64::max);
    println!("Balloon on the lattice of frequency {frequency}");
    println!(
        "  mesh           {} vertices, {} neighbour entries, {} triangles",
        mesh.vertex_count(),
        mesh.entries.len(),
        grid.triples.len() / 9
    );
    println!("  levels         {least:.2} to {greatest:.2} dB, a cardioid about the x axis");
    println!(
        "  walk           {} entries read; mesh and levels are renumbered by its order",
        walk.entries_read
    );
    println!(
        "  mark           {}",
        if mesh.lists_ascend {
            "set: every neighbour list of the renumbered mesh ascends"
        } else {
            "not set"
        }
    );
    println!(
        "  grid           side {}, {} cells with {fewest} to {most} ids each, {} in all",
        grid.side,
        cells.len(),
        grid.cell_ids.len()
    );
    println!("  conversions    {held} held at an end, by positions almost edge-on to a cube face");
}

/// The grid's answers, in the ids of the renumbered mesh.
fn print_grid(grid: &FaceGrid, levels: &[f64], direction: Vector3) -> Result<(), Refusal> {
    let located = grid.locate(direction)?;
    let nearest = grid.find_nearest_vertex(direction)?;
    println!("\nBy the grid, on the renumbered mesh");
    print_ids("triangle", located.triple);
    print_weights(located.weights);
    println!("  least        {:>12.6}", located.least);
    print_levels(located.triple, located.weights, levels);
    println!(
        "  nearest        vertex {}, squared distance {:.6e}, {} candidates compared",
        nearest.id, nearest.distance, nearest.candidates
    );
    Ok(())
}

/// The closed form's answers, in the lattice's own ids, and what these are called now.
fn print_analytic(
    lattice: &LatticeGeometry,
    walk: &Walk,
    levels: &[f64],
    direction: Vector3,
) -> Result<(), Refusal> {
    let analytic = lattice.analytic();
    let (triple, weights) = analytic.locate(direction)?;
    let nearest = analytic.find_nearest_vertex(direction)?;
    let renumbered = triple.map(|id| walk.order[id as usize]);
    println!("\nIn closed form, on the lattice as it was numbered first");
    print_ids("triangle", triple);
    print_ids("renumbered", renumbered);
    print_weights(weights);
    print_levels(renumbered, weights, levels);
    println!(
        "  nearest        vertex {nearest}, renumbered {}",
        walk.order[nearest as usize]
    );
    if (weights.u + weights.v + weights.w - 1.0).abs() > 1e-6 {
        println!(
            "  These weights don't sum to 1: see \"Findings in the Rust\" in docs/DIFFERENCES.md"
        );
    }
    Ok(())
}

fn print_ids(name: &str, [first, second, third]: [u32; 3]) {
    println!("  {name:<13}{first:>12}{second:>12}{third:>12}");
}

fn print_weights(Weights { u, v, w }: Weights) {
    println!("  weights      {u:>12.6}{v:>12.6}{w:>12.6}");
}

/// The levels at the corners, and what the weights make of them.
fn print_levels(triple: [u32; 3], weights: Weights, levels: &[f64]) {
    let [a, b, c] = triple.map(|id| levels[id as usize]);
    let interpolated = weights.u * a + weights.v * b + weights.w * c;
    println!("  levels, dB   {a:>12.4}{b:>12.4}{c:>12.4}");
    println!("  interpolated {interpolated:>12.4} dB");
}
