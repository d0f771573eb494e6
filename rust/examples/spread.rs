//! A correction of one measured point, spread over all points within so many steps of it: the whole
//! of it at the point itself, and less with each step. Prints the points by their steps.
//!
//! Usage: `spread [FREQUENCY [VERTEX [STEPS]]]`. Exit status: 0; 1 where the engine refuses, or a
//! point isn't corrected by the steps that lead to it; 2 where an argument can't be read.

use koshirga::{LatticeGeometry, Refusal};
use std::process::ExitCode;

/// In dB.
const CORRECTION: f64 = -2.0;

fn main() -> ExitCode {
    let mut given = [20, 1000, 3];
    let arguments: Vec<String> = std::env::args().skip(1).collect();
    let read = given
        .iter_mut()
        .zip(&arguments)
        .try_for_each(|(value, argument)| argument.parse().map(|number| *value = number));
    if read.is_err() || arguments.len() > given.len() {
        eprintln!("usage: spread [FREQUENCY [VERTEX [STEPS]]]");
        return ExitCode::from(2);
    }
    let [frequency, vertex, steps] = given;
    match spread(frequency, vertex, steps) {
        Ok(true) => ExitCode::SUCCESS,
        Ok(false) => {
            eprintln!("spread: a point isn't corrected by the steps that lead to it");
            ExitCode::FAILURE
        }
        Err(refusal) => {
            eprintln!("spread: {refusal}");
            ExitCode::FAILURE
        }
    }
}

/// Falls evenly, to 0 at the first step that isn't taken.
fn correction_after(steps: u32, most: u32) -> f64 {
    let left = (f64::from(most) + 1.0 - f64::from(steps)).max(0.0);
    CORRECTION * left / (f64::from(most) + 1.0)
}

/// Whether each point is corrected by the steps that lead to it.
fn spread(frequency: u32, vertex: u32, most: u32) -> Result<bool, Refusal> {
    let mesh = LatticeGeometry::new(frequency)?.mesh;
    let mut levels = vec![0.0; mesh.vertex_count()];
    println!("{CORRECTION} dB at vertex {vertex}, over {most} steps");
    println!("{:>5} {:>6} {:>6}  vertices", "steps", "dB", "points");

    // A list is the front of the next one, which has a step more: what it holds behind that front
    // is as many steps away as were asked for. Where nothing is behind it, all have been reached.
    let mut nearer = 0;
    for steps in 0..=most {
        let list = mesh.vertices_within(vertex, steps as usize)?;
        let ring = &list[nearer..];
        if ring.is_empty() {
            break;
        }
        let correction = correction_after(steps, most);
        for &id in ring {
            levels[id as usize] += correction;
        }
        println!("{steps:>5} {correction:>6.2} {:>6}  {ring:?}", ring.len());
        nearer = list.len();
    }

    let mut right = true;
    for (id, &level) in (0..).zip(&levels) {
        let steps = mesh.steps_between(vertex, id)?.steps;
        right &= level == correction_after(steps, most);
    }
    Ok(right)
}
