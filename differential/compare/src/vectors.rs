//! Vector operations beside those of the oracle's stand-in for nalgebra, which follows document 01's
//! text, and row 9 beside its text.

use crate::check::{same, Check, Judge, Tally};
use crate::directions::{row_9, rust_of};
use crate::patterns::{Vectors, RANDOM};
use icotable_oracle as rust;
use koshirga::Vector3;

pub fn checks() -> Vec<Check> {
    vec![
        Check::new("dot", dot),
        Check::new("cross", cross),
        Check::new("minus", minus),
        Check::new("plus", plus),
        Check::new("scale", scale),
        Check::new("divide", divide),
        Check::new("norm_squared", norm_squared),
        Check::new("norm", norm),
        Check::new("normalize", normalize),
        Check::new("direction", direction),
    ]
}

fn compare_numbers(tally: &mut Tally, input: impl std::fmt::Debug, ours: f64, rust: f64) {
    tally.compare(Judge::Beside, same(ours, rust), || {
        format!("{input:?}: {ours:?}, Rust {rust:?}")
    });
}

fn compare_vectors(
    tally: &mut Tally,
    input: impl std::fmt::Debug,
    ours: Vector3,
    rust: rust::Vector3,
) {
    let all = same(ours.x, rust.x) && same(ours.y, rust.y) && same(ours.z, rust.z);
    tally.compare(Judge::Beside, all, || {
        format!("{input:?}: {ours:?}, Rust {rust:?}")
    });
}

fn each_vector(seed: u64, mut visit: impl FnMut(Vector3)) {
    let mut vectors = Vectors::new(seed);
    for _ in 0..RANDOM {
        visit(vectors.vector());
    }
}

fn each_pair(seed: u64, mut visit: impl FnMut(Vector3, Vector3)) {
    let mut vectors = Vectors::new(seed);
    for _ in 0..RANDOM {
        let a = vectors.vector();
        visit(a, vectors.vector());
    }
}

fn each_scaling(seed: u64, mut visit: impl FnMut(Vector3, f64)) {
    let mut vectors = Vectors::new(seed);
    for _ in 0..RANDOM {
        let v = vectors.vector();
        visit(v, vectors.factor());
    }
}

fn dot(tally: &mut Tally) {
    each_pair(11, |a, b| {
        compare_numbers(tally, (a, b), a.dot(b), rust_of(a).dot(&rust_of(b)))
    });
}

fn cross(tally: &mut Tally) {
    each_pair(12, |a, b| {
        compare_vectors(tally, (a, b), a.cross(b), rust_of(a).cross(&rust_of(b)))
    });
}

fn minus(tally: &mut Tally) {
    each_pair(13, |a, b| {
        compare_vectors(tally, (a, b), a.minus(b), rust_of(a) - rust_of(b))
    });
}

fn plus(tally: &mut Tally) {
    each_pair(14, |a, b| {
        compare_vectors(tally, (a, b), a.plus(b), rust_of(a) + rust_of(b))
    });
}

fn scale(tally: &mut Tally) {
    each_scaling(15, |v, factor| {
        compare_vectors(tally, (v, factor), v.scale(factor), rust_of(v) * factor)
    });
}

fn divide(tally: &mut Tally) {
    each_scaling(16, |v, divisor| {
        compare_vectors(tally, (v, divisor), v.divide(divisor), rust_of(v) / divisor)
    });
}

fn norm_squared(tally: &mut Tally) {
    each_vector(17, |v| {
        compare_numbers(tally, v, v.norm_squared(), rust_of(v).norm_squared())
    });
}

fn norm(tally: &mut Tally) {
    each_vector(19, |v| {
        compare_numbers(tally, v, v.norm(), rust_of(v).norm())
    });
}

fn normalize(tally: &mut Tally) {
    each_vector(20, |v| {
        compare_vectors(tally, v, v.normalize(), rust_of(v).normalize())
    });
}

fn direction(tally: &mut Tally) {
    let mut vectors = Vectors::new(18);
    for at in 0..2 * RANDOM {
        let v = if at % 2 == 0 {
            vectors.vector()
        } else {
            vectors.at_an_end()
        };
        let ours = v.check_direction().err().map(koshirga::Refusal::number);
        let text = row_9(v).then_some(9);
        tally.compare(Judge::Rows, ours == text, || {
            format!("direction of {v:?}: {ours:?}, row 9 {text:?}")
        });
    }
}
