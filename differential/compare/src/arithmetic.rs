//! Fused multiply-add and square root, beside Rust's own.

use crate::check::{same, Check, Judge, Tally};
use crate::operands::{Class, COMPARANDS, NARROWED, RADICANDS, TRIPLES};
use std::hint::black_box;
use std::io::{self, Write};

pub fn checks() -> Vec<Check> {
    let triples = TRIPLES
        .iter()
        .map(|class| Check::new(class.name, |tally| mul_add(tally, class)));
    let radicands = RADICANDS
        .iter()
        .map(|class| Check::new(class.name, |tally| sqrt(tally, class)));
    triples.chain(radicands).collect()
}

fn mul_add(tally: &mut Tally, class: &Class<3>) {
    class.each(class.count, |[a, b, c]| {
        let (ours, rust) = (koshirga::mul_add(a, b, c), a.mul_add(b, c));
        tally.compare(Judge::Rust, same(ours, rust), || {
            let [a, b, c] = [a, b, c].map(f64::to_bits);
            format!("mul_add({a:#018x}, {b:#018x}, {c:#018x}): {ours:?}, Rust {rust:?}")
        });
    });
}

fn sqrt(tally: &mut Tally, class: &Class<1>) {
    class.each(class.count, |[x]| {
        let rust = x.sqrt();
        for (name, ours) in [
            ("sqrt", koshirga::sqrt(x)),
            ("sqrt_by_digits", koshirga::sqrt_by_digits(x)),
        ] {
            tally.compare(Judge::Rust, same(ours, rust), || {
                format!("{name}({:#018x}): {ours:?}, Rust {rust:?}", x.to_bits())
            });
        }
    });
}

/// Whether Rust's `mul_add` rounds once here: rounded twice, the sum is 0.
pub fn rust_is_fused() -> bool {
    let x = black_box(1.0 + f64::EPSILON);
    x.mul_add(x, -(1.0 + 2.0 * f64::EPSILON)) == f64::EPSILON * f64::EPSILON
}

/// What works out Rust's `mul_add` here.
pub fn mul_add_note() -> &'static str {
    #[cfg(target_arch = "x86_64")]
    if !std::is_x86_feature_detected!("fma") {
        return "f64::mul_add: worked out in software on this machine";
    }
    "f64::mul_add: this processor's instruction"
}

/// MPFR judges this part of a class, of radicands the greater one, as a root's digits are taken by
/// one call alone, ...
const JUDGED_PART: usize = 10;
const JUDGED_PART_OF_RADICANDS: usize = 2;
/// ... but no fewer than these, so that a small class is judged whole.
const JUDGED_LEAST: usize = 100_000;

/// Writes the first cases of every class for `mpfr/judge.c`: a line with the number of operands,
/// the number of cases and the name, which begins with the function's, then the operands in this
/// machine's order of bytes.
pub fn write_cases(out: &mut impl Write) -> io::Result<()> {
    TRIPLES
        .iter()
        .try_for_each(|class| write_class(out, class, JUDGED_PART))?;
    RADICANDS
        .iter()
        .try_for_each(|class| write_class(out, class, JUDGED_PART_OF_RADICANDS))?;
    COMPARANDS
        .iter()
        .try_for_each(|class| write_class(out, class, JUDGED_PART))?;
    NARROWED
        .iter()
        .try_for_each(|class| write_class(out, class, JUDGED_PART))
}

fn write_class<const N: usize>(
    out: &mut impl Write,
    class: &Class<N>,
    part: usize,
) -> io::Result<()> {
    let count = class.count.min(JUDGED_LEAST.max(class.count / part));
    writeln!(out, "{N} {count} {}", class.name)?;
    let mut written = Ok(());
    class.each(count, |operands| {
        for x in operands {
            if written.is_ok() {
                written = out.write_all(&x.to_bits().to_ne_bytes());
            }
        }
    });
    written
}
