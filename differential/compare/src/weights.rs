//! Barycentric weights beside the Rust's, and their least beside minimumNumber.

use crate::analytic::same_weights;
use crate::check::{same, Check, Judge, Kinds, Tally};
use crate::directions::rust_of;
use crate::helpers::minimum_number_of;
use crate::patterns::{Random, Vectors, RANDOM, SIGN};
use crate::zeros::first_of_both;
use icotable_oracle as rust;
use koshirga::{least_weight, projected_barycentric, Vector3, Weights};

pub fn checks() -> Vec<Check> {
    vec![
        Check::new("any vectors", |tally| each(tally, 41, any_vectors)),
        Check::new("small triangles", |tally| each(tally, 42, small_triangle)),
        Check::new("at corners and edges", |tally| each(tally, 43, at_the_rim)),
        Check::new("degenerate triangles", |tally| each(tally, 44, degenerate)),
        Check::new("least weight", least),
    ]
}

struct Source {
    random: Random,
    vectors: Vectors,
}

impl Source {
    fn new(seed: u64) -> Self {
        Source {
            random: Random::new(seed),
            vectors: Vectors::new(seed),
        }
    }

    fn unit(&mut self) -> Vector3 {
        let random = &mut self.random;
        Vector3::new(random.unit(), random.unit(), random.unit())
    }

    /// `v` with each component moved by up to `part`.
    fn near(&mut self, v: Vector3, part: f64) -> Vector3 {
        v.plus(self.unit().scale(part))
    }
}

fn each(tally: &mut Tally, seed: u64, draw: fn(&mut Source) -> [Vector3; 4]) {
    let mut source = Source::new(seed);
    for _ in 0..RANDOM / 3 {
        let [p, a, b, c] = draw(&mut source);
        let ours = projected_barycentric(p, a, b, c);
        let [u, v, w] =
            rust::projected_barycentric(&rust_of(p), &rust_of(a), &rust_of(b), &rust_of(c));
        let rust = Weights { u, v, w };
        tally.compare(Judge::Rust, same_weights(ours, rust), || {
            format!("weights of {p:?} in {a:?} {b:?} {c:?}: {ours:?}, Rust {rust:?}")
        });
    }
}

fn any_vectors(source: &mut Source) -> [Vector3; 4] {
    [(); 4].map(|()| source.vectors.vector())
}

/// About a point of the sphere, as a mesh has them.
fn small_triangle(source: &mut Source) -> [Vector3; 4] {
    let middle = source.unit().normalize();
    let size = 2f64.powi(-(source.random.below(30) as i32));
    [(); 4].map(|()| source.near(middle, size))
}

/// The point is a corner or lies on an edge's line, or is moved a little away from there.
fn at_the_rim(source: &mut Source) -> [Vector3; 4] {
    let [_, a, b, c] = small_triangle(source);
    let part = match source.random.below(4) {
        0 => 0.0,
        1 => 1.0,
        2 => 0.5,
        _ => 2.0 * source.random.unit(),
    };
    let (from, to) = [(a, b), (b, c), (c, a)][source.random.below(3) as usize];
    let p = from.scale(1.0 - part).plus(to.scale(part));
    let p = if source.random.below(2) == 0 {
        p
    } else {
        source.near(p, 2f64.powi(-50))
    };
    [p, a, b, c]
}

/// Corners that coincide or lie on a line, and small whole coordinates, where products tie.
fn degenerate(source: &mut Source) -> [Vector3; 4] {
    let mut whole = || {
        let mut component = || source.random.below(7) as f64 - 3.0;
        Vector3::new(component(), component(), component())
    };
    let [p, a, b, c] = [(); 4].map(|()| whole());
    match source.random.below(4) {
        0 => [p, a, a, c],
        1 => [p, a, b, a],
        2 => [p, a, b, b.scale(2.0).minus(a)],
        _ => [p, a, b, c],
    }
}

/// W-201: the least is minimumNumber of the first two weights, and of that and the third (IEEE
/// 754-2019, 9.6).
pub fn least_by_the_clause(weights: Weights) -> f64 {
    minimum_number_of(minimum_number_of(weights.u, weights.v), weights.w)
}

/// Document 01's least, which W-201 replaces: "The least skips NaN, and the earlier of equals stays."
/// It is here to tell where the two differ, and nothing is held to it.
pub fn earlier_least(weights: Weights) -> f64 {
    let mut least = f64::NAN;
    for weight in [weights.u, weights.v, weights.w] {
        if !weight.is_nan() && (least.is_nan() || weight < least) {
            least = weight;
        }
    }
    least
}

/// How zeros and NaNs stand among weights whose least is a zero, and three NaNs; whether weights are
/// so.
fn kinds_of_zeros(weights: Weights) -> [(&'static str, bool); 7] {
    let three = [weights.u, weights.v, weights.w];
    let least = least_by_the_clause(weights);
    let is_zero = least == 0.0;
    let both = first_of_both(&three).filter(|_| is_zero);
    let nan = three.iter().any(|x| x.is_nan());
    let other = earlier_least(weights).to_bits() != least.to_bits();
    let negative_first = both.is_some_and(f64::is_sign_negative);
    let alone = |zero: f64| is_zero && both.is_none() && least.to_bits() == zero.to_bits();
    [
        ("+0 before -0: +0 by 01", both.is_some() && other),
        ("-0 before +0", negative_first),
        ("+0 before -0, and a NaN", both.is_some() && other && nan),
        ("-0 before +0, and a NaN", negative_first && nan),
        ("+0 and a NaN", alone(0.0) && nan),
        ("-0 and a NaN", alone(-0.0) && nan),
        ("three NaNs", least.is_nan()),
    ]
}

/// The six orders of three weights.
fn orders(Weights { u, v, w }: Weights) -> [Weights; 6] {
    [
        [u, v, w],
        [u, w, v],
        [v, u, w],
        [v, w, u],
        [w, u, v],
        [w, v, u],
    ]
    .map(|[u, v, w]| Weights { u, v, w })
}

/// All threes of these are taken: zeros and NaNs, a signaling one and one below zero among them, at
/// every place.
const VALUES: [f64; 12] = [
    f64::NEG_INFINITY,
    -1.0,
    f64::from_bits(SIGN + 1),
    -0.0,
    0.0,
    f64::from_bits(1),
    0.5,
    1.0,
    f64::INFINITY,
    f64::NAN,
    f64::from_bits(0x7ff0_0000_0000_0001),
    f64::from_bits(0xfff8_0000_0000_0001),
];

/// Each order of the weights has the least that the clause gives for the first.
fn least(tally: &mut Tally) {
    let mut kinds = Kinds::default();
    let mut compare = |weights: Weights| {
        let clause = least_by_the_clause(weights);
        let ours = orders(weights).map(least_weight);
        let alike = ours.iter().all(|&least| same(least, clause));
        tally.compare(Judge::Beside, alike, || {
            format!("least of {weights:?} in all orders: {ours:?}, by the clause {clause:?}")
        });
        kinds.count(&kinds_of_zeros(weights));
    };
    for u in VALUES {
        for v in VALUES {
            for w in VALUES {
                compare(Weights { u, v, w });
            }
        }
    }
    let mut source = Source::new(45);
    for _ in 0..RANDOM / 3 {
        let v = source.vectors.vector();
        let mut component = |x: f64| match source.random.below(8) {
            0 => f64::NAN,
            1 => 0.0,
            2 => -0.0,
            _ => x,
        };
        compare(Weights {
            u: component(v.x),
            v: component(v.y),
            w: component(v.z),
        });
    }
    kinds.all_reached(tally);
}
