//! Small meshes and directions whose locations have zeros of both signs among their weights.
//!
//! A weight becomes −0 where a product of two numbers that aren't zeros underflows to one, so some
//! positions of these meshes differ by tiny numbers alone.

use crate::meshes::Lists;
use crate::patterns::{Random, SIGN};
use koshirga::{Vector3, Weights};

/// The zero that comes first, where some numbers hold zeros of both signs.
pub fn first_of_both(numbers: &[f64]) -> Option<f64> {
    let mut zeros = numbers.iter().copied().filter(|&x| x == 0.0);
    let first = zeros.next()?;
    zeros
        .any(|zero| zero.to_bits() != first.to_bits())
        .then_some(first)
}

/// 2^−537: its square is the least subnormal, and half of that is rounded to a zero.
const TINY: f64 = f64::from_bits((1023 - 537) << 52);

/// A mesh of three vertices and a direction, with the weights of its one triangle by hand. The
/// normalised direction is p = (r, 0, −r), r about 0.707; the corners are a, b and c in this order.
pub struct ByHand {
    pub vertices: [[f64; 3]; 3],
    pub direction: Vector3,
    pub weights: Weights,
    /// By document 01, and by the clause.
    pub leasts: [f64; 2],
}

const FIRST: [f64; 3] = [1.0, 0.0, 0.0];
const SECOND: [f64; 3] = [0.0, 1.0, 0.0];
/// The first, moved by a tiny number along an axis that the direction has a 0 on.
const BESIDE_FIRST: [f64; 3] = [1.0, -TINY, 0.0];

/// In the first (c − a)·(p − a) is −0, (c − a)·(p − c) is −2^−1074 and (b − a)·(p − a) is about 0.293:
/// the product of the latter two underflows, so the edge from a to c is taken, with the weight
/// −0/2^−1074 for c. In the second b and c have changed their places.
pub const BY_HAND: [ByHand; 2] = [
    ByHand {
        vertices: [FIRST, SECOND, BESIDE_FIRST],
        direction: Vector3::new(1.0, 0.0, -1.0),
        weights: Weights {
            u: 1.0,
            v: 0.0,
            w: -0.0,
        },
        leasts: [0.0, -0.0],
    },
    ByHand {
        vertices: [FIRST, BESIDE_FIRST, SECOND],
        direction: Vector3::new(1.0, 0.0, -1.0),
        weights: Weights {
            u: 1.0,
            v: -0.0,
            w: 0.0,
        },
        leasts: [-0.0, -0.0],
    },
];

/// A zero of either sign, or a whole number from −2 to 2.
fn whole(random: &mut Random) -> f64 {
    [0.0, 0.0, -0.0, -0.0, 1.0, -1.0, 2.0, -2.0][random.below(8) as usize]
}

fn zero(random: &mut Random) -> f64 {
    f64::from_bits(random.bits() & SIGN)
}

fn is_zero(v: [f64; 3]) -> bool {
    v == [0.0; 3]
}

/// How the positions lie.
enum Shape {
    /// Whole coordinates, but that one vertex is another one moved along the axis by a tiny number.
    Beside,
    /// Along the axis all alike, across it whole multiples of this tiny number.
    About(f64),
}

/// Three to five vertices, each a neighbour of all others.
pub struct SmallMesh {
    pub lists: Lists,
    axis: usize,
    shape: Shape,
}

impl SmallMesh {
    pub fn random(random: &mut Random) -> Self {
        let count = 3 + random.below(3) as usize;
        let axis = random.below(3) as usize;
        match random.below(2) {
            0 => SmallMesh::beside(random, count, axis),
            _ => SmallMesh::about(random, count, axis),
        }
    }

    fn beside(random: &mut Random, count: usize, axis: usize) -> Self {
        let mut vertices = vec![[0.0; 3]; count];
        for vertex in &mut vertices {
            while is_zero(*vertex) {
                *vertex = [0; 3].map(|_| whole(random));
            }
        }
        let moved = 1 + random.below(count as u64 - 1) as usize;
        vertices[0][axis] = zero(random);
        if is_zero(vertices[0]) {
            vertices[0][(axis + 1) % 3] = 1.0;
        }
        vertices[moved] = vertices[0].map(|x| if x == 0.0 { zero(random) } else { x });
        vertices[moved][axis] = match random.below(4) {
            0 => 2f64.powi(random.between(-549, -510) as i32),
            _ => TINY,
        } * [1.0, -1.0][random.below(2) as usize];
        if random.below(2) == 0 {
            vertices.swap(0, random.below(count as u64) as usize);
        }
        SmallMesh {
            lists: Lists::complete(vertices),
            axis,
            shape: Shape::Beside,
        }
    }

    fn about(random: &mut Random, count: usize, axis: usize) -> Self {
        let unit = 2f64.powi(random.between(-544, -200) as i32);
        let along = [1.0, 2.0][random.below(2) as usize];
        let position = |_| about(random, unit, axis, along);
        SmallMesh {
            lists: Lists::complete((0..count).map(position).collect()),
            axis,
            shape: Shape::About(unit),
        }
    }

    /// One for which differences to the positions are zeros and tiny numbers.
    pub fn direction(&self, random: &mut Random) -> Vector3 {
        let [x, y, z] = match self.shape {
            Shape::About(unit) => about(random, unit, self.axis, 1.0),
            Shape::Beside => loop {
                let mut v = [0; 3].map(|_| whole(random));
                v[self.axis] = zero(random);
                if !is_zero(v) {
                    break v;
                }
            },
        };
        Vector3::new(x, y, z)
    }
}

/// So far along an axis, and across it multiples of a unit from −4 to 3.
fn about(random: &mut Random, unit: f64, axis: usize, along: f64) -> [f64; 3] {
    const MULTIPLES: [f64; 8] = [0.0, -0.0, 1.0, -1.0, 2.0, -2.0, 3.0, -4.0];
    let mut v = [0; 3].map(|_| MULTIPLES[random.below(8) as usize] * unit);
    v[axis] = along;
    v
}
