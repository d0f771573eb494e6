//! The least weight of a grid's answer where the weights hold zeros of both signs: minimumNumber
//! (IEEE 754-2019, 9.6), so −0 whichever comes first. Which triangle is kept doesn't depend on it.

use koshirga::{FaceGrid, Grid, Located, MeshData, Vector3, Weights};

/// 2^-537, whose square is the least subnormal.
const TINY: f64 = f64::from_bits(0x1e60_0000_0000_0000);

/// Ericson's d1, d2 and d6 of the triangle ABC are about 0.29, −0 and −2^-1074. The product of the
/// first and the last, which would tell that the closest point isn't on AC, is rounded to −0. So it
/// is taken to be there, and C has the weight d2/(d2 − d6), which is −0.
const DIRECTION: Vector3 = Vector3::new(1.0, 0.0, -1.0);
const A: Vector3 = Vector3::new(1.0, 0.0, 0.0);
const B: Vector3 = Vector3::new(0.0, 1.0, 0.0);
const C: Vector3 = Vector3::new(1.0, -TINY, 0.0);

/// The six orders of the corners, with the weights and the least that each has.
const ORDERS: [([u16; 3], [f64; 4]); 6] = {
    const NAN: f64 = f64::NAN;
    [
        ([0, 1, 2], [1.0, 0.0, -0.0, -0.0]),
        ([0, 2, 1], [1.0, -0.0, 0.0, -0.0]),
        ([1, 0, 2], [0.0, NAN, NAN, 0.0]),
        ([1, 2, 0], [0.0, NAN, NAN, 0.0]),
        ([2, 0, 1], [0.0, 1.0, 0.0, 0.0]),
        (
            [2, 1, 0],
            [0.8535533905932737, 0.14644660940672627, 0.0, 0.0],
        ),
    ]
};

/// Three vertices, each the neighbour of both others.
fn mesh(positions: [Vector3; 3]) -> MeshData {
    MeshData {
        positions: positions.iter().flat_map(|p| [p.x, p.y, p.z]).collect(),
        starts: vec![0, 2, 4, 6],
        entries: vec![1, 2, 0, 2, 0, 1],
        lists_ascend: false,
    }
}

/// Bits, as zeros of different sign are equal doubles. Those of a NaN are free.
fn bits(values: [f64; 4]) -> [Option<u64>; 4] {
    values.map(|value| (!value.is_nan()).then(|| value.to_bits()))
}

fn assert_located(located: Located, triple: [u16; 3], values: [f64; 4], case: &str) {
    let Weights { u, v, w } = located.weights;
    assert_eq!(located.triple, triple.map(u32::from), "{case}");
    let ours = bits([u, v, w, located.least]);
    assert_eq!(ours, bits(values), "{case}: {located:?}");
}

/// As a builder makes it: +0 stands before −0 where C is the last vertex, and behind it where B is.
#[test]
fn least_of_a_builders_triangle() {
    for (order, values) in ORDERS {
        let mesh = mesh(order.map(|id| [A, B, C][usize::from(id)]));
        let grid = FaceGrid::new(mesh.as_mesh()).unwrap();
        let located = grid.locate(DIRECTION).unwrap();
        assert_located(located, [0, 1, 2], values, &format!("{order:?}"));
    }
}

/// Two triangles at the nearest vertex, with the leasts −0 and +0, or twice the same one: neither
/// exceeds the other, and the first stays. Their corners are in any order, as a query takes them; a
/// builder's ascend.
#[test]
fn the_first_of_zeros_stays() {
    let mesh = mesh([A, B, C]);
    let built = FaceGrid::new(mesh.as_mesh()).unwrap();
    for (first, values) in ORDERS {
        for (second, _) in ORDERS {
            let grid = Grid {
                triangle_starts: &[0, 2, 2, 2],
                triples: &[first, second].concat(),
                ..built.as_grid()
            };
            let located = grid.locate(DIRECTION).unwrap();
            let case = format!("{first:?} before {second:?}");
            assert_located(located, first, values, &case);
        }
    }
}
