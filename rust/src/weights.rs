//! Barycentric weights of a triangle's corners.

use crate::{ffi, Vector3};

/// The weights of a triangle's three corners. Passed to the archive by value, as C lays it out.
#[repr(C)]
#[derive(Clone, Copy, Debug, PartialEq)]
pub struct Weights {
    /// The first corner's weight.
    pub u: f64,
    /// The second corner's weight.
    pub v: f64,
    /// The third corner's weight.
    pub w: f64,
}

/// The weights of `a`, `b` and `c` at the point of the triangle that is closest to `p`, after
/// Christer Ericson, Real-Time Collision Detection, Morgan Kaufmann 2005, pp. 141–142
/// (ClosestPtPointTriangle). In va, vb and vc the first product is fused with the rounded second
/// one; every other operation is rounded by itself (IEEE 754-2019, 5.4.1 and 4.3.1).
///
/// ```
/// use koshirga::{projected_barycentric, Vector3, Weights};
///
/// let (b, c) = (Vector3::new(1.0, 0.0, 0.0), Vector3::new(0.0, 1.0, 0.0));
/// let weights = projected_barycentric(Vector3::new(0.25, 0.5, 2.0), Vector3::ZERO, b, c);
/// assert_eq!(weights, Weights { u: 0.25, v: 0.25, w: 0.5 });
/// ```
#[inline]
pub fn projected_barycentric(p: Vector3, a: Vector3, b: Vector3, c: Vector3) -> Weights {
    ffi::koshirga_projected_barycentric(p, a, b, c)
}

/// The least weight: [`minimum_number`](crate::minimum_number) of the first two, and of that and
/// the third (IEEE 754-2019, 9.6). The three in any order have the same least: a NaN is skipped,
/// and −0 lies below +0. NaN where all three are.
///
/// ```
/// use koshirga::{least_weight, Weights};
///
/// let least = least_weight(Weights { u: 1.0, v: 0.0, w: -0.0 });
/// assert!(least == 0.0 && least.is_sign_negative());
/// ```
#[inline]
pub fn least_weight(weights: Weights) -> f64 {
    ffi::koshirga_least_weight(weights)
}

#[cfg(test)]
mod tests {
    use super::*;

    const A: Vector3 = Vector3::new(0.0, 0.0, 0.0);
    const B: Vector3 = Vector3::new(1.0, 0.0, 0.0);
    const C: Vector3 = Vector3::new(0.0, 1.0, 0.0);

    #[test]
    fn regions_of_a_triangle() {
        for (x, y, u, v, w) in [
            (-1.0, -1.0, 1.0, 0.0, 0.0),
            (2.0, 0.0, 0.0, 1.0, 0.0),
            (0.0, 3.0, 0.0, 0.0, 1.0),
            (0.25, -1.0, 0.75, 0.25, 0.0),
            (-1.0, 0.25, 0.75, 0.0, 0.25),
            (1.0, 1.0, 0.0, 0.5, 0.5),
            (0.25, 0.5, 0.25, 0.25, 0.5),
        ] {
            let weights = projected_barycentric(Vector3::new(x, y, 2.0), A, B, C);
            assert_eq!(weights, Weights { u, v, w }, "({x}, {y})");
        }
    }

    #[test]
    fn least_of_three() {
        const NAN: f64 = f64::NAN;
        let least = |u, v, w| least_weight(Weights { u, v, w });
        for (u, v, w, expected) in [
            (1.0, 2.0, 3.0, 1.0),
            (3.0, 1.0, 2.0, 1.0),
            (0.0, -0.0, 1.0, -0.0),
            (-0.0, 0.0, 1.0, -0.0),
            (0.0, 0.0, -0.0, -0.0),
            (0.0, 0.0, 0.0, 0.0),
            (NAN, 0.0, -0.0, -0.0),
            (0.0, NAN, -0.0, -0.0),
            (NAN, 0.0, 0.0, 0.0),
            (NAN, 2.0, NAN, 2.0),
        ] {
            let ours = least(u, v, w);
            assert_eq!(ours.to_bits(), f64::to_bits(expected), "{u}, {v}, {w}");
        }
        assert!(least(NAN, NAN, NAN).is_nan());
    }

    /// Every three of the table, so that every order of them is there: the one that stands first.
    /// NaNs stand last, and three of them have a NaN.
    #[test]
    fn least_in_any_order() {
        const NUMBERS: usize = 10;
        let table = [
            f64::NEG_INFINITY,
            f64::MIN,
            -1.0,
            -f64::from_bits(1),
            -0.0,
            0.0,
            f64::from_bits(1),
            1.0,
            f64::MAX,
            f64::INFINITY,
            f64::NAN,
            -f64::NAN,
            f64::from_bits(0x7ff0_0000_0000_0001), // signaling
        ];
        for (i, &u) in table.iter().enumerate() {
            for (j, &v) in table.iter().enumerate() {
                for (k, &w) in table.iter().enumerate() {
                    let least = least_weight(Weights { u, v, w });
                    let first = i.min(j).min(k);
                    if first < NUMBERS {
                        assert_eq!(least.to_bits(), table[first].to_bits(), "{u}, {v}, {w}");
                    } else {
                        assert!(least.is_nan(), "{u}, {v}, {w}: {least}");
                    }
                }
            }
        }
    }
}
