//! Vectors of three doubles.

use crate::{ffi, Refusal};

/// A position or a direction. Passed to the archive by value, as C lays it out.
///
/// ```
/// use koshirga::Vector3;
///
/// let v = Vector3::new(3.0, -4.0, 12.0);
/// assert_eq!(v.norm(), 13.0);
/// assert_eq!(v.check_direction(), Ok(()));
/// ```
#[repr(C)]
#[derive(Clone, Copy, Debug, PartialEq)]
pub struct Vector3 {
    /// The first component.
    pub x: f64,
    /// The second component.
    pub y: f64,
    /// The third component.
    pub z: f64,
}

/// Each operation is the stated sequence of additions, subtractions, multiplications, divisions and
/// roots, each rounded once, to nearest, ties to even (IEEE 754-2019, 5.4.1 and 4.3.1).
impl Vector3 {
    /// The zero vector.
    pub const ZERO: Vector3 = Vector3::new(0.0, 0.0, 0.0);

    /// The vector of three components.
    pub const fn new(x: f64, y: f64, z: f64) -> Self {
        Vector3 { x, y, z }
    }

    /// x·x' + y·y' + z·z', summed from the left.
    #[inline]
    pub fn dot(self, other: Vector3) -> f64 {
        ffi::koshirga_dot(self, other)
    }

    /// (y·z' − z·y', z·x' − x·z', x·y' − y·x').
    #[inline]
    pub fn cross(self, other: Vector3) -> Vector3 {
        ffi::koshirga_cross(self, other)
    }

    /// The difference, by component.
    #[inline]
    pub fn minus(self, other: Vector3) -> Vector3 {
        ffi::koshirga_minus(self, other)
    }

    /// The sum, by component.
    #[inline]
    pub fn plus(self, other: Vector3) -> Vector3 {
        ffi::koshirga_plus(self, other)
    }

    /// Each component times `factor`.
    #[inline]
    pub fn scale(self, factor: f64) -> Vector3 {
        ffi::koshirga_scale(self, factor)
    }

    /// Each component divided by `divisor`.
    #[inline]
    pub fn divide(self, divisor: f64) -> Vector3 {
        ffi::koshirga_divide(self, divisor)
    }

    /// The squared length: the vector's dot with itself.
    #[inline]
    pub fn norm_squared(self) -> f64 {
        ffi::koshirga_norm_squared(self)
    }

    /// The length: the root of the squared length.
    #[inline]
    pub fn norm(self) -> f64 {
        ffi::koshirga_norm(self)
    }

    /// Each component divided by the length. So the zero vector gives NaNs.
    #[inline]
    pub fn normalize(self) -> Vector3 {
        ffi::koshirga_normalize(self)
    }

    /// Whether the vector is accepted as a direction: finite components (IEEE 754-2019, 5.7.2,
    /// isFinite), and a [squared length](Vector3::norm_squared) from 2^−40 to 2^40, ends included
    /// (5.11): so lengths from 2^−20 to 2^20, about 1e-6 to 1e6. Refused by row 9 otherwise. What is
    /// accepted is accepted again once it is [normalised](Vector3::normalize).
    #[inline]
    pub fn check_direction(self) -> Result<(), Refusal> {
        Refusal::check(ffi::koshirga_direction(self))
    }
}

#[cfg(test)]
mod tests {
    use super::*;

    const A: Vector3 = Vector3::new(1.0, 2.0, 3.0);
    const B: Vector3 = Vector3::new(-4.0, 5.0, 0.5);

    #[test]
    fn small_whole_values() {
        assert_eq!(A.dot(B), 7.5);
        assert_eq!(A.cross(B), Vector3::new(-14.0, -12.5, 13.0));
        assert_eq!(A.minus(B), Vector3::new(5.0, -3.0, 2.5));
        assert_eq!(A.plus(B), Vector3::new(-3.0, 7.0, 3.5));
        assert_eq!(A.scale(-2.0), Vector3::new(-2.0, -4.0, -6.0));
        assert_eq!(A.divide(4.0), Vector3::new(0.25, 0.5, 0.75));
        assert_eq!(A.norm_squared(), 14.0);
        assert_eq!(Vector3::new(3.0, -4.0, 12.0).norm(), 13.0);
        assert_eq!(
            Vector3::new(0.0, 3.0, -4.0).normalize(),
            Vector3::new(0.0, 0.6, -0.8)
        );
        assert_eq!(A.plus(Vector3::ZERO), A);
    }

    /// Summed from the left, 1 is lost in 2^53; summed from the right, it is not.
    #[test]
    fn dot_is_summed_from_the_left() {
        let ones = Vector3::new(1.0, 1.0, 1.0);
        let big = 9_007_199_254_740_992.0;
        assert_eq!(Vector3::new(big, 1.0, 1.0).dot(ones), big);
        assert_eq!(Vector3::new(1.0, 1.0, big).dot(ones), big + 2.0);
    }

    /// Each product is rounded before the sum: a fused one would leave 2^−104.
    #[test]
    fn products_are_rounded_apart() {
        let x = 1.0 + f64::EPSILON;
        let a = Vector3::new(x, -(1.0 + 2.0 * f64::EPSILON), 0.0);
        assert_eq!(a.dot(Vector3::new(x, 1.0, 0.0)), 0.0);
    }

    /// The squared length can be zero, infinite or subnormal where the length is none of these.
    #[test]
    fn lengths_out_of_range() {
        let long = Vector3::new(1e200, 0.0, -1.0);
        assert_eq!(long.norm(), f64::INFINITY);
        assert_eq!(long.normalize(), Vector3::ZERO);
        assert!(long.normalize().z.is_sign_negative());
        let short = Vector3::new(0.0, 1e-200, 0.0);
        assert_eq!(short.norm(), 0.0);
        assert_eq!(short.normalize().y, f64::INFINITY);
        assert!(short.normalize().x.is_nan());
        assert_eq!(
            Vector3::new(0.0, 0.0, 2f64.powi(-537)).norm(),
            2f64.powi(-537)
        );
        assert!(Vector3::ZERO.normalize().x.is_nan());
        assert!(Vector3::new(f64::NAN, 0.0, 0.0).norm().is_nan());
    }

    #[test]
    fn directions() {
        let refused = |v: Vector3| v.check_direction().map_err(Refusal::number) == Err(9);
        let (least, greatest) = (2f64.powi(-20), 2f64.powi(20));
        for length in [least, 1.0, greatest] {
            assert_eq!(Vector3::new(0.0, -length, 0.0).check_direction(), Ok(()));
        }
        for length in [
            least.next_down(),
            greatest.next_up(),
            f64::NAN,
            f64::INFINITY,
            1e200,
        ] {
            assert!(refused(Vector3::new(0.0, length, 0.0)), "{length}");
        }
        assert!(refused(Vector3::ZERO));
        assert!(refused(Vector3::new(1.0, 1.0, f64::NEG_INFINITY)));
    }

    /// At both ends too, and with components that vanish beside the length.
    #[test]
    fn accepted_again_when_normalized() {
        for exponent in -20..=20 {
            let x = 2f64.powi(exponent);
            let equal = if exponent < 20 { x } else { x / 2.0 };
            for v in [
                Vector3::new(0.0, 0.0, -x),
                Vector3::new(f64::MIN_POSITIVE, x, -0.0),
                Vector3::new(equal, -equal, equal),
            ] {
                assert_eq!(v.check_direction(), Ok(()), "{v:?}");
                assert_eq!(v.normalize().check_direction(), Ok(()), "{v:?}");
            }
        }
    }
}
