//! Order, minimum, rounding to a whole number and to binary32, conversion, fused multiply-add and root
//! of doubles.

use crate::ffi;
use std::cmp::Ordering;

/// How the bit pattern `x` stands to `y` in the total order (IEEE 754-2019, 5.10). Patterns and not
/// doubles, as the order tells NaNs apart by sign, kind and payload: 5.10 d) 3) i) and ii). The
/// order of payloads, which that edition need not fix, is ours: the lesser below the greater for
/// +NaN, the reverse for −NaN, as the 2008 edition and [`f64::total_cmp`] have it.
///
/// ```
/// let (negative, positive) = (f64::to_bits(-0.0), f64::to_bits(0.0));
/// assert!(koshirga::total_cmp(negative, positive).is_lt());
/// ```
#[inline]
pub fn total_cmp(x: u64, y: u64) -> Ordering {
    match ffi::koshirga_total_cmp(x, y) {
        -1 => Ordering::Less,
        0 => Ordering::Equal,
        1 => Ordering::Greater,
        other => unreachable!("koshirga_total_cmp answered {other}"),
    }
}

/// The place of `x` in the total order (IEEE 754-2019, 5.10) of all 2^64 bit patterns, counted
/// from 0. Every NaN has one place, that of the pattern `0x7ff8_0000_0000_0000`.
///
/// ```
/// assert_eq!(koshirga::rank(0.0), koshirga::rank(-0.0) + 1);
/// ```
#[inline]
pub fn rank(x: f64) -> u64 {
    ffi::koshirga_rank(x)
}

/// The lesser of two numbers: minimumNumber (IEEE 754-2019, 9.6). Of zeros of different sign it is
/// −0, whichever comes first; [`f64::min`] leaves that sign open. Where one is a NaN, quiet or
/// signaling, the other is the result, and where both are it is a NaN. That this one is quiet, as
/// the clause asks, was seen in runs and isn't proved. Commutative: `x` and `y` in either order
/// have the same bits, but for those of a NaN.
///
/// ```
/// use koshirga::minimum_number;
///
/// for (x, y) in [(0.0, -0.0), (-0.0, 0.0)] {
///     let minimum = minimum_number(x, y);
///     assert!(minimum == 0.0 && minimum.is_sign_negative());
/// }
/// assert_eq!(minimum_number(f64::NAN, 2.0), 2.0);
/// ```
#[inline]
pub fn minimum_number(x: f64, y: f64) -> f64 {
    ffi::koshirga_minimum_number(x, y)
}

/// The greatest whole number not above `x`: roundToIntegralTowardNegative (IEEE 754-2019, 5.9). An
/// infinity stays (5.9), a zero result has the sign of `x` (6.3), and a NaN gives a NaN (6.2).
#[inline]
pub fn floor(x: f64) -> f64 {
    ffi::koshirga_floor(x)
}

/// The least whole number not below `x`: roundToIntegralTowardPositive (IEEE 754-2019, 5.9). An
/// infinity stays (5.9), a zero result has the sign of `x` (6.3), and a NaN gives a NaN (6.2).
#[inline]
pub fn ceil(x: f64) -> f64 {
    ffi::koshirga_ceil(x)
}

/// What became of a converted value: exactly one holds for each.
#[derive(Clone, Copy, Debug, PartialEq, Eq)]
pub enum Conversion {
    /// It is a whole number from −2^63 to 2^63 − 1, and is the result. −2^63 itself is kept, and so
    /// is −0, as 0.
    Kept,
    /// It is between −2^63 and 2^63 and has a fraction, which is cut off toward zero.
    Cut,
    /// It is below −2^63, or is 2^63 or above, the infinities among them; the result is the nearer
    /// end of the range.
    Held,
    /// It is a NaN, and the result is 0.
    NotANumber,
}

impl Conversion {
    /// An export's number.
    fn of_code(code: u32) -> Conversion {
        match code {
            0 => Conversion::Kept,
            1 => Conversion::Cut,
            2 => Conversion::Held,
            3 => Conversion::NotANumber,
            other => unreachable!("koshirga_to_i64 answered {other}"),
        }
    }
}

/// A converted value.
#[derive(Clone, Copy, Debug, PartialEq, Eq)]
pub struct Converted {
    /// The result.
    pub whole: i64,
    /// What became of the value. The result doesn't say it: −2^63 comes of −2^63, which is kept,
    /// and of −2^64, which is held.
    pub how: Conversion,
}

/// convertToIntegerTowardZero (IEEE 754-2019, 5.8), and what became of `x`. The clause leaves the
/// result open for what is held and for a NaN; [`Conversion`] has it.
///
/// ```
/// use koshirga::{to_i64, Conversion, Converted};
///
/// let cut = Converted { whole: -1, how: Conversion::Cut };
/// assert_eq!(to_i64(-1.5), cut);
/// let held = Converted { whole: i64::MAX, how: Conversion::Held };
/// assert_eq!(to_i64(1e19), held);
/// ```
#[inline]
pub fn to_i64(x: f64) -> Converted {
    let answer = ffi::koshirga_to_i64(x);
    Converted {
        whole: answer.whole,
        how: Conversion::of_code(answer.how),
    }
}

/// `x` rounded to binary32, to nearest, ties to even: convertFormat (IEEE 754-2019, 5.4.2 and
/// 4.3.1). From 2^128 − 2^103 on the result is an infinity (4.3.1), an infinity stays (6.1), a zero
/// result has the sign of `x` (6.3), and a NaN gives a NaN (6.2).
///
/// ```
/// use koshirga::to_f32;
///
/// let tie = 1.0 + 2f64.powi(-24);
/// assert_eq!(to_f32(tie), 1.0);
/// assert_eq!(to_f32(tie.next_up()), 1.0 + f32::EPSILON);
/// ```
#[inline]
pub fn to_f32(x: f64) -> f32 {
    ffi::koshirga_to_f32(x)
}

/// a·b + c, exact and then rounded once, to nearest, ties to even: fusedMultiplyAdd (IEEE 754-2019,
/// 5.4.1 and 4.3.1). An exact zero sum of opposite signs is +0, and a result that is rounded to
/// zero keeps its sign (6.3). A NaN gives a NaN (6.2), and so do zero times infinity and opposite
/// infinities (7.2).
///
/// ```
/// let (x, y) = (1.0 + f64::EPSILON, -(1.0 + 2.0 * f64::EPSILON));
/// assert_eq!(koshirga::mul_add(x, x, y), 2f64.powi(-104));
/// assert_eq!(x * x + y, 0.0); // rounded apart
/// ```
#[inline]
pub fn mul_add(a: f64, b: f64, c: f64) -> f64 {
    ffi::koshirga_mul_add(a, b, c)
}

/// The square root, exact and then rounded to nearest, ties to even: squareRoot (IEEE 754-2019,
/// 5.4.1 and 4.3.1). The root of −0 is −0 (6.3), that of a number below zero a NaN (7.2); a NaN
/// gives a NaN (6.2).
///
/// ```
/// assert_eq!(koshirga::sqrt(2.25), 1.5);
/// ```
#[inline]
pub fn sqrt(x: f64) -> f64 {
    ffi::koshirga_sqrt(x)
}

/// The same bits, the digits of the root taken one by one, as a laboratory may want to see them run.
/// [`sqrt`] takes them where the processor's root is not the rounded one, and is faster where it is.
///
/// ```
/// assert_eq!(koshirga::sqrt_by_digits(2.25), 1.5);
/// ```
#[inline]
pub fn sqrt_by_digits(x: f64) -> f64 {
    ffi::koshirga_sqrt_by_digits(x)
}

#[cfg(test)]
mod tests {
    use super::*;
    use crate::ffi::tests::constants;

    const TWO_TO_63: f64 = 9_223_372_036_854_775_808.0;

    /// Patterns in ascending total order.
    const ASCENDING: [u64; 15] = [
        0xffff_ffff_ffff_ffff, // −NaN, quiet, greatest payload
        0xfff8_0000_0000_0000, // −NaN, quiet
        0xfff0_0000_0000_0001, // −NaN, signaling
        0xfff0_0000_0000_0000, // −∞
        0xbff0_0000_0000_0000, // −1
        0x8000_0000_0000_0001, // greatest below −0
        0x8000_0000_0000_0000, // −0
        0x0000_0000_0000_0000, // +0
        0x0000_0000_0000_0001, // least subnormal
        0x0010_0000_0000_0000, // least normal
        0x3ff0_0000_0000_0000, // 1
        0x7ff0_0000_0000_0000, // +∞
        0x7ff0_0000_0000_0001, // +NaN, signaling
        0x7ff8_0000_0000_0000, // +NaN, quiet
        0x7fff_ffff_ffff_ffff, // +NaN, quiet, greatest payload
    ];

    #[test]
    fn total_order() {
        for (i, &x) in ASCENDING.iter().enumerate() {
            for (j, &y) in ASCENDING.iter().enumerate() {
                assert_eq!(total_cmp(x, y), i.cmp(&j));
            }
        }
    }

    #[test]
    fn ranks() {
        assert_eq!(rank(-0.0), 0x7fff_ffff_ffff_ffff);
        assert_eq!(rank(0.0), 0x8000_0000_0000_0000);
        assert_eq!(rank(f64::NEG_INFINITY), 0x000f_ffff_ffff_ffff);
        assert_eq!(rank(f64::INFINITY), 0xfff0_0000_0000_0000);
        assert_eq!(rank(f64::NAN), 0xfff8_0000_0000_0000);
        assert_eq!(rank(-f64::NAN), rank(f64::NAN));
    }

    /// A minimum of two NaNs: a NaN that is quiet (IEEE 754-2019, 6.2.1), of any sign and payload.
    fn assert_quiet_nan(minimum: f64, x: u64, y: u64) {
        let is_quiet = minimum.is_nan() && minimum.to_bits() & 1 << 51 != 0;
        assert!(is_quiet, "{x:#x}, {y:#x}: {:#x}", minimum.to_bits());
    }

    /// Every pair of the table in either order: of two numbers the one that stands first, and of a
    /// number and a NaN the number.
    #[test]
    fn minimum_of_every_pair() {
        const NUMBERS: std::ops::RangeInclusive<usize> = 3..=11;
        for (i, &x) in ASCENDING.iter().enumerate() {
            for (j, &y) in ASCENDING.iter().enumerate() {
                let minimum = minimum_number(f64::from_bits(x), f64::from_bits(y));
                let expected = match (NUMBERS.contains(&i), NUMBERS.contains(&j)) {
                    (true, true) => ASCENDING[i.min(j)],
                    (true, false) => x,
                    (false, true) => y,
                    (false, false) => {
                        assert_quiet_nan(minimum, x, y);
                        continue;
                    }
                };
                assert_eq!(minimum.to_bits(), expected, "{x:#x}, {y:#x}");
            }
        }
    }

    /// Patterns of every sign and exponent with four fractions, each beside itself, the next five,
    /// two far away and its negative. The total order of std tells which is expected.
    #[test]
    fn minimum_of_every_exponent() {
        const FRACTIONS: [u64; 4] = [0, 1, 1 << 51, (1 << 52) - 1];
        let patterns: Vec<u64> = (0..1 << 12)
            .flat_map(|high| FRACTIONS.map(|fraction| high << 52 | fraction))
            .collect();
        let to_negative = patterns.len() / 2;
        for (at, &one) in patterns.iter().enumerate() {
            for step in [0, 1, 2, 3, 4, 5, 1000, 3001, to_negative] {
                let other = patterns[(at + step) % patterns.len()];
                for (x, y) in [(one, other), (other, one)] {
                    let operands = [x, y].map(f64::from_bits);
                    let minimum = minimum_number(operands[0], operands[1]);
                    let numbers = operands.iter().filter(|operand| !operand.is_nan());
                    match numbers.min_by(|a, b| a.total_cmp(b)) {
                        Some(least) => {
                            assert_eq!(minimum.to_bits(), least.to_bits(), "{x:#x}, {y:#x}")
                        }
                        None => assert_quiet_nan(minimum, x, y),
                    }
                }
            }
        }
    }

    #[test]
    fn floor_and_ceil() {
        for (x, down, up) in [
            (2.5, 2.0, 3.0),
            (-2.5, -3.0, -2.0),
            (0.5, 0.0, 1.0),
            (-0.5, -1.0, -0.0),
            (0.0, 0.0, 0.0),
            (-0.0, -0.0, -0.0),
            (5e-324, 0.0, 1.0),
            (-5e-324, -1.0, -0.0),
            (
                4_503_599_627_370_495.5,
                4_503_599_627_370_495.0,
                4_503_599_627_370_496.0,
            ),
            (1e300, 1e300, 1e300),
            (f64::INFINITY, f64::INFINITY, f64::INFINITY),
            (f64::NEG_INFINITY, f64::NEG_INFINITY, f64::NEG_INFINITY),
        ] {
            assert_eq!(floor(x).to_bits(), f64::to_bits(down), "floor {x}");
            assert_eq!(ceil(x).to_bits(), f64::to_bits(up), "ceil {x}");
        }
        assert!(floor(f64::NAN).is_nan() && ceil(f64::NAN).is_nan());
    }

    #[test]
    fn conversion() {
        use Conversion::{Cut, Held, Kept, NotANumber};
        for (x, whole, how) in [
            (-0.5, 0, Cut),
            (-1.5, -1, Cut),
            (TWO_TO_63, i64::MAX, Held),
            (0.0, 0, Kept),
            (-0.0, 0, Kept),
            (1.0, 1, Kept),
            (-1.0, -1, Kept),
            (0.5, 0, Cut),
            (1.999, 1, Cut),
            (LEAST, 0, Cut),
            (-LEAST, 0, Cut),
            (1f64.next_down(), 0, Cut),
            ((-1f64).next_down(), -1, Cut),
            // The greatest with a fraction, and whole numbers on both sides of 2^53.
            (4_503_599_627_370_495.5, 4_503_599_627_370_495, Cut),
            (4_503_599_627_370_496.0, 4_503_599_627_370_496, Kept),
            (-4_503_599_627_370_495.5, -4_503_599_627_370_495, Cut),
            (9_007_199_254_740_991.0, 9_007_199_254_740_991, Kept),
            (9_007_199_254_740_994.0, 9_007_199_254_740_994, Kept),
            // The ends of the range.
            (TWO_TO_63.next_down(), 9_223_372_036_854_774_784, Kept),
            (-TWO_TO_63, i64::MIN, Kept),
            ((-TWO_TO_63).next_up(), -9_223_372_036_854_774_784, Kept),
            ((-TWO_TO_63).next_down(), i64::MIN, Held),
            (-2.0 * TWO_TO_63, i64::MIN, Held),
            (f64::MAX, i64::MAX, Held),
            (f64::MIN, i64::MIN, Held),
            (f64::INFINITY, i64::MAX, Held),
            (f64::NEG_INFINITY, i64::MIN, Held),
            (f64::NAN, 0, NotANumber),
            (-f64::NAN, 0, NotANumber),
            (f64::from_bits(0x7ff0_0000_0000_0001), 0, NotANumber),
            (f64::from_bits(0xffff_ffff_ffff_ffff), 0, NotANumber),
        ] {
            assert_eq!(to_i64(x), Converted { whole, how }, "{x:e}");
        }
    }

    /// The header's numbers, by their names.
    #[test]
    fn cases_are_those_of_the_header() {
        let named = |(name, code): (&str, u32)| {
            let case = format!("{:?}", Conversion::of_code(code));
            (name.replace('_', ""), case.to_uppercase())
        };
        let cases: Vec<_> = constants("conversion").map(named).collect();
        assert_eq!(cases.len(), 4);
        assert!(cases.iter().all(|(name, case)| name == case), "{cases:?}");
    }

    #[test]
    fn rounded_to_binary32() {
        for (x, rounded) in [
            (0x3fb9_9999_9999_999a, 0x3dcc_cccd), // 0.1
            // Halfway between two, to the even one, and a little to either side.
            (0x3ff0_0000_1000_0000, 0x3f80_0000),
            (0x3ff0_0000_1000_0001, 0x3f80_0001),
            (0x3ff0_0000_3000_0000, 0x3f80_0002),
            (0x3ff0_0000_2fff_ffff, 0x3f80_0001),
            // 2^-150, half the least subnormal, and 3·2^-150.
            (0x3690_0000_0000_0000, 0x0000_0000),
            (0x3690_0000_0000_0001, 0x0000_0001),
            (0x36a8_0000_0000_0000, 0x0000_0002),
            (0xb680_0000_0000_0000, 0x8000_0000), // -2^-151
            (0x380f_ffff_ffff_ffff, 0x0080_0000), // carried to the least normal
            (0x47ef_ffff_efff_ffff, 0x7f7f_ffff),
            (0x47ef_ffff_f000_0000, 0x7f80_0000), // 2^128 - 2^103
            (0xc7ef_ffff_f000_0000, 0xff80_0000),
            (0x0000_0000_0000_0000, 0x0000_0000),
            (0x8000_0000_0000_0000, 0x8000_0000),
            (0x0000_0000_0000_0001, 0x0000_0000),
            (0x8000_0000_0000_0001, 0x8000_0000),
            (0x7ff0_0000_0000_0000, 0x7f80_0000),
            (0xfff0_0000_0000_0000, 0xff80_0000),
        ] {
            let ours = to_f32(f64::from_bits(x));
            assert_eq!(ours.to_bits(), rounded, "{x:#x}");
        }
        for nan in [0x7ff8_0000_0000_0000, 0xfff0_0000_0000_0001, u64::MAX] {
            assert!(to_f32(f64::from_bits(nan)).is_nan(), "{nan:#x}");
        }
    }

    /// Patterns of every sign and exponent with fractions about the binary32 digits. The cast of
    /// the language tells which is expected.
    #[test]
    fn rounded_of_every_exponent() {
        const KEPT: [u64; 5] = [0, 1, 0x2a_aaab, 0x7f_fffe, 0x7f_ffff];
        const CUT_OFF: [u64; 6] = [0, 1, 0xfff_ffff, 0x1000_0000, 0x1000_0001, 0x1fff_ffff];
        for high in 0..1 << 12 {
            for kept in KEPT {
                for cut_off in CUT_OFF {
                    let x = f64::from_bits(high << 52 | kept << 29 | cut_off);
                    let (ours, rounded) = (to_f32(x), x as f32);
                    let same = ours.to_bits() == rounded.to_bits();
                    assert!(same || ours.is_nan() && rounded.is_nan(), "{x:e}");
                }
            }
        }
    }

    const LEAST: f64 = f64::from_bits(1);
    /// Half an ulp of the greatest finite number.
    const HALF_ULP: f64 = f64::from_bits(0x7c90_0000_0000_0000);

    fn assert_mul_add(cases: &[(f64, f64, f64, f64)]) {
        for &(a, b, c, sum) in cases {
            let ours = mul_add(a, b, c);
            assert_eq!(ours.to_bits(), sum.to_bits(), "{a:e} * {b:e} + {c:e}");
        }
    }

    /// Rounded apart, the first sum is 0 and the second infinite.
    #[test]
    fn mul_add_rounds_once() {
        let x = 1.0 + f64::EPSILON;
        assert_mul_add(&[
            (x, x, -(1.0 + 2.0 * f64::EPSILON), 2f64.powi(-104)),
            (f64::MAX, 2.0, -f64::MAX, f64::MAX),
            (2.0, 3.0, 4.0, 10.0),
            (-2.0, 3.0, 0.5, -5.5),
            // Halfway between two doubles, and a little to either side.
            (x, 1.5, 0.0, 1.5 + 2.0 * f64::EPSILON),
            (x, 1.5, LEAST, 1.5 + 2.0 * f64::EPSILON),
            (x, 1.5, -LEAST, 1.5 + f64::EPSILON),
        ]);
    }

    #[test]
    fn mul_add_zeros() {
        assert_mul_add(&[
            (1.0, 1.0, -1.0, 0.0),
            (-1.0, 1.0, 1.0, 0.0),
            (0.0, 1.0, -0.0, 0.0),
            (-0.0, 1.0, 0.0, 0.0),
            (-0.0, 1.0, -0.0, -0.0),
            (0.0, 1.0, 0.0, 0.0),
            // Not exactly zero: the sign stays.
            (1e-200, -1e-200, 0.0, -0.0),
            (1e-200, 1e-200, -0.0, 0.0),
        ]);
    }

    #[test]
    fn mul_add_subnormals() {
        assert_mul_add(&[
            (LEAST, 0.5, 0.0, 0.0),
            (3.0 * LEAST, 0.5, 0.0, 2.0 * LEAST),
            (LEAST, 0.75, 0.0, LEAST),
            (LEAST, 0.5, LEAST, 2.0 * LEAST),
            (1e-200, 1e-200, LEAST, LEAST),
            (
                f64::MIN_POSITIVE,
                1.0,
                -LEAST,
                f64::MIN_POSITIVE.next_down(),
            ),
        ]);
    }

    #[test]
    fn mul_add_overflow() {
        assert_mul_add(&[
            (f64::MAX, 1.0, HALF_ULP, f64::INFINITY),
            (f64::MAX, 1.0, HALF_ULP.next_down(), f64::MAX),
            (f64::MAX, -2.0, 1.0, f64::NEG_INFINITY),
            (f64::MAX, f64::MAX, f64::NEG_INFINITY, f64::NEG_INFINITY),
            (f64::INFINITY, -1.0, 1.0, f64::NEG_INFINITY),
        ]);
    }

    #[test]
    fn mul_add_nan() {
        let infinity = f64::INFINITY;
        for (a, b, c) in [
            (infinity, 0.0, 1.0),
            (infinity, 1.0, -infinity),
            (f64::NAN, 1.0, 1.0),
            (1.0, f64::NAN, 1.0),
            (1.0, 1.0, f64::NAN),
        ] {
            assert!(mul_add(a, b, c).is_nan(), "{a} * {b} + {c}");
        }
    }

    #[test]
    fn roots() {
        for (x, root) in [
            (2.25, 1.5),
            (2.0, std::f64::consts::SQRT_2),
            (1.0, 1.0),
            (1f64.next_up(), 1.0),
            (1f64.next_down(), 1f64.next_down()),
            (0.0, 0.0),
            (-0.0, -0.0),
            (LEAST, 2f64.powi(-537)),
            (f64::MIN_POSITIVE, 2f64.powi(-511)),
            (f64::MIN_POSITIVE.next_down(), 2f64.powi(-511).next_down()),
            (f64::MAX, 2f64.powi(512).next_down()),
            (f64::INFINITY, f64::INFINITY),
        ] {
            for ours in [sqrt(x), sqrt_by_digits(x)] {
                assert_eq!(ours.to_bits(), f64::to_bits(root), "root of {x:e}");
            }
        }
        for x in [-LEAST, -1.0, f64::NEG_INFINITY, f64::NAN] {
            for ours in [sqrt(x), sqrt_by_digits(x)] {
                assert!(ours.is_nan(), "root of {x:e}");
            }
        }
    }
}
