//! Operands of the fused multiply-add, of the root, of the minimum and of the conversion to binary32,
//! by class: each class is a way in which alignment, rounding, an order or an exception can go wrong.
//! Seeds are fixed.

use crate::patterns::{
    Random, BIAS, EDGE_SIGNIFICANDS, EXPONENT_FIELDS, SIGN, SIGNIFICAND, SIGNIFICAND_DIGITS,
};

const MILLION: usize = 1_000_000;
const INFINITY: u64 = f64::INFINITY.to_bits();
/// The exponent of the least subnormal.
const LEAST_EXPONENT: i64 = -1074;

/// Operands of one kind for a function of `N` doubles.
pub struct Class<const N: usize> {
    pub name: &'static str,
    /// How many cases are compared.
    pub count: usize,
    seed: u64,
    /// The case at a place: what a class goes through in turn follows from the place.
    draw: fn(&mut Random, usize) -> [f64; N],
}

impl<const N: usize> Class<N> {
    /// The first `count` cases, which are the same in every run.
    pub fn each(&self, count: usize, mut visit: impl FnMut([f64; N])) {
        let mut random = Random::new(self.seed);
        for at in 0..count {
            visit((self.draw)(&mut random, at));
        }
    }
}

/// Factor, factor and addend.
pub const TRIPLES: &[Class<3>] = &[
    Class {
        name: "mul_add, random patterns",
        count: 10 * MILLION,
        seed: 31,
        draw: random_patterns,
    },
    Class {
        name: "mul_add, exponents -130..130",
        count: 15 * MILLION,
        seed: 32,
        draw: exponent_differences,
    },
    Class {
        name: "mul_add, exponents far apart",
        count: 4 * MILLION,
        seed: 33,
        draw: far_exponents,
    },
    Class {
        name: "mul_add, cancellation",
        count: 10 * MILLION,
        seed: 34,
        draw: cancellation,
    },
    Class {
        name: "mul_add, subnormal results",
        count: 8 * MILLION,
        seed: 35,
        draw: subnormal_results,
    },
    Class {
        name: "mul_add, edge of overflow",
        count: 5 * MILLION,
        seed: 36,
        draw: edge_of_overflow,
    },
    Class {
        name: "mul_add, halfway products",
        count: 5 * MILLION,
        seed: 37,
        draw: halfway_products,
    },
    Class {
        name: "mul_add, halfway sums",
        count: 4 * MILLION,
        seed: 38,
        draw: halfway_sums,
    },
    Class {
        name: "mul_add, subnormal halfway",
        count: 4 * MILLION,
        seed: 39,
        draw: subnormal_halfway,
    },
    Class {
        name: "mul_add, special values",
        count: 2 * MILLION,
        seed: 40,
        draw: special_values,
    },
];

pub const RADICANDS: &[Class<1>] = &[
    Class {
        name: "sqrt, random patterns",
        count: 12 * MILLION,
        seed: 51,
        draw: random_radicand,
    },
    Class {
        name: "sqrt, subnormals",
        count: 8 * MILLION,
        seed: 52,
        draw: subnormal_radicand,
    },
    Class {
        name: "sqrt, rounded squares",
        count: 8 * MILLION,
        seed: 53,
        draw: |random, _| [rounded_square(random)],
    },
    Class {
        name: "sqrt, exact squares",
        count: 5 * MILLION,
        seed: 54,
        draw: |random, _| [exact_square(random)],
    },
    Class {
        name: "sqrt, beside squares",
        count: 6 * MILLION,
        seed: 55,
        draw: beside_a_square,
    },
    Class {
        name: "sqrt, roots close to halfway",
        count: 4 * MILLION,
        seed: 56,
        draw: halfway_root,
    },
    Class {
        name: "sqrt, beside powers of 2 and 4",
        count: 3 * MILLION,
        seed: 57,
        draw: beside_a_power,
    },
    Class {
        name: "sqrt, all exponents",
        count: 2 * EXPONENT_FIELDS as usize * EDGE_SIGNIFICANDS.len(),
        seed: 58,
        draw: all_exponents,
    },
];

/// The two operands of the minimum.
pub const COMPARANDS: &[Class<2>] = &[
    Class {
        name: "minimum_number, random",
        count: 5 * MILLION,
        seed: 61,
        draw: random_comparands,
    },
    Class {
        name: "minimum_number, close",
        count: 5 * MILLION,
        seed: 62,
        draw: close_comparands,
    },
    Class {
        name: "minimum_number, special values",
        count: MILLION,
        seed: 63,
        draw: special_comparands,
    },
];

/// What is converted to binary32.
pub const NARROWED: &[Class<1>] = &[
    Class {
        name: "to_f32, random patterns",
        count: 20 * MILLION,
        seed: 71,
        draw: |random, _| [f64::from_bits(random.bits())],
    },
    Class {
        name: "to_f32, range of binary32",
        count: 20 * MILLION,
        seed: 72,
        draw: range_of_binary32,
    },
    Class {
        name: "to_f32, beside a value",
        count: 15 * MILLION,
        seed: 73,
        draw: beside_a_value,
    },
    Class {
        name: "to_f32, halfway",
        count: 20 * MILLION,
        seed: 74,
        draw: halfway_values,
    },
    Class {
        name: "to_f32, subnormal results",
        count: 10 * MILLION,
        seed: 75,
        draw: subnormal_values,
    },
    Class {
        name: "to_f32, subnormal halfway",
        count: 15 * MILLION,
        seed: 76,
        draw: subnormal_halfway_values,
    },
    Class {
        name: "to_f32, edge of overflow",
        count: 5 * MILLION,
        seed: 77,
        draw: edge_of_binary32,
    },
    Class {
        name: "to_f32, beside powers of 2",
        count: 5 * MILLION,
        seed: 78,
        draw: |random, at| beside_a_power(random, at).map(|x| with_any_sign(random, x)),
    },
    Class {
        name: "to_f32, all exponents",
        count: 2 * EXPONENT_FIELDS as usize * EDGE_SIGNIFICANDS.len(),
        seed: 79,
        draw: all_exponents,
    },
];

/// 2^exponent, from −1074 to 1023.
fn power(exponent: i64) -> f64 {
    let bias = BIAS as i64;
    f64::from_bits(if exponent > -bias {
        ((exponent + bias) as u64) << SIGNIFICAND_DIGITS
    } else {
        1 << (exponent - LEAST_EXPONENT)
    })
}

/// whole · 2^exponent: two exact steps, as 2^exponent alone can be out of range.
fn scaled(whole: u64, exponent: i64) -> f64 {
    whole as f64 * power(exponent / 2) * power(exponent - exponent / 2)
}

fn with_any_sign(random: &mut Random, x: f64) -> f64 {
    f64::from_bits(x.to_bits() ^ (random.bits() & SIGN))
}

fn moved(random: &mut Random, x: f64, ulps: u64) -> f64 {
    f64::from_bits(random.near(x.to_bits(), ulps))
}

/// A normal number of either sign: any significand, one of few digits, one that ends in ones.
fn number(random: &mut Random, exponent: i64) -> f64 {
    let low = (1 << random.below(u64::from(SIGNIFICAND_DIGITS) + 1)) - 1;
    let any = random.bits() & SIGNIFICAND;
    let significand = match random.below(4) {
        0 => any & !low,
        1 => any | low,
        _ => any,
    };
    let field = (exponent + BIAS as i64) as u64;
    f64::from_bits(random.bits() & SIGN | field << SIGNIFICAND_DIGITS | significand)
}

/// From 1 to 52 digits.
fn subnormal(random: &mut Random) -> f64 {
    let shift = 12 + random.below(u64::from(SIGNIFICAND_DIGITS));
    f64::from_bits(random.bits() >> shift)
}

/// Two odd numbers whose product has exactly `digits` binary digits, at least 4.
fn odd_factors(random: &mut Random, digits: u64) -> (u64, u64) {
    loop {
        let top = 1 << (1 + random.below(digits - 3));
        let p = top | random.below(top) | 1;
        let least = (1 << (digits - 1)) / p + 1;
        let greatest = ((1 << digits) - 1) / p;
        let q = (least + random.below(greatest - least + 1)) | 1;
        if p * q >> (digits - 1) == 1 {
            return (p, q);
        }
    }
}

fn random_patterns(random: &mut Random, _: usize) -> [f64; 3] {
    [random.bits(), random.bits(), random.bits()].map(f64::from_bits)
}

/// The addend's exponent stands from 130 below to 130 above the sum of the factors' exponents:
/// every difference in turn.
fn exponent_differences(random: &mut Random, at: usize) -> [f64; 3] {
    let difference = (at % 261) as i64 - 130;
    let (x, y) = (random.between(-440, 440), random.between(-440, 440));
    [x, y, x + y + difference].map(|exponent| number(random, exponent))
}

fn far_exponents(random: &mut Random, at: usize) -> [f64; 3] {
    let (low, high, addend) = match at % 4 {
        // A product below every double, and any addend.
        0 => (-1022, -600, random.bits()),
        // A small product and a great addend.
        1 => (-500, -100, random.with_exponent(BIAS + 100, 2 * BIAS)),
        // A great product and a small addend, the subnormals among them.
        2 => (100, 500, random.with_exponent(0, 200)),
        // A product beyond every finite double.
        _ => (600, 1023, random.bits()),
    };
    let (x, y) = (random.between(low, high), random.between(low, high));
    [number(random, x), number(random, y), f64::from_bits(addend)]
}

/// The addend is the rounded product's opposite, moved by −4 to 4 ulps in turn. At the odd
/// places the product is exact, so that the sum can be an exact zero.
fn cancellation(random: &mut Random, at: usize) -> [f64; 3] {
    let ulps = (at / 2 % 9) as u64;
    let exponents = [random.between(-480, 480), random.between(-480, 480)];
    let [x, y] = exponents.map(|exponent| {
        let x = number(random, exponent);
        let cut = if at % 2 == 0 { 0 } else { (1 << 27) - 1 };
        f64::from_bits(x.to_bits() & !cut)
    });
    let product = (-(x * y)).to_bits();
    [
        x,
        y,
        f64::from_bits(product.wrapping_add(ulps).wrapping_sub(4)),
    ]
}

/// Sums below and about the least normal number.
fn subnormal_results(random: &mut Random, at: usize) -> [f64; 3] {
    let x_exponent = random.between(-700, -400);
    let y_exponent = random.between(-1140, -1010) - x_exponent;
    let (x, y) = (number(random, x_exponent), number(random, y_exponent));
    match at % 4 {
        0 => [x, y, with_any_sign(random, 0.0)],
        1 => [x, y, f64::from_bits(random.with_exponent(0, 4))],
        2 => [x, y, moved(random, -(x * y), 3)],
        _ => {
            let exponent = random.between(-60, 60);
            let (tiny, addend) = (subnormal(random), subnormal(random));
            [
                tiny,
                number(random, exponent),
                with_any_sign(random, addend),
            ]
        }
    }
}

/// Sums about the greatest finite number. Half an ulp above it is 2^970 away.
fn edge_of_overflow(random: &mut Random, at: usize) -> [f64; 3] {
    let exponent = random.between(1, 1000);
    let x = number(random, exponent);
    match at % 4 {
        // The product is exact.
        0 => {
            let great = f64::from_bits(f64::MAX.to_bits() - random.below(4));
            let addend = moved(random, power(970), 3);
            [
                with_any_sign(random, power(exponent)),
                with_any_sign(random, great * power(-exponent)),
                with_any_sign(random, addend),
            ]
        }
        1 => {
            let addend_exponent = random.between(960, 1023);
            let y = moved(random, f64::MAX / x, 3);
            [x, y, number(random, addend_exponent)]
        }
        // The addend brings back a product that is beyond the range.
        2 => {
            let y = number(random, 1023 - exponent);
            let addend = number(random, 1023);
            let opposite = (x.to_bits() ^ y.to_bits() ^ SIGN) & SIGN;
            [x, y, f64::from_bits(addend.to_bits() & !SIGN | opposite)]
        }
        _ => {
            let y_exponent = random.between(1020, 1025) - exponent;
            let addend_exponent = random.between(1000, 1023);
            let y = number(random, y_exponent.min(1023));
            [x, y, number(random, addend_exponent)]
        }
    }
}

/// A product of 54 digits, the last one 1, is halfway between two doubles. The addend is less
/// than half an ulp: none, the least there is, or any of either sign.
fn halfway_products(random: &mut Random, at: usize) -> [f64; 3] {
    let (p, q) = odd_factors(random, 54);
    let (i, j) = (random.between(-300, 300), random.between(-300, 300));
    let addend = match at % 4 {
        0 => 0.0,
        1 => power(LEAST_EXPONENT),
        2 => power(i + j).next_down(),
        _ => {
            let exponent = i + j - random.between(1, 300);
            number(random, exponent)
        }
    };
    [
        with_any_sign(random, scaled(p, i)),
        with_any_sign(random, scaled(q, j)),
        with_any_sign(random, addend),
    ]
}

/// In units of half the addend's ulp the addend is even and the product odd, so that the sum is
/// halfway unless it carries. At the odd places a factor is moved by some ulps.
fn halfway_sums(random: &mut Random, at: usize) -> [f64; 3] {
    let digits = 4 + random.below(50);
    let (p, q) = odd_factors(random, digits);
    let (i, j) = (random.between(-300, 300), random.between(-300, 300));
    let y = scaled(q, j);
    let y = if at % 2 == 0 { y } else { moved(random, y, 2) };
    let addend = 1 << SIGNIFICAND_DIGITS | random.bits() & SIGNIFICAND;
    [
        with_any_sign(random, scaled(p, i)),
        with_any_sign(random, y),
        with_any_sign(random, scaled(addend, i + j + 1)),
    ]
}

/// An odd multiple of 2^−1075 is halfway between two subnormals, and a subnormal addend keeps it
/// there. At every third place a factor is moved by some ulps.
fn subnormal_halfway(random: &mut Random, at: usize) -> [f64; 3] {
    let digits = 4 + random.below(50);
    let (p, q) = odd_factors(random, digits);
    let i = random.between(-600, -400);
    let y = scaled(q, LEAST_EXPONENT - 1 - i);
    let (y, addend) = match at % 3 {
        0 => (y, 0.0),
        1 => (y, subnormal(random)),
        _ => (moved(random, y, 2), subnormal(random)),
    };
    [
        with_any_sign(random, scaled(p, i)),
        with_any_sign(random, y),
        with_any_sign(random, addend),
    ]
}

/// Without signs: zero, ends of the ranges, some ordinary numbers, infinity and NaNs.
const SPECIAL: [u64; 24] = [
    0x0000_0000_0000_0000, // 0
    0x0000_0000_0000_0001, // least subnormal
    0x0000_0000_0000_0002,
    0x0000_0000_0000_0003,
    0x000f_ffff_ffff_ffff, // greatest subnormal
    0x0010_0000_0000_0000, // least normal
    0x0010_0000_0000_0001,
    0x1e50_0000_0000_0000, // 2^−538
    0x1e60_0000_0000_0000, // 2^−537
    0x3fe0_0000_0000_0000, // 0.5
    0x3fef_ffff_ffff_ffff,
    0x3ff0_0000_0000_0000, // 1
    0x3ff0_0000_0000_0001,
    0x3ff8_0000_0000_0000, // 1.5
    0x4000_0000_0000_0000, // 2
    0x4340_0000_0000_0000, // 2^53
    0x5ff0_0000_0000_0000, // 2^512
    0x7c90_0000_0000_0000, // 2^970, half an ulp of the greatest finite
    0x7fe0_0000_0000_0000, // 2^1023
    0x7fef_ffff_ffff_ffff, // greatest finite
    0x7ff0_0000_0000_0000, // infinity
    0x7ff0_0000_0000_0001, // NaN, signaling
    0x7ff8_0000_0000_0000, // NaN, quiet
    0x7fff_ffff_ffff_ffff, // NaN, greatest payload
];
const SIGNED_SPECIAL: usize = 2 * SPECIAL.len();

/// Each of them with both signs.
pub fn special_numbers() -> impl Iterator<Item = f64> {
    (0..SIGNED_SPECIAL).map(|at| f64::from_bits(special(at)))
}

/// Each exponent field with an edge of the significands: a field and the next one, of the other
/// parity, have the same.
pub fn each_exponent() -> impl Iterator<Item = f64> {
    let edges = EDGE_SIGNIFICANDS.iter().flat_map(|&edge| [edge, edge]);
    (0..EXPONENT_FIELDS)
        .zip(edges.cycle())
        .map(|(exponent, edge)| f64::from_bits(exponent << SIGNIFICAND_DIGITS | edge))
}

fn special(at: usize) -> u64 {
    let at = at % SIGNED_SPECIAL;
    SPECIAL[at / 2] | (at as u64 % 2) << 63
}

/// All triples of special values, then some beside random patterns.
fn special_values(random: &mut Random, at: usize) -> [f64; 3] {
    let places = [at, at / SIGNED_SPECIAL, at / SIGNED_SPECIAL.pow(2)];
    let all = at < SIGNED_SPECIAL.pow(3);
    places.map(|place| {
        f64::from_bits(if all {
            special(place)
        } else if random.below(2) == 0 {
            special(random.bits() as usize)
        } else {
            random.bits()
        })
    })
}

fn random_comparands(random: &mut Random, _: usize) -> [f64; 2] {
    [0; 2].map(|_| f64::from_bits(random.bits()))
}

/// In turn a pattern and itself, its opposite, one that is at most two patterns away, and one that
/// differs in one digit. One in four is a zero or at most two patterns away from it, one in four an
/// infinity or at most two away from that, a signaling NaN among them.
fn close_comparands(random: &mut Random, at: usize) -> [f64; 2] {
    let x = match random.below(4) {
        0 => random.bits() & SIGN | random.below(3),
        1 => random.bits() & SIGN | random.near(INFINITY, 2),
        _ => random.bits(),
    };
    let y = match at % 4 {
        0 => x,
        1 => x ^ SIGN,
        2 => random.near(x, 2),
        _ => x ^ 1 << random.below(64),
    };
    [x, y].map(f64::from_bits)
}

/// All pairs of special values, then each in turn beside a random pattern, first or second.
fn special_comparands(random: &mut Random, at: usize) -> [f64; 2] {
    let [x, y] = if at < SIGNED_SPECIAL.pow(2) {
        [special(at), special(at / SIGNED_SPECIAL)]
    } else if random.below(2) == 0 {
        [special(at), random.bits()]
    } else {
        [random.bits(), special(at)]
    };
    [x, y].map(f64::from_bits)
}

/// One in sixteen may be below zero.
fn random_radicand(random: &mut Random, at: usize) -> [f64; 1] {
    let mask = if at % 16 == 0 { u64::MAX } else { !SIGN };
    [f64::from_bits(random.bits() & mask)]
}

fn subnormal_radicand(random: &mut Random, _: usize) -> [f64; 1] {
    [subnormal(random)]
}

/// Subnormal squares and infinite ones among them.
fn rounded_square(random: &mut Random) -> f64 {
    let exponent = random.between(-537, 512);
    let x = number(random, exponent);
    x * x
}

/// The square of a number of at most 26 digits, times a power of 4.
fn exact_square(random: &mut Random) -> f64 {
    let shift = 38 + random.below(26);
    let n = random.bits() >> shift;
    scaled(n * n, 2 * random.between(-537, 485))
}

fn beside_a_square(random: &mut Random, at: usize) -> [f64; 1] {
    let square = if at % 2 == 0 {
        exact_square(random)
    } else {
        rounded_square(random)
    };
    let ulps = at as u64 / 2 % 2 + 1;
    // 0 and infinity have a neighbour on one side only.
    let bits = square.to_bits().clamp(2, f64::INFINITY.to_bits() - 2);
    [f64::from_bits(if at / 4 % 2 == 0 {
        bits + ulps
    } else {
        bits - ulps
    })]
}

/// A number of 54 digits, the last one 1, is halfway between two doubles. Its square less a small
/// residue has 53 digits, so that the root is next to halfway, below it or above.
fn halfway_root(random: &mut Random, _: usize) -> [f64; 1] {
    let residue = 8 * random.between(-(1 << 20), 1 << 20) + 1;
    let halfway = root_modulo(residue as u64);
    let square = (u128::from(halfway) * u128::from(halfway)).wrapping_sub(residue as u128);
    let cut = 128 - 53 - square.leading_zeros();
    let radicand = (square >> cut) as u64;
    [scaled(
        radicand,
        i64::from(cut) + 2 * random.between(-560, 450),
    )]
}

/// The number of 54 digits whose square is `residue` modulo 2^55. An odd square is 1 modulo 8, and
/// so is `residue`; from there the root is lifted digit by digit.
fn root_modulo(residue: u64) -> u64 {
    let mut root: u64 = 1;
    for digit in 3..55 {
        let wrong = (root.wrapping_mul(root) ^ residue) >> digit & 1;
        root += wrong << (digit - 1);
    }
    // Both the opposite and the sum with 2^54 have the same square.
    let root = root % (1 << 54);
    root.max((1 << 54) - root)
}

/// Every power of 2, those of 4 among them, moved by −8 to 8 ulps in turn; then by any number of
/// ulps below 2^32.
fn beside_a_power(random: &mut Random, at: usize) -> [f64; 1] {
    let powers = (1024 - LEAST_EXPONENT) as usize;
    let bits = power((at % powers) as i64 + LEAST_EXPONENT).to_bits();
    let moves = at / powers;
    let moved = if moves < 17 {
        (bits + moves as u64).saturating_sub(8)
    } else {
        let ulps = random.bits() >> (32 + random.below(32));
        random.near(bits, ulps) & !SIGN
    };
    [f64::from_bits(moved)]
}

/// Every exponent field with the edges of the significands, both signs: zeros, infinities and
/// NaNs among them.
fn all_exponents(_: &mut Random, at: usize) -> [f64; 1] {
    let at = at as u64;
    let significands = EDGE_SIGNIFICANDS.len() as u64;
    let exponent = at % EXPONENT_FIELDS;
    let significand = EDGE_SIGNIFICANDS[(at / EXPONENT_FIELDS % significands) as usize];
    let sign = at / EXPONENT_FIELDS / significands % 2 * SIGN;
    [f64::from_bits(
        sign | exponent << SIGNIFICAND_DIGITS | significand,
    )]
}

/// From below half the least subnormal of binary32 to beyond its greatest number.
fn range_of_binary32(random: &mut Random, _: usize) -> [f64; 1] {
    let exponent = random.between(-152, 128);
    [number(random, exponent)]
}

/// Any finite value of binary32, its subnormals among them, moved by −2 to 2 ulps of a double in turn.
fn beside_a_value(random: &mut Random, at: usize) -> [f64; 1] {
    let bits = random.bits() as u32;
    // The last exponent field is that of infinities and NaNs.
    let value = f32::from_bits(if bits << 1 < 0xff << 24 {
        bits
    } else {
        bits ^ 1 << 30
    });
    [in_turn(f64::from(value), at)]
}

/// `x` moved by −2 to 2 ulps in turn. A zero is moved upward alone.
fn in_turn(x: f64, at: usize) -> f64 {
    let magnitude = (x.abs().to_bits() + at as u64 % 5).saturating_sub(2);
    f64::from_bits(x.to_bits() & SIGN | magnitude)
}

/// The digits that a normal number of binary32 has not.
const NARROWED_DIGITS: u32 = SIGNIFICAND_DIGITS - 23;

/// Halfway between two neighbours of binary32, from a normal number upward, which in one of four ends in
/// ones; moved by −2 to 2 ulps in turn.
fn halfway_values(random: &mut Random, at: usize) -> [f64; 1] {
    let bits = random.with_exponent(BIAS - 126, BIAS + 127);
    let ones = match random.below(4) {
        0 => SIGNIFICAND >> (random.below(2) * random.below(24)),
        _ => 0,
    };
    let above = (bits | ones) >> NARROWED_DIGITS << NARROWED_DIGITS;
    [in_turn(
        f64::from_bits(above | 1 << (NARROWED_DIGITS - 1)),
        at,
    )]
}

/// Below the least normal number of binary32.
fn subnormal_values(random: &mut Random, _: usize) -> [f64; 1] {
    let exponent = random.between(-151, -127);
    [number(random, exponent)]
}

/// An odd multiple of 2^−150 is halfway between two subnormals of binary32, of 0 to 23 digits; moved by
/// −2 to 2 ulps in turn.
fn subnormal_halfway_values(random: &mut Random, at: usize) -> [f64; 1] {
    let below = random.bits() >> 41 >> random.below(24);
    let halfway = scaled(2 * below + 1, -150);
    [in_turn(with_any_sign(random, halfway), at)]
}

/// The greatest finite number of binary32, what is halfway from there to 2^128, and 2^128 itself, moved
/// by −8 to 8 ulps in turn; then by any number of ulps below 2^32.
fn edge_of_binary32(random: &mut Random, at: usize) -> [f64; 1] {
    let edges = [
        f64::from(f32::MAX),
        scaled((1 << 25) - 1, 103),
        scaled(1, 128),
    ];
    let (edge, moves) = (edges[at % 3].to_bits(), at / 3);
    let bits = if moves < 17 {
        edge + moves as u64 - 8
    } else {
        let ulps = random.bits() >> (32 + random.below(32));
        random.near(edge, ulps)
    };
    [with_any_sign(random, f64::from_bits(bits))]
}
