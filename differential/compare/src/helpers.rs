//! Total order, rank, minimum, floor, ceiling and conversions, beside Rust's own methods and casts of
//! doubles.

use crate::check::{same, Check, Judge, Kinds, Tally};
use crate::operands::{COMPARANDS, NARROWED};
use crate::patterns::{
    Patterns, BIAS, EXPONENT_FIELDS, MIDDLE, SIGN, SIGNIFICAND, SIGNIFICAND_DIGITS,
};
use koshirga::{Conversion, Converted};

pub fn checks() -> Vec<Check> {
    vec![
        Check::new("total_cmp", total_cmp),
        Check::new("rank_order", rank_order),
        Check::new("rank_place", rank_place),
        Check::new("minimum_number", minimum_number),
        Check::new("floor", floor),
        Check::new("ceil", ceil),
        Check::new("to_i64", to_i64),
        Check::new("to_f32", to_f32),
        Check::new("to_f32 by hand", to_f32_by_hand),
    ]
}

fn total_cmp(tally: &mut Tally) {
    Patterns::each_pair(1, |x, y| {
        let ours = koshirga::total_cmp(x, y);
        let rust = f64::from_bits(x).total_cmp(&f64::from_bits(y));
        tally.compare(Judge::Rust, ours == rust, || {
            format!("total_cmp({x:#018x}, {y:#018x}): {ours:?}, Rust {rust:?}")
        });
    });
}

/// Every NaN counts as one pattern.
fn one_nan(bits: u64) -> f64 {
    let x = f64::from_bits(bits);
    if x.is_nan() {
        f64::from_bits(0x7ff8_0000_0000_0000)
    } else {
        x
    }
}

fn rank_order(tally: &mut Tally) {
    Patterns::each_pair(2, |x, y| {
        let ours = koshirga::rank(f64::from_bits(x)).cmp(&koshirga::rank(f64::from_bits(y)));
        let rust = one_nan(x).total_cmp(&one_nan(y));
        tally.compare(Judge::Rust, ours == rust, || {
            format!("ranks of {x:#018x}, {y:#018x}: {ours:?}, Rust {rust:?}")
        });
    });
}

/// The place counted from 0: the negative patterns stand below all others, in reverse.
pub fn place(x: f64) -> u64 {
    let x = one_nan(x.to_bits());
    if x.is_sign_negative() {
        !x.to_bits()
    } else {
        x.to_bits() + (1 << 63)
    }
}

fn rank_place(tally: &mut Tally) {
    Patterns::each(3, |bits| {
        let x = f64::from_bits(bits);
        let (ours, place) = (koshirga::rank(x), place(x));
        tally.compare(Judge::Beside, ours == place, || {
            format!("rank({bits:#018x}): {ours:#018x}, place {place:#018x}")
        });
    });
}

/// minimumNumber, read from the clause (IEEE 754-2019, 9.6) and not from `f64::min`, which leaves
/// the sign of a zero open: the lesser of two numbers, where −0 compares less than +0; the number
/// where the other is a NaN, quiet or signaling; a NaN where both are.
pub fn minimum_number_of(x: f64, y: f64) -> f64 {
    let is_negative_zero = |x: f64| x.to_bits() == SIGN;
    let is_positive_zero = |x: f64| x.to_bits() == 0;
    let is_less = |x, y| x < y || (is_negative_zero(x) && is_positive_zero(y));
    match [x.is_nan(), y.is_nan()] {
        [true, true] => f64::NAN,
        [true, false] => y,
        [false, true] => x,
        [false, false] if is_less(y, x) => y,
        // The first is less, or they are the same datum.
        [false, false] => x,
    }
}

fn is_quiet_nan(x: f64) -> bool {
    x.is_nan() && x.to_bits() & MIDDLE != 0
}

/// Whether Rust says what `f64::min` gives: for numbers that differ, for a number and itself, and for
/// a number and a quiet NaN. Of zeros of different sign it may give either. Signaling NaNs are held
/// to the clause alone.
fn rust_fixes_minimum(x: f64, y: f64) -> bool {
    match [x.is_nan(), y.is_nan()] {
        [true, true] => false,
        [true, false] => is_quiet_nan(x),
        [false, true] => is_quiet_nan(y),
        [false, false] => x != y || x.to_bits() == y.to_bits(),
    }
}

/// What two operands are to each other; whether they are so.
fn kinds_of_comparands(x: f64, y: f64) -> [(&'static str, bool); 10] {
    let one_nan = x.is_nan() != y.is_nan();
    let are = |first: u64, second: u64| [x, y].map(f64::to_bits) == [first, second];
    [
        ("the first is less", x < y),
        ("the second is less", y < x),
        ("a number and itself", x == y && x.to_bits() == y.to_bits()),
        ("+0, then -0", are(0, SIGN)),
        ("-0, then +0", are(SIGN, 0)),
        ("a quiet NaN, then a number", one_nan && is_quiet_nan(x)),
        ("a number, then a quiet NaN", one_nan && is_quiet_nan(y)),
        ("a signaling NaN, then a number", {
            one_nan && x.is_nan() && !is_quiet_nan(x)
        }),
        ("a number, then a signaling NaN", {
            one_nan && y.is_nan() && !is_quiet_nan(y)
        }),
        ("two NaNs", x.is_nan() && y.is_nan()),
    ]
}

/// In both orders beside the clause, where a NaN that is given has to be quiet; beside Rust's own
/// where it says what that is.
fn minimum_number(tally: &mut Tally) {
    let mut kinds = Kinds::default();
    for class in COMPARANDS {
        class.each(class.count, |[x, y]| {
            let name = || {
                let [x, y] = [x, y].map(f64::to_bits);
                format!("minimum_number({x:#018x}, {y:#018x})")
            };
            let ours = koshirga::minimum_number(x, y);
            let exchanged = koshirga::minimum_number(y, x);
            let clause = minimum_number_of(x, y);
            let alike =
                |x: f64| x.to_bits() == clause.to_bits() || clause.is_nan() && is_quiet_nan(x);
            tally.compare(Judge::Beside, alike(ours) && alike(exchanged), || {
                format!(
                    "{}: {ours:?}, exchanged {exchanged:?}, clause {clause:?}",
                    name()
                )
            });
            if rust_fixes_minimum(x, y) {
                let rust = x.min(y);
                tally.compare(Judge::Rust, same(ours, rust), || {
                    format!("{}: {ours:?}, Rust {rust:?}", name())
                });
            }
            kinds.count(&kinds_of_comparands(x, y));
        });
    }
    kinds.all_reached(tally);
}

fn floor(tally: &mut Tally) {
    integral(tally, 4, "floor", koshirga::floor, f64::floor);
}

fn ceil(tally: &mut Tally) {
    integral(tally, 5, "ceil", koshirga::ceil, f64::ceil);
}

fn integral(tally: &mut Tally, seed: u64, name: &str, ours: fn(f64) -> f64, rust: fn(f64) -> f64) {
    Patterns::each(seed, |bits| {
        let x = f64::from_bits(bits);
        let (ours, rust) = (ours(x), rust(x));
        tally.compare(Judge::Rust, same(ours, rust), || {
            format!("{name}({bits:#018x}): {ours:?}, Rust {rust:?}")
        });
    });
}

/// The pattern of −2^63, the least number of the signed range.
const LEAST_OF_RANGE: u64 = SIGN | (BIAS + 63) << SIGNIFICAND_DIGITS;

/// What W-207 says of a converted value, which Rust's conversion doesn't: read from the fields of
/// the pattern (IEEE 754-2019, 3.4), without a comparison or a rounding of doubles.
pub fn conversion_by_fields(bits: u64) -> Conversion {
    let exponent = bits >> SIGNIFICAND_DIGITS & (EXPONENT_FIELDS - 1);
    let significand = bits & SIGNIFICAND;
    // The digits behind the point; below 1 they are all of the number.
    let fraction = match exponent {
        ..BIAS => bits & !SIGN,
        _ => significand & SIGNIFICAND >> (exponent - BIAS).min(63),
    };
    if exponent == EXPONENT_FIELDS - 1 && significand != 0 {
        Conversion::NotANumber
    } else if exponent >= BIAS + 63 && bits != LEAST_OF_RANGE {
        Conversion::Held
    } else if fraction != 0 {
        Conversion::Cut
    } else {
        Conversion::Kept
    }
}

/// Whether Rust's conversion holds `x` at an end: that to a wider range gives another number.
pub fn is_held(x: f64) -> bool {
    x as i128 != i128::from(x as i64)
}

/// The cases at and beside the ends of the range and zero; whether a pattern is one.
fn kinds_of_conversion(bits: u64, how: Conversion) -> [(&'static str, bool); 9] {
    let x = f64::from_bits(bits);
    let above_range = 2f64.powi(63);
    [
        ("kept", how == Conversion::Kept),
        ("kept: -0", bits == SIGN),
        ("kept: -2^63", bits == LEAST_OF_RANGE),
        ("cut", how == Conversion::Cut),
        ("cut: to 0", how == Conversion::Cut && x.abs() < 1.0),
        ("held: 2^63", x == above_range),
        (
            "held: the next double below -2^63",
            x == (-above_range).next_down(),
        ),
        ("held: an infinity", x.is_infinite()),
        ("not a number", how == Conversion::NotANumber),
    ]
}

/// The number beside Rust's, the case beside the fields. On these patterns the two readings of
/// "held" have to agree too.
fn to_i64(tally: &mut Tally) {
    let mut kinds = Kinds::default();
    Patterns::each(6, |bits| {
        let x = f64::from_bits(bits);
        let (Converted { whole, how }, rust) = (koshirga::to_i64(x), x as i64);
        tally.compare(Judge::Rust, whole == rust, || {
            format!("to_i64({bits:#018x}): {whole}, Rust {rust}")
        });
        let (by_fields, held) = (conversion_by_fields(bits), is_held(x));
        let agree = held == (by_fields == Conversion::Held);
        tally.compare(Judge::Beside, how == by_fields && agree, || {
            format!("to_i64({bits:#018x}): {how:?}, by its fields {by_fields:?}, held {held}")
        });
        kinds.count(&kinds_of_conversion(bits, by_fields));
    });
    kinds.all_reached(tally);
}

/// Whether two floats have the same bits. NaN bits are free.
pub fn same_f32(x: f32, y: f32) -> bool {
    x.to_bits() == y.to_bits() || (x.is_nan() && y.is_nan())
}

const SIGNIFICAND_DIGITS_OF_F32: u32 = 23;
const INFINITY_OF_F32: u32 = f32::INFINITY.to_bits();
/// The exponent field of a double whose magnitude is that of the least normal number of binary32.
const LEAST_NORMAL_FIELD: u64 = BIAS - 126;

/// How a finite double is rounded to binary32 (IEEE 754-2019, 4.3.1), in whole numbers from the fields
/// of its pattern (3.4): its digits are split at the last place of the result.
#[derive(Clone, Copy)]
pub struct Narrowed {
    /// The digits that stay, before the last one is rounded.
    kept: u64,
    /// The digits behind it, and half of a unit of the last one that stays.
    rest: u64,
    half: u64,
    /// The pattern of the result's magnitude.
    magnitude: u32,
}

impl Narrowed {
    /// None for an infinity or a NaN.
    pub fn of(bits: u64) -> Option<Self> {
        let field = bits >> SIGNIFICAND_DIGITS & (EXPONENT_FIELDS - 1);
        let (digits, field) = match field {
            0 => (bits & SIGNIFICAND, 1),
            _ => (bits & SIGNIFICAND | 1 << SIGNIFICAND_DIGITS, field),
        };
        if field == EXPONENT_FIELDS - 1 {
            return None;
        }
        // Below the least normal number the last place stays. From 54 on nothing is left of a double.
        let behind = u64::from(SIGNIFICAND_DIGITS - SIGNIFICAND_DIGITS_OF_F32)
            + LEAST_NORMAL_FIELD.saturating_sub(field).min(30);
        let (kept, rest) = (digits >> behind, digits & ((1 << behind) - 1));
        let half = 1 << (behind - 1);
        let up = rest > half || (rest == half && kept % 2 == 1);
        let exponents = field.saturating_sub(LEAST_NORMAL_FIELD) << SIGNIFICAND_DIGITS_OF_F32;
        let magnitude = exponents + kept + u64::from(up);
        Some(Narrowed {
            kept,
            rest,
            half,
            magnitude: magnitude.min(u64::from(INFINITY_OF_F32)) as u32,
        })
    }

    pub fn is_exact(self) -> bool {
        self.rest == 0
    }

    pub fn is_halfway(self) -> bool {
        self.rest == self.half
    }

    /// Whether the magnitude grows.
    pub fn is_up(self) -> bool {
        self.rest > self.half || (self.is_halfway() && self.kept % 2 == 1)
    }

    /// Whether the last place of the result is that of the subnormal numbers.
    pub fn is_subnormal(self) -> bool {
        self.half >> (SIGNIFICAND_DIGITS - SIGNIFICAND_DIGITS_OF_F32) != 0
    }
}

/// The result by these fields.
pub fn narrowed_by_fields(bits: u64) -> f32 {
    let magnitude = match Narrowed::of(bits) {
        Some(narrowed) => narrowed.magnitude,
        None if bits & SIGNIFICAND == 0 => INFINITY_OF_F32,
        None => return f32::NAN,
    };
    f32::from_bits(magnitude | ((bits & SIGN) >> 32) as u32)
}

/// Halfway from 0 to the least subnormal number of binary32, and from the greatest number to 2^128.
const HALFWAY_TO_LEAST: u64 = (BIAS - 150) << SIGNIFICAND_DIGITS;
const HALFWAY_TO_INFINITY: u64 = 0x47ef_ffff_f000_0000;

/// The cases of a conversion to binary32, of one sign; whether a pattern is one.
fn kinds_of_narrowed(bits: u64, narrowed: Option<Narrowed>) -> [(&'static str, bool); 21] {
    let magnitude = bits & !SIGN;
    let is_nan = f64::from_bits(bits).is_nan();
    let finite = |of: fn(Narrowed) -> bool| narrowed.is_some_and(of);
    let normal = finite(|x| !x.is_subnormal() && x.magnitude != INFINITY_OF_F32);
    let subnormal = finite(|x| x.is_subnormal() && x.rest + x.kept != 0);
    let exact = finite(Narrowed::is_exact);
    let halfway = finite(Narrowed::is_halfway);
    let up = finite(Narrowed::is_up);
    let nearer = !exact && !halfway;
    let least_normal = finite(|x| x.magnitude == 1 << SIGNIFICAND_DIGITS_OF_F32);
    let next_power = finite(|x| x.magnitude.trailing_zeros() >= SIGNIFICAND_DIGITS_OF_F32);
    [
        ("normal: a value of binary32", normal && exact),
        ("normal: nearer to the value below", normal && nearer && !up),
        ("normal: nearer to the value above", normal && nearer && up),
        (
            "normal: halfway, the even one below",
            normal && halfway && !up,
        ),
        (
            "normal: halfway, the even one above",
            normal && halfway && up,
        ),
        ("normal: up to a power of 2", normal && up && next_power),
        ("subnormal: a value of binary32", subnormal && exact),
        (
            "subnormal: nearer to the value below",
            subnormal && nearer && !up,
        ),
        (
            "subnormal: nearer to the value above",
            subnormal && nearer && up,
        ),
        (
            "subnormal: halfway, the even one below",
            subnormal && halfway && !up,
        ),
        (
            "subnormal: halfway, the even one above",
            subnormal && halfway && up,
        ),
        (
            "subnormal: up to the least normal number",
            subnormal && up && least_normal,
        ),
        ("a zero", magnitude == 0),
        ("to 0: 2^-150, halfway", magnitude == HALFWAY_TO_LEAST),
        (
            "to 2^-149: the next double above",
            magnitude == HALFWAY_TO_LEAST + 1,
        ),
        (
            "finite: the last double below 2^128 - 2^103",
            magnitude == HALFWAY_TO_INFINITY - 1,
        ),
        (
            "infinite: 2^128 - 2^103, halfway",
            magnitude == HALFWAY_TO_INFINITY,
        ),
        (
            "infinite: the next double above",
            magnitude == HALFWAY_TO_INFINITY + 1,
        ),
        ("an infinity", f64::from_bits(bits).is_infinite()),
        ("a quiet NaN", is_nan && is_quiet_nan(f64::from_bits(bits))),
        (
            "a signaling NaN",
            is_nan && !is_quiet_nan(f64::from_bits(bits)),
        ),
    ]
}

/// Rust's cast rounds to nearest, ties to even (IEEE 754-2019, 4.3.1). The fields have to give the same.
fn to_f32(tally: &mut Tally) {
    let mut kinds = [Kinds::default(), Kinds::default()];
    // Of either sign: operands by exponent field, results by theirs, subnormal ones by their digits.
    let mut operands = [[0; EXPONENT_FIELDS as usize]; 2];
    let mut results = [[0; 256]; 2];
    let mut lengths = [[0; SIGNIFICAND_DIGITS_OF_F32 as usize + 1]; 2];
    for class in NARROWED {
        class.each(class.count, |[x]| {
            let bits = x.to_bits();
            compare_narrowed(tally, x);
            let sign = usize::from(x.is_sign_negative());
            let narrowed = Narrowed::of(bits);
            kinds[sign].count(&kinds_of_narrowed(bits, narrowed));
            operands[sign][(bits >> SIGNIFICAND_DIGITS & (EXPONENT_FIELDS - 1)) as usize] += 1;
            if let Some(Narrowed { magnitude, .. }) = narrowed {
                let field = magnitude >> SIGNIFICAND_DIGITS_OF_F32;
                results[sign][field as usize] += 1;
                if field == 0 {
                    lengths[sign][(32 - magnitude.leading_zeros()) as usize] += 1;
                }
            }
        });
    }
    kinds[0].all_reached_of(", +", tally);
    kinds[1].all_reached_of(", -", tally);
    let rarest = |counts: &[u64]| counts.iter().copied().min().unwrap_or(0);
    let reached = [
        (
            "exponent field of a double",
            operands.map(|counts| rarest(&counts)),
        ),
        (
            "exponent field of a result",
            results.map(|counts| rarest(&counts)),
        ),
        (
            "length of a subnormal result",
            lengths.map(|counts| rarest(&counts[1..])),
        ),
    ];
    for (case, counts) in reached {
        tally.reached(
            format!("the rarest {case}, of either sign"),
            rarest(&counts),
        );
    }
}

fn compare_narrowed(tally: &mut Tally, x: f64) {
    let (ours, rust) = (koshirga::to_f32(x), x as f32);
    let by_fields = narrowed_by_fields(x.to_bits());
    tally.compare(
        Judge::Rust,
        same_f32(ours, rust) && same_f32(rust, by_fields),
        || {
            let [ours, rust, by_fields] = [ours, rust, by_fields].map(f32::to_bits);
            format!(
                "to_f32({:#018x}): {ours:#010x}, Rust {rust:#010x}, by its fields {by_fields:#010x}",
                x.to_bits()
            )
        },
    );
}

/// Patterns of doubles with those of their binary32.
const NARROWED_BY_HAND: [(u64, u32); 18] = [
    (0x0000_0000_0000_0000, 0x0000_0000),
    (0x8000_0000_0000_0000, 0x8000_0000),
    // 0.1; −2.
    (0x3fb9_9999_9999_999a, 0x3dcc_cccd),
    (0xc000_0000_0000_0000, 0xc000_0000),
    // 1 + 2^−24, halfway, and 1 + 3·2^−24, too: the even one below, and above.
    (0x3ff0_0000_1000_0000, 0x3f80_0000),
    (0x3ff0_0000_1000_0001, 0x3f80_0001),
    (0x3ff0_0000_3000_0000, 0x3f80_0002),
    (0x3ff0_0000_2fff_ffff, 0x3f80_0001),
    // 2^−150, the next double, −2^−151, 3·2^−150.
    (0x3690_0000_0000_0000, 0x0000_0000),
    (0x3690_0000_0000_0001, 0x0000_0001),
    (0xb680_0000_0000_0000, 0x8000_0000),
    (0x36a8_0000_0000_0000, 0x0000_0002),
    // 2^−126 less 2^−150, halfway.
    (0x380f_ffff_f000_0000, 0x0080_0000),
    // The last double below 2^128 − 2^103, and that number.
    (0x47ef_ffff_efff_ffff, 0x7f7f_ffff),
    (0x47ef_ffff_f000_0000, 0x7f80_0000),
    (0xc7ef_ffff_f000_0000, 0xff80_0000),
    (0x7fef_ffff_ffff_ffff, 0x7f80_0000),
    (0xfff0_0000_0000_0000, 0xff80_0000),
];

/// The cast, the fields and the engine, each held to what is known by hand.
fn to_f32_by_hand(tally: &mut Tally) {
    for (bits, hand) in NARROWED_BY_HAND {
        let x = f64::from_bits(bits);
        let ours = koshirga::to_f32(x).to_bits();
        let others = [x as f32, narrowed_by_fields(bits)].map(f32::to_bits);
        tally.compare(Judge::Rust, ours == hand && others == [hand; 2], || {
            format!("to_f32({bits:#018x}): {ours:#010x}, Rust and by its fields {others:#010x?}, by hand {hand:#010x}")
        });
    }
}
