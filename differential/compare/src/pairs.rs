//! A grid's factor and margin: W-210's text read anew, and pairs at and beside the ends of both
//! ranges.

use crate::patterns::Random;
use crate::rows::Reason;
use koshirga::Settings;

/// The pair that the Rust has fixed; the factor is the double 3ff3333333333333.
pub const USUAL: Settings = pair(1.2, 1);

pub const fn pair(factor: f64, margin: u32) -> Settings {
    Settings { factor, margin }
}

/// W-210: "The factor is a double from 0.5 to 4.0, the margin a whole number from 0 to 3. [...] It
/// refuses with 19 a factor out of range or not finite, then with 20 a margin above 3".
pub fn settings_row(settings: Settings) -> Option<Reason> {
    let Settings { factor, margin } = settings;
    let in_range = factor.is_finite() && (0.5..=4.0).contains(&factor);
    if !in_range {
        Some(Reason::row(19))
    } else if margin > 3 {
        Some(Reason::row(20))
    } else {
        None
    }
}

/// Document 01's side with the factor in place of 1.2. Quotient, root and product are each rounded
/// once, to nearest, ties to even (IEEE 754-2019, 4.3.1).
pub fn side(count: usize, factor: f64) -> usize {
    ((count as f64 / 6.0).sqrt() * factor).ceil().max(2.0) as usize
}

/// Both ends of the range and the next doubles inside, 1.2 and the next doubles to it.
pub const FACTORS: [f64; 7] = [
    0.5,
    0.5f64.next_up(),
    1.2f64.next_down(),
    1.2,
    1.2f64.next_up(),
    4.0f64.next_down(),
    4.0,
];

/// Pairs with the row that W-210's text gives for them by hand.
pub const BY_HAND: [(Settings, Option<u32>); 22] = [
    (pair(0.5, 0), None),
    (pair(0.5, 3), None),
    (pair(4.0, 0), None),
    (pair(4.0, 3), None),
    (pair(1.2, 2), None),
    (pair(0.49999999999999994, 1), Some(19)),
    (pair(4.000000000000001, 1), Some(19)),
    (pair(0.0, 0), Some(19)),
    (pair(-0.0, 0), Some(19)),
    (pair(-1.2, 1), Some(19)),
    (pair(f64::INFINITY, 3), Some(19)),
    (pair(f64::NEG_INFINITY, 3), Some(19)),
    (pair(f64::NAN, 1), Some(19)),
    (pair(-f64::NAN, 1), Some(19)),
    // A signaling NaN, and the least and the greatest positive number.
    (pair(f64::from_bits(0x7ff0_0000_0000_0001), 1), Some(19)),
    (pair(f64::from_bits(1), 1), Some(19)),
    (pair(f64::MAX, 1), Some(19)),
    (pair(0.5, 4), Some(20)),
    (pair(4.0, 5), Some(20)),
    (pair(1.2, u32::MAX), Some(20)),
    // Both are out of range.
    (pair(0.49999999999999994, 4), Some(19)),
    (pair(f64::NAN, u32::MAX), Some(19)),
];

/// A pair that neither row refuses: half of the factors are at an end or 1.2, or beside these.
pub fn accepted(random: &mut Random) -> Settings {
    let factor = match random.below(2) {
        0 => FACTORS[random.below(FACTORS.len() as u64) as usize],
        _ => 0.5 + 3.5 * random.unit().abs(),
    };
    pair(factor, random.below(4) as u32)
}

/// A pair that row 19 or 20 refuses; in one of three both are out of range.
pub fn refused(random: &mut Random) -> Settings {
    let Settings { factor, margin } = accepted(random);
    match random.below(3) {
        0 => pair(refused_factor(random), margin),
        1 => pair(factor, refused_margin(random)),
        _ => pair(refused_factor(random), refused_margin(random)),
    }
}

/// One of the factors by hand, or any pattern.
fn refused_factor(random: &mut Random) -> f64 {
    loop {
        let by_hand = BY_HAND[random.below(BY_HAND.len() as u64) as usize].0;
        let factor = match random.below(2) {
            0 => by_hand.factor,
            _ => f64::from_bits(random.bits()),
        };
        if settings_row(pair(factor, 0)).is_some() {
            return factor;
        }
    }
}

/// The least refused ones, the greatest, or any.
fn refused_margin(random: &mut Random) -> u32 {
    match random.below(4) {
        0 => 4,
        1 => 5,
        2 => u32::MAX,
        _ => 4 + random.below(u64::from(u32::MAX) - 3) as u32,
    }
}

/// The kinds of pairs that neither row refuses, and whether one is of them.
pub fn kinds_of_pair(settings: Settings) -> [(&'static str, bool); 11] {
    let Settings { factor, margin } = settings;
    let at = |edge: f64| factor.to_bits() == edge.to_bits();
    let [least, above, before, usual, behind, below, greatest] = FACTORS.map(at);
    let another = !FACTORS.map(at).contains(&true);
    [
        ("factor 0.5", least),
        ("factor 0.5, the next double above", above),
        ("factor 4.0", greatest),
        ("factor 4.0, the next double below", below),
        ("factor 1.2", usual),
        ("factor 1.2, a next double", before || behind),
        ("another factor", another),
        ("margin 0", margin == 0),
        ("margin 1", margin == 1),
        ("margin 2", margin == 2),
        ("margin 3", margin == 3),
    ]
}
