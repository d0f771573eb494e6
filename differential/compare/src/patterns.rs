//! Inputs: bit patterns of doubles, edges and random ones, and vectors of them. Seeds are fixed.

use koshirga::Vector3;

/// Random inputs of each check, beside its edges.
pub const RANDOM: usize = 10_000_000;

pub const SIGN: u64 = 1 << 63;
pub const EXPONENT_FIELDS: u64 = 1 << 11;
pub const BIAS: u64 = 1023;
pub const SIGNIFICAND_DIGITS: u32 = 52;
pub const SIGNIFICAND: u64 = (1 << SIGNIFICAND_DIGITS) - 1;

/// SplitMix64 (Steele, Lea and Flood, "Fast splittable pseudorandom number generators").
pub struct Random(u64);

impl Random {
    pub fn new(seed: u64) -> Self {
        Random(seed)
    }

    pub fn bits(&mut self) -> u64 {
        self.0 = self.0.wrapping_add(0x9e37_79b9_7f4a_7c15);
        let mut z = self.0;
        z = (z ^ (z >> 30)).wrapping_mul(0xbf58_476d_1ce4_e5b9);
        z = (z ^ (z >> 27)).wrapping_mul(0x94d0_49bb_1331_11eb);
        z ^ (z >> 31)
    }

    /// A number below `limit`.
    pub fn below(&mut self, limit: u64) -> u64 {
        self.bits() % limit
    }

    /// From `low` to `high`.
    pub fn between(&mut self, low: i64, high: i64) -> i64 {
        low + self.below((high - low + 1) as u64) as i64
    }

    /// From −1 to 1.
    pub fn unit(&mut self) -> f64 {
        (self.bits() >> 11) as f64 * 2f64.powi(-52) - 1.0
    }

    /// `bits` moved by at most `ulps`.
    pub fn near(&mut self, bits: u64, ulps: u64) -> u64 {
        bits.wrapping_add(self.below(2 * ulps + 1))
            .wrapping_sub(ulps)
    }

    /// Any sign and significand, an exponent field from `low` to `high`.
    pub fn with_exponent(&mut self, low: u64, high: u64) -> u64 {
        let exponent = low + self.below(high - low + 1);
        (self.bits() & !((EXPONENT_FIELDS - 1) << SIGNIFICAND_DIGITS))
            | exponent << SIGNIFICAND_DIGITS
    }
}

/// The first digit of a stored significand; in a NaN it tells a quiet one (IEEE 754-2019, 6.2.1).
pub const MIDDLE: u64 = 1 << (SIGNIFICAND_DIGITS - 1);

/// The ends and the middle of the significands, with their neighbours.
pub const EDGE_SIGNIFICANDS: [u64; 8] = [
    0,
    1,
    2,
    MIDDLE - 1,
    MIDDLE,
    MIDDLE + 1,
    SIGNIFICAND - 1,
    SIGNIFICAND,
];

/// Patterns at and beside the places where rounding, order or conversion change.
fn edges() -> Vec<u64> {
    let mut positive = Vec::new();
    // Every exponent field: zeros, subnormals, infinities, quiet and signaling NaNs among them.
    for exponent in 0..EXPONENT_FIELDS {
        for significand in EDGE_SIGNIFICANDS {
            positive.push(exponent << SIGNIFICAND_DIGITS | significand);
        }
    }
    // Every single digit of the significand: of subnormals, of the exponents where whole numbers
    // and fractions meet, and of NaN payloads.
    for exponent in (0..2)
        .chain(BIAS - 2..BIAS + 66)
        .chain(EXPONENT_FIELDS - 2..EXPONENT_FIELDS)
    {
        for digit in 0..SIGNIFICAND_DIGITS {
            positive.push(exponent << SIGNIFICAND_DIGITS | 1 << digit);
        }
    }
    // Whole numbers and halves with their neighbours.
    let powers = (0..SIGNIFICAND_DIGITS).map(|k| 1u64 << k);
    let wholes = (0..2048).chain(powers.flat_map(|power| [power - 1, power, power + 1]));
    for whole in wholes {
        for value in [whole as f64, whole as f64 + 0.5] {
            let bits = value.to_bits();
            positive.extend([
                bits,
                bits + 1,
                bits + 2,
                bits.saturating_sub(1),
                bits.saturating_sub(2),
            ]);
        }
    }
    // The ends of the signed and unsigned 64-bit ranges with their neighbours.
    for power in [62, 63, 64] {
        let bits = 2f64.powi(power).to_bits();
        positive.extend(bits - 4..=bits + 4);
    }
    positive
        .iter()
        .flat_map(|&bits| [bits, bits | SIGN])
        .collect()
}

/// Random patterns, most of them where floor, ceiling and conversion have something to do.
pub struct Patterns {
    random: Random,
    edges: Vec<u64>,
}

impl Patterns {
    pub fn new(seed: u64) -> Self {
        Patterns {
            random: Random::new(seed),
            edges: edges(),
        }
    }

    pub fn random(&mut self) -> u64 {
        let random = &mut self.random;
        match random.below(8) {
            0 | 1 => random.bits(),
            2..=4 => random.with_exponent(BIAS - 2, BIAS + 64),
            5 => {
                let digits = random.below(64);
                let whole = (random.bits() as i64 >> digits) as f64;
                random.near(whole.to_bits(), 2)
            }
            6 => {
                let digits = 12 + random.below(52);
                let half = (random.bits() as i64 >> digits) as f64 + 0.5;
                random.near(half.to_bits(), 2)
            }
            _ => self.edges[random.below(self.edges.len() as u64) as usize],
        }
    }

    /// Another pattern, often close to `bits` or its opposite.
    pub fn beside(&mut self, bits: u64) -> u64 {
        match self.random.below(8) {
            0 | 1 => self.random.near(bits, 2),
            2 => bits ^ SIGN,
            3 => bits ^ 1 << self.random.below(64),
            _ => self.random(),
        }
    }

    /// All edges, then `RANDOM` random patterns.
    pub fn each(seed: u64, mut visit: impl FnMut(u64)) {
        let mut patterns = Patterns::new(seed);
        patterns.edges.iter().for_each(|&bits| visit(bits));
        for _ in 0..RANDOM {
            visit(patterns.random());
        }
    }

    /// Pairs: each edge with itself, its opposite, the next edge and one at random; `RANDOM`
    /// random pairs.
    pub fn each_pair(seed: u64, mut visit: impl FnMut(u64, u64)) {
        let mut patterns = Patterns::new(seed);
        for at in 0..patterns.edges.len() {
            let edge = patterns.edges[at];
            let next = patterns.edges[(at + 1) % patterns.edges.len()];
            for other in [edge, edge ^ SIGN, next, patterns.beside(edge)] {
                visit(edge, other);
                visit(other, edge);
            }
        }
        for _ in 0..RANDOM {
            let bits = patterns.random();
            visit(bits, patterns.beside(bits));
        }
    }
}

/// How the components of a vector are chosen.
#[derive(Clone, Copy)]
enum Kind {
    /// From −1 to 1.
    Unit,
    /// Squared lengths on both sides of the ends of row 9.
    Moderate,
    /// Products that overflow and underflow.
    Wide,
    /// Close to the vector before, so that differences cancel.
    NearEarlier,
    SmallWhole,
    AnyPattern,
}

/// One is drawn for each vector.
const KINDS: [Kind; 8] = [
    Kind::Unit,
    Kind::Unit,
    Kind::Unit,
    Kind::Moderate,
    Kind::Wide,
    Kind::NearEarlier,
    Kind::SmallWhole,
    Kind::AnyPattern,
];

/// Random vectors and factors.
pub struct Vectors {
    patterns: Patterns,
    earlier: Vector3,
}

impl Vectors {
    pub fn new(seed: u64) -> Self {
        Vectors {
            patterns: Patterns::new(seed),
            earlier: Vector3::ZERO,
        }
    }

    pub fn vector(&mut self) -> Vector3 {
        let kind = self.kind();
        let earlier = self.earlier;
        let v = Vector3::new(
            self.component(kind, earlier.x),
            self.component(kind, earlier.y),
            self.component(kind, earlier.z),
        );
        self.earlier = v;
        v
    }

    pub fn factor(&mut self) -> f64 {
        let kind = self.kind();
        self.component(kind, 1.0)
    }

    fn kind(&mut self) -> Kind {
        KINDS[self.patterns.random.below(KINDS.len() as u64) as usize]
    }

    fn component(&mut self, kind: Kind, earlier: f64) -> f64 {
        let patterns = &mut self.patterns;
        // Now and then any pattern at all, so that edges stand beside ordinary components too.
        if patterns.random.below(16) == 0 {
            return f64::from_bits(patterns.random());
        }
        let bits = match kind {
            Kind::Unit => return patterns.random.unit(),
            Kind::SmallWhole => return patterns.random.below(9) as f64 - 4.0,
            Kind::Moderate => patterns.random.with_exponent(BIAS - 24, BIAS + 24),
            Kind::Wide => patterns.random.with_exponent(BIAS - 540, BIAS + 540),
            Kind::NearEarlier => patterns.random.near(earlier.to_bits(), 3),
            Kind::AnyPattern => patterns.random(),
        };
        f64::from_bits(bits)
    }

    /// A vector whose squared length is at or close to 2^−40 or 2^40.
    pub fn at_an_end(&mut self) -> Vector3 {
        let random = &mut self.patterns.random;
        let end = 2f64.powi(if random.below(2) == 0 { -20 } else { 20 });
        let mut components = match random.below(2) {
            0 => {
                let mut axis = [0.0; 3];
                axis[random.below(3) as usize] = end;
                axis
            }
            _ => {
                let v = [random.unit(), random.unit(), random.unit()];
                let length = (v[0] * v[0] + v[1] * v[1] + v[2] * v[2]).sqrt();
                v.map(|component| component / length * end)
            }
        };
        let moved = random.below(3) as usize;
        components[moved] = f64::from_bits(random.near(components[moved].to_bits(), 2));
        Vector3::new(components[0], components[1], components[2])
    }
}
