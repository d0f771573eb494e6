//! What several tests ask with.

use koshirga::Vector3;

const DIRECTIONS: usize = 500;

/// Directions inside the cube, the same in each run (Knuth's linear congruence).
pub fn directions() -> impl Iterator<Item = Vector3> {
    let mut state = 20_261_116_u64;
    let mut component = move || {
        state = state
            .wrapping_mul(6_364_136_223_846_793_005)
            .wrapping_add(1_442_695_040_888_963_407);
        (state >> 11) as f64 / 2f64.powi(52) - 1.0
    };
    (0..DIRECTIONS).map(move |_| Vector3::new(component(), component(), component()))
}
