//! The twelve icosahedron points as constants, document 01's section "Vectors".

use crate::Vector3;

/// The bits that `print_points` printed once, x y z of each point.
pub const POINTS: [[u64; 3]; 12] = [
    [0x0000000000000000, 0x0000000000000000, 0x3ff0000000000000],
    [0x3fec9f25c5bfedd9, 0x0000000000000000, 0x3fdc9f25c5bfeddb],
    [0x3fd1b06d1d200914, 0x3feb38880b4603e4, 0x3fdc9f25c5bfeddb],
    [0xbfe727c9716ffb75, 0x3fe0d2ca0da1530e, 0x3fdc9f25c5bfeddb],
    [0xbfe727c9716ffb77, 0xbfe0d2ca0da1530c, 0x3fdc9f25c5bfeddb],
    [0x3fd1b06d1d200910, 0xbfeb38880b4603e5, 0x3fdc9f25c5bfeddb],
    [0x3fe727c9716ffb76, 0x3fe0d2ca0da1530d, 0xbfdc9f25c5bfedd9],
    [0xbfd1b06d1d200912, 0x3feb38880b4603e5, 0xbfdc9f25c5bfedd9],
    [0xbfec9f25c5bfedd9, 0x3c9f924f9f58fd97, 0xbfdc9f25c5bfedd9],
    [0xbfd1b06d1d200915, 0xbfeb38880b4603e4, 0xbfdc9f25c5bfedd9],
    [0x3fe727c9716ffb75, 0xbfe0d2ca0da1530f, 0xbfdc9f25c5bfedd9],
    [0x0000000000000000, 0x0000000000000000, 0xbff0000000000000],
];

/// Stands in the place of the source's function of this name.
pub fn icosahedron_points() -> Vec<Vector3> {
    POINTS
        .iter()
        .map(|bits| Vector3::from(bits.map(f64::from_bits)))
        .collect()
}
