//! Location in closed form on the lattice of a frequency.

use crate::{ffi, Refusal, Vector3, Weights};

/// On which side of each symmetry plane a point lies: whether on the negative one.
#[derive(Clone, Copy, Debug, PartialEq, Eq)]
pub struct Signs {
    /// On the negative side of the first plane.
    pub i: bool,
    /// On the negative side of the second plane.
    pub j: bool,
    /// On the negative side of the third plane.
    pub k: bool,
}

/// Beyond which side planes of a face a point lies.
#[derive(Clone, Copy, Debug, PartialEq, Eq)]
pub struct Outside {
    /// Beyond the first plane; weighs 1.
    pub first: bool,
    /// Beyond the second plane; weighs 2.
    pub second: bool,
    /// Beyond the third plane; weighs 3.
    pub third: bool,
}

/// The master face that the signs and flags choose: flags weigh 1, 2 and 3, and row 10 refuses a
/// sum above 3.
///
/// ```
/// use koshirga::{choose_face, Outside, Signs};
///
/// let signs = Signs { i: false, j: true, k: false };
/// let both = Outside { first: true, second: true, third: false };
/// assert_eq!(choose_face(signs, both), Ok(14));
/// ```
#[inline]
pub fn choose_face(signs: Signs, outside: Outside) -> Result<u32, Refusal> {
    let Signs { i, j, k } = signs;
    let Outside {
        first,
        second,
        third,
    } = outside;
    let answer = ffi::koshirga_choose_face(i, j, k, first, second, third);
    Refusal::check(answer.refusal)?;
    Ok(answer.face)
}

/// A lattice by its frequency, from 1 to 80, and its id table: the twenty faces' slots,
/// (n + 1)(n + 2)/2 each, one face behind another. The ids are the lattice's own: a renumbering of
/// the mesh doesn't change them.
///
/// ```
/// use koshirga::{LatticeGeometry, Vector3};
///
/// let lattice = LatticeGeometry::new(1)?;
/// let direction = Vector3::new(1.0, 2.0, 3.0);
/// let (triple, weights) = lattice.analytic().locate(direction)?;
/// assert_eq!(triple, [2, 1, 0]);
/// assert!(weights.w > weights.u && weights.u > weights.v);
/// assert_eq!(lattice.analytic().find_nearest_vertex(direction)?, 0);
/// # Ok::<(), koshirga::Refusal>(())
/// ```
#[derive(Clone, Copy, Debug)]
pub struct AnalyticLattice<'a> {
    /// The frequency n.
    pub frequency: u32,
    /// The id table.
    pub ids: &'a [u16],
}

impl AnalyticLattice<'_> {
    /// The ids of the triangle that a direction meets, with their weights. Some of the ids may be
    /// equal, and weights may lie outside 0 to 1 or sum to about 0: `docs/DIFFERENCES.md` has such
    /// directions. The direction is not normalised; each operation is rounded by itself (IEEE
    /// 754-2019, 5.4.1 and 4.3.1). Rows 1, 8, 9, 10 and 4 refuse, in this order.
    #[inline]
    pub fn locate(&self, direction: Vector3) -> Result<([u32; 3], Weights), Refusal> {
        let answer = ffi::analytic_locate(self.frequency, self.ids, direction);
        Refusal::check(answer.refusal)?;
        Ok((answer.triple, answer.weights))
    }

    /// The last corner of that triangle with the greatest weight in total order (IEEE 754-2019,
    /// 5.10), at times a neighbour of the nearest vertex. Rows as for `locate`.
    #[inline]
    pub fn find_nearest_vertex(&self, direction: Vector3) -> Result<u32, Refusal> {
        let answer = ffi::analytic_nearest(self.frequency, self.ids, direction);
        Refusal::check(answer.refusal)?;
        Ok(answer.id)
    }
}

#[cfg(test)]
mod tests {
    use super::*;

    /// The id table of frequency 1: each face's corners in the order third, second, first.
    const IDS: [u16; 60] = [
        0, 1, 2, 3, 0, 2, 4, 3, 2, 5, 4, 2, 1, 5, 2, 1, 0, 6, 7, 6, 0, 0, 3, 7, 8, 7, 3, 3, 4, 8,
        9, 8, 4, 4, 5, 9, 10, 9, 5, 5, 1, 10, 6, 10, 1, 6, 7, 11, 7, 8, 11, 8, 9, 11, 9, 10, 11,
        10, 6, 11,
    ];

    fn number<T>(answer: Result<T, Refusal>) -> Option<u32> {
        answer.err().map(Refusal::number)
    }

    #[test]
    fn faces() {
        let signs = Signs {
            i: false,
            j: true,
            k: false,
        };
        let face = |first, second, third| {
            choose_face(
                signs,
                Outside {
                    first,
                    second,
                    third,
                },
            )
        };
        assert_eq!(face(false, false, false), Ok(5));
        assert_eq!(face(true, false, false), Ok(6));
        assert_eq!(face(false, true, false), Ok(0));
        assert_eq!(face(false, false, true), Ok(14));
        assert_eq!(face(true, true, false), Ok(14));
        assert_eq!(number(face(true, false, true)), Some(10));
        assert_eq!(number(face(false, true, true)), Some(10));
        assert_eq!(number(face(true, true, true)), Some(10));
    }

    const LATTICE: AnalyticLattice = AnalyticLattice {
        frequency: 1,
        ids: &IDS,
    };

    #[test]
    fn inside_a_face() {
        let direction = Vector3::new(1.0, 2.0, 3.0);
        let weights = Weights {
            u: 0.3926975535932202,
            v: 0.08668814522747097,
            w: 0.5206143011793088,
        };
        assert_eq!(LATTICE.locate(direction), Ok(([2, 1, 0], weights)));
        assert_eq!(LATTICE.find_nearest_vertex(direction), Ok(0));
    }

    /// The pole is vertex 2. At a vertex no fraction is left over, as in the Rust.
    #[test]
    fn pole() {
        let pole = Vector3::new(0.0, 0.0, 8.0);
        let weights = Weights {
            u: 0.0,
            v: 0.0,
            w: 0.0,
        };
        assert_eq!(LATTICE.locate(pole), Ok(([2, 2, 2], weights)));
        assert_eq!(LATTICE.find_nearest_vertex(pole), Ok(2));
    }

    #[test]
    fn refusals() {
        let direction = Vector3::new(1.0, 2.0, 3.0);
        let locate = |frequency, ids| number(AnalyticLattice { frequency, ids }.locate(direction));
        assert_eq!(locate(0, &IDS), Some(1));
        assert_eq!(locate(81, &IDS), Some(1));
        assert_eq!(locate(1, &IDS[1..]), Some(8));
        assert_eq!(locate(1, &[12; 60]), Some(4));
        assert_eq!(locate(1, &IDS), None);
        assert_eq!(number(LATTICE.locate(Vector3::ZERO)), Some(9));
    }
}
