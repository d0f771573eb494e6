//! Why a call was refused.

use std::fmt;

/// A refusal, by the number of its row, and of row 18 an [index](Refusal::index). A call is refused
/// by the first row that holds, in the order that the section "Refusals" of `docs/DATASHEET.md`
/// gives for each call. Later versions may add rows.
///
/// | Row | What was checked | When it refuses |
/// |---:|---|---|
/// | 1 | frequency | it is below 1 or above 80 |
/// | 2 | mesh | there is no vertex or more than 65,536, the positions are not three a vertex, or the grid's side is not that of count and factor |
/// | 3 | mesh | a start list has a wrong length, a neighbour list is over 32, or the part that a query reads runs past its ids or triples |
/// | 4 | mesh | an id is not below the vertex count |
/// | 5 | mesh | a position has a component that is not finite, or a length below 2^-20 or above 2^20 |
/// | 6 | renumbering | the permutation has a wrong length or is no permutation of the ids |
/// | 7 | renumbering | the entries a vertex are neither 1 nor the vertex count |
/// | 8 | lent space | a slice is too short, or an offset is above 4,294,967,295 |
/// | 9 | direction | it has a component that is not finite, or a length below 2^-20 or above 2^20 |
/// | 10 | classifier | the outside flags weigh more than 3 |
/// | 11 | cell | no vertex is placed there |
/// | 12 | adjacent triangles | none has a least weight above minus infinity |
/// | 13 | walk | a vertex is not reached |
/// | 14 | vertex | a given vertex is not below the vertex count |
/// | 15 | steps | no path leads to the target |
/// | 17 | mesh | the first start is not 0, or the last is not the number of entries, ids or triples |
/// | 18 | mesh | a start is below the one before it |
/// | 19 | factor | it is not finite, or below 0.5 or above 4.0 |
/// | 20 | margin | it is above 3 |
///
/// The order for a mesh is 2, 3, 17, 18, 3, 4. Row 3 stands there twice: a wrong length comes
/// before 17 and 18, which read the whole list, and a neighbour list over 32 behind them, as it has
/// a length only where no start falls.
///
/// Rows 3, 4 and 18 also refuse a grid's starts and ids in a query, which reads one part of a list;
/// 17 does not. A packing reads them whole, with no limit of 32: 3 (lengths), 17, 18 and 4, in each
/// the cells before the triangles. Rows 5 and 9 test the squared length as it is computed: from
/// 2^-40 to 2^40 is accepted, ends included. Rows 19 and 20 refuse a grid's
/// [`Settings`](crate::Settings): in the builder behind the mesh's rows, which 5 ends, and in a
/// query and a packing between row 2 for count and positions and row 2 for the side.
///
/// ```
/// use koshirga::Vector3;
///
/// let refusal = Vector3::ZERO.check_direction().unwrap_err();
/// assert_eq!(refusal.number(), 9);
/// assert_eq!(refusal.place(), "direction");
/// println!("{refusal}");
/// ```
#[derive(Clone, Copy, Debug, PartialEq, Eq)]
pub struct Refusal {
    number: u32,
    index: usize,
}

impl Refusal {
    /// An export's answer: 0 where the call was accepted, or else the refusal's number.
    #[inline]
    pub(crate) fn check(code: u32) -> Result<(), Refusal> {
        Refusal::check_at(code, 0)
    }

    /// The same for an answer that has an index, 0 but for row 18.
    #[inline]
    pub(crate) fn check_at(code: u32, index: usize) -> Result<(), Refusal> {
        match code {
            0 => Ok(()),
            number => Err(Refusal { number, index }),
        }
    }

    /// The row's number.
    pub fn number(self) -> u32 {
        self.number
    }

    /// Of row 18, and of no other, the place of the start that is below the one before it, counted
    /// from 0 in its list. In a mesh it is the first such start; in a packing the first of the cell
    /// starts, or where none of these falls, of the triangle starts. In a query it is the one that
    /// ends the part read: 1 more than the direction's cell, in the cell starts, or than the nearest
    /// vertex, in the triangle starts.
    ///
    /// ```
    /// use koshirga::MeshData;
    ///
    /// let mesh = MeshData {
    ///     positions: vec![1.0, 0.0, 0.0, 0.0, 1.0, 0.0, 0.0, 0.0, 1.0],
    ///     starts: vec![0, 3, 2, 4],
    ///     entries: vec![1, 2, 0, 1],
    ///     lists_ascend: false,
    /// };
    /// let refusal = mesh.bfs_vertex_permutation().unwrap_err();
    /// assert_eq!(refusal.number(), 18);
    /// assert_eq!(refusal.index(), Some(2));
    /// ```
    pub fn index(self) -> Option<usize> {
        (self.number == 18).then_some(self.index)
    }

    /// What was checked.
    pub fn place(self) -> &'static str {
        self.row().0
    }

    /// When the row refuses.
    pub fn meaning(self) -> &'static str {
        self.row().1
    }

    fn row(self) -> (&'static str, &'static str) {
        match self.number {
            1 => ("frequency", "it is below 1 or above 80"),
            2 => (
                "mesh",
                "there is no vertex or more than 65,536, the positions are not three a vertex, or \
                 the grid's side is not that of count and factor",
            ),
            3 => (
                "mesh",
                "a start list has a wrong length, a neighbour list is over 32, or the part that a \
                 query reads runs past its ids or triples",
            ),
            4 => ("mesh", "an id is not below the vertex count"),
            5 => (
                "mesh",
                "a position has a component that is not finite, or a length below 2^-20 or above \
                 2^20",
            ),
            6 => (
                "renumbering",
                "the permutation has a wrong length or is no permutation of the ids",
            ),
            7 => (
                "renumbering",
                "the entries a vertex are neither 1 nor the vertex count",
            ),
            8 => (
                "lent space",
                "a slice is too short, or an offset is above 4,294,967,295",
            ),
            9 => (
                "direction",
                "it has a component that is not finite, or a length below 2^-20 or above 2^20",
            ),
            10 => ("classifier", "the outside flags weigh more than 3"),
            11 => ("cell", "no vertex is placed there"),
            12 => (
                "adjacent triangles",
                "none has a least weight above minus infinity",
            ),
            13 => ("walk", "a vertex is not reached"),
            14 => ("vertex", "a given vertex is not below the vertex count"),
            15 => ("steps", "no path leads to the target"),
            17 => (
                "mesh",
                "the first start is not 0, or the last is not the number of entries, ids or \
                 triples",
            ),
            18 => ("mesh", "a start is below the one before it"),
            19 => ("factor", "it is not finite, or below 0.5 or above 4.0"),
            20 => ("margin", "it is above 3"),
            _ => ("archive", "it answered with a row that this crate lacks"),
        }
    }
}

impl fmt::Display for Refusal {
    fn fmt(&self, f: &mut fmt::Formatter) -> fmt::Result {
        let number = self.number;
        let (place, meaning) = self.row();
        write!(f, "refusal {number} ({place}): {meaning}")?;
        match self.index() {
            Some(index) => write!(
                f,
                ": the start at index {index} of its list, counted from 0"
            ),
            None => Ok(()),
        }
    }
}

impl std::error::Error for Refusal {}

#[cfg(test)]
mod tests {
    use super::*;
    use crate::ffi::tests::constants;

    #[test]
    fn accepted_and_refused() {
        assert_eq!(Refusal::check(0), Ok(()));
        assert_eq!(Refusal::check(7).map_err(Refusal::number), Err(7));
        assert_eq!(Refusal::check_at(0, 0), Ok(()));
    }

    /// Only row 18 has an index.
    #[test]
    fn indices() {
        let index = |number| Refusal { number, index: 5 }.index();
        assert_eq!(index(18), Some(5));
        assert!((1..=99).all(|number| number == 18 || index(number).is_none()));
        let refused = Refusal::check_at(18, 5).map_err(Refusal::index);
        assert_eq!(refused, Err(Some(5)));
    }

    #[test]
    fn each_row_has_its_own_text() {
        let text = |number, index| Refusal { number, index }.to_string();
        assert_eq!(
            text(1, 0),
            "refusal 1 (frequency): it is below 1 or above 80"
        );
        assert_eq!(text(13, 0), "refusal 13 (walk): a vertex is not reached");
        assert_eq!(
            text(14, 0),
            "refusal 14 (vertex): a given vertex is not below the vertex count"
        );
        assert_eq!(
            text(15, 0),
            "refusal 15 (steps): no path leads to the target"
        );
        assert_eq!(
            text(17, 0),
            "refusal 17 (mesh): the first start is not 0, or the last is not the number of entries, \
             ids or triples"
        );
        assert_eq!(
            text(18, 2),
            "refusal 18 (mesh): a start is below the one before it: the start at index 2 of its \
             list, counted from 0"
        );
        assert_eq!(
            text(19, 0),
            "refusal 19 (factor): it is not finite, or below 0.5 or above 4.0"
        );
        assert_eq!(text(20, 0), "refusal 20 (margin): it is above 3");
    }

    /// The rows of the header, and no others, are known here and listed in the documentation.
    #[test]
    fn rows_are_those_of_the_header() {
        let rows: Vec<u32> = constants("refusal").map(|(_, number)| number).collect();
        assert!(rows.iter().copied().eq((0..=15).chain(17..=20)), "{rows:?}");
        let row = |number| Refusal { number, index: 0 }.row();
        let lacking = row(u32::MAX);
        let known: Vec<u32> = (0..=99).filter(|&number| row(number) != lacking).collect();
        assert_eq!(known, rows[1..]);
        let listed = known.iter().map(|&number| {
            let (place, meaning) = row(number);
            format!("/// | {number} | {place} | {meaning} |")
        });
        let lines = include_str!("refusal.rs").lines();
        let table = lines.filter(|line| line.starts_with("/// | ")).skip(1);
        assert_eq!(table.collect::<Vec<_>>(), listed.collect::<Vec<_>>());
    }
}
