//! Refusals by the text of the rows: a mesh's rows read anew, meshes that they refuse, and the kinds
//! of starts that these have.

use crate::meshes::Flat;
use crate::patterns::Random;
use koshirga::Refusal;

/// Why a call is refused: the number of a row, and the index that row 18 carries.
#[derive(Clone, Copy, Debug, PartialEq, Eq)]
pub struct Reason {
    pub number: u32,
    pub index: Option<usize>,
}

impl Reason {
    /// A row that carries no index.
    pub const fn row(number: u32) -> Self {
        Reason {
            number,
            index: None,
        }
    }

    /// Row 18: the start at the index is below the one before it.
    pub const fn fall(index: usize) -> Self {
        Reason {
            number: 18,
            index: Some(index),
        }
    }
}

impl From<Refusal> for Reason {
    fn from(refusal: Refusal) -> Self {
        Reason {
            number: refusal.number(),
            index: refusal.index(),
        }
    }
}

/// Rows 2 to 4 of document 01 with W-209, read anew: "Leave 3 for a wrong length or a list over 32.
/// It refuses with 17 starts that don't begin at 0 or whose last isn't the entry count, right after
/// the length check, and with 18 starts that fall, carrying the index of the first start below the
/// one before it, before the test for 32."
pub fn adjacency_row(mesh: &Flat) -> Option<Reason> {
    let (positions, starts, entries) = (&mesh.positions, &mesh.starts, &mesh.entries);
    let count = positions.len() / 3;
    if positions.is_empty() || positions.len() % 3 != 0 || count > 65_536 {
        return Some(Reason::row(2));
    }
    if starts.len() != count + 1 {
        return Some(Reason::row(3));
    }
    if starts[0] != 0 || starts[count] as usize != entries.len() {
        return Some(Reason::row(17));
    }
    if let Some(index) = (1..=count).find(|&at| starts[at] < starts[at - 1]) {
        return Some(Reason::fall(index));
    }
    if starts.windows(2).any(|pair| pair[1] - pair[0] > 32) {
        return Some(Reason::row(3));
    }
    let foreign = entries.iter().any(|&id| usize::from(id) >= count);
    foreign.then_some(Reason::row(4))
}

/// Starts, entries and vertices, each with what W-209's text gives for them by hand.
const BY_HAND: [(&[u32], usize, usize, Reason); 9] = [
    (&[0, 3, 2, 4], 4, 3, Reason::fall(2)),
    (&[1, 3, 4], 4, 2, Reason::row(17)),
    (&[0, 2, 5], 4, 2, Reason::row(17)),
    (&[0, 33], 33, 1, Reason::row(3)),
    // A wrong length, and falling.
    (&[0, 3, 2, 4], 4, 2, Reason::row(3)),
    // Two falls: the first.
    (&[0, 5, 3, 2], 2, 3, Reason::fall(2)),
    // The last start.
    (&[0, 1, 5, 4], 4, 3, Reason::fall(3)),
    // Not from 0, and falling.
    (&[1, 0, 4], 4, 2, Reason::row(17)),
    // Falling, and a list over 32.
    (&[0, 33, 3, 4], 4, 3, Reason::fall(2)),
];

/// The meshes of these starts, with their refusals.
pub fn by_hand() -> impl Iterator<Item = (Flat, Reason)> {
    BY_HAND.iter().map(|&(starts, entries, vertices, reason)| {
        let mesh = Flat {
            positions: vec![1.0; 3 * vertices],
            starts: starts.to_vec(),
            entries: vec![0; entries],
        };
        (mesh, reason)
    })
}

fn some(random: &mut Random, length: usize) -> usize {
    random.below(length as u64) as usize
}

/// One change that some row may refuse, or two of the starts.
pub fn damage(random: &mut Random, mesh: &mut Flat) {
    match random.below(12) {
        0 => mesh.positions.clear(),
        1 => drop(mesh.positions.pop()),
        2 => mesh.positions.extend([1.0, 2.0, 3.0]),
        3 => mesh.entries.push(0),
        4 => drop(mesh.entries.pop()),
        5 | 6 if !mesh.entries.is_empty() => {
            let at = some(random, mesh.entries.len());
            mesh.entries[at] = random.below(2 * mesh.count() as u64 + 1) as u16;
        }
        _ => {
            // Any two changes may meet.
            for _ in 0..1 + random.below(2) {
                damage_starts(random, mesh);
            }
        }
    }
}

fn damage_starts(random: &mut Random, mesh: &mut Flat) {
    let entries = mesh.entries.len();
    match random.below(10) {
        0 => drop(mesh.starts.pop()),
        1 => mesh.starts.push(entries as u32),
        2 => {
            if let Some(first) = mesh.starts.first_mut() {
                *first = 1 + random.below(3) as u32;
            }
        }
        3 => {
            if let Some(last) = mesh.starts.last_mut() {
                *last = random.below(2 * entries as u64 + 2) as u32;
            }
        }
        4 if !mesh.starts.is_empty() => {
            let at = some(random, mesh.starts.len());
            mesh.starts[at] = random.below(2 * entries as u64 + 1) as u32;
        }
        5..=8 => fall(random, &mut mesh.starts),
        _ => lengthen(random, mesh),
    }
}

/// A start below the one before it: start 2, as start 1 is not below a 0, or the last, or any. It is
/// lowered, or the one before it raised, so that the last may stay the entry count.
fn fall(random: &mut Random, starts: &mut [u32]) {
    let last = starts.len().saturating_sub(1);
    if last < 2 {
        return;
    }
    let at = match random.below(3) {
        0 => 2,
        1 => last,
        _ => 2 + some(random, last - 1),
    };
    if at < last && starts[at - 1] > 0 && random.below(2) == 0 {
        starts[at] = random.below(u64::from(starts[at - 1])) as u32;
    } else {
        let by = [3, 40, u64::from(u32::MAX)][some(random, 3)];
        starts[at - 1] = starts[at].saturating_add(1 + random.below(by) as u32);
    }
}

/// A list of 32 or 33 in place of another one.
fn lengthen(random: &mut Random, mesh: &mut Flat) {
    let lists = mesh.starts.len().saturating_sub(1);
    if lists == 0 {
        return;
    }
    let at = some(random, lists);
    let [start, end] = [at, at + 1].map(|at| mesh.starts[at]);
    if start <= end && end as usize <= mesh.entries.len() {
        let longer = 32 + random.below(2) as u32;
        mesh.entries
            .splice(start as usize..end as usize, (0..longer).map(|_| 0));
        for next in &mut mesh.starts[at + 1..] {
            *next = next.wrapping_add(longer).wrapping_sub(end - start);
        }
    }
}

/// The kinds of starts, each behind the row that is to refuse it, and whether a mesh is of them.
pub fn kinds_of_starts(mesh: &Flat, row: Option<Reason>) -> [(&'static str, bool); 12] {
    let starts = &mesh.starts;
    let by = |number| row.is_some_and(|reason| reason.number == number);
    let counted = starts.len() == mesh.count() + 1;
    let from_zero = starts.first() == Some(&0);
    let last = starts.len().saturating_sub(1);
    let falls: Vec<usize> = (1..starts.len())
        .filter(|&at| starts[at] < starts[at - 1])
        .collect();
    let falling = !falls.is_empty();
    let long = starts
        .windows(2)
        .any(|pair| pair[0] <= pair[1] && pair[1] - pair[0] > 32);
    let alone = |at: usize| by(18) && falls == [at] && !long && last > 2;
    [
        ("3: a wrong length", by(3) && !counted && !falling),
        (
            "3: a wrong length, and a fall",
            by(3) && !counted && falling,
        ),
        ("17: the first not 0", by(17) && !from_zero && !falling),
        (
            "17: the first not 0, and a fall",
            by(17) && !from_zero && falling,
        ),
        (
            "17: the last not the entry count",
            by(17) && from_zero && !falling,
        ),
        (
            "17: the last not the entry count, and a fall",
            by(17) && from_zero && falling,
        ),
        ("18: one fall, at start 2, the first that can", alone(2)),
        ("18: one fall, in the middle", (3..last).any(alone)),
        ("18: one fall, at the last start", alone(last)),
        ("18: several falls", by(18) && falls.len() > 1 && !long),
        ("18: a fall, and a list over 32", by(18) && long),
        ("3: a list over 32", by(3) && counted && long),
    ]
}
