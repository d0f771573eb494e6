//! A grid that is packed: its rows read anew, and grids that they refuse.

use crate::directions::row_9;
use crate::pairs::{self, settings_row};
use crate::patterns::Random;
use crate::queries::Slices;
use crate::rows::Reason;
use koshirga::{Taken, Vector3};

/// A grid, the lengths of the words and of the floats that it is packed into, and what is taken of them.
#[derive(Clone)]
pub struct Call {
    pub grid: Slices,
    pub lengths: [usize; 2],
    pub taken: Taken,
}

/// How many words and floats a grid fills.
pub fn needed(grid: &Slices) -> [usize; 2] {
    let starts = grid.cell_starts.len() + grid.triangle_starts.len();
    let ids = grid.cell_ids.len() + grid.triples.len();
    [starts + ids, grid.positions.len()]
}

/// Where the lists of words stand, and behind them where the positions do, each in its own slice.
pub fn offsets(grid: &Slices, taken: Taken) -> [u128; 5] {
    let cell_ids = taken.words as u128 + grid.cell_starts.len() as u128;
    let triangle_starts = cell_ids + grid.cell_ids.len() as u128;
    let triples = triangle_starts + grid.triangle_starts.len() as u128;
    [
        taken.words as u128,
        cell_ids,
        triangle_starts,
        triples,
        taken.floats as u128,
    ]
}

/// Whether starts begin at 0 and end at a length, each counting so many places.
fn spans(starts: &[u32], each: u64, length: usize) -> bool {
    let end = starts.last().map(|&last| each * u64::from(last));
    starts.first() == Some(&0) && end == Some(length as u64)
}

/// The index of the first start below the one before it.
pub fn first_fall(starts: &[u32]) -> Option<usize> {
    (1..starts.len()).find(|&at| starts[at] < starts[at - 1])
}

/// The rows of a stored grid that is read whole: each row tests the cell starts, or the cell ids, first,
/// and no list has a greatest length.
fn stored_row(grid: &Slices) -> Option<Reason> {
    let places = grid.positions.len();
    let count = places / 3;
    if places == 0 || places % 3 != 0 || count > 65_536 {
        return Some(Reason::row(2));
    }
    if let Some(reason) = settings_row(grid.settings) {
        return Some(reason);
    }
    let side = pairs::side(count, grid.settings.factor);
    if grid.side as usize != side {
        return Some(Reason::row(2));
    }
    let lengths = [grid.cell_starts.len(), grid.triangle_starts.len()];
    if lengths != [6 * side * side + 1, count + 1] {
        return Some(Reason::row(3));
    }
    // Triangle starts count whole triples.
    if !spans(&grid.cell_starts, 1, grid.cell_ids.len())
        || !spans(&grid.triangle_starts, 3, grid.triples.len())
    {
        return Some(Reason::row(17));
    }
    let fall = first_fall(&grid.cell_starts).or_else(|| first_fall(&grid.triangle_starts));
    if let Some(index) = fall {
        return Some(Reason::fall(index));
    }
    let mut ids = grid.cell_ids.iter().chain(&grid.triples);
    if ids.any(|&id| usize::from(id) >= count) {
        return Some(Reason::row(4));
    }
    let inadmissible = |p: &[f64]| row_9(Vector3::new(p[0], p[1], p[2]));
    let row_5 = grid.positions.chunks(3).any(inadmissible);
    row_5.then_some(Reason::row(5))
}

/// Which row is to refuse a call. Of the offsets and not of the ends of the lists each has to be a u32.
pub fn packing_row(call: &Call) -> Option<Reason> {
    let Call {
        grid,
        lengths,
        taken,
    } = call;
    let behind = [taken.words, taken.floats];
    let fits = |at: usize| {
        let free = lengths[at].checked_sub(behind[at]);
        free.is_some_and(|free| free >= needed(grid)[at])
    };
    let greatest = u128::from(u32::MAX);
    let room = fits(0) && fits(1) && offsets(grid, *taken).iter().all(|&at| at <= greatest);
    stored_row(grid).or((!room).then_some(Reason::row(8)))
}

/// The tests of a packing, in their order.
pub const TESTS: [&str; 14] = [
    "2 (count, positions)",
    "19",
    "20",
    "2 (g)",
    "3 (cell starts)",
    "3 (triangle starts)",
    "17 (cell starts)",
    "17 (triangle starts)",
    "18 (cell starts)",
    "18 (triangle starts)",
    "4 (cell ids)",
    "4 (triples)",
    "5",
    "8",
];

fn some(random: &mut Random, length: usize) -> usize {
    random.below(length.max(1) as u64) as usize
}

/// Of a call that nothing refused before: the test at this place refuses it, unless one before it does,
/// as long as later tests alone are broken besides. Gives why it refuses. The grid has ids, and at least
/// three vertices and three triples.
pub fn break_test(random: &mut Random, test: usize, call: &mut Call) -> Reason {
    let count = call.grid.positions.len() / 3;
    let grid = &mut call.grid;
    match test {
        0 => {
            match random.below(8) {
                0 => grid.positions.clear(),
                1 => grid.positions = vec![1.0; 3 * 65_537],
                2..=4 => drop(grid.positions.pop()),
                _ => grid.positions.push(1.0),
            }
            Reason::row(2)
        }
        1 => {
            let refused = |random: &mut Random| pairs::refused(random).factor;
            let out_of_range = |factor| settings_row(pairs::pair(factor, 0)).is_some();
            while !out_of_range(grid.settings.factor) {
                grid.settings.factor = refused(random);
            }
            Reason::row(19)
        }
        2 => {
            while grid.settings.margin <= 3 {
                grid.settings.margin = pairs::refused(random).margin;
            }
            Reason::row(20)
        }
        3 => {
            let side = grid.side;
            match random.below(5) {
                0 => grid.side = 0,
                1 => grid.side = side.wrapping_sub(1),
                2 => grid.side = u32::MAX,
                // Another factor. Of fewer than three vertices every side is 2.
                3 if count >= 3 && settings_row(grid.settings).is_none() => {
                    let factor = &mut grid.settings.factor;
                    while pairs::side(count, *factor) == side as usize {
                        *factor = pairs::accepted(random).factor;
                    }
                }
                _ => grid.side = side.wrapping_add(1),
            }
            Reason::row(2)
        }
        4 => {
            resize(random, &mut grid.cell_starts);
            Reason::row(3)
        }
        5 => {
            resize(random, &mut grid.triangle_starts);
            Reason::row(3)
        }
        6 => {
            break_span(random, &mut grid.cell_starts, &mut grid.cell_ids);
            Reason::row(17)
        }
        7 => {
            break_span(random, &mut grid.triangle_starts, &mut grid.triples);
            Reason::row(17)
        }
        8 => Reason::fall(lower(random, &mut grid.cell_starts)),
        9 => Reason::fall(lower(random, &mut grid.triangle_starts)),
        10 => {
            foreign(random, count, &mut grid.cell_ids);
            Reason::row(4)
        }
        11 => {
            foreign(random, count, &mut grid.triples);
            Reason::row(4)
        }
        12 => {
            inadmissible(random, &mut grid.positions);
            Reason::row(5)
        }
        _ => {
            too_little_room(random, call);
            Reason::row(8)
        }
    }
}

/// One less or more, or none.
fn resize(random: &mut Random, starts: &mut Vec<u32>) {
    match random.below(4) {
        0 => starts.clear(),
        1 => drop(starts.pop()),
        _ => starts.push(starts.last().copied().unwrap_or(0)),
    }
}

/// The first start is not 0, the last is another, or there are some ids more or less: one, two or three.
fn break_span(random: &mut Random, starts: &mut [u32], ids: &mut Vec<u16>) {
    let by = 1 + some(random, 3);
    match random.below(4) {
        0 => starts
            .iter_mut()
            .take(1)
            .for_each(|first| *first = by as u32),
        1 => {
            let last = starts.last_mut().into_iter();
            last.for_each(|last| *last = [last.wrapping_sub(1), *last + by as u32][by % 2]);
        }
        2 => ids.truncate(ids.len() - by),
        _ => ids.extend([0; 3].iter().take(by)),
    }
}

/// Raises a start above the next one: start 1, the last but one, or any between; in one of four another
/// one behind, too. Gives the index of that which falls first. The first and the last start stay.
fn lower(random: &mut Random, starts: &mut [u32]) -> usize {
    let last = starts.len().saturating_sub(1).max(2);
    let at = match random.below(3) {
        0 => 2,
        1 => last,
        _ => 2 + some(random, last - 1),
    };
    raise(random, starts, at);
    if random.below(4) == 0 {
        let behind = last.saturating_sub(at + 1);
        let again = at + 2 + some(random, behind);
        raise(random, starts, again);
    }
    at
}

/// What stands before a place, above what stands there.
fn raise(random: &mut Random, starts: &mut [u32], at: usize) {
    if at < starts.len() {
        let by = [3, 40, u64::from(u32::MAX)][some(random, 3)];
        starts[at - 1] = starts[at].saturating_add(1 + random.below(by) as u32);
    }
}

/// The count as an id, the greatest one, or any that is none.
fn foreign(random: &mut Random, count: usize, ids: &mut [u16]) {
    let at = match random.below(3) {
        0 => 0,
        1 => ids.len().saturating_sub(1),
        _ => some(random, ids.len()),
    };
    let any = count + some(random, 65_536 - count.min(65_535));
    let id = [count, 65_535, any][some(random, 3)].min(65_535) as u16;
    ids.iter_mut().skip(at).take(1).for_each(|x| *x = id);
}

/// No number, or a vertex whose squared length is out of range.
fn inadmissible(random: &mut Random, positions: &mut [f64]) {
    let at = match random.below(3) {
        0 => 0,
        1 => (positions.len() / 3).saturating_sub(1),
        _ => some(random, positions.len() / 3),
    };
    let (axis, kind) = (some(random, 3), random.below(4));
    let vertex = positions.iter_mut().skip(3 * at).take(3).enumerate();
    vertex.for_each(|(of, x)| match kind {
        0 => *x *= 2f64.powi(-21),
        _ if of == axis => *x = [f64::NAN, f64::INFINITY, -2e6][kind as usize - 1],
        _ => (),
    });
}

/// A taken count past its slice, or too few places behind it, in the words, the floats, or both.
fn too_little_room(random: &mut Random, call: &mut Call) {
    let needed = needed(&call.grid);
    let mut taken = [call.taken.words, call.taken.floats];
    let which = random.below(3);
    for at in [0, 1].into_iter().filter(|&at| which != at) {
        let at = at as usize;
        let least = needed[at].max(1);
        match random.below(6) {
            0 => taken[at] = call.lengths[at],
            1 => taken[at] = call.lengths[at] + 1,
            2 => taken[at] = usize::MAX,
            3 => call.lengths[at] = taken[at] + some(random, least),
            4 => call.lengths[at] = 0,
            _ => call.lengths[at] = taken[at] + least - 1,
        }
    }
    let [words, floats] = taken;
    call.taken = Taken { words, floats };
}
