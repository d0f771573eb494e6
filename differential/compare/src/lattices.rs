//! The lattices of all 80 frequencies beside the Rust's, their mark, and the refusals of rows 1 and 8.

use crate::check::{Check, Judge, Tally};
use crate::meshes::{Flat, Lattice, FREQUENCIES};
use koshirga::{MeshMut, Refusal};

pub fn checks() -> Vec<Check> {
    vec![
        Check::new("80 lattices", lattices),
        Check::new("refusals", refusals),
    ]
}

/// What a call is lent, and leaves.
#[derive(Clone, PartialEq)]
struct Lent {
    mesh: Flat,
    lists_ascend: bool,
    ids: Vec<u16>,
}

/// What stands in the slices before a call.
fn before(lengths: [usize; 4], lists_ascend: bool) -> Lent {
    Lent {
        mesh: Flat {
            positions: vec![-7.5; lengths[0]],
            starts: vec![0xdead_beef; lengths[1]],
            entries: vec![0xbeef; lengths[2]],
        },
        lists_ascend,
        ids: vec![0xdead; lengths[3]],
    }
}

fn written(frequency: u32, lent: &mut Lent) -> Option<u32> {
    let mesh = MeshMut {
        positions: &mut lent.mesh.positions,
        starts: &mut lent.mesh.starts,
        entries: &mut lent.mesh.entries,
        lists_ascend: &mut lent.lists_ascend,
    };
    koshirga::lattice_geometry(frequency, mesh, &mut lent.ids)
        .err()
        .map(Refusal::number)
}

fn lengths(mesh: &Flat, ids: &[u16]) -> [usize; 4] {
    [
        mesh.positions.len(),
        mesh.starts.len(),
        mesh.entries.len(),
        ids.len(),
    ]
}

fn same_bits(x: &Lent, y: &Lent) -> bool {
    let bits =
        |lent: &Lent| -> Vec<u64> { lent.mesh.positions.iter().map(|p| p.to_bits()).collect() };
    bits(x) == bits(y)
        && x.mesh.starts == y.mesh.starts
        && x.mesh.entries == y.mesh.entries
        && x.ids == y.ids
}

/// Exactly as long as the lattice, and longer: surplus is untouched. The mark, which the Rust has not,
/// is true, whatever it was.
fn lattices(tally: &mut Tally) {
    for frequency in FREQUENCIES {
        let lattice = Lattice::new(frequency);
        let flat = lattice.lists.flat();
        for (surplus, marked) in [
            ([0; 4], false),
            ([0; 4], true),
            ([1, 2, 3, 4], false),
            ([1, 2, 3, 4], true),
        ] {
            let needed = lengths(&flat, &lattice.ids);
            let mut ours = before([0, 1, 2, 3].map(|i| needed[i] + surplus[i]), marked);
            let mut rust = ours.clone();
            rust.mesh.positions[..needed[0]].copy_from_slice(&flat.positions);
            rust.mesh.starts[..needed[1]].copy_from_slice(&flat.starts);
            rust.mesh.entries[..needed[2]].copy_from_slice(&flat.entries);
            rust.ids[..needed[3]].copy_from_slice(&lattice.ids);
            let row = written(frequency as u32, &mut ours);
            tally.compare(
                Judge::Rust,
                row.is_none() && same_bits(&ours, &rust),
                || format!("lattice of frequency {frequency}, surplus {surplus:?}: row {row:?}"),
            );
            tally.compare(Judge::Beside, ours.lists_ascend, || {
                format!("lattice of frequency {frequency}: the mark was {marked}, and is false")
            });
        }
    }
}

/// Rows 1 and 8 leave all four slices and the mark as they were.
fn refusals(tally: &mut Tally) {
    let mut refused = |frequency: u32, lengths: [usize; 4], expected: u32| {
        for marked in [false, true] {
            let lent = before(lengths, marked);
            let mut ours = lent.clone();
            let row = written(frequency, &mut ours);
            let kept = same_bits(&ours, &lent) && ours.lists_ascend == marked;
            tally.compare(Judge::Rows, row == Some(expected) && kept, || {
                format!("lattice of frequency {frequency} in {lengths:?} places, the mark {marked}: row {row:?}")
            });
        }
    };
    for frequency in [0, 81, 82, 1000, u32::MAX] {
        refused(frequency, [200_000; 4], 1);
        refused(frequency, [0; 4], 1);
    }
    for frequency in FREQUENCIES {
        let lattice = Lattice::new(frequency);
        let needed = lengths(&lattice.lists.flat(), &lattice.ids);
        for short in 0..4 {
            let mut places = needed;
            places[short] -= 1;
            refused(frequency as u32, places, 8);
        }
        refused(frequency as u32, [0; 4], 8);
    }
}
