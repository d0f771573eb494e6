//! The call that reads whether all lists of a mesh ascend (W-208) beside Rust's own `is_sorted` on
//! each list, and its refusals beside the rows' text.

use crate::check::{Check, Judge, Kinds, Rows, Tally};
use crate::grids::row_5;
use crate::meshes::{has_repeats, permutation, Flat, Lattice, Lists, FREQUENCIES};
use crate::patterns::Random;
use crate::renumber::{drawn, rust_renumbered};
use crate::rows::{adjacency_row, by_hand, damage, kinds_of_starts, Reason};

/// Random meshes, and damaged ones.
const MESHES: usize = 100_000;

pub fn checks() -> Vec<Check> {
    vec![
        Check::new("80 lattices", lattices),
        Check::new("random meshes", random_meshes),
        Check::new("lists by hand", lists_by_hand),
        Check::new("starts by hand", starts_by_hand),
        Check::new("refusals", refusals),
    ]
}

/// The refusal, and the mark after the call.
fn read(mesh: &Flat, before: bool) -> (Option<Reason>, bool) {
    let mut lists_ascend = before;
    let answer = koshirga::mark_ascending(mesh.as_mesh(), &mut lists_ascend);
    (answer.err().map(Reason::from), lists_ascend)
}

/// A mesh that no row refuses, with the mark false before and true. Gives whether its lists ascend.
fn compare(tally: &mut Tally, lists: &Lists, name: impl Fn() -> String) -> bool {
    let (mesh, ascend) = (lists.flat(), lists.ascend());
    for before in [false, true] {
        let ours = read(&mesh, before);
        tally.compare(Judge::Beside, ours == (None, ascend), || {
            let name = name();
            format!("{name}, the mark {before} before: {ours:?}, is_sorted {ascend}")
        });
    }
    ascend
}

/// How often the mark was set and cleared: each mesh was read with both values before.
fn count_marks(kinds: &mut Kinds, ascend: bool) {
    kinds.count(&[
        ("set: false before, true after", ascend),
        ("cleared: true before, false after", !ascend),
    ]);
}

/// The places of entries that are below the one before them: the list, and the place in it.
fn falls(lists: &Lists) -> Vec<(usize, usize)> {
    let of_list = |(v, list): (usize, &Vec<u16>)| -> Vec<(usize, usize)> {
        let falling = |&at: &usize| list[at] < list[at - 1];
        (1..list.len()).filter(falling).map(|at| (v, at)).collect()
    };
    lists
        .neighbors
        .iter()
        .enumerate()
        .flat_map(of_list)
        .collect()
}

/// Exchanges two neighbouring entries that differ; none where there are no such.
pub fn exchange(random: &mut Random, lists: &mut Lists) {
    let different = |list: &[u16]| -> Vec<usize> {
        (1..list.len())
            .filter(|&at| list[at] != list[at - 1])
            .collect()
    };
    let places: Vec<(usize, usize)> = lists
        .neighbors
        .iter()
        .enumerate()
        .flat_map(|(v, list)| different(list).into_iter().map(move |at| (v, at)))
        .collect();
    if !places.is_empty() {
        let (v, at) = places[random.below(places.len() as u64) as usize];
        lists.neighbors[v].swap(at - 1, at);
    }
}

/// As the Rust makes them, with two entries exchanged, and as the Rust's renumbering at random leaves
/// them, before and after its lists are sorted.
fn lattices(tally: &mut Tally) {
    let mut random = Random::new(151);
    let (mut kinds, mut marks) = (Kinds::default(), Kinds::default());
    for frequency in FREQUENCIES {
        let lists = Lattice::new(frequency).lists;
        let mut exchanged = lists.clone();
        exchange(&mut random, &mut exchanged);
        let by = permutation(&mut random, lists.vertices.len());
        let start = drawn(&mut random, &lists);
        let rust = rust_renumbered(&mut tally.left, &start, &by, 1);
        let sorted = rust.state.mesh.lists();
        let [whole, exchanged, unsorted, sorted] = [
            ("as it is", &lists),
            ("with two entries exchanged", &exchanged),
            ("renumbered and not sorted", &rust.unsorted),
            ("renumbered and sorted", &sorted),
        ]
        .map(|(how, lists)| {
            let ascend = compare(tally, lists, || format!("lattice {frequency}, {how}"));
            count_marks(&mut marks, ascend);
            ascend
        });
        kinds.count(&[
            ("set: a lattice", whole),
            ("cleared: two entries exchanged", !exchanged),
            ("cleared: renumbered and not sorted", !unsorted),
            ("set: renumbered and sorted", sorted),
        ]);
    }
    kinds.all_reached(tally);
    marks.all_reached(tally);
}

/// The kinds of lists, and whether a mesh's are of them.
fn kinds_of_lists(lists: &Lists) -> [(&'static str, bool); 11] {
    let falls = falls(lists);
    let neighbors = &lists.neighbors;
    let entries = neighbors.concat();
    let ascend = falls.is_empty();
    let repeats = neighbors.iter().any(|list| has_repeats(list));
    let last = neighbors.len() - 1;
    let one = |is: &dyn Fn(usize, usize) -> bool| matches!(falls[..], [(v, at)] if is(v, at));
    [
        ("set: no entry at all", ascend && entries.is_empty()),
        ("set: no repeats", ascend && !repeats && !entries.is_empty()),
        ("set: repeats side by side", ascend && repeats),
        (
            "set: a list begins below the end of the one before it",
            ascend && !entries.is_sorted(),
        ),
        ("cleared: one fall, in the first list", one(&|v, _| v == 0)),
        (
            "cleared: one fall, in a list between",
            one(&|v, _| v > 0 && v < last),
        ),
        (
            "cleared: one fall, in the last list",
            one(&|v, _| v == last && last > 0),
        ),
        (
            "cleared: one fall, at the second entry of several",
            one(&|v, at| at == 1 && neighbors[v].len() > 2),
        ),
        (
            "cleared: one fall, at the last entry of several",
            one(&|v, at| at + 1 == neighbors[v].len() && at > 1),
        ),
        ("cleared: one fall, and repeats", one(&|_, _| repeats)),
        ("cleared: several falls", falls.len() > 1),
    ]
}

/// Lists as they are drawn, sorted, and sorted with two neighbouring entries exchanged.
fn random_lists(random: &mut Random) -> Lists {
    let mut lists = Lists::random(random);
    let how = random.below(4);
    if how > 0 {
        lists.sort();
    }
    if how > 1 {
        exchange(random, &mut lists);
    }
    lists
}

fn random_meshes(tally: &mut Tally) {
    let mut random = Random::new(152);
    let (mut kinds, mut marks) = (Kinds::default(), Kinds::default());
    for _ in 0..MESHES {
        let lists = random_lists(&mut random);
        let ascend = compare(tally, &lists, || format!("{:?}", lists.neighbors));
        kinds.count(&kinds_of_lists(&lists));
        count_marks(&mut marks, ascend);
    }
    kinds.all_reached(tally);
    marks.all_reached(tally);
}

/// Lists, and whether they ascend, by hand: "ascending order, repeats side by side".
const BY_HAND: [(&[&[u16]], bool); 10] = [
    (&[&[]], true),
    (&[&[0]], true),
    (&[&[0, 0, 0]], true),
    (&[&[1], &[0]], true),
    (&[&[0, 1], &[1, 0]], false),
    (&[&[1, 0], &[0, 1]], false),
    // Each list by itself: the second begins below the first's end.
    (&[&[1, 2], &[0, 2], &[0, 1]], true),
    // Repeats, side by side and not.
    (&[&[0, 1, 1, 2], &[], &[2, 2]], true),
    (&[&[1, 0, 1], &[], &[2, 2]], false),
    (&[&[0, 1], &[0, 2, 1], &[0, 1]], false),
];

/// The reading and the engine, both held to what is known by hand.
fn lists_by_hand(tally: &mut Tally) {
    for (neighbors, hand) in BY_HAND {
        let lists = Lists {
            vertices: vec![[1.0, 2.0, 3.0]; neighbors.len()],
            neighbors: neighbors.iter().map(|list| list.to_vec()).collect(),
        };
        for before in [false, true] {
            let ours = read(&lists.flat(), before);
            let same = ours == (None, hand) && lists.ascend() == hand;
            tally.compare(Judge::Beside, same, || {
                format!("{neighbors:?}, the mark {before} before: {ours:?}, by hand {hand}")
            });
        }
    }
}

/// The rows' reading and the engine, both held to what is known by hand.
fn starts_by_hand(tally: &mut Tally) {
    for (mesh, reason) in by_hand() {
        let row = adjacency_row(&mesh);
        for before in [false, true] {
            let ours = read(&mesh, before);
            let same = row == Some(reason) && ours == (Some(reason), before);
            tally.compare(Judge::Rows, same, || {
                format!("reading of {mesh:?}, the mark {before} before: {ours:?}, by hand {reason:?}, rows {row:?}")
            });
        }
    }
}

/// Rows 2, 3, 17, 18 and 4 leave the mark as it was. There is no row 5, and no row 8.
fn refusals(tally: &mut Tally) {
    let mut random = Random::new(153);
    let mut rows = Rows::default();
    let (mut starts, mut kinds) = (Kinds::default(), Kinds::default());
    for _ in 0..MESHES {
        let mut mesh = random_lists(&mut random).flat();
        for _ in 0..random.below(3) {
            damage(&mut random, &mut mesh);
        }
        if random.below(4) == 0 && !mesh.positions.is_empty() {
            let at = random.below(mesh.positions.len() as u64) as usize;
            mesh.positions[at] = [f64::NAN, f64::INFINITY, 1e7, -2e6][random.below(4) as usize];
        }
        let row = adjacency_row(&mesh);
        let ascend = row.is_none() && mesh.lists().ascend();
        let by_row_5 = row.is_none() && row_5(&mesh);
        for before in [false, true] {
            let ours = read(&mesh, before);
            let (judge, after) = match row {
                Some(_) => (Judge::Rows, before),
                None => (Judge::Beside, ascend),
            };
            tally.compare(judge, ours == (row, after), || {
                format!("reading of {mesh:?}, the mark {before} before: {ours:?}, rows {row:?}, the mark should be {after}")
            });
            rows.count(row);
            kinds.count(&[
                ("refused, the mark false", row.is_some() && !before),
                ("refused, the mark true", row.is_some() && before),
                ("accepted, and set", ascend && !before),
                ("accepted, and cleared", row.is_none() && !ascend && before),
                ("accepted, where row 5 refuses a grid", by_row_5),
            ]);
        }
        starts.count(&kinds_of_starts(&mesh, row));
    }
    rows.all_reached(tally, &[2, 3, 17, 18, 4]);
    starts.all_reached(tally);
    kinds.all_reached(tally);
}
