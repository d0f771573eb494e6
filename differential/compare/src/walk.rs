//! The breadth-first order beside the Rust's, also of renumbered meshes, and its refusals beside the
//! rows' text.

use crate::check::{Check, Judge, Kinds, Rows, Tally};
use crate::meshes::{permutation, Flat, Lattice, Lists, FREQUENCIES};
use crate::patterns::Random;
use crate::renumber::{self, drawn, Renumbered};
use crate::rows::{adjacency_row, by_hand, damage, kinds_of_starts, Reason};
use icotable_oracle as rust;

/// Random meshes, and damaged ones.
const MESHES: usize = 100_000;
/// What stands in a lent slice before the call.
const BEFORE: u32 = 0xdead_beef;

pub fn checks() -> Vec<Check> {
    vec![
        Check::new("80 lattices", lattices),
        Check::new("random meshes", random_meshes),
        Check::new("80 lattices, renumbered", renumbered_lattices),
        Check::new("random meshes, renumbered", renumbered_meshes),
        Check::new("starts by hand", starts_by_hand),
        Check::new("refusals", refusals),
    ]
}

/// What a call leaves: its answer and both slices.
pub type Outcome = (Result<u32, Reason>, Vec<u32>, Vec<u32>);

pub fn walked(mesh: &Flat, order_places: usize, queue_places: usize) -> Outcome {
    let (mut order, mut queue) = (vec![BEFORE; order_places], vec![BEFORE; queue_places]);
    let answer = koshirga::bfs_vertex_permutation(mesh.as_mesh(), &mut order, &mut queue);
    (answer.map_err(Reason::from), order, queue)
}

/// What a refusal leaves that comes before the walk.
pub fn refused(reason: Reason, order_places: usize, queue_places: usize) -> Outcome {
    let [order, queue] = [order_places, queue_places].map(|places| vec![BEFORE; places]);
    (Err(reason), order, queue)
}

/// From the Rust's order: the queue holds the reached ids by their new ids; the entries read are
/// those of the reached ids' lists. Surplus places are untouched.
pub fn rust_outcome(neighbors: &[Vec<u16>], order_places: usize, queue_places: usize) -> Outcome {
    let new_of_old = rust::bfs_vertex_permutation(neighbors);
    let (mut order, mut queue) = (vec![BEFORE; order_places], vec![BEFORE; queue_places]);
    let mut read = 0;
    let mut reached = 0;
    for (old, &new) in new_of_old.iter().enumerate() {
        order[old] = u32::MAX;
        if new != usize::MAX {
            order[old] = new as u32;
            queue[new] = old as u32;
            read += neighbors[old].len() as u32;
            reached += 1;
        }
    }
    let all = reached == neighbors.len();
    let answer = if all { Ok(read) } else { Err(Reason::row(13)) };
    (answer, order, queue)
}

fn compare(tally: &mut Tally, lists: &Lists, surplus: [usize; 2]) {
    let mesh = lists.flat();
    compare_walks(tally, &mesh, lists, surplus, || {
        format!("{:?}", lists.neighbors)
    });
}

/// The engine's walk of its mesh, and the Rust's of its own.
fn compare_walks(
    tally: &mut Tally,
    mesh: &Flat,
    lists: &Lists,
    surplus: [usize; 2],
    name: impl Fn() -> String,
) {
    let places = surplus.map(|more| mesh.count() + more);
    let ours = walked(mesh, places[0], places[1]);
    let rust = rust_outcome(&lists.neighbors, places[0], places[1]);
    held_to_rust(tally, &ours, &rust, name);
}

/// The order is the Rust's. Queue and answer, which it does not return, are worked out from it; row
/// 13 is the text's.
fn held_to_rust(tally: &mut Tally, ours: &Outcome, rust: &Outcome, name: impl Fn() -> String) {
    let describe = || format!("walk of {}: {ours:?}, Rust {rust:?}", name());
    tally.compare(Judge::Rust, ours.1 == rust.1, describe);
    let judge = match rust.0 {
        Ok(_) => Judge::Beside,
        Err(_) => Judge::Rows,
    };
    tally.compare(judge, ours.0 == rust.0 && ours.2 == rust.2, describe);
}

fn lattices(tally: &mut Tally) {
    for frequency in FREQUENCIES {
        let lattice = Lattice::new(frequency);
        compare(tally, &lattice.lists, [0, 0]);
        compare(tally, &lattice.lists, [3, 5]);
    }
}

fn random_meshes(tally: &mut Tally) {
    let mut random = Random::new(51);
    for _ in 0..MESHES {
        let lists = Lists::random(&mut random);
        let surplus = [random.below(3) as usize, random.below(3) as usize];
        compare(tally, &lists, surplus);
    }
}

/// A mesh renumbered on both sides, and then walked. Whether the walk of the Rust's lists had another
/// order before they were sorted.
fn renumbered(
    tally: &mut Tally,
    random: &mut Random,
    lists: &Lists,
    by: &[usize],
    name: &str,
) -> bool {
    let start = drawn(random, lists);
    let (ours, Renumbered { state, unsorted }) = renumber::compare(tally, &start, by, 1, name);
    let sorted = state.mesh.lists();
    compare_walks(tally, &ours.mesh, &sorted, [0, 0], || name.to_string());
    let order = |lists: &Lists| rust::bfs_vertex_permutation(&lists.neighbors);
    order(&sorted) != order(&unsorted)
}

/// Each by its walk and at random. By its walk it is then walked in the order of the ids, whether its
/// lists are sorted or not.
fn renumbered_lattices(tally: &mut Tally) {
    let mut random = Random::new(53);
    let mut kinds = Kinds::default();
    for frequency in FREQUENCIES {
        let lists = Lattice::new(frequency).lists;
        let walk = rust::bfs_vertex_permutation(&lists.neighbors);
        let name = format!("the lattice of frequency {frequency}, by its walk");
        renumbered(tally, &mut random, &lists, &walk, &name);
        let other = permutation(&mut random, lists.vertices.len());
        let name = format!("the lattice of frequency {frequency}, renumbered at random");
        let differs = renumbered(tally, &mut random, &lists, &other, &name);
        kinds.count(&[("at random: another order before the sort", differs)]);
    }
    kinds.all_reached(tally);
}

/// By their walks where these reach all, by the identity, and at random.
fn renumbered_meshes(tally: &mut Tally) {
    let mut random = Random::new(54);
    let mut kinds = Kinds::default();
    for at in 0..MESHES {
        let lists = Lists::random(&mut random);
        let count = lists.vertices.len();
        let walk = rust::bfs_vertex_permutation(&lists.neighbors);
        let reaches_all = !walk.contains(&usize::MAX);
        let (kind, by) = match random.below(4) {
            0 | 1 if reaches_all => (0, walk),
            2 => (1, (0..count).collect()),
            _ => (2, permutation(&mut random, count)),
        };
        let name = format!("mesh {at}, renumbered by {by:?}");
        let differs = renumbered(tally, &mut random, &lists, &by, &name);
        kinds.count(&[
            ("by the walk", kind == 0),
            (
                "the identity: another order before the sort",
                kind == 1 && differs,
            ),
            (
                "at random: another order before the sort",
                kind == 2 && differs,
            ),
            ("a mesh whose walk does not reach all", !reaches_all),
        ]);
    }
    kinds.all_reached(tally);
    let repeats = tally.left.with_repeats;
    tally.reached("a list out of order, with a repeat".to_string(), repeats);
}

/// The rows' reading and the engine, both held to what is known by hand.
fn starts_by_hand(tally: &mut Tally) {
    for (mesh, reason) in by_hand() {
        let row = adjacency_row(&mesh);
        let ours = walked(&mesh, mesh.count(), mesh.count());
        let hand = refused(reason, mesh.count(), mesh.count());
        tally.compare(Judge::Rows, row == Some(reason) && ours == hand, || {
            format!("walk of {mesh:?}: {ours:?}, by hand {hand:?}, rows {row:?}")
        });
    }
}

/// Rows 2, 3, 17, 18, 4 and 8 leave both slices as they were. Where no row holds the order is the
/// Rust's.
fn refusals(tally: &mut Tally) {
    let mut random = Random::new(52);
    let (mut rows, mut kinds) = (Rows::default(), Kinds::default());
    for _ in 0..MESHES {
        let mut flat = Lists::random(&mut random).flat();
        for _ in 0..random.below(3) {
            damage(&mut random, &mut flat);
        }
        let count = flat.count();
        let mut places = || (count + 2).saturating_sub(random.below(4) as usize);
        let (order_places, queue_places) = (places(), places());
        let short = order_places < count || queue_places < count;
        let row = adjacency_row(&flat).or(short.then_some(Reason::row(8)));
        let ours = walked(&flat, order_places, queue_places);
        let name = || format!("{flat:?}, places {order_places}, {queue_places}");
        kinds.count(&kinds_of_starts(&flat, row));
        let Some(reason) = row else {
            let rust = rust_outcome(&flat.lists().neighbors, order_places, queue_places);
            rows.count(rust.0.err());
            held_to_rust(tally, &ours, &rust, name);
            continue;
        };
        rows.count(row);
        let text = refused(reason, order_places, queue_places);
        tally.compare(Judge::Rows, ours == text, || {
            format!("walk of {}: {ours:?}, rows {text:?}", name())
        });
    }
    rows.all_reached(tally, &[2, 3, 17, 18, 4, 8, 13]);
    kinds.all_reached(tally);
}
