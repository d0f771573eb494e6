//! Renumbering beside the Rust's with its lists sorted, and its refusals beside the rows' text.

use crate::check::{Check, Judge, Kinds, Left, Rows, Tally};
use crate::meshes::{permutation, Flat, Lattice, Lists, FREQUENCIES};
use crate::patterns::Random;
use crate::rows::{adjacency_row, by_hand, damage, kinds_of_starts, Reason};
use icotable_oracle as rust;
use koshirga::{MeshMut, Scratch};

/// Random meshes, and damaged calls.
const MESHES: usize = 100_000;
/// The last frequency whose data has an entry for each pair of vertices.
const PAIRS_UP_TO: usize = 20;

pub fn checks() -> Vec<Check> {
    vec![
        Check::new("80 lattices", lattices),
        Check::new("data of pairs", pairs),
        Check::new("random meshes", random_meshes),
        Check::new("starts by hand", starts_by_hand),
        Check::new("refusals", refusals),
    ]
}

/// Mesh, the mark that its lists ascend, and data.
#[derive(Clone, Debug)]
pub struct State {
    pub mesh: Flat,
    pub lists_ascend: bool,
    pub values: Vec<f64>,
}

impl State {
    /// All slices and the mark.
    pub fn same(&self, other: &State) -> bool {
        self.same_slices(other) && self.lists_ascend == other.lists_ascend
    }

    fn same_slices(&self, other: &State) -> bool {
        let bits = |x: &[f64], y: &[f64]| {
            x.len() == y.len() && x.iter().zip(y).all(|(x, y)| x.to_bits() == y.to_bits())
        };
        bits(&self.mesh.positions, &other.mesh.positions)
            && self.mesh.starts == other.mesh.starts
            && self.mesh.entries == other.mesh.entries
            && bits(&self.values, &other.values)
    }

    pub fn longest(&self, permutation: &[u32]) -> usize {
        let mesh = &self.mesh;
        let lengths = [
            mesh.positions.len(),
            mesh.starts.len(),
            mesh.entries.len(),
            self.values.len(),
            permutation.len(),
        ];
        lengths.into_iter().max().unwrap_or(0)
    }
}

/// Scratch slices with something in them.
struct Room {
    sources: Vec<u32>,
    old_starts: Vec<u32>,
    old_entries: Vec<u16>,
    done: Vec<u8>,
    held: Vec<f64>,
}

impl Room {
    fn new(places: [usize; 5]) -> Self {
        Room {
            sources: vec![0x5555_5555; places[0]],
            old_starts: vec![0x5555_5555; places[1]],
            old_entries: vec![0x5555; places[2]],
            done: vec![0x55; places[3]],
            held: vec![0.333; places[4]],
        }
    }

    fn untouched(&self) -> bool {
        self.sources.iter().all(|&x| x == 0x5555_5555)
            && self.old_starts.iter().all(|&x| x == 0x5555_5555)
            && self.old_entries.iter().all(|&x| x == 0x5555)
            && self.done.iter().all(|&x| x == 0x55)
            && self.held.iter().all(|&x| x == 0.333)
    }
}

fn renumber(
    state: &mut State,
    permutation: &[u32],
    each: usize,
    room: &mut Room,
) -> Option<Reason> {
    let mesh = MeshMut {
        positions: &mut state.mesh.positions,
        starts: &mut state.mesh.starts,
        entries: &mut state.mesh.entries,
        lists_ascend: &mut state.lists_ascend,
    };
    let scratch = Scratch {
        sources: &mut room.sources,
        old_starts: &mut room.old_starts,
        old_entries: &mut room.old_entries,
        done: &mut room.done,
        held: &mut room.held,
    };
    koshirga::apply_vertex_permutation(mesh, &mut state.values, permutation, each, scratch)
        .err()
        .map(Reason::from)
}

/// What the Rust's renumbering leaves.
pub struct Renumbered {
    /// With each list sorted, and the mark set.
    pub state: State,
    /// The same mesh with its lists as the Rust left them.
    pub unsorted: Lists,
}

/// W-208: "The differential run sorts the Rust's lists after each renumbering, before a walk or grid
/// is built on them." The Rust itself keeps a list's order. Every renumbered mesh of the Rust's comes
/// from here.
pub fn rust_renumbered(
    left: &mut Left,
    state: &State,
    permutation: &[usize],
    each: usize,
) -> Renumbered {
    let mut lists = state.mesh.lists();
    let mut values = state.values.clone();
    let count = lists.vertices.len();
    rust::apply_vertex_permutation(
        permutation,
        &mut lists.vertices,
        &mut lists.neighbors,
        &mut values,
        count,
        each,
    );
    lists.neighbors.iter().for_each(|list| left.count(list));
    let unsorted = lists.clone();
    lists.sort();
    Renumbered {
        state: State {
            mesh: lists.flat(),
            lists_ascend: true,
            values,
        },
        unsorted,
    }
}

fn numbers(permutation: &[usize]) -> Vec<u32> {
    permutation.iter().map(|&id| id as u32).collect()
}

/// Renumbers on both sides and compares: what the engine left, and what the Rust did.
pub fn compare(
    tally: &mut Tally,
    start: &State,
    permutation: &[usize],
    each: usize,
    name: &str,
) -> (State, Renumbered) {
    let ids = numbers(permutation);
    let mut ours = start.clone();
    let refusal = {
        let mut room = Room::new([start.longest(&ids); 5]);
        renumber(&mut ours, &ids, each, &mut room)
    };
    let rust = rust_renumbered(&mut tally.left, start, permutation, each);
    let same = refusal.is_none() && ours.same_slices(&rust.state);
    tally.compare(Judge::Rust, same, || {
        let (vertices, values) = (start.mesh.count(), start.values.len());
        format!("{name}: {vertices} vertices, {values} values, {each} each: {refusal:?}, or other slices than Rust's with sorted lists")
    });
    compare_mark(tally, start, &ours, || name.to_string());
    (ours, rust)
}

/// The mark of an accepted call, which the Rust has not.
fn compare_mark(tally: &mut Tally, start: &State, ours: &State, name: impl Fn() -> String) {
    tally.compare(Judge::Beside, ours.lists_ascend, || {
        let (before, name) = (start.lists_ascend, name());
        format!("{name}: the mark was {before}, and is false")
    });
}

/// The mark before a call, and whether a row refuses the call.
fn kinds_of_mark(start: &State, row: Option<Reason>) -> [(&'static str, bool); 4] {
    let (marked, accepted) = (start.lists_ascend, row.is_none());
    [
        ("accepted, the mark false before", accepted && !marked),
        ("accepted, the mark true before", accepted && marked),
        ("refused, the mark false", !accepted && !marked),
        ("refused, the mark true", !accepted && marked),
    ]
}

/// `count` different values. One in eight is a NaN of any sign, kind and payload: a value is moved
/// with its bits, and bits are compared.
fn values(random: &mut Random, count: usize) -> Vec<f64> {
    let first = random.unit();
    (0..count)
        .map(|at| match random.below(8) {
            0 => f64::from_bits(random.bits() | 0x7ff0_0000_0000_0001),
            _ => first + at as f64,
        })
        .collect()
}

/// The mark before a call.
pub fn mark(random: &mut Random) -> bool {
    random.below(2) == 1
}

/// A mesh with its mark drawn, and one value a vertex.
pub fn drawn(random: &mut Random, lists: &Lists) -> State {
    State {
        mesh: lists.flat(),
        lists_ascend: mark(random),
        values: values(random, lists.vertices.len()),
    }
}

/// The walk's order, the reversed one and a random one.
fn permutations(random: &mut Random, lists: &Lists) -> [(&'static str, Vec<usize>); 3] {
    let count = lists.vertices.len();
    [
        ("walk order", rust::bfs_vertex_permutation(&lists.neighbors)),
        ("reversed", (0..count).rev().collect()),
        ("random", permutation(random, count)),
    ]
}

fn lattices(tally: &mut Tally) {
    let mut random = Random::new(61);
    let mut kinds = Kinds::default();
    for frequency in FREQUENCIES {
        let lists = Lattice::new(frequency).lists;
        let mesh = lists.flat();
        for (name, permutation) in permutations(&mut random, &lists) {
            let length = 2 * mesh.count() + random.below(mesh.count() as u64) as usize;
            let start = State {
                mesh: mesh.clone(),
                lists_ascend: mark(&mut random),
                values: values(&mut random, length),
            };
            let name = format!("{name}, frequency {frequency}");
            compare(tally, &start, &permutation, 1, &name);
            kinds.count(&kinds_of_mark(&start, None)[..2]);
        }
    }
    kinds.all_reached(tally);
}

fn pairs(tally: &mut Tally) {
    let mut random = Random::new(62);
    for frequency in 1..=PAIRS_UP_TO {
        let lists = Lattice::new(frequency).lists;
        let mesh = lists.flat();
        let count = mesh.count();
        for (name, permutation) in permutations(&mut random, &lists) {
            let start = State {
                mesh: mesh.clone(),
                lists_ascend: mark(&mut random),
                values: values(&mut random, count * count + count),
            };
            let name = format!("{name}, frequency {frequency}");
            compare(tally, &start, &permutation, count, &name);
        }
    }
}

/// Data of no value, of less than a slab, and of slabs with a tail.
fn random_state(random: &mut Random, each_of: fn(&mut Random, usize) -> usize) -> (State, usize) {
    let mesh = Lists::random(random).flat();
    let each = each_of(random, mesh.count());
    let slab = mesh.count() * each;
    let length = (random.below(4) as usize * slab) + random.below(slab as u64 + 2) as usize;
    let state = State {
        lists_ascend: mark(random),
        values: values(random, length),
        mesh,
    };
    (state, each)
}

fn one_or_count(random: &mut Random, count: usize) -> usize {
    if random.below(2) == 0 {
        1
    } else {
        count
    }
}

/// One renumbering of eight is by the identity, which sorts the lists and moves nothing else.
fn random_meshes(tally: &mut Tally) {
    let mut random = Random::new(63);
    let mut kinds = Kinds::default();
    for at in 0..MESHES {
        let (start, each) = random_state(&mut random, one_or_count);
        let count = start.mesh.count();
        let identity = random.below(8) == 0;
        let permutation = if identity {
            (0..count).collect()
        } else {
            permutation(&mut random, count)
        };
        compare(tally, &start, &permutation, each, &format!("mesh {at}"));
        let ascend = start.mesh.lists().ascend();
        let of_lists = [
            ("the identity, on lists out of order", identity && !ascend),
            ("the identity, on lists that ascend", identity && ascend),
        ];
        kinds.count(&[&kinds_of_mark(&start, None)[..2], &of_lists].concat());
    }
    kinds.all_reached(tally);
    let repeats = tally.left.with_repeats;
    tally.reached("a list out of order, with a repeat".to_string(), repeats);
}

fn is_permutation(count: usize, permutation: &[u32]) -> bool {
    let mut sorted = permutation.to_vec();
    sorted.sort_unstable();
    sorted.iter().copied().eq(0..count as u32)
}

/// Which row is to refuse a call.
pub fn renumbering_row(
    state: &State,
    ids: &[u32],
    each: usize,
    places: [usize; 5],
) -> Option<Reason> {
    let count = state.mesh.count();
    let longest = state.longest(ids);
    adjacency_row(&state.mesh)
        .or((!is_permutation(count, ids)).then_some(Reason::row(6)))
        .or((each != 1 && each != count).then_some(Reason::row(7)))
        .or(places
            .iter()
            .any(|&room| room < longest)
            .then_some(Reason::row(8)))
}

/// The rows' reading and the engine, both held to what is known by hand.
fn starts_by_hand(tally: &mut Tally) {
    for (mesh, reason) in by_hand() {
        let ids: Vec<u32> = (0..mesh.count() as u32).collect();
        for lists_ascend in [false, true] {
            let start = State {
                values: vec![2.5; mesh.count()],
                mesh: mesh.clone(),
                lists_ascend,
            };
            let places = [start.longest(&ids); 5];
            let row = renumbering_row(&start, &ids, 1, places);
            let (mut ours, mut room) = (start.clone(), Room::new(places));
            let refusal = renumber(&mut ours, &ids, 1, &mut room);
            let kept = ours.same(&start) && room.untouched();
            let same = row == Some(reason) && refusal == Some(reason) && kept;
            tally.compare(Judge::Rows, same, || {
                format!("{start:?}: {refusal:?}, by hand {reason:?}, rows {row:?}, slices and mark as they should be: {kept}")
            });
        }
    }
}

/// Rows 2, 3, 17, 18, 4, 6, 7 and 8 leave every slice and the mark as they were.
fn refusals(tally: &mut Tally) {
    let mut random = Random::new(64);
    let mut rows = Rows::default();
    let (mut kinds, mut marks) = (Kinds::default(), Kinds::default());
    for at in 0..MESHES {
        let (mut start, _) = random_state(&mut random, one_or_count);
        let old_count = start.mesh.count();
        let mut ids = permutation(&mut random, old_count);
        if random.below(3) == 0 {
            damage(&mut random, &mut start.mesh);
        }
        match random.below(8) {
            0 => drop(ids.pop()),
            1 => ids.push(old_count),
            2 => ids[0] = random.below(2 * old_count as u64) as usize,
            _ => (),
        }
        let each = match random.below(6) {
            0 => random.below(2 + old_count as u64) as usize,
            1 => old_count,
            _ => 1,
        };
        let ids = numbers(&ids);
        let needed = start.longest(&ids);
        let mut places = [needed; 5];
        if random.below(3) == 0 {
            let short = &mut places[random.below(5) as usize];
            *short = short.saturating_sub(random.below(3) as usize);
        }
        let row = renumbering_row(&start, &ids, each, places);
        let mut ours = start.clone();
        let mut room = Room::new(places);
        let refusal = renumber(&mut ours, &ids, each, &mut room);
        let (judge, kept) = match row {
            Some(_) => (Judge::Rows, ours.same(&start) && room.untouched()),
            None => {
                let old: Vec<usize> = ids.iter().map(|&id| id as usize).collect();
                let rust = rust_renumbered(&mut tally.left, &start, &old, each);
                compare_mark(tally, &start, &ours, || format!("call {at}"));
                (Judge::Rust, ours.same_slices(&rust.state))
            }
        };
        rows.count(row);
        kinds.count(&kinds_of_starts(&start.mesh, row));
        marks.count(&kinds_of_mark(&start, row));
        tally.compare(judge, refusal == row && kept, || {
            format!("call {at}: {start:?}, {ids:?}, {each} each, places {places:?}: {refusal:?}, rows {row:?}, slices (and a refused call's mark) as they should be: {kept}")
        });
    }
    rows.all_reached(tally, &[2, 3, 17, 18, 4, 6, 7, 8]);
    kinds.all_reached(tally);
    marks.all_reached(tally);
}
