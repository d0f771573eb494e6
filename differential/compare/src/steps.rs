//! Steps between two vertices and the vertices within so many steps: the whole walk begun at any
//! vertex beside the Rust's, steps beside the least lengths of all pairs, entries read and the order
//! within so many steps beside a plain walk, and refusals beside the rows' text.

use crate::check::{Check, Judge, Kinds, Rows, Tally};
use crate::meshes::{has_repeats, Flat, Lattice, Lists, FREQUENCIES};
use crate::patterns::Random;
use crate::rows::{adjacency_row, by_hand, damage, kinds_of_starts, Reason};
use icotable_oracle as rust;
use koshirga::{MeshData, Steps};

/// Random meshes, and damaged ones.
const MESHES: usize = 100_000;
/// Random meshes of which all pairs are compared.
const SMALL_MESHES: usize = 20_000;
/// Random ends from each of a lattice's three vertices.
const ENDS: usize = 20;
/// What stands in a lent slice before the call.
const BEFORE: u32 = 0xdead_beef;
/// No path leads there.
const NO_PATH: Reason = Reason::row(15);

pub fn checks() -> Vec<Check> {
    vec![
        Check::new("80 lattices", lattices),
        Check::new("random meshes", random_meshes),
        Check::new("lattices 1 to 4, all pairs", whole_lattices),
        Check::new("small meshes, all pairs", small_meshes),
        Check::new("65,536 vertices", greatest_meshes),
        Check::new("by hand", examples_by_hand),
        Check::new("order of rows by hand", rows_by_hand),
        Check::new("starts by hand", starts_by_hand),
        Check::new("refusals", refusals),
        Check::new("refusals, within", refusals_within),
    ]
}

/// What a call leaves: its answer and both slices.
type Outcome<T> = (Result<T, Reason>, [Vec<u32>; 2]);

fn before(places: [usize; 2]) -> [Vec<u32>; 2] {
    places.map(|places| vec![BEFORE; places])
}

fn between(mesh: &Flat, [from, to]: [u32; 2], places: [usize; 2]) -> Outcome<Steps> {
    let [mut order, mut queue] = before(places);
    let answer = koshirga::steps_between(mesh.as_mesh(), from, to, &mut order, &mut queue);
    (answer.map_err(Reason::from), [order, queue])
}

fn within(mesh: &Flat, vertex: u32, steps: usize, places: [usize; 2]) -> Outcome<u32> {
    let [mut order, mut list] = before(places);
    let answer = koshirga::vertices_within(mesh.as_mesh(), vertex, steps, &mut order, &mut list);
    (answer.map_err(Reason::from), [order, list])
}

/// How many places each slice of scratch needs.
fn longest(mesh: &Flat) -> usize {
    let lengths = [mesh.positions.len(), mesh.starts.len(), mesh.entries.len()];
    lengths.into_iter().fold(0, usize::max)
}

/// The list with as many places as it was lent.
fn filled(within: &[u32], places: usize) -> Vec<u32> {
    let mut list = within.to_vec();
    list.resize(places, BEFORE);
    list
}

/// The entry that is a vertex for the first time: the list that it stands in, its place there, and
/// how many entries have been read with it.
#[derive(Clone, Copy)]
struct Met {
    list: usize,
    place: usize,
    read: u32,
}

/// A walk from any vertex to its end.
struct Walk {
    queue: Vec<u32>,
    /// Of each vertex that is reached.
    steps: Vec<Option<u32>>,
    /// Of each vertex that is an entry of a list that is read.
    met: Vec<Option<Met>>,
    read: u32,
}

impl Walk {
    fn new(neighbors: &[Vec<u16>], from: usize) -> Self {
        let count = neighbors.len();
        let mut walk = Walk {
            queue: vec![from as u32],
            steps: vec![None; count],
            met: vec![None; count],
            read: 0,
        };
        walk.steps[from] = Some(0);
        let mut head = 0;
        while let Some(&id) = walk.queue.get(head) {
            let list = id as usize;
            let steps = walk.steps[list].map(|steps| steps + 1);
            for (place, &entry) in neighbors[list].iter().enumerate() {
                let entry = usize::from(entry);
                walk.read += 1;
                let read = walk.read;
                walk.met[entry].get_or_insert(Met { list, place, read });
                if walk.steps[entry].is_none() {
                    walk.steps[entry] = steps;
                    walk.queue.push(entry as u32);
                }
            }
            head += 1;
        }
        walk
    }

    fn reaches_all(&self) -> bool {
        self.queue.len() == self.steps.len()
    }

    fn between(&self, to: usize) -> Result<Steps, Reason> {
        if self.queue[0] as usize == to {
            return Ok(Steps {
                steps: 0,
                entries_read: 0,
            });
        }
        let (Some(steps), Some(met)) = (self.steps[to], self.met[to]) else {
            return Err(NO_PATH);
        };
        Ok(Steps {
            steps,
            entries_read: met.read,
        })
    }

    fn within(&self, steps: usize) -> Vec<u32> {
        let near = |id: &u32| self.steps[*id as usize].is_some_and(|at| at as usize <= steps);
        self.queue.iter().copied().filter(near).collect()
    }

    /// The steps to the last vertex.
    fn greatest(&self) -> usize {
        let steps = self.queue.last().and_then(|&id| self.steps[id as usize]);
        steps.unwrap_or(0) as usize
    }
}

/// The Rust's walk, which begins at vertex 0, begun at another one: both ids are exchanged in its
/// lists, which keep their order, and exchanged back in what it returns.
pub fn rust_walk(neighbors: &[Vec<u16>], from: usize) -> Vec<usize> {
    let exchanged = |&id: &u16| match usize::from(id) {
        0 => from as u16,
        other if other == from => 0,
        _ => id,
    };
    let mut lists: Vec<Vec<u16>> = neighbors
        .iter()
        .map(|list| list.iter().map(exchanged).collect())
        .collect();
    lists.swap(0, from);
    let mut new_of_old = rust::bfs_vertex_permutation(&lists);
    new_of_old.swap(0, from);
    new_of_old
}

/// The list of all that a walk reaches. The place of each vertex in it is the new id that the Rust
/// gives, `usize::MAX` where it reaches none; how many they are is worked out from the Rust's.
fn compare_walk(tally: &mut Tally, lists: &Lists, mesh: &Flat, from: usize, surplus: usize) {
    let count = mesh.count();
    let rust = rust_walk(&lists.neighbors, from);
    let places = [longest(mesh), count + surplus];
    let (answer, [_, list]) = within(mesh, from as u32, usize::MAX, places);
    let reached = answer.map_or(0, |reached| reached as usize);
    let mut ours = vec![usize::MAX; count];
    for (at, &id) in list.iter().take(reached).enumerate() {
        if let Some(place) = ours.get_mut(id as usize) {
            *place = at;
        }
    }
    let describe = || {
        let lists = described(lists);
        format!("walk from {from} of {lists}: {answer:?}, {list:?}, the Rust's order {rust:?}")
    };
    tally.compare(Judge::Rust, ours == rust, describe);
    let reached_by_rust = rust.iter().filter(|&&new| new != usize::MAX).count();
    let behind = list.iter().skip(reached_by_rust);
    let same = answer == Ok(reached_by_rust as u32)
        && behind.eq(&vec![BEFORE; places[1] - reached_by_rust]);
    tally.compare(Judge::Beside, same, describe);
}

pub fn described(lists: &Lists) -> String {
    match lists.neighbors.len() {
        0..=42 => format!("{:?}", lists.neighbors),
        count => format!("a mesh of {count} vertices"),
    }
}

/// Steps and entries read, or refusal 15, against the plain walk's.
fn compare_between(tally: &mut Tally, lists: &Lists, mesh: &Flat, walk: &Walk, to: usize) {
    let from = walk.queue[0];
    let expected = walk.between(to);
    let ours = between(mesh, [from, to as u32], [longest(mesh); 2]).0;
    tally.compare(judge(&expected), ours == expected, || {
        let lists = described(lists);
        format!("steps from {from} to {to} in {lists}: {ours:?}, by a plain walk {expected:?}")
    });
}

/// The list within so many steps, in the order of the plain walk. Gives the engine's.
fn compare_within(
    tally: &mut Tally,
    lists: &Lists,
    mesh: &Flat,
    walk: &Walk,
    steps: usize,
    surplus: usize,
) -> Vec<u32> {
    let from = walk.queue[0];
    let places = [longest(mesh), mesh.count() + surplus];
    let expected = walk.within(steps);
    let (answer, [_, list]) = within(mesh, from, steps, places);
    let same = answer == Ok(expected.len() as u32) && list == filled(&expected, places[1]);
    tally.compare(Judge::Beside, same, || {
        let lists = described(lists);
        format!("within {steps} of {from} in {lists}: {answer:?}, {list:?}, by a plain walk {expected:?}")
    });
    let mut list = list;
    list.truncate(answer.map_or(0, |filled| filled as usize));
    list
}

fn judge<T>(expected: &Result<T, Reason>) -> Judge {
    match expected {
        Ok(_) => Judge::Beside,
        Err(_) => Judge::Rows,
    }
}

/// From vertex 0, the last one and one at random. No walk reads more entries than the engine's whole
/// walk, and as the lists are mutual both ways have equally many steps.
fn lattices(tally: &mut Tally) {
    let mut random = Random::new(251);
    let mut kinds = Kinds::default();
    for frequency in FREQUENCIES {
        let lists = Lattice::new(frequency).lists;
        let mesh = lists.flat();
        let count = mesh.count();
        let [mut order, mut queue] = before([count; 2]);
        let whole = koshirga::bfs_vertex_permutation(mesh.as_mesh(), &mut order, &mut queue).ok();
        for from in [0, count - 1, some(&mut random, count)] {
            compare_walk(tally, &lists, &mesh, from, 3);
            let walk = Walk::new(&lists.neighbors, from);
            let [second, last] = [1, count - 1].map(|at| walk.queue[at] as usize);
            let ends = [from, second, last].into_iter();
            for to in ends.chain((0..ENDS).map(|_| some(&mut random, count))) {
                compare_between(tally, &lists, &mesh, &walk, to);
                let [there, back] = [[from, to], [to, from]]
                    .map(|ends| between(&mesh, ends.map(|id| id as u32), [longest(&mesh); 2]).0);
                let describe = || {
                    format!("lattice {frequency}, {from} and {to}: {there:?}, back {back:?}, the whole walk {whole:?}")
                };
                let steps = |found: Result<Steps, Reason>| found.map(|found| found.steps);
                tally.compare(Judge::Engine, steps(there) == steps(back), describe);
                let read =
                    |found: Result<Steps, Reason>| found.ok().map(|found| found.entries_read);
                let at_most = read(there).is_some() && read(there) <= whole;
                tally.compare(Judge::Engine, at_most, describe);
                kinds.count(&[
                    ("both ends one vertex", from == to),
                    ("more entries read back", read(there) < read(back)),
                    ("fewer entries read back", read(there) > read(back)),
                ]);
            }
            for steps in [
                1,
                walk.greatest() - 1,
                walk.greatest(),
                some(&mut random, 2 * frequency),
            ] {
                compare_within(tally, &lists, &mesh, &walk, steps, 0);
            }
        }
    }
    kinds.all_reached(tally);
}

/// Where the walk does not reach all, the Rust numbers those that it reaches.
fn random_meshes(tally: &mut Tally) {
    let mut random = Random::new(252);
    let mut kinds = Kinds::default();
    for _ in 0..MESHES {
        let lists = Lists::random(&mut random);
        let mesh = lists.flat();
        let from = some(&mut random, mesh.count());
        let surplus = some(&mut random, 3);
        compare_walk(tally, &lists, &mesh, from, surplus);
        let walk = Walk::new(&lists.neighbors, from);
        let to = some(&mut random, mesh.count());
        compare_between(tally, &lists, &mesh, &walk, to);
        let steps = some(&mut random, walk.greatest() + 2);
        compare_within(tally, &lists, &mesh, &walk, steps, surplus);
        let all = walk.reaches_all();
        kinds.count(&[
            ("a walk from vertex 0", from == 0),
            ("from another, and it reaches all", from > 0 && all),
            ("from another, and it does not", from > 0 && !all),
            (
                "from another, and it reaches 0",
                from > 0 && walk.steps[0].is_some(),
            ),
            (
                "from another, and it does not reach 0",
                walk.steps[0].is_none(),
            ),
        ]);
    }
    kinds.all_reached(tally);
}

/// The least lengths of paths for all pairs (Floyd and Warshall), which are found without a walk.
pub fn least_lengths(neighbors: &[Vec<u16>]) -> Vec<Vec<Option<u32>>> {
    let count = neighbors.len();
    let far = u32::MAX / 2;
    let mut least = vec![vec![far; count]; count];
    for (v, list) in neighbors.iter().enumerate() {
        list.iter().for_each(|&id| least[v][usize::from(id)] = 1);
        least[v][v] = 0;
    }
    for by in 0..count {
        for from in 0..count {
            for to in 0..count {
                least[from][to] = least[from][to].min(least[from][by] + least[by][to]);
            }
        }
    }
    let some = |row: Vec<u32>| {
        row.into_iter()
            .map(|length| (length < far).then_some(length))
    };
    least.into_iter().map(|row| some(row).collect()).collect()
}

/// Every pair, and from every vertex every number of steps up to two past the greatest, and the
/// greatest number.
fn compare_all(tally: &mut Tally, lists: &Lists, kinds: &mut Kinds) {
    let neighbors = &lists.neighbors;
    let mesh = lists.flat();
    let count = mesh.count();
    let least = least_lengths(neighbors);
    for from in 0..count {
        let walk = Walk::new(neighbors, from);
        for to in 0..count {
            compare_pair(tally, lists, &mesh, &walk, [from, to], least[from][to]);
            kinds.count(&ways_to_meet(neighbors, &walk, [from, to], &least));
        }
        let greatest = least[from]
            .iter()
            .flatten()
            .max()
            .map_or(0, |&steps| steps as usize);
        for steps in (0..=greatest + 2).chain([1 << 32, usize::MAX]) {
            let list = compare_within(tally, lists, &mesh, &walk, steps, 0);
            let length = |id: u32| least[from].get(id as usize).copied().flatten();
            let near = |id: &u32| length(*id).is_some_and(|length| length as usize <= steps);
            let mut ids = list.clone();
            ids.sort_unstable();
            let same = ids.iter().copied().eq((0..count as u32).filter(near))
                && list.is_sorted_by_key(|&id| length(id));
            tally.compare(Judge::Beside, same, || {
                let lists = described(lists);
                format!(
                    "within {steps} of {from} in {lists}: {list:?}, least lengths {:?}",
                    least[from]
                )
            });
        }
    }
}

/// Steps and row 15 against the least length, entries read against the plain walk.
fn compare_pair(
    tally: &mut Tally,
    lists: &Lists,
    mesh: &Flat,
    walk: &Walk,
    [from, to]: [usize; 2],
    least: Option<u32>,
) {
    let ours = between(mesh, [from, to].map(|id| id as u32), [longest(mesh); 2]).0;
    let describe = || {
        let lists = described(lists);
        let plain = walk.between(to);
        format!("steps from {from} to {to} in {lists}: {ours:?}, least length {least:?}, by a plain walk {plain:?}")
    };
    let expected = least.ok_or(NO_PATH);
    tally.compare(
        judge(&expected),
        ours.map(|found| found.steps) == expected,
        describe,
    );
    if let Ok(Steps { entries_read, .. }) = walk.between(to) {
        let read = ours.map(|found| found.entries_read);
        tally.compare(Judge::Beside, read == Ok(entries_read), describe);
    }
}

/// The ways in which a search can end, and whether it ends so.
fn ways_to_meet(
    neighbors: &[Vec<u16>],
    walk: &Walk,
    [from, to]: [usize; 2],
    least: &[Vec<Option<u32>>],
) -> [(&'static str, bool); 14] {
    let own = neighbors[from].iter().any(|&id| usize::from(id) == from);
    let one = from == to;
    let there = least[from][to].filter(|_| !one);
    let back = least[to][from];
    let met = there.and(walk.met[to]);
    let list = met.map_or(&[][..], |met| &neighbors[met.list]);
    let (ahead, behind) = list.split_at(met.map_or(0, |met| met.place + 1));
    let holds = |part: &[u16], id: usize| part.iter().any(|&entry| usize::from(entry) == id);
    let unmet = there.is_none() && !one;
    [
        ("both ends one vertex, which its list holds", one && own),
        (
            "both ends one vertex, whose list is empty",
            one && neighbors[from].is_empty(),
        ),
        (
            "met as the first entry of all",
            met.is_some_and(|met| met.read == 1),
        ),
        (
            "met as the last entry of several",
            ahead.len() > 1 && behind.is_empty(),
        ),
        ("met with entries behind it", !behind.is_empty()),
        ("met with itself behind it in the list", holds(behind, to)),
        ("met behind a repeat in the list", has_repeats(ahead)),
        ("met behind the start in the list", holds(ahead, from)),
        (
            "met as the last vertex of the queue",
            there.is_some() && walk.queue.last() == Some(&(to as u32)),
        ),
        (
            "the start in its own list, another met",
            own && there.is_some(),
        ),
        ("15, with entries read", unmet && walk.read > 0),
        ("15, without an entry", unmet && walk.read == 0),
        (
            "another number of steps back",
            there.is_some() && back.is_some() && back != there,
        ),
        ("15 back", there.is_some() && back.is_none()),
    ]
}

fn whole_lattices(tally: &mut Tally) {
    for frequency in 1..=4 {
        let lists = Lattice::new(frequency).lists;
        // A lattice has no repeats, no own vertices and no islands.
        compare_all(tally, &lists, &mut Kinds::default());
    }
}

fn small_meshes(tally: &mut Tally) {
    let mut random = Random::new(253);
    let mut kinds = Kinds::default();
    for _ in 0..SMALL_MESHES {
        compare_all(tally, &small_mesh(&mut random), &mut kinds);
    }
    kinds.all_reached(tally);
}

/// Up to 12 vertices, whose lists hold any ids, up to as many as are drawn for the mesh.
pub fn small_mesh(random: &mut Random) -> Lists {
    let count = 1 + random.below(12);
    let most = [1, 2, 3, 6, 32][some(random, 5)];
    let mut list = || -> Vec<u16> {
        let length = random.below(most + 1);
        (0..length).map(|_| random.below(count) as u16).collect()
    };
    Lists {
        neighbors: (0..count).map(|_| list()).collect(),
        vertices: vec![[1.0, 2.0, 3.0]; count as usize],
    }
}

/// As many vertices as row 2 lets pass: a path, whose ends are 65,535 steps apart, and a ring in
/// which each list holds the 16 vertices on either side.
fn greatest_meshes(tally: &mut Tally) {
    let count = 65_536;
    let near = |v: i32, reach: i32| (-reach..=reach).filter(|&by| by != 0).map(move |by| v + by);
    let on_path = |v| near(v, 1).filter(|id| (0..count).contains(id));
    let on_ring = |v| near(v, 16).map(|id| id.rem_euclid(count));
    let of_path: Vec<Vec<u16>> = (0..count)
        .map(|v| on_path(v).map(|id| id as u16).collect())
        .collect();
    let of_ring: Vec<Vec<u16>> = (0..count)
        .map(|v| on_ring(v).map(|id| id as u16).collect())
        .collect();
    for (neighbors, farthest, steps) in [(of_path, 65_535, 65_535), (of_ring, 32_768, 2048)] {
        let lists = Lists {
            neighbors,
            vertices: vec![[1.0, 2.0, 3.0]; count as usize],
        };
        let mesh = lists.flat();
        for from in [0, 1, farthest] {
            let walk = Walk::new(&lists.neighbors, from);
            compare_walk(tally, &lists, &mesh, from, 1);
            for to in [0, 1, 32_767, 32_768, 65_534, 65_535] {
                compare_between(tally, &lists, &mesh, &walk, to);
            }
            for steps in [0, 1, walk.greatest() - 1, walk.greatest()] {
                compare_within(tally, &lists, &mesh, &walk, steps, 1);
            }
        }
        let ours = between(&mesh, [0, farthest as u32], [longest(&mesh); 2]).0;
        let same = ours.map(|found| found.steps) == Ok(steps);
        tally.compare(Judge::Beside, same, || {
            format!("steps from 0 to {farthest} of 65,536: {ours:?}, by hand {steps}")
        });
    }
}

/// Steps and entries from a vertex to another, by hand; none where no path leads there.
type Pair = ([u32; 2], Option<[u32; 2]>);
/// A vertex, steps, and the list by hand.
type Front = (u32, usize, &'static [u32]);

const OF_LATTICE: ([Pair; 5], [Front; 3]) = (
    [
        ([0, 4], Some([2, 14])),
        ([0, 9], Some([3, 34])),
        ([9, 0], Some([3, 31])),
        ([4, 9], Some([1, 5])),
        ([3, 3], Some([0, 0])),
    ],
    [
        (4, 1, &[4, 2, 3, 5, 8, 9]),
        (4, 2, &[4, 2, 3, 5, 8, 9, 0, 1, 7, 10, 11]),
        (4, 3, &[4, 2, 3, 5, 8, 9, 0, 1, 7, 10, 11, 6]),
    ],
);

/// A path of four vertices, and one whose list holds itself alone.
const PATH: &[&[u16]] = &[&[1], &[2, 0], &[3, 1], &[2], &[4]];

/// Lists, with pairs and fronts by hand: the path; repeats and own vertices; lists that are not
/// mutual.
const BY_HAND: [(&[&[u16]], &[Pair], &[Front]); 3] = [
    (
        PATH,
        &[
            ([0, 1], Some([1, 1])),
            ([0, 2], Some([2, 2])),
            ([0, 3], Some([3, 4])),
            ([3, 0], Some([3, 5])),
            ([0, 4], None),
            ([4, 0], None),
            ([4, 4], Some([0, 0])),
        ],
        &[(1, 0, &[1]), (1, 1, &[1, 2, 0]), (1, 9, &[1, 2, 0, 3])],
    ),
    (
        &[&[2, 2, 1], &[0], &[1, 1, 2]],
        &[
            ([0, 1], Some([1, 3])),
            ([0, 2], Some([1, 1])),
            ([2, 0], Some([2, 4])),
            ([2, 2], Some([0, 0])),
        ],
        &[(0, 1, &[0, 2, 1]), (2, 1, &[2, 1])],
    ),
    (
        &[&[1, 2], &[0], &[3], &[]],
        &[
            ([0, 3], Some([2, 4])),
            ([1, 3], Some([3, 4])),
            ([3, 0], None),
        ],
        &[(3, 4, &[3])],
    ),
];

pub fn of_lists(neighbors: &[&[u16]]) -> Lists {
    Lists {
        vertices: vec![[1.0, 2.0, 3.0]; neighbors.len()],
        neighbors: neighbors.iter().map(|list| list.to_vec()).collect(),
    }
}

/// The plain walk and the engine, both held to what is known by hand.
fn examples_by_hand(tally: &mut Tally) {
    let lattice = Lattice::new(1).lists;
    compare_by_hand(tally, &lattice, &OF_LATTICE.0, &OF_LATTICE.1);
    for (neighbors, pairs, fronts) in BY_HAND {
        compare_by_hand(tally, &of_lists(neighbors), pairs, fronts);
    }
}

fn compare_by_hand(tally: &mut Tally, lists: &Lists, pairs: &[Pair], fronts: &[Front]) {
    let mesh = lists.flat();
    for &([from, to], found) in pairs {
        let hand = found.ok_or(NO_PATH).map(|[steps, entries_read]| Steps {
            steps,
            entries_read,
        });
        let ours = between(&mesh, [from, to], [longest(&mesh); 2]).0;
        let plain = Walk::new(&lists.neighbors, from as usize).between(to as usize);
        tally.compare(judge(&hand), ours == hand && plain == hand, || {
            let lists = described(lists);
            format!(
                "steps from {from} to {to} in {lists}: {ours:?}, plain {plain:?}, by hand {hand:?}"
            )
        });
    }
    for &(vertex, steps, hand) in fronts {
        let (answer, [_, list]) = within(&mesh, vertex, steps, [longest(&mesh), mesh.count()]);
        let plain = Walk::new(&lists.neighbors, vertex as usize).within(steps);
        let same = answer == Ok(hand.len() as u32) && list == filled(hand, mesh.count());
        tally.compare(Judge::Beside, same && plain == hand, || {
            let lists = described(lists);
            format!("within {steps} of {vertex} in {lists}: {answer:?}, {list:?}, plain {plain:?}, by hand {hand:?}")
        });
    }
}

/// What refuses a call that is given vertices and slices, in the order of the rows; `short` says that
/// a slice is too short. Row 15 is the last, and not here.
fn row_before_search(mesh: &Flat, given: &[u32], short: bool) -> Option<Reason> {
    let foreign = given.iter().any(|&id| id as usize >= mesh.count());
    adjacency_row(mesh)
        .or(foreign.then_some(Reason::row(14)))
        .or(short.then_some(Reason::row(8)))
}

/// The path of `BY_HAND`, its starts, the ends, the places of both slices, and the refusal by hand.
const ROWS_BY_HAND: [(&[u32], [u32; 2], [usize; 2], Reason); 8] = [
    (&[0, 1, 3, 5, 6, 7], [5, 0], [1, 1], Reason::row(14)),
    (&[0, 1, 3, 5, 6, 7], [0, 5], [1, 1], Reason::row(14)),
    (&[0, 1, 3, 5, 6, 7], [5, 5], [15, 15], Reason::row(14)),
    (&[0, 1, 3, 5, 6, 7], [4, 0], [14, 15], Reason::row(8)),
    (&[0, 1, 3, 5, 6, 7], [4, 0], [15, 14], Reason::row(8)),
    (&[0, 1, 3, 5, 6, 7], [4, 4], [14, 14], Reason::row(8)),
    (&[0, 1, 3, 5, 6, 7], [4, 0], [15, 15], NO_PATH),
    (&[0, 3, 1, 5, 6, 7], [9, 9], [1, 1], Reason::fall(2)),
];

/// The rows' reading and the engine, both held to what is known by hand. Row 15 leaves scratch free.
fn rows_by_hand(tally: &mut Tally) {
    let path = of_lists(PATH).flat();
    for (starts, ends, places, hand) in ROWS_BY_HAND {
        let mesh = Flat {
            starts: starts.to_vec(),
            ..path.clone()
        };
        let row = row_before_search(&mesh, &ends, places.iter().any(|&places| places < 15));
        let (answer, left) = between(&mesh, ends, places);
        let kept = hand == NO_PATH || left == before(places);
        let same = answer == Err(hand) && kept && row.unwrap_or(NO_PATH) == hand;
        tally.compare(Judge::Rows, same, || {
            format!("steps between {ends:?} of {mesh:?}, places {places:?}: {answer:?}, {left:?}, by hand {hand:?}, rows {row:?}")
        });
    }
}

/// Both calls, with vertices and slices that later rows refuse and with others.
fn starts_by_hand(tally: &mut Tally) {
    for (mesh, reason) in by_hand() {
        for (given, places) in [(0, [longest(&mesh); 2]), (u32::MAX, [0; 2])] {
            let row = row_before_search(&mesh, &[given], places[0] == 0);
            let refused = (Err(reason), before(places));
            let ours = between(&mesh, [given, given], places);
            tally.compare(Judge::Rows, row == Some(reason) && ours == refused, || {
                format!("steps from {given} to it in {mesh:?}: {ours:?}, by hand {reason:?}, rows {row:?}")
            });
            let refused = (Err(reason), before(places));
            let ours = within(&mesh, given, 1, places);
            tally.compare(Judge::Rows, ours == refused, || {
                format!("within 1 of {given} in {mesh:?}: {ours:?}, by hand {reason:?}")
            });
        }
    }
}

pub fn some(random: &mut Random, length: usize) -> usize {
    random.below(length as u64) as usize
}

/// An id, as a rule. Else the count, a number that has an id's last 16 binary digits, or the
/// greatest.
fn vertex(random: &mut Random, count: usize) -> u32 {
    let id = some(random, count.max(1)) as u32;
    match random.below(16) {
        0 => count as u32,
        1 => id + 65_536,
        2 => u32::MAX,
        _ => id,
    }
}

/// From a place too few to two too many, as a rule.
pub fn places(random: &mut Random, needed: usize) -> usize {
    match random.below(8) {
        0 => some(random, needed + 1),
        _ => (needed + 2).saturating_sub(some(random, 4)),
    }
}

/// A mesh that its rows let pass in one case of two, or damaged.
pub fn some_mesh(random: &mut Random) -> Flat {
    let mut mesh = Lists::random(random).flat();
    for _ in 0..random.below(4).saturating_sub(1) {
        damage(random, &mut mesh);
    }
    mesh
}

/// The owning call brings slices, so that row 8 is not its.
fn refusals(tally: &mut Tally) {
    let mut random = Random::new(254);
    let (mut rows, mut kinds, mut starts) = (Rows::default(), Kinds::default(), Kinds::default());
    for _ in 0..MESHES {
        let mesh = some_mesh(&mut random);
        let [from, other] = [(); 2].map(|()| vertex(&mut random, mesh.count()));
        let to = if random.below(4) == 0 { from } else { other };
        let places = [(); 2].map(|()| places(&mut random, longest(&mesh)));
        let row = compare_refusal(tally, &mesh, [from, to], places, &mut kinds);
        rows.count(row);
        starts.count(&kinds_of_starts(&mesh, row));
    }
    rows.all_reached(tally, &[2, 3, 17, 18, 4, 14, 8, 15]);
    kinds.all_reached(tally);
    starts.all_reached(tally);
}

/// As above; the list needs a place a vertex, and there is no row 15.
fn refusals_within(tally: &mut Tally) {
    let mut random = Random::new(255);
    let (mut rows, mut kinds, mut starts) = (Rows::default(), Kinds::default(), Kinds::default());
    for _ in 0..MESHES {
        let mesh = some_mesh(&mut random);
        let from = vertex(&mut random, mesh.count());
        let steps = [some(&mut random, 4), usize::MAX][some(&mut random, 2)];
        let places = [longest(&mesh), mesh.count()].map(|needed| places(&mut random, needed));
        let row = compare_refusal_within(tally, &mesh, from, steps, places, &mut kinds);
        rows.count(row);
        starts.count(&kinds_of_starts(&mesh, row));
    }
    rows.all_reached(tally, &[2, 3, 17, 18, 4, 14, 8]);
    kinds.all_reached(tally);
    starts.all_reached(tally);
}

pub fn owning(mesh: &Flat) -> MeshData {
    let Flat {
        positions,
        starts,
        entries,
    } = mesh.clone();
    MeshData {
        positions,
        starts,
        entries,
        lists_ascend: false,
    }
}

/// Gives the refusal that was expected.
fn compare_refusal(
    tally: &mut Tally,
    mesh: &Flat,
    ends: [u32; 2],
    places: [usize; 2],
    kinds: &mut Kinds,
) -> Option<Reason> {
    let [from, to] = ends;
    let needed = longest(mesh);
    let short = places.map(|places| places < needed);
    let row = row_before_search(mesh, &ends, short.contains(&true));
    let searched = |row: Option<Reason>| match row {
        Some(reason) => Err(reason),
        None => Walk::new(&mesh.lists().neighbors, from as usize).between(to as usize),
    };
    let expected = searched(row);
    let (answer, left) = between(mesh, ends, places);
    let kept = row.is_none() || left == before(places);
    tally.compare(judge(&expected), answer == expected && kept, || {
        format!("steps between {ends:?} of {mesh:?}, places {places:?}: {answer:?}, {left:?}, rows {expected:?}")
    });
    let expected_owning = searched(row_before_search(mesh, &ends, false));
    let answer = owning(mesh).steps_between(from, to).map_err(Reason::from);
    tally.compare(judge(&expected_owning), answer == expected_owning, || {
        format!(
            "steps between {ends:?} of the owning {mesh:?}: {answer:?}, rows {expected_owning:?}"
        )
    });
    let by = |number| row == Some(Reason::row(number));
    let foreign = ends.map(|id| id as usize >= mesh.count());
    let one = from == to;
    kinds.count(&[
        (
            "14: the first vertex alone",
            by(14) && foreign == [true, false],
        ),
        ("14: the second alone", by(14) && foreign == [false, true]),
        ("14: both ends one vertex", by(14) && one),
        (
            "14: the count itself",
            by(14) && from as usize == mesh.count(),
        ),
        (
            "14: 65,536 above an id",
            by(14) && (65_536..66_000).contains(&from),
        ),
        (
            "14: a slice too short besides",
            by(14) && short.contains(&true),
        ),
        ("8: the order alone", by(8) && short == [true, false]),
        ("8: the queue alone", by(8) && short == [false, true]),
        ("8: both ends one vertex", by(8) && one),
        (
            "8: a place a vertex is there, and more",
            by(8) && places.iter().all(|&places| places > mesh.count()),
        ),
        (
            "8: enough for the positions",
            by(8) && places.iter().all(|&places| places >= mesh.positions.len()),
        ),
        (
            "8: enough for the entries",
            by(8) && places.iter().all(|&places| places >= mesh.entries.len()),
        ),
        (
            "8: no path leads there besides",
            by(8) && searched(None) == Err(NO_PATH),
        ),
        ("accepted: both ends one vertex", expected.is_ok() && one),
        (
            "accepted: not a place more than needed",
            expected.is_ok() && places == [needed; 2],
        ),
    ]);
    expected.err()
}

/// Gives the refusal that was expected.
fn compare_refusal_within(
    tally: &mut Tally,
    mesh: &Flat,
    vertex: u32,
    steps: usize,
    places: [usize; 2],
    kinds: &mut Kinds,
) -> Option<Reason> {
    let needed = [longest(mesh), mesh.count()];
    let short = [0, 1].map(|at| places[at] < needed[at]);
    let listed = || Walk::new(&mesh.lists().neighbors, vertex as usize).within(steps);
    let row = row_before_search(mesh, &[vertex], short.contains(&true));
    let (answer, left) = within(mesh, vertex, steps, places);
    let (judge, same, filled_by) = match row {
        Some(reason) => (
            Judge::Rows,
            answer == Err(reason) && left == before(places),
            None,
        ),
        None => {
            let list = listed();
            let same = answer == Ok(list.len() as u32) && left[1] == filled(&list, places[1]);
            (Judge::Beside, same, Some(list.len()))
        }
    };
    tally.compare(judge, same, || {
        format!("within {steps} of {vertex} in {mesh:?}, places {places:?}: {answer:?}, {left:?}, rows {row:?}")
    });
    let own_row = row_before_search(mesh, &[vertex], false);
    let expected = own_row.map_or_else(|| Ok(listed()), Err);
    let judge = self::judge(&expected);
    let answer = owning(mesh)
        .vertices_within(vertex, steps)
        .map_err(Reason::from);
    let fewer = own_row.is_none() && expected.as_ref().is_ok_and(|list| list.len() <= places[1]);
    tally.compare(judge, answer == expected, || {
        format!("within {steps} of {vertex} in the owning {mesh:?}: {answer:?}, rows {expected:?}")
    });
    let by = |number| row == Some(Reason::row(number));
    kinds.count(&[
        (
            "14: a slice too short besides",
            by(14) && short.contains(&true),
        ),
        ("8: the order alone", by(8) && short == [true, false]),
        ("8: the list alone", by(8) && short == [false, true]),
        (
            "8: the list alone, room for all that are near",
            by(8) && short == [false, true] && fewer,
        ),
        (
            "8: the order alone, with a place a vertex",
            by(8) && short == [true, false] && places[0] >= needed[1],
        ),
        (
            "accepted: not a place more than needed",
            filled_by.is_some() && places == needed,
        ),
        (
            "accepted: a list shorter than the order has to be",
            filled_by.is_some() && places[1] < needed[0],
        ),
        (
            "accepted: fewer filled than vertices",
            filled_by.is_some_and(|many| many < needed[1]),
        ),
        (
            "accepted: 2^64 − 1 steps",
            filled_by.is_some() && steps == usize::MAX,
        ),
    ]);
    row
}
