//! The walk over all islands. Where neighbours are mutual, beside the Rust's walk of each island as a
//! mesh of its own; which vertices belong together is found without a walk. Where they are not, beside
//! the Rust's walk of what the islands before leave, and a plain loop. Refusals beside the rows' text.

use crate::check::{Check, Judge, Kinds, Rows, Tally};
use crate::meshes::{has_repeats, permutation, Flat, Lattice, Lists, FREQUENCIES};
use crate::patterns::Random;
use crate::rows::{adjacency_row, by_hand, kinds_of_starts, Reason};
use crate::steps::{
    described, least_lengths, of_lists, owning, places, small_mesh, some, some_mesh,
};
use crate::walk;
use icotable_oracle as rust;

/// Random meshes of each sort, and damaged ones.
const MESHES: usize = 100_000;
/// Meshes put together of lattices.
const OF_LATTICES: usize = 300;
/// Random meshes of which all paths are known.
const SMALL_MESHES: usize = 20_000;
/// What stands in a lent slice before the call.
const BEFORE: u32 = 0xdead_beef;
/// A vertex that the walk from vertex 0 doesn't reach.
const UNREACHED: Reason = Reason::row(13);

pub fn checks() -> Vec<Check> {
    vec![
        Check::new("80 lattices", lattices),
        Check::new("lattices side by side", lattices_side_by_side),
        Check::new("meshes side by side", meshes_side_by_side),
        Check::new("random meshes, mutual", mutual_meshes),
        Check::new("random meshes", random_meshes),
        Check::new("small meshes, all paths", small_meshes),
        Check::new("65,536 vertices", greatest_meshes),
        Check::new("by hand", examples_by_hand),
        Check::new("order of rows by hand", rows_by_hand),
        Check::new("starts by hand", starts_by_hand),
        Check::new("refusals", refusals),
    ]
}

/// What a call leaves: how many islands there are and how many entries were read, then order, queue
/// and island starts.
type Outcome = (Result<[u32; 2], Reason>, [Vec<u32>; 3]);

fn before(places: [usize; 3]) -> [Vec<u32>; 3] {
    places.map(|places| vec![BEFORE; places])
}

fn walked(mesh: &Flat, places: [usize; 3]) -> Outcome {
    let [mut order, mut queue, mut starts] = before(places);
    let answer = koshirga::walk_islands(mesh.as_mesh(), &mut order, &mut queue, &mut starts);
    let answer = answer
        .map(|found| [found.islands, found.entries_read])
        .map_err(Reason::from);
    (answer, [order, queue, starts])
}

/// Islands by their roots, each with its ids in the order of its walk.
pub type Islands = Vec<Vec<usize>>;

/// What a call leaves that numbers these islands.
fn outcome_of(islands: &[Vec<usize>], read: usize, places: [usize; 3]) -> Outcome {
    let [mut order, mut queue, mut starts] = before(places);
    let mut number = 0;
    for (island, start) in islands.iter().zip(&mut starts) {
        *start = number as u32;
        for &id in island {
            order[id] = number as u32;
            queue[number] = id as u32;
            number += 1;
        }
    }
    let answer = Ok([islands.len() as u32, read as u32]);
    (answer, [order, queue, starts])
}

/// Some ids of a mesh, ascending, as a mesh of its own: those that the Rust's walk reaches from the
/// first, in its order. What names another vertex is no entry of this mesh.
fn rust_queue(neighbors: &[Vec<u16>], ids: &[usize]) -> Vec<usize> {
    let place = |id: &u16| ids.binary_search(&usize::from(*id)).ok();
    let own = |id: &usize| neighbors[*id].iter().filter_map(place).map(|at| at as u16);
    let lists: Vec<Vec<u16>> = ids.iter().map(|id| own(id).collect()).collect();
    let new_of_old = rust::bfs_vertex_permutation(&lists);
    let mut reached: Vec<usize> = (0..ids.len())
        .filter(|&at| new_of_old[at] != usize::MAX)
        .collect();
    reached.sort_by_key(|&at| new_of_old[at]);
    reached.into_iter().map(|at| ids[at]).collect()
}

/// Connected components, whatever the direction of an entry, by their lowest ids, each ascending.
/// Every entry joins two of them (union-find), which is no walk.
fn components(neighbors: &[Vec<u16>]) -> Islands {
    let count = neighbors.len();
    // Each vertex leads to a lower one of its component, the lowest to itself.
    let mut lower: Vec<usize> = (0..count).collect();
    for (v, list) in neighbors.iter().enumerate() {
        for &id in list {
            let [v, id] = [v, usize::from(id)].map(|id| lowest(&mut lower, id));
            lower[v.max(id)] = v.min(id);
        }
    }
    let mut of_lowest = vec![Vec::new(); count];
    (0..count).for_each(|v| of_lowest[lowest(&mut lower, v)].push(v));
    of_lowest.retain(|ids| !ids.is_empty());
    of_lowest
}

fn lowest(lower: &mut [usize], mut v: usize) -> usize {
    while lower[v] != v {
        lower[v] = lower[lower[v]];
        v = lower[v];
    }
    v
}

/// Where neighbours are mutual: the Rust's walk of each component.
fn of_components(neighbors: &[Vec<u16>]) -> Islands {
    let of = |ids: &Vec<usize>| rust_queue(neighbors, ids);
    components(neighbors).iter().map(of).collect()
}

/// The Rust's walk of all vertices, then of those that it didn't reach, until none is left.
pub fn of_what_is_left(neighbors: &[Vec<u16>]) -> Islands {
    let mut left: Vec<usize> = (0..neighbors.len()).collect();
    let mut islands = Vec::new();
    while !left.is_empty() {
        let island = rust_queue(neighbors, &left);
        left.retain(|id| !island.contains(id));
        islands.push(island);
    }
    islands
}

/// The islands and the entries read by a plain loop.
fn plain(neighbors: &[Vec<u16>]) -> (Islands, usize) {
    let mut numbered = vec![false; neighbors.len()];
    let (mut islands, mut read) = (Vec::new(), 0);
    for root in 0..neighbors.len() {
        if numbered[root] {
            continue;
        }
        numbered[root] = true;
        let mut island = vec![root];
        let mut head = 0;
        while let Some(&id) = island.get(head) {
            for entry in neighbors[id].iter().map(|&entry| usize::from(entry)) {
                read += 1;
                if !numbered[entry] {
                    numbered[entry] = true;
                    island.push(entry);
                }
            }
            head += 1;
        }
        islands.push(island);
    }
    (islands, read)
}

fn entry_count(neighbors: &[Vec<u16>]) -> usize {
    neighbors.iter().map(Vec::len).sum()
}

fn is_mutual(neighbors: &[Vec<u16>]) -> bool {
    let names_back = |v: usize, id: &u16| neighbors[usize::from(*id)].contains(&(v as u16));
    let mut lists = neighbors.iter().enumerate();
    lists.all(|(v, list)| list.iter().all(|id| names_back(v, id)))
}

/// The order is the Rust's, each island's behind those before it. Queue, starts and counts are worked
/// out beside it. The engine's walk from vertex 0 leaves the same where there is one island, and else
/// is refused.
fn compare(tally: &mut Tally, lists: &Lists, islands: &[Vec<usize>], surplus: [usize; 3]) {
    let mesh = lists.flat();
    let places = surplus.map(|more| mesh.count() + more);
    let ours = walked(&mesh, places);
    let rust = outcome_of(islands, entry_count(&lists.neighbors), places);
    let describe = || {
        let lists = described(lists);
        format!("islands of {lists}: {ours:?}, by the Rust's walks {rust:?}")
    };
    tally.compare(Judge::Rust, ours.1[0] == rust.1[0], describe);
    tally.compare(Judge::Beside, ours == rust, describe);
    let (answer, order, queue) = walk::walked(&mesh, places[0], places[1]);
    let same = match ours.0 {
        Ok([1, read]) => answer == Ok(read) && [&order, &queue] == [&ours.1[0], &ours.1[1]],
        _ => answer == Err(UNREACHED),
    };
    tally.compare(Judge::Engine, same, || {
        let lists = described(lists);
        format!("islands of {lists}: {ours:?}, the walk: {answer:?}, {order:?}, {queue:?}")
    });
}

/// As many islands as the mesh was put together of.
fn compare_parts(tally: &mut Tally, lists: &Lists, parts: usize, surplus: [usize; 3]) {
    let islands = of_components(&lists.neighbors);
    compare(tally, lists, &islands, surplus);
    let mesh = lists.flat();
    let ours = walked(&mesh, [mesh.count(); 3]).0;
    let same = ours.is_ok_and(|[islands, _]| islands as usize == parts);
    tally.compare(Judge::Beside, same, || {
        let lists = described(lists);
        format!("islands of {lists}: {ours:?}, put together of {parts}")
    });
}

fn some_surplus(random: &mut Random) -> [usize; 3] {
    [(); 3].map(|()| some(random, 3))
}

/// The Rust's walk of the whole lattice, then of the lattice renumbered, its lists in their order.
fn lattices(tally: &mut Tally) {
    let mut random = Random::new(351);
    for frequency in FREQUENCIES {
        let lists = Lattice::new(frequency).lists;
        let count = lists.vertices.len();
        let whole = rust_queue(&lists.neighbors, &(0..count).collect::<Vec<_>>());
        compare(tally, &lists, &[whole], [0, 0, 0]);
        compare_parts(tally, &lists, 1, [3, 5, 2]);
        let lists = renumbered(&mut random, &lists);
        compare_parts(tally, &lists, 1, some_surplus(&mut random));
    }
}

/// One mesh of several, the ids of each behind those of the one before.
pub fn side_by_side(parts: &[&Lists]) -> Lists {
    let mut whole = Lists {
        vertices: Vec::new(),
        neighbors: Vec::new(),
    };
    for part in parts {
        let first = whole.vertices.len() as u16;
        let moved = |list: &Vec<u16>| list.iter().map(|id| first + id).collect();
        whole.neighbors.extend(part.neighbors.iter().map(moved));
        whole.vertices.extend(&part.vertices);
    }
    whole
}

/// Renumbered at random. Lists keep their order.
pub fn renumbered(random: &mut Random, lists: &Lists) -> Lists {
    let new_of_old = permutation(random, lists.vertices.len());
    let mut moved = lists.clone();
    for (v, list) in lists.neighbors.iter().enumerate() {
        let ids = list.iter().map(|&id| new_of_old[usize::from(id)] as u16);
        moved.neighbors[new_of_old[v]] = ids.collect();
        moved.vertices[new_of_old[v]] = lists.vertices[v];
    }
    moved
}

/// Two to five lattices, the greatest of them among others.
fn lattices_side_by_side(tally: &mut Tally) {
    let mut random = Random::new(352);
    let lattices: Vec<Lists> = FREQUENCIES.map(|n| Lattice::new(n).lists).collect();
    let greatest = [&[80, 12][..], &[79, 15, 5, 1], &[1, 2, 80], &[36; 5]].map(<[usize]>::to_vec);
    let drawn: Vec<Vec<usize>> = (0..OF_LATTICES)
        .map(|_| some_frequencies(&mut random))
        .collect();
    for frequencies in greatest.into_iter().chain(drawn) {
        let parts: Vec<&Lists> = frequencies.iter().map(|n| &lattices[n - 1]).collect();
        let whole = renumbered(&mut random, &side_by_side(&parts));
        compare_parts(tally, &whole, parts.len(), some_surplus(&mut random));
    }
}

fn some_frequencies(random: &mut Random) -> Vec<usize> {
    let parts = 2 + some(random, 4);
    let greatest = [3, 12, 36][some(random, 3)];
    (0..parts).map(|_| 1 + some(random, greatest)).collect()
}

/// Vertices without neighbours. Their positions are any bits: only their count is read.
fn apart(random: &mut Random, count: usize) -> Lists {
    Lists {
        neighbors: vec![Vec::new(); count],
        vertices: (0..count)
            .map(|_| [(); 3].map(|()| f64::from_bits(random.bits())))
            .collect(),
    }
}

/// Each of two vertices names the other, where both lists have room; one vertex names itself.
fn join(lists: &mut Lists, v: usize, other: usize) {
    let has_room = |v: usize| lists.neighbors[v].len() < 32;
    if has_room(v) && has_room(other) {
        lists.neighbors[v].push(other as u16);
        if other != v {
            lists.neighbors[other].push(v as u16);
        }
    }
}

/// Joins pairs at random, then shuffles each list and repeats some entries.
fn join_some(random: &mut Random, mut lists: Lists, pairs: usize) -> Lists {
    let count = lists.vertices.len();
    for _ in 0..pairs {
        join(&mut lists, some(random, count), some(random, count));
    }
    lists.shuffle(random);
    lists
}

/// Up to 12 vertices, each joined to one before it, so that they belong together.
fn connected(random: &mut Random) -> Lists {
    let count = 1 + some(random, 12);
    let mut lists = apart(random, count);
    (1..count).for_each(|v| join(&mut lists, v, some(random, v)));
    let pairs = some(random, 2 * count);
    join_some(random, lists, pairs)
}

/// Mutual lists of up to so many vertices.
fn mutual(random: &mut Random, most: usize) -> Lists {
    let count = 1 + some(random, most);
    let pairs = some(random, 2 * count);
    let lists = apart(random, count);
    join_some(random, lists, pairs)
}

/// Two to five random meshes.
fn meshes_side_by_side(tally: &mut Tally) {
    let mut random = Random::new(354);
    let mut kinds = Kinds::default();
    for _ in 0..MESHES {
        let parts: Vec<Lists> = (0..2 + some(&mut random, 4))
            .map(|_| connected(&mut random))
            .collect();
        let whole = side_by_side(&parts.iter().collect::<Vec<_>>());
        let whole = renumbered(&mut random, &whole);
        compare_parts(tally, &whole, parts.len(), some_surplus(&mut random));
        let [_, several @ ..] = kinds_of(&whole, &of_components(&whole.neighbors));
        kinds.count(&several);
    }
    kinds.all_reached(tally);
}

fn mutual_meshes(tally: &mut Tally) {
    let mut random = Random::new(355);
    let mut kinds = Kinds::default();
    for _ in 0..MESHES {
        let lists = mutual(&mut random, 40);
        let islands = of_components(&lists.neighbors);
        compare(tally, &lists, &islands, some_surplus(&mut random));
        kinds.count(&kinds_of(&lists, &islands));
    }
    kinds.all_reached(tally);
}

/// The kinds of meshes whose lists are mutual.
fn kinds_of(lists: &Lists, islands: &[Vec<usize>]) -> [(&'static str, bool); 8] {
    let neighbors = &lists.neighbors;
    let count = neighbors.len();
    let of_several = islands.iter().filter(|island| island.len() > 1).count();
    let alone = |id: usize| islands.iter().any(|island| island[..] == [id]);
    let mut pairs = islands.windows(2);
    [
        (
            "one island of several vertices",
            islands.len() == 1 && count > 1,
        ),
        ("each vertex an island", of_several == 0 && count > 1),
        ("several islands of several vertices", of_several > 1),
        (
            "an island of one among others",
            of_several > 0 && islands.len() > of_several,
        ),
        (
            "the last vertex an island, others of several",
            alone(count - 1) && of_several > 0,
        ),
        (
            "a root below a vertex of the island before",
            pairs.any(|pair| pair[0].iter().any(|&id| id > pair[1][0])),
        ),
        (
            "an island of one, whose list holds itself",
            (0..count).any(|id| alone(id) && !neighbors[id].is_empty()),
        ),
        (
            "a list with a repeat",
            neighbors.iter().any(|list| has_repeats(list)),
        ),
    ]
}

/// Lists that need not be mutual. The plain loop has to find the same, with the entries that it reads.
fn random_meshes(tally: &mut Tally) {
    let mut random = Random::new(356);
    let mut kinds = Kinds::default();
    for _ in 0..MESHES {
        let lists = Lists::random(&mut random);
        let neighbors = &lists.neighbors;
        let islands = of_what_is_left(neighbors);
        let surplus = some_surplus(&mut random);
        compare(tally, &lists, &islands, surplus);
        compare_plain(tally, &lists, surplus);
        kinds.count(&kinds_one_way(neighbors, &islands));
    }
    kinds.all_reached(tally);
}

fn compare_plain(tally: &mut Tally, lists: &Lists, surplus: [usize; 3]) {
    let mesh = lists.flat();
    let places = surplus.map(|more| mesh.count() + more);
    let (islands, read) = plain(&lists.neighbors);
    let expected = outcome_of(&islands, read, places);
    let ours = walked(&mesh, places);
    tally.compare(Judge::Beside, ours == expected, || {
        let lists = described(lists);
        format!("islands of {lists}: {ours:?}, by a plain loop {expected:?}")
    });
}

/// The kinds of meshes whose lists may lead one way alone.
fn kinds_one_way(neighbors: &[Vec<u16>], islands: &[Vec<usize>]) -> [(&'static str, bool); 4] {
    let mutual = is_mutual(neighbors);
    let several = islands.len() > 1;
    let mut island_of = vec![0; neighbors.len()];
    for (at, island) in islands.iter().enumerate() {
        island.iter().for_each(|&id| island_of[id] = at);
    }
    let names_earlier = |(v, list): (usize, &Vec<u16>)| {
        let earlier = |&id: &u16| island_of[usize::from(id)] < island_of[v];
        list.iter().any(earlier)
    };
    [
        ("mutual lists, several islands", mutual && several),
        ("lists not mutual, one island", !mutual && !several),
        ("lists not mutual, several islands", !mutual && several),
        (
            "an entry that names an id of an island before",
            neighbors.iter().enumerate().any(names_earlier),
        ),
    ]
}

/// The islands that a call left, read from its queue and starts.
fn islands_left(outcome: &Outcome) -> Islands {
    let (Ok([islands, _]), [order, queue, starts]) = outcome else {
        return Vec::new();
    };
    let starts = starts.iter().take(*islands as usize);
    let bounds: Vec<usize> = starts
        .map(|&start| start as usize)
        .chain([order.len()])
        .collect();
    let part = |pair: &[usize]| queue.get(pair[0]..pair[1]).unwrap_or_default().to_vec();
    let parts = bounds.windows(2).map(part);
    parts
        .map(|ids| ids.into_iter().map(|id| id as usize).collect())
        .collect()
}

/// Every vertex stands in the island of the lowest id from which a path leads to it, and behind those to
/// which a shorter one leads. Paths are found without a walk.
fn small_meshes(tally: &mut Tally) {
    let mut random = Random::new(357);
    let mut kinds = Kinds::default();
    for _ in 0..SMALL_MESHES {
        let lists = match random.below(2) {
            0 => small_mesh(&mut random),
            _ => mutual(&mut random, 12),
        };
        let mesh = lists.flat();
        let count = mesh.count();
        let least = least_lengths(&lists.neighbors);
        let left = islands_left(&walked(&mesh, [count; 3]));
        let root = |v: usize| (0..count).find(|&from| least[from][v].is_some());
        let roots = (0..count).filter(|&v| root(v) == Some(v));
        let members = |from: usize| (0..count).filter(move |&v| root(v) == Some(from));
        let first = |island: &Vec<usize>| island.first().copied();
        let same = left.iter().map(first).eq(roots.map(Some))
            && left.iter().all(|island| {
                let mut ids = island.clone();
                ids.sort_unstable();
                ids.into_iter().eq(members(island[0]))
                    && island.is_sorted_by_key(|&id| least[island[0]][id])
            });
        tally.compare(Judge::Beside, same, || {
            let lists = described(&lists);
            format!("islands of {lists}: {left:?}, least lengths {least:?}")
        });
        let led_back = |v: usize| root(v).is_some_and(|root| least[v][root].is_some());
        kinds.count(&[
            ("mutual lists", is_mutual(&lists.neighbors)),
            (
                "a vertex from which no path leads to its root",
                !(0..count).all(led_back),
            ),
            ("several islands", left.len() > 1),
            (
                "a vertex three steps from its root",
                (0..count).any(|v| root(v).and_then(|root| least[root][v]) == Some(3)),
            ),
        ]);
    }
    kinds.all_reached(tally);
}

/// As many vertices as row 2 lets pass: none with a neighbour; a path from each id to the next; the same
/// without the last; a path of the even ids and one of the odd ones; two rings, of the ids below and from
/// 32,768 on, in which each list holds the 16 vertices on either side.
fn greatest_meshes(tally: &mut Tally) {
    let count = 65_536;
    let path = |below: i32, by: i32| {
        move |v: i32| -> Vec<u16> {
            let beside = [v - by, v + by].into_iter();
            let ids = beside.filter(|id| v < below && (0..below).contains(id));
            ids.map(|id| id as u16).collect()
        }
    };
    let ring = |v: i32| -> Vec<u16> {
        let half = v / 32_768 * 32_768;
        let beside = (-16..=16).filter(|&by| by != 0);
        let ids = beside.map(|by| half + (v - half + by).rem_euclid(32_768));
        ids.map(|id| id as u16).collect()
    };
    let of = |list: &dyn Fn(i32) -> Vec<u16>| (0..count).map(list).collect::<Vec<_>>();
    let meshes = [
        (of(&|_| Vec::new()), 65_536),
        (of(&path(count, 1)), 1),
        (of(&path(count - 1, 1)), 2),
        (of(&path(count, 2)), 2),
        (of(&ring), 2),
    ];
    for (neighbors, islands) in meshes {
        let lists = Lists {
            neighbors,
            vertices: vec![[1.0, 2.0, 3.0]; count as usize],
        };
        compare_parts(tally, &lists, islands, [0, 1, 2]);
    }
}

/// Lists, then by hand order, queue, island starts and how many entries are read.
type Example = (
    &'static [&'static [u16]],
    &'static [u32],
    &'static [u32],
    &'static [u32],
    u32,
);

/// Three islands, of three vertices, two and one.
const THREE: &[&[u16]] = &[&[4], &[3, 2], &[1], &[1], &[0], &[]];

/// Mutual lists, then others.
const EXAMPLES: [Example; 7] = [
    (
        THREE,
        &[0, 2, 4, 3, 1, 5],
        &[0, 4, 1, 3, 2, 5],
        &[0, 2, 5],
        6,
    ),
    (
        &[&[3], &[2], &[1], &[0]],
        &[0, 2, 3, 1],
        &[0, 3, 1, 2],
        &[0, 2],
        4,
    ),
    (&[&[], &[], &[]], &[0, 1, 2], &[0, 1, 2], &[0, 1, 2], 0),
    (
        &[&[1], &[0], &[], &[2]],
        &[0, 1, 2, 3],
        &[0, 1, 2, 3],
        &[0, 2, 3],
        3,
    ),
    (&[&[], &[0]], &[0, 1], &[0, 1], &[0, 1], 1),
    (&[&[2], &[], &[1]], &[0, 2, 1], &[0, 2, 1], &[0], 2),
    (&[&[1], &[0], &[0]], &[0, 1, 2], &[0, 1, 2], &[0, 2], 3),
];

/// The Rust's walks, the plain loop and the engine, all held to what is known by hand.
fn examples_by_hand(tally: &mut Tally) {
    let order = [0, 1, 2, 3, 8, 6, 4, 5, 9, 11, 7, 10];
    let queue = [0, 1, 2, 3, 6, 7, 5, 10, 4, 8, 11, 9];
    let lattice = Lattice::new(1).lists;
    compare_by_hand(tally, &lattice, [&order, &queue, &[0]], 60);
    for (neighbors, order, queue, starts, read) in EXAMPLES {
        compare_by_hand(tally, &of_lists(neighbors), [order, queue, starts], read);
    }
}

fn compare_by_hand(tally: &mut Tally, lists: &Lists, by_hand: [&[u32]; 3], read: u32) {
    let mesh = lists.flat();
    let places = [mesh.count(); 3];
    let mut left = before(places);
    for (slice, by_hand) in left.iter_mut().zip(by_hand) {
        slice[..by_hand.len()].copy_from_slice(by_hand);
    }
    let hand: Outcome = (Ok([by_hand[2].len() as u32, read]), left);
    let ours = walked(&mesh, places);
    let rust = of_what_is_left(&lists.neighbors);
    let rust = outcome_of(&rust, entry_count(&lists.neighbors), places);
    let (plain, read) = plain(&lists.neighbors);
    let plain = outcome_of(&plain, read, places);
    let same = [&ours, &rust, &plain]
        .into_iter()
        .all(|outcome| *outcome == hand);
    tally.compare(Judge::Beside, same, || {
        let lists = described(lists);
        format!("islands of {lists}: {ours:?}, by hand {hand:?}, by the Rust's walks {rust:?}, by a plain loop {plain:?}")
    });
}

/// What refuses a call, in the order of the rows; `short` says that a slice is too short.
fn row_of(mesh: &Flat, short: bool) -> Option<Reason> {
    adjacency_row(mesh).or(short.then_some(Reason::row(8)))
}

/// Starts and entries in place of those of `THREE`, the places of the three slices, and the refusal by
/// hand.
type RowByHand = (&'static [u32], &'static [u16], [usize; 3], Reason);

const ROWS_BY_HAND: [RowByHand; 9] = [
    (
        &[0, 1, 3, 4, 5, 6, 6],
        &[4, 3, 2, 1, 1, 0],
        [6, 6, 5],
        Reason::row(8),
    ),
    (
        &[0, 1, 3, 4, 5, 6, 6],
        &[4, 3, 2, 1, 1, 0],
        [6, 5, 6],
        Reason::row(8),
    ),
    (
        &[0, 1, 3, 4, 5, 6, 6],
        &[4, 3, 2, 1, 1, 0],
        [5, 6, 6],
        Reason::row(8),
    ),
    (
        &[0, 1, 3, 4, 5, 6, 6],
        &[4, 3, 2, 1, 1, 0],
        [0, 0, 0],
        Reason::row(8),
    ),
    (
        &[0, 1, 3, 4, 5, 6, 6],
        &[4, 3, 2, 1, 1, 6],
        [5, 5, 5],
        Reason::row(4),
    ),
    (
        &[0, 3, 1, 4, 5, 6, 6],
        &[4, 3, 2, 1, 1, 6],
        [5, 5, 5],
        Reason::fall(2),
    ),
    (
        &[1, 3, 1, 4, 5, 6, 6],
        &[4, 3, 2, 1, 1, 6],
        [5, 5, 5],
        Reason::row(17),
    ),
    (
        &[0, 3, 1, 4, 5, 6, 6],
        &[4, 3, 2, 1, 1],
        [5, 5, 5],
        Reason::row(17),
    ),
    (
        &[1, 3, 1, 4, 5, 6],
        &[4, 3, 2, 1, 1, 6],
        [5, 5, 5],
        Reason::row(3),
    ),
];

/// The rows' reading and the engine, both held to what is known by hand.
fn rows_by_hand(tally: &mut Tally) {
    let three = of_lists(THREE).flat();
    for (starts, entries, places, hand) in ROWS_BY_HAND {
        let mesh = Flat {
            starts: starts.to_vec(),
            entries: entries.to_vec(),
            ..three.clone()
        };
        held_to_hand(tally, &mesh, places, hand);
    }
}

/// With slices that row 8 refuses and with others.
fn starts_by_hand(tally: &mut Tally) {
    for (mesh, hand) in by_hand() {
        for places in [[mesh.count(); 3], [0; 3]] {
            held_to_hand(tally, &mesh, places, hand);
        }
    }
}

fn held_to_hand(tally: &mut Tally, mesh: &Flat, places: [usize; 3], hand: Reason) {
    let row = row_of(mesh, places.iter().any(|&places| places < mesh.count()));
    let ours = walked(mesh, places);
    let same = row == Some(hand) && ours == (Err(hand), before(places));
    tally.compare(Judge::Rows, same, || {
        format!("islands of {mesh:?}, places {places:?}: {ours:?}, by hand {hand:?}, rows {row:?}")
    });
}

/// Rows 2, 3, 17, 18, 4 and 8 leave all slices as they were. The owning call brings slices, so that row
/// 8 is not its.
fn refusals(tally: &mut Tally) {
    let mut random = Random::new(358);
    let (mut rows, mut kinds, mut starts) = (Rows::default(), Kinds::default(), Kinds::default());
    for _ in 0..MESHES {
        let mut mesh = some_mesh(&mut random);
        if let Some(first) = mesh.positions.first_mut() {
            *first = [*first, f64::NAN][some(&mut random, 2)];
        }
        let places = [(); 3].map(|()| places(&mut random, mesh.count()));
        let row = compare_refusal(tally, &mesh, places, &mut kinds);
        rows.count(row);
        starts.count(&kinds_of_starts(&mesh, row));
    }
    rows.all_reached(tally, &[2, 3, 17, 18, 4, 8]);
    kinds.all_reached(tally);
    starts.all_reached(tally);
}

/// Gives the refusal that was expected.
fn compare_refusal(
    tally: &mut Tally,
    mesh: &Flat,
    places: [usize; 3],
    kinds: &mut Kinds,
) -> Option<Reason> {
    let count = mesh.count();
    let short = places.map(|places| places < count);
    let row = row_of(mesh, short.contains(&true));
    let expected = |row: Option<Reason>, places: [usize; 3]| match row {
        Some(reason) => (Err(reason), before(places)),
        None => {
            let (islands, read) = plain(&mesh.lists().neighbors);
            outcome_of(&islands, read, places)
        }
    };
    let judge = |row: Option<Reason>| row.map_or(Judge::Beside, |_| Judge::Rows);
    let outcome = expected(row, places);
    let ours = walked(mesh, places);
    tally.compare(judge(row), ours == outcome, || {
        format!("islands of {mesh:?}, places {places:?}: {ours:?}, rows {outcome:?}")
    });
    let own_row = row_of(mesh, false);
    let (answer, [order, queue, mut starts]) = expected(own_row, [count; 3]);
    starts.truncate(answer.map_or(0, |[islands, _]| islands as usize));
    let own = answer.map(|[_, read]| (order, queue, starts, read));
    let ours = owning(mesh).walk_islands().map_err(Reason::from);
    let ours = ours.map(|walk| {
        (
            walk.order,
            walk.queue,
            walk.island_starts,
            walk.entries_read,
        )
    });
    tally.compare(judge(own_row), ours == own, || {
        format!("islands of the owning {mesh:?}: {ours:?}, rows {own:?}")
    });
    let islands = answer.map_or(0, |[islands, _]| islands as usize);
    let by = |number| row == Some(Reason::row(number));
    let longest = mesh.entries.len().max(mesh.positions.len());
    kinds.count(&[
        ("8: the order alone", by(8) && short == [true, false, false]),
        ("8: the queue alone", by(8) && short == [false, true, false]),
        (
            "8: the island starts alone",
            by(8) && short == [false, false, true],
        ),
        (
            "8: the island starts alone, room for all islands",
            by(8) && short == [false, false, true] && islands <= places[2],
        ),
        ("8: all three", by(8) && short == [true; 3]),
        (
            "4, 17 or 18: a slice too short besides",
            row.is_some_and(|row| [4, 17, 18].contains(&row.number)) && short.contains(&true),
        ),
        (
            "accepted: not a place more than needed",
            row.is_none() && places == [count; 3],
        ),
        (
            "accepted: fewer places than positions and entries",
            row.is_none() && places.iter().all(|&places| places < longest),
        ),
        ("accepted: one island", row.is_none() && islands == 1),
        (
            "accepted: several islands, fewer than vertices",
            row.is_none() && 1 < islands && islands < count,
        ),
        (
            "accepted: a position that is no number",
            row.is_none() && mesh.positions[0].is_nan(),
        ),
    ]);
    row
}
