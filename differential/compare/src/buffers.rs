//! Grids packed behind what is taken of two slices, beside the Rust's packing, which appends to two
//! vectors; at other pairs beside a second reading; refusals beside the rows' text.

use crate::check::{Check, Judge, Kinds, Rows, Tally};
use crate::grids::{grid_beside, row_5, rust_grid};
use crate::helpers::{same_f32, Narrowed};
use crate::meshes::{permutation, Lattice, Lists, FREQUENCIES};
use crate::operands::NARROWED;
use crate::pairs::{self, kinds_of_pair, USUAL};
use crate::patterns::Random;
use crate::queries::{self, Slices};
use crate::renumber::{self, drawn, Renumbered};
use crate::reserved::Reserved;
use crate::rows::Reason;
use crate::stored::{break_test, first_fall, needed, offsets, packing_row, Call, TESTS};
use icotable_oracle as rust;
use koshirga::{FaceGrid, GpuBuffers, LevelRecord, Taken};

/// Random meshes at the usual pair, and at others.
const MESHES: usize = 20_000;
/// Frequencies whose grids are packed at other pairs, and the pairs of each.
const AT_PAIRS: [usize; 9] = [1, 2, 3, 5, 8, 13, 21, 34, 80];
const PAIRS: usize = 12;
/// The greatest count of places that are taken before a grid, where it is drawn.
const TAKEN: u64 = 2_000;
/// The words and the floats that the grids of all 80 lattices fill.
const ALL_LATTICES: [usize; 2] = [51_347_183, 5_216_880];
/// The vertices of a mesh whose coordinates are drawn to be rounded, and how many such meshes there are
/// for each class of numbers.
const ROUNDED_COUNT: usize = 65_536;
const ROUNDED_MESHES: usize = 2;
/// Calls for each pair of tests, and calls damaged at random.
const BROKEN: usize = 200;
const DAMAGED: usize = 100_000;

pub fn checks() -> Vec<Check> {
    vec![
        Check::new("80 lattices, in one", lattices_in_one),
        Check::new("80 lattices, each alone", lattices_alone),
        Check::new("80 lattices, renumbered", renumbered_lattices),
        Check::new("random meshes", random_meshes),
        Check::new("other pairs", other_pairs),
        Check::new("coordinates", coordinates),
        Check::new("by hand", by_hand),
        Check::new("pairs of tests", pairs_of_tests),
        Check::new("refusals", refusals),
        Check::new("offsets at 2^32", offsets_at_the_end),
    ]
}

/// What a call is lent, and leaves.
#[derive(Clone)]
struct Lent {
    words: Vec<u32>,
    floats: Vec<f32>,
}

/// Any bits, NaNs among them.
fn before(random: &mut Random, [words, floats]: [usize; 2]) -> Lent {
    Lent {
        words: (0..words).map(|_| random.bits() as u32).collect(),
        floats: (0..floats)
            .map(|_| f32::from_bits(random.bits() as u32))
            .collect(),
    }
}

fn same_floats(x: &[f32], y: &[f32]) -> bool {
    let bits = |(x, y): (&f32, &f32)| x.to_bits() == y.to_bits();
    x.len() == y.len() && x.iter().zip(y).all(bits)
}

impl Lent {
    fn same(&self, other: &Lent) -> bool {
        self.words == other.words && same_floats(&self.floats, &other.floats)
    }

    /// Up to the taken places.
    fn front(&self, taken: Taken) -> Lent {
        Lent {
            words: self.words[..taken.words].to_vec(),
            floats: self.floats[..taken.floats].to_vec(),
        }
    }

    /// With the places of the other one in front.
    fn with_front(&self, front: &Lent) -> Lent {
        let mut all = front.clone();
        all.words.extend(&self.words[front.words.len()..]);
        all.floats.extend(&self.floats[front.floats.len()..]);
        all
    }
}

/// What the Rust appends to what is taken.
fn rust_packed(grid: &rust::FaceGrid, mut front: Lent) -> ([u32; 7], Lent) {
    let record = grid.pack(&mut front.words, &mut front.floats);
    (record, front)
}

/// The record, and what is appended, read anew. Rust's cast rounds once, to nearest, ties to even (IEEE
/// 754-2019, 4.3.1).
fn packed_beside(grid: &Slices, taken: Taken, mut front: Lent) -> ([u32; 7], Lent) {
    let [cell_starts, cell_ids, triangle_starts, triples, positions] =
        offsets(grid, taken).map(|at| at as u32);
    let vertices = grid.positions.len() as u32 / 3;
    let ids = |ids: &[u16]| -> Vec<u32> { ids.iter().map(|&id| u32::from(id)).collect() };
    for list in [
        &grid.cell_starts,
        &ids(&grid.cell_ids),
        &grid.triangle_starts,
        &ids(&grid.triples),
    ] {
        front.words.extend(list);
    }
    front
        .floats
        .extend(grid.positions.iter().map(|&x| x as f32));
    let record = [
        vertices,
        grid.side,
        cell_starts,
        cell_ids,
        triangle_starts,
        triples,
        positions,
    ];
    (record, front)
}

type Outcome = Result<[u32; 7], Reason>;

fn outcome(answer: Result<LevelRecord, koshirga::Refusal>) -> Outcome {
    answer.map(LevelRecord::to_array).map_err(Reason::from)
}

fn packed(grid: &Slices, taken: Taken, lent: &mut Lent) -> Outcome {
    let Lent { words, floats } = lent;
    outcome(grid.as_grid().pack(words, floats, taken))
}

/// The same by the buffers that grow: what is taken is all that they have before.
fn appended(
    front: Lent,
    pack: impl FnOnce(&mut GpuBuffers) -> Result<LevelRecord, koshirga::Refusal>,
) -> (Outcome, Lent) {
    let Lent { words, floats } = front;
    let mut buffers = GpuBuffers { words, floats };
    let answer = outcome(pack(&mut buffers));
    let GpuBuffers { words, floats } = buffers;
    (answer, Lent { words, floats })
}

/// Both ways of packing an accepted grid, at these taken counts, with so many surplus places.
fn compare(
    tally: &mut Tally,
    judge: Judge,
    call: &Call,
    lent: &Lent,
    expected: &([u32; 7], Lent),
    name: impl Fn() -> String,
) {
    let Call { grid, taken, .. } = call;
    let (record, front) = expected;
    let mut ours = lent.clone();
    let answer = packed(grid, *taken, &mut ours);
    let left = lent.with_front(front);
    tally.compare(judge, answer == Ok(*record) && ours.same(&left), || {
        format!("{}, {taken:?}: {answer:?}, expected {record:?}", name())
    });
    let (answer, ours) = appended(lent.front(*taken), |buffers| {
        buffers.append(&grid.as_grid())
    });
    tally.compare(judge, answer == Ok(*record) && ours.same(front), || {
        let name = name();
        format!("{name}, GpuBuffers, {taken:?}: {answer:?}, expected {record:?}")
    });
}

/// In each slice some places, in one of four none.
fn drawn_taken(random: &mut Random) -> Taken {
    let [words, floats] = [0; 2].map(|_| match random.below(4) {
        0 => 0,
        _ => random.below(TAKEN) as usize,
    });
    Taken { words, floats }
}

/// A grid behind what is drawn as taken, with so many places behind it.
fn drawn_call(random: &mut Random, grid: Slices, surplus: [usize; 2]) -> Call {
    let taken = drawn_taken(random);
    let [words, floats] = needed(&grid);
    Call {
        lengths: [
            taken.words + words + surplus[0],
            taken.floats + floats + surplus[1],
        ],
        grid,
        taken,
    }
}

/// The Rust's grid at the usual pair. What is read anew has to be what the Rust appends.
fn compare_with_rust(
    tally: &mut Tally,
    random: &mut Random,
    lists: &Lists,
    surplus: [usize; 2],
    name: impl Fn() -> String,
) -> Call {
    let grid = rust::FaceGrid::new(&lists.vertices, &lists.neighbors);
    let call = drawn_call(random, Slices::new(lists, &grid), surplus);
    let lent = before(random, call.lengths);
    let expected = rust_packed(&grid, lent.front(call.taken));
    let beside = packed_beside(&call.grid, call.taken, lent.front(call.taken));
    let agree = expected.0 == beside.0 && expected.1.same(&beside.1);
    if !agree {
        tally.compare(Judge::Beside, false, || {
            format!("what is read anew is not what the Rust packs: {}", name())
        });
    }
    compare(tally, Judge::Rust, &call, &lent, &expected, name);
    call
}

/// The grids of all lattices one behind another, into slices that hold them all and some places more,
/// and by the buffers that grow, with the grid that the engine builds. After each grid both slices are
/// compared whole.
fn lattices_in_one(tally: &mut Tally) {
    const SURPLUS: usize = 100;
    let (mut words, mut floats) = (Vec::new(), Vec::new());
    let mut ours = Lent {
        words: vec![0xdead_beef; ALL_LATTICES[0] + SURPLUS],
        floats: vec![-7.5; ALL_LATTICES[1] + SURPLUS],
    };
    let mut buffers = GpuBuffers::default();
    let mut taken = Taken::default();
    for frequency in FREQUENCIES {
        let lists = Lattice::new(frequency).lists;
        let grid = rust::FaceGrid::new(&lists.vertices, &lists.neighbors);
        let record = grid.pack(&mut words, &mut floats);
        let slices = Slices::new(&lists, &grid);
        let answer = packed(&slices, taken, &mut ours);
        let (written, rest) = ours.words.split_at(words.len());
        let same_words = written == words && rest.iter().all(|&word| word == 0xdead_beef);
        let (written, rest) = ours.floats.split_at(floats.len());
        let same_floats = same_floats(written, &floats) && rest.iter().all(|&x| x == -7.5);
        tally.compare(
            Judge::Rust,
            answer == Ok(record) && same_words && same_floats,
            || format!("frequency {frequency} behind the ones before: {answer:?}, Rust {record:?}"),
        );
        // Behind it the next one: the last list of each slice ends where that begins.
        if let Ok([.., triples, positions]) = answer {
            taken = Taken {
                words: triples as usize + slices.triples.len(),
                floats: positions as usize + slices.positions.len(),
            };
        }
        let mesh = lists.flat();
        let grid = FaceGrid::new(mesh.as_mesh());
        let answer = outcome(grid.and_then(|grid| grid.pack(&mut buffers)));
        let same = buffers.words == words && self::same_floats(&buffers.floats, &floats);
        tally.compare(Judge::Rust, answer == Ok(record) && same, || {
            format!("frequency {frequency}, GpuBuffers: {answer:?}, Rust {record:?}")
        });
    }
    let filled = [words.len(), floats.len()];
    tally.compare(Judge::Rust, filled == ALL_LATTICES, || {
        format!("words and floats of all lattices: {filled:?}")
    });
    tally.reached("words of the Rust's".to_string(), filled[0] as u64);
    tally.reached("floats of the Rust's".to_string(), filled[1] as u64);
}

/// At other taken counts: in slices exactly long enough, with a surplus, and one place short, in the
/// words, the floats and both.
fn lattices_alone(tally: &mut Tally) {
    let mut random = Random::new(90);
    for frequency in FREQUENCIES {
        let lists = Lattice::new(frequency).lists;
        let name = || format!("the lattice of frequency {frequency}");
        compare_with_rust(tally, &mut random, &lists, [1, 2], name);
        let exact = compare_with_rust(tally, &mut random, &lists, [0, 0], name);
        for short in [[1, 0], [0, 1], [1, 1]] {
            let lengths = [0, 1].map(|at| exact.lengths[at] - short[at]);
            let lent = before(&mut random, lengths);
            let mut ours = lent.clone();
            let answer = packed(&exact.grid, exact.taken, &mut ours);
            let same = answer == Err(Reason::row(8)) && ours.same(&lent);
            tally.compare(Judge::Rows, same, || {
                format!("{}, {short:?} places short: {answer:?}", name())
            });
        }
    }
}

/// By the walk and at random, on both sides, and then the grids that each side builds.
fn renumbered_lattices(tally: &mut Tally) {
    let mut random = Random::new(91);
    for frequency in FREQUENCIES {
        let lists = Lattice::new(frequency).lists;
        let walk = rust::bfs_vertex_permutation(&lists.neighbors);
        let other = permutation(&mut random, lists.vertices.len());
        for (by, name) in [(walk, "by its walk"), (other, "at random")] {
            let name = format!("the lattice of frequency {frequency}, renumbered {name}");
            renumbered(tally, &mut random, &lists, &by, &name);
        }
    }
}

fn renumbered(tally: &mut Tally, random: &mut Random, lists: &Lists, by: &[usize], name: &str) {
    let start = drawn(random, lists);
    let (ours, Renumbered { state, .. }) = renumber::compare(tally, &start, by, 1, name);
    let lists = state.mesh.lists();
    let Taken { words, floats } = drawn_taken(random);
    let front = before(random, [words, floats]);
    let grid = rust::FaceGrid::new(&lists.vertices, &lists.neighbors);
    let (record, left) = rust_packed(&grid, front.clone());
    let (answer, ours) = appended(front, |buffers| {
        FaceGrid::new(ours.mesh.as_mesh())?.pack(buffers)
    });
    tally.compare(
        Judge::Rust,
        answer == Ok(record) && ours.same(&left),
        || format!("{name}: {answer:?}, Rust {record:?}"),
    );
}

/// As they are, and renumbered at random on both sides.
fn random_meshes(tally: &mut Tally) {
    let mut random = Random::new(92);
    let mut kinds = Kinds::default();
    for at in 0..MESHES {
        let lists = Lists::random(&mut random);
        if row_5(&lists.flat()) {
            continue;
        }
        let surplus = [0; 2].map(|_: usize| random.below(3) as usize);
        let name = || format!("mesh {at}");
        let call = compare_with_rust(tally, &mut random, &lists, surplus, name);
        // At the usual pair no cell of so few vertices has over 32.
        kinds.count(&kinds_of_accepted(&call)[..7]);
        let by = permutation(&mut random, lists.vertices.len());
        renumbered(
            tally,
            &mut random,
            &lists,
            &by,
            &format!("mesh {at}, renumbered"),
        );
    }
    kinds.all_reached(tally);
}

/// What an accepted grid holds, and is packed behind.
fn kinds_of_accepted(call: &Call) -> [(&'static str, bool); 8] {
    let Call {
        grid,
        lengths,
        taken,
    } = call;
    let longest = |starts: &[u32]| starts.windows(2).map(|pair| pair[1] - pair[0]).max();
    let [words, floats] = needed(grid);
    let surplus = [
        lengths[0] - taken.words - words,
        lengths[1] - taken.floats - floats,
    ];
    [
        ("nothing taken", *taken == Taken::default()),
        (
            "words taken, no floats",
            taken.words > 0 && taken.floats == 0,
        ),
        (
            "floats taken, no words",
            taken.words == 0 && taken.floats > 0,
        ),
        ("both exactly long enough", surplus == [0, 0]),
        ("places behind in both", surplus[0] > 0 && surplus[1] > 0),
        ("no triples", grid.triples.is_empty()),
        (
            "over 32 triples at a vertex",
            longest(&grid.triangle_starts) > Some(32),
        ),
        (
            "over 32 ids in a cell",
            longest(&grid.cell_starts) > Some(32),
        ),
    ]
}

/// At another pair.
fn compare_beside(
    tally: &mut Tally,
    random: &mut Random,
    grid: Slices,
    name: impl Fn() -> String,
) -> Call {
    let surplus = [0; 2].map(|_: usize| random.below(3) as usize);
    let call = drawn_call(random, grid, surplus);
    let lent = before(random, call.lengths);
    let expected = packed_beside(&call.grid, call.taken, lent.front(call.taken));
    compare(tally, Judge::Beside, &call, &lent, &expected, name);
    call
}

/// Lattices and random meshes.
fn other_pairs(tally: &mut Tally) {
    let mut random = Random::new(93);
    let (mut kinds, mut accepted) = (Kinds::default(), Kinds::default());
    let mut compare = |random: &mut Random, usual: &Slices, name: &str| {
        let settings = pairs::accepted(random);
        let call = compare_beside(tally, random, grid_beside(usual, settings), || {
            format!("{name}, {settings:?}")
        });
        kinds.count(&kinds_of_pair(settings));
        accepted.count(&kinds_of_accepted(&call));
    };
    for frequency in AT_PAIRS {
        let usual = rust_grid(&Lattice::new(frequency).lists);
        for _ in 0..PAIRS {
            let name = format!("the lattice of frequency {frequency}");
            compare(&mut random, &usual, &name);
        }
    }
    for at in 0..MESHES {
        let lists = Lists::random(&mut random);
        if !row_5(&lists.flat()) {
            compare(&mut random, &rust_grid(&lists), &format!("mesh {at}"));
        }
    }
    kinds.all_reached(tally);
    accepted.all_reached(tally);
}

/// How a coordinate is rounded, where row 5 lets it pass.
fn kinds_of_coordinate(x: f64) -> [(&'static str, bool); 9] {
    let narrowed = Narrowed::of(x.to_bits());
    let of = |of: fn(Narrowed) -> bool| narrowed.is_some_and(of);
    let (halfway, up) = (of(Narrowed::is_halfway), of(Narrowed::is_up));
    let (exact, subnormal) = (of(Narrowed::is_exact), of(Narrowed::is_subnormal));
    let to_zero = x != 0.0 && x as f32 == 0.0;
    [
        ("a value of binary32", exact),
        ("halfway, the even one below", halfway && !up),
        ("halfway, the even one above", halfway && up),
        ("nearer to the value below", !exact && !halfway && !up),
        ("nearer to the value above", !exact && !halfway && up),
        ("rounded to a subnormal", !exact && subnormal && !to_zero),
        ("rounded to +0", to_zero && x > 0.0),
        ("rounded to -0", to_zero && x < 0.0),
        ("-0", x == 0.0 && x.is_sign_negative()),
    ]
}

/// Meshes of the most vertices, (x, 1, z), with x and z any numbers of the classes that row 5 lets pass.
/// Each coordinate is compared.
fn coordinates(tally: &mut Tally) {
    let mut kinds = Kinds::default();
    for class in NARROWED {
        let mut drawn = Vec::new();
        class.each(class.count, |[x]| {
            if x.abs() < 2f64.powi(19) && drawn.len() < 2 * ROUNDED_COUNT * ROUNDED_MESHES {
                drawn.push(x);
            }
        });
        for (at, xs) in drawn.chunks(2 * ROUNDED_COUNT).enumerate() {
            let lists = Lists {
                vertices: xs
                    .chunks(2)
                    .map(|x| [x[0], 1.0, *x.last().unwrap_or(&1.0)])
                    .collect(),
                neighbors: vec![Vec::new(); xs.len().div_ceil(2)],
            };
            xs.iter()
                .for_each(|&x| kinds.count(&kinds_of_coordinate(x)));
            compare_coordinates(tally, &lists, &format!("mesh {at} of {}", class.name));
        }
    }
    kinds.all_reached(tally);
}

fn compare_coordinates(tally: &mut Tally, lists: &Lists, name: &str) {
    let grid = rust::FaceGrid::new(&lists.vertices, &lists.neighbors);
    let slices = Slices::new(lists, &grid);
    let [words, floats] = needed(&slices);
    let mut ours = Lent {
        words: vec![0xdead_beef; words],
        floats: vec![-7.5; floats],
    };
    let empty = Lent {
        words: Vec::new(),
        floats: Vec::new(),
    };
    let (record, rust) = rust_packed(&grid, empty);
    let answer = packed(&slices, Taken::default(), &mut ours);
    tally.compare(
        Judge::Rust,
        answer == Ok(record) && ours.words == rust.words,
        || format!("{name}: {answer:?}, Rust {record:?}"),
    );
    for ((ours, rust), x) in ours.floats.iter().zip(&rust.floats).zip(&slices.positions) {
        tally.compare(Judge::Rust, same_f32(*ours, *rust), || {
            let bits = [*ours, *rust].map(f32::to_bits);
            format!("{name}, {:#018x}: packed {bits:#010x?}", x.to_bits())
        });
    }
}

/// The words of the vertex (1, 1, 1): 25 cell starts, three ids, two triangle starts.
const WORDS_BY_HAND: [u32; 30] = [
    0, 0, 0, 0, 1, 1, 1, 1, 1, 1, 1, 1, 2, 2, 2, 2, 2, 2, 2, 2, 3, 3, 3, 3, 3, 0, 0, 0, 0, 0,
];
/// Records of the lattices of these frequencies, each behind all before it.
const RECORDS_BY_HAND: [(usize, [u32; 7]); 4] = [
    (1, [12, 2, 0, 25, 111, 124, 0]),
    (2, [42, 4, 304, 401, 753, 796, 36]),
    (3, [92, 5, 1516, 1667, 2488, 2581, 162]),
    (
        80,
        [
            64_002, 124, 49_459_764, 49_552_021, 50_131_180, 50_195_183, 5_024_874,
        ],
    ),
];

/// Both sides, held to what is known by hand: one vertex, packed twice; then the records of lattices,
/// each behind as many places as all before it fill.
fn by_hand(tally: &mut Tally) {
    let lists = Lists {
        vertices: vec![[1.0; 3]],
        neighbors: vec![vec![]],
    };
    let grid = rust::FaceGrid::new(&lists.vertices, &lists.neighbors);
    let slices = Slices::new(&lists, &grid);
    let mut lent = Lent {
        words: vec![7; 61],
        floats: vec![7.0; 7],
    };
    let mut rust = lent.front(Taken::default());
    for (times, hand) in [
        (1, [1, 2, 0, 25, 28, 30, 0]),
        (2, [1, 2, 30, 55, 58, 60, 3]),
    ] {
        let taken = Taken {
            words: 30 * (times - 1),
            floats: 3 * (times - 1),
        };
        let answer = packed(&slices, taken, &mut lent);
        let record = grid.pack(&mut rust.words, &mut rust.floats);
        let mut left = Lent {
            words: WORDS_BY_HAND.repeat(times),
            floats: vec![1.0; 3 * times],
        };
        let same = record == hand && rust.same(&left);
        left.words.resize(61, 7);
        left.floats.resize(7, 7.0);
        let same = same && answer == Ok(hand) && lent.same(&left);
        tally.compare(Judge::Rust, same, || {
            format!(
                "(1, 1, 1), packed {times} times: {answer:?}, Rust {record:?}, by hand {hand:?}"
            )
        });
    }
    for (frequency, hand) in RECORDS_BY_HAND {
        let lists = Lattice::new(frequency).lists;
        let grid = rust::FaceGrid::new(&lists.vertices, &lists.neighbors);
        let slices = Slices::new(&lists, &grid);
        let taken = Taken {
            words: hand[2] as usize,
            floats: hand[6] as usize,
        };
        let [words, floats] = needed(&slices);
        let mut lent = Lent {
            words: vec![7; taken.words + words],
            floats: vec![7.0; taken.floats + floats],
        };
        let (record, _) = rust_packed(&grid, lent.front(taken));
        let answer = packed(&slices, taken, &mut lent);
        tally.compare(Judge::Rust, answer == Ok(hand) && record == hand, || {
            format!("frequency {frequency}: {answer:?}, Rust {record:?}, by hand {hand:?}")
        });
    }
}

/// Grids that no row refuses, with at least three vertices, ids and triples.
fn accepted_grids(random: &mut Random) -> Vec<Slices> {
    let mut grids = Vec::new();
    for frequency in 1..=3 {
        let usual = rust_grid(&Lattice::new(frequency).lists);
        for _ in 0..4 {
            grids.push(grid_beside(&usual, pairs::accepted(random)));
        }
        grids.push(usual);
    }
    while grids.len() < 40 {
        let lists = Lists::random(random);
        let grid = rust_grid(&lists);
        let enough = grid.positions.len() >= 9 && grid.triples.len() >= 9;
        if !row_5(&lists.flat()) && enough {
            let grid = grid_beside(&grid, pairs::accepted(random));
            if grid.cell_ids.len() >= 3 {
                grids.push(grid);
            }
        }
    }
    grids
}

/// A call of one of these grids that no row refuses.
fn accepted_call(random: &mut Random, grids: &[Slices]) -> Call {
    let grid = grids[random.below(grids.len() as u64) as usize].clone();
    let surplus = [0; 2].map(|_: usize| random.below(3) as usize);
    drawn_call(random, grid, surplus)
}

/// A refused call leaves both slices as they were. By the buffers that grow it is refused too, but for
/// places that they have not, and leaves them as they were.
fn compare_refused(
    tally: &mut Tally,
    random: &mut Random,
    call: &Call,
    reason: Reason,
    name: impl Fn() -> String,
) {
    let Call {
        grid,
        lengths,
        taken,
    } = call;
    let lent = before(random, *lengths);
    let mut ours = lent.clone();
    let answer = packed(grid, *taken, &mut ours);
    let by_rows = packing_row(call);
    let same = answer == Err(reason) && by_rows == Some(reason) && ours.same(&lent);
    tally.compare(Judge::Rows, same, || {
        format!(
            "{}, {:?}, {lengths:?} places, {taken:?}: {answer:?}, expected {reason:?}, rows {by_rows:?}",
            name(),
            grid.settings
        )
    });
    if reason.number != 8 && taken.words <= lengths[0] && taken.floats <= lengths[1] {
        let front = lent.front(*taken);
        let (answer, ours) = appended(front.clone(), |buffers| buffers.append(&grid.as_grid()));
        let same = answer == Err(reason) && ours.same(&front);
        tally.compare(Judge::Rows, same, || {
            format!("{}, GpuBuffers: {answer:?}, expected {reason:?}", name())
        });
    }
}

/// Each test of a packing broken alone, and with each later one: the first refuses, with its index
/// where it is one for falling starts.
fn pairs_of_tests(tally: &mut Tally) {
    let mut random = Random::new(94);
    let mut rows = Rows::default();
    let mut kinds = Kinds::default();
    let grids = accepted_grids(&mut random);
    for (first, broken) in TESTS.iter().enumerate() {
        for (second, too) in TESTS.iter().enumerate().skip(first) {
            for _ in 0..BROKEN {
                let mut call = accepted_call(&mut random, &grids);
                let reason = break_test(&mut random, first, &mut call);
                if second != first {
                    break_test(&mut random, second, &mut call);
                }
                rows.count(Some(reason));
                kinds.count(&kinds_of_refusal(&call, Some(reason)));
                compare_refused(tally, &mut random, &call, reason, || {
                    format!("{broken} and {too}")
                });
            }
        }
    }
    rows.all_reached(tally, &[2, 19, 20, 3, 17, 18, 4, 5, 8]);
    kinds.all_reached(tally);
}

/// What refuses a call, by the list or the slice, and what else would; whether a call is of the kind.
fn kinds_of_refusal(call: &Call, row: Option<Reason>) -> [(&'static str, bool); 31] {
    let Call {
        grid,
        lengths,
        taken,
    } = call;
    let by = |number| row.is_some_and(|reason| reason.number == number);
    let (places, count) = (grid.positions.len(), grid.positions.len() / 3);
    let counted = places % 3 == 0 && (1..=65_536).contains(&count);
    let side = pairs::side(count, grid.settings.factor);
    let cells = grid.cell_starts.len() == 6 * side * side + 1;
    let triangles = grid.triangle_starts.len() == count + 1;
    let first = |starts: &[u32]| starts.first() == Some(&0);
    let last = |starts: &[u32]| starts.last().map_or(0, |&last| last as usize);
    let whole = grid.triples.len() % 3 == 0;
    let cells_span = first(&grid.cell_starts) && last(&grid.cell_starts) == grid.cell_ids.len();
    let triangles_span =
        first(&grid.triangle_starts) && 3 * last(&grid.triangle_starts) == grid.triples.len();
    let falls = [&grid.cell_starts, &grid.triangle_starts].map(|starts| first_fall(starts));
    let [cell_fall, triangle_fall] = falls;
    let behind = |starts: &[u32], fall: usize| first_fall(&starts[fall..]).is_some();
    let foreign = |ids: &[u16]| ids.iter().any(|&id| usize::from(id) >= count);
    let (cell, triple) = (foreign(&grid.cell_ids), foreign(&grid.triples));
    let [words, floats] = needed(grid);
    let any = |of: fn(&f64) -> bool| by(5) && grid.positions.iter().any(of);
    let free = |length: usize, taken: usize| length.wrapping_sub(taken).wrapping_add(1);
    [
        ("2: positions", by(2) && !counted),
        ("2: g", by(2) && counted),
        ("3: cell starts", by(3) && !cells && triangles),
        ("3: triangle starts", by(3) && cells && !triangles),
        ("17: the first cell start not 0", {
            by(17) && !first(&grid.cell_starts) && triangles_span
        }),
        ("17: the last cell start not the count of ids", {
            by(17) && first(&grid.cell_starts) && !cells_span && triangles_span
        }),
        ("17: the first triangle start not 0", {
            by(17) && cells_span && !first(&grid.triangle_starts)
        }),
        ("17: three times the last not the count of ids", {
            by(17) && cells_span && first(&grid.triangle_starts) && whole
        }),
        ("17: triples of a length no multiple of three", {
            by(17) && cells_span && first(&grid.triangle_starts) && !whole
        }),
        ("17: both lists", by(17) && !cells_span && !triangles_span),
        ("17: triangle starts, and cell starts fall", {
            by(17) && cells_span && cell_fall.is_some()
        }),
        ("17: cell starts, and triangle starts fall", {
            by(17) && triangles_span && triangle_fall.is_some()
        }),
        (
            "18: cell starts, at start 2",
            by(18) && cell_fall == Some(2),
        ),
        ("18: cell starts, at the last", {
            by(18) && cell_fall == Some(grid.cell_starts.len() - 1)
        }),
        ("18: cell starts, once more behind", {
            by(18) && cell_fall.is_some_and(|at| behind(&grid.cell_starts, at))
        }),
        ("18: triangle starts, at start 2", {
            by(18) && falls == [None, Some(2)]
        }),
        ("18: triangle starts, at the last", {
            by(18) && falls == [None, Some(count)]
        }),
        ("18: triangle starts, once more behind", {
            by(18)
                && cell_fall.is_none()
                && triangle_fall.is_some_and(|at| behind(&grid.triangle_starts, at))
        }),
        ("18: both lists, the cell starts first", {
            by(18) && cell_fall.is_some() && cell_fall < triangle_fall
        }),
        ("18: both lists, the triangle starts earlier", {
            by(18) && triangle_fall.is_some() && cell_fall > triangle_fall
        }),
        ("4: a cell's id", by(4) && cell && !triple),
        ("4: a triple's id", by(4) && !cell && triple),
        ("4: both", by(4) && cell && triple),
        ("5: a NaN", any(|x| x.is_nan())),
        ("5: an infinity", any(|x| x.is_infinite())),
        (
            "8: one word too few",
            by(8) && free(lengths[0], taken.words) == words,
        ),
        (
            "8: one float too few",
            by(8) && free(lengths[1], taken.floats) == floats,
        ),
        (
            "8: taken one word past",
            by(8) && taken.words == lengths[0] + 1,
        ),
        (
            "8: taken one float past",
            by(8) && taken.floats == lengths[1] + 1,
        ),
        (
            "8: 2^64 - 1 words taken",
            by(8) && taken.words == usize::MAX,
        ),
        (
            "8: 2^64 - 1 floats taken",
            by(8) && taken.floats == usize::MAX,
        ),
    ]
}

/// Grids damaged as for a query, tests broken in any order, and slices of any length. A grid that is
/// accepted is packed as it is, whatever its cells.
fn refusals(tally: &mut Tally) {
    let mut random = Random::new(95);
    let mut rows = Rows::default();
    let (mut kinds, mut answered) = (Kinds::default(), Kinds::default());
    let grids = accepted_grids(&mut random);
    for at in 0..DAMAGED {
        let mut call = accepted_call(&mut random, &grids);
        let built = call.grid.clone();
        if random.below(2) == 0 {
            queries::damage(&mut random, &mut call.grid);
        }
        for _ in 0..random.below(3) {
            let test = random.below(TESTS.len() as u64) as usize;
            if call.grid.cell_ids.len() >= 3 && call.grid.triples.len() >= 3 {
                break_test(&mut random, test, &mut call);
            }
        }
        if random.below(8) == 0 {
            call.grid.settings = pairs::accepted(&mut random);
        }
        let row = packing_row(&call);
        rows.count(row);
        kinds.count(&kinds_of_refusal(&call, row));
        let changed = call.grid.settings != built.settings;
        let accepts = |of: bool| row.is_none() && of;
        answered.count(&[
            (
                "accepted: a grid as it was built",
                accepts(call.grid == built),
            ),
            ("accepted: a changed pair, the same side", accepts(changed)),
            (
                "accepted: a damaged grid",
                accepts(!changed && call.grid != built),
            ),
            ("accepted: another pair than the usual", {
                row.is_none() && call.grid.settings != USUAL
            }),
        ]);
        let name = || format!("call {at}");
        match row {
            Some(reason) => compare_refused(tally, &mut random, &call, reason, name),
            None => {
                let lent = before(&mut random, call.lengths);
                let expected = packed_beside(&call.grid, call.taken, lent.front(call.taken));
                compare(tally, Judge::Rows, &call, &lent, &expected, name);
            }
        }
    }
    rows.all_reached(tally, &[2, 19, 20, 3, 17, 18, 4, 5, 8]);
    kinds.all_reached(tally);
    answered.all_reached(tally);
}

/// How many places more than 2^32 the slices have, and how many about the taken ones are compared.
const BEYOND: usize = 10_000;
const ABOUT: usize = 1_000;

/// Of slices with places enough: taken counts that bring the greatest offset of each slice to
/// 4,294,967,295, one place further, and more. The Rust has no such slices and would wrap. Both are
/// compared before and after in their first and last places and about the taken ones, from 1,000 before
/// them to 1,000 behind what is written.
fn offsets_at_the_end(tally: &mut Tally) {
    const GREATEST: usize = u32::MAX as usize;
    let length = GREATEST + 1 + BEYOND;
    let (words, floats) = (Reserved::words(length), Reserved::floats(length));
    let (Some(mut words), Some(mut floats)) = (words, floats) else {
        tally.reached("slices of over 2^32 places".to_string(), 0);
        return;
    };
    let mut kinds = Kinds::default();
    let of_vertex = Lists {
        vertices: vec![[1.0; 3]],
        neighbors: vec![vec![]],
    };
    let of_lattice = |frequency| Lattice::new(frequency).lists;
    for lists in [of_vertex, of_lattice(1), of_lattice(2), of_lattice(3)] {
        let grid = rust_grid(&lists);
        let before_triples = needed(&grid)[0] - grid.triples.len();
        let furthest = GREATEST - before_triples;
        for words_taken in [
            0,
            furthest - 1,
            furthest,
            furthest + 1,
            GREATEST,
            GREATEST + 1,
        ] {
            for floats_taken in [0, GREATEST - 1, GREATEST, GREATEST + 1] {
                let taken = Taken {
                    words: words_taken,
                    floats: floats_taken,
                };
                let row =
                    (words_taken > furthest || floats_taken > GREATEST).then_some(Reason::row(8));
                kinds.count(&[
                    ("accepted: the triples at 4,294,967,295", {
                        row.is_none() && words_taken == furthest
                    }),
                    ("accepted: the positions at 4,294,967,295", {
                        row.is_none() && floats_taken == GREATEST
                    }),
                    ("accepted: both, and lists end behind", {
                        row.is_none()
                            && words_taken == furthest
                            && floats_taken == GREATEST
                            && !grid.triples.is_empty()
                    }),
                    ("8: the triples alone one place further", {
                        words_taken == furthest + 1 && floats_taken <= GREATEST
                    }),
                    ("8: the positions alone one place further", {
                        words_taken <= furthest && floats_taken == GREATEST + 1
                    }),
                    (
                        "8: the cell starts one place further",
                        words_taken == GREATEST + 1,
                    ),
                ]);
                let call = Call {
                    grid: grid.clone(),
                    lengths: [length; 2],
                    taken,
                };
                compare_at_the_end(tally, &call, words.places(), floats.places(), row);
            }
        }
    }
    kinds.all_reached(tally);
}

/// The places that are compared, and their bits.
fn about<T>(places: &[T], taken: usize, written: usize, bits: fn(&T) -> u32) -> Vec<(usize, u32)> {
    let end = places.len();
    let taken = taken.saturating_sub(ABOUT)..(taken + written + ABOUT).min(end);
    (0..ABOUT)
        .chain(taken)
        .chain(end - ABOUT..end)
        .map(|at| (at, bits(&places[at])))
        .collect()
}

fn compare_at_the_end(
    tally: &mut Tally,
    call: &Call,
    words: &mut [u32],
    floats: &mut [f32],
    row: Option<Reason>,
) {
    let Call { grid, taken, .. } = call;
    let empty = Lent {
        words: Vec::new(),
        floats: Vec::new(),
    };
    let (record, written) = packed_beside(grid, *taken, empty);
    let [words_written, floats_written] = needed(grid);
    let places = |words: &[u32], floats: &[f32]| {
        [
            about(words, taken.words, words_written, |word| *word),
            about(floats, taken.floats, floats_written, |x| x.to_bits()),
        ]
    };
    let mut left = places(words, floats);
    let answer = outcome(grid.as_grid().pack(words, floats, *taken));
    let expected = match row {
        Some(reason) => Err(reason),
        None => {
            let lists = [
                written.words,
                written.floats.iter().map(|x| x.to_bits()).collect(),
            ];
            let taken = [taken.words, taken.floats];
            for ((left, taken), list) in left.iter_mut().zip(taken).zip(lists) {
                for (at, bits) in left {
                    let of_list = at.checked_sub(taken).and_then(|at| list.get(at));
                    *bits = of_list.copied().unwrap_or(*bits);
                }
            }
            Ok(record)
        }
    };
    let by_rows = packing_row(call);
    let same = answer == expected && by_rows == row && places(words, floats) == left;
    tally.compare(Judge::Rows, same, || {
        format!("{taken:?}: {answer:?}, expected {expected:?}, rows {by_rows:?}")
    });
}
