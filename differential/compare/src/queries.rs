//! Grid queries beside the Rust's, on the oracle's grids of all 80 lattices; grids of other pairs and
//! damaged ones beside a reading of document 01 with W-209 and W-210.

use crate::analytic::{judge_of, same_weights};
use crate::check::{same, Check, Judge, Kinds, Rows, Tally};
use crate::directions::{row_9, rust_of, Directions};
use crate::grids::{grid_beside, rust_grid};
use crate::meshes::{Lattice, Lists, FREQUENCIES};
use crate::pairs::{self, kinds_of_pair, pair, settings_row, USUAL};
use crate::patterns::Random;
use crate::rows::Reason;
use crate::weights::{earlier_least, least_by_the_clause};
use crate::zeros::{self, first_of_both, ByHand};
use icotable_oracle as rust;
use koshirga::{Located, Nearest, Settings, Vector3, Weights};

/// Directions of each frequency.
const DIRECTIONS: usize = 260_000;
/// Meshes with zeros of both signs among their weights, and directions of each.
const ZERO_MESHES: usize = 200_000;
const ZERO_DIRECTIONS: usize = 20;
/// Queries of damaged grids.
const DAMAGED: usize = 1_000_000;
/// Frequencies whose grids are built at other pairs, how many pairs each has, and the directions of a
/// pair.
const AT_PAIRS: [usize; 9] = [1, 2, 3, 5, 8, 13, 21, 34, 80];
const PAIRS: usize = 12;
const PAIR_DIRECTIONS: usize = 10_000;
/// Changes of a grid's pair, and directions of each.
const CHANGES: usize = 40;
const CHANGE_DIRECTIONS: usize = 50;

pub fn checks() -> Vec<Check> {
    vec![
        Check::new("odd frequencies", |tally| directions(tally, 1)),
        Check::new("even frequencies", |tally| directions(tally, 0)),
        Check::new("zeros of both signs", zeros_of_both_signs),
        Check::new("zeros by hand", zeros_by_hand),
        Check::new("other pairs", other_pairs),
        Check::new("pairs changed after building", changed_pairs),
        Check::new("pairs by hand", pairs_by_hand),
        Check::new("sides of all counts", sides),
        Check::new("damaged grids", damaged),
    ]
}

/// A grid's slices, cut to the lengths that document 01 gives, and the pair that it records.
#[derive(Clone, PartialEq)]
pub struct Slices {
    pub positions: Vec<f64>,
    pub settings: Settings,
    pub side: u32,
    pub cell_starts: Vec<u32>,
    pub cell_ids: Vec<u16>,
    pub triangle_starts: Vec<u32>,
    pub triples: Vec<u16>,
}

impl Slices {
    pub fn new(lists: &Lists, grid: &rust::FaceGrid) -> Self {
        let faces = grid.adj_faces();
        Slices {
            positions: lists.vertices.concat(),
            settings: USUAL,
            side: grid.grid_size() as u32,
            cell_starts: grid.vtx_offsets().to_vec(),
            cell_ids: grid.vertex_ids().to_vec(),
            triangle_starts: grid.adj_offsets().to_vec(),
            triples: faces.concat().iter().map(|&id| id as u16).collect(),
        }
    }

    pub fn as_grid(&self) -> koshirga::Grid<'_> {
        koshirga::Grid {
            positions: &self.positions,
            settings: self.settings,
            side: self.side,
            cell_starts: &self.cell_starts,
            cell_ids: &self.cell_ids,
            triangle_starts: &self.triangle_starts,
            triples: &self.triples,
        }
    }

    fn position(&self, id: usize) -> rust::Vector3 {
        let [x, y, z] = [0, 1, 2].map(|axis| self.positions[3 * id + axis]);
        rust::Vector3::new(x, y, z)
    }

    fn squared_distance(&self, unit: &rust::Vector3, id: usize) -> f64 {
        (*unit - self.position(id)).norm_squared()
    }
}

/// What both queries are to answer.
pub struct Answers {
    pub nearest: Result<Nearest, Reason>,
    pub located: Result<Located, Reason>,
}

fn located(face: [usize; 3], [u, v, w]: [f64; 3]) -> Located {
    let weights = Weights { u, v, w };
    Located {
        triple: face.map(|id| id as u32),
        weights,
        least: least_by_the_clause(weights),
    }
}

/// Both queries refused by a row that carries no index.
fn refused_by(number: u32) -> Answers {
    Answers {
        nearest: Err(Reason::row(number)),
        located: Err(Reason::row(number)),
    }
}

/// By the Rust's answers; the distance and the count, which it keeps to itself, are worked out
/// from its grid.
pub fn rust_answers(slices: &Slices, grid: &rust::FaceGrid, v: Vector3) -> Answers {
    if row_9(v) {
        return refused_by(9);
    }
    let p = rust_of(v);
    let unit = p.normalize();
    let cell = grid.cell_index(&unit);
    let candidates = grid.vtx_offsets()[cell + 1] - grid.vtx_offsets()[cell];
    if candidates == 0 {
        return refused_by(11);
    }
    let id = grid.find_nearest_vertex(&p);
    let (face, weights) = grid.locate(&p);
    Answers {
        nearest: Ok(Nearest {
            id: id as u32,
            candidates,
            distance: slices.squared_distance(&unit, id),
        }),
        located: Ok(located(face, weights)),
    }
}

/// What the engine answers.
fn our_answers(grid: koshirga::Grid, v: Vector3) -> Answers {
    Answers {
        nearest: grid.find_nearest_vertex(v).map_err(Reason::from),
        located: grid.locate(v).map_err(Reason::from),
    }
}

/// Whether both are refused for one reason, or both accepted and alike.
fn same_result<T>(
    x: &Result<T, Reason>,
    y: &Result<T, Reason>,
    alike: impl Fn(&T, &T) -> bool,
) -> bool {
    match (x, y) {
        (Ok(x), Ok(y)) => alike(x, y),
        (Err(reason), Err(other)) => reason == other,
        _ => false,
    }
}

/// Count and distance of a nearest query.
fn same_measures(x: &Nearest, y: &Nearest) -> bool {
    x.candidates == y.candidates && same(x.distance, y.distance)
}

fn same_triangle(x: &Located, y: &Located) -> bool {
    x.triple == y.triple && same_weights(x.weights, y.weights)
}

/// Id, triple and weights are held to the Rust's; distance, count and least, which it does not
/// return, to what is worked out beside it. A refusal is held to its row's text.
fn compare_with_rust(tally: &mut Tally, ours: &Answers, rust: &Answers, name: impl Fn() -> String) {
    let (nearest, located) = (&ours.nearest, &ours.located);
    let same_id = same_result(nearest, &rust.nearest, |x, y| x.id == y.id);
    let describe = || format!("nearest, {}: {nearest:?}, Rust {:?}", name(), rust.nearest);
    tally.compare(judge_of(&rust.nearest), same_id, describe);
    if rust.nearest.is_ok() {
        let same_rest = same_result(nearest, &rust.nearest, same_measures);
        tally.compare(Judge::Beside, same_rest, describe);
    }
    let same_kept = same_result(located, &rust.located, same_triangle);
    let describe = || format!("locate, {}: {located:?}, Rust {:?}", name(), rust.located);
    tally.compare(judge_of(&rust.located), same_kept, describe);
    if rust.located.is_ok() {
        let same_least = same_result(located, &rust.located, |x, y| same(x.least, y.least));
        tally.compare(Judge::Beside, same_least, describe);
    }
}

/// Whether the nearest queries are alike in everything, and whether the locations are.
fn same_answers(x: &Answers, y: &Answers) -> [bool; 2] {
    let nearest = same_result(&x.nearest, &y.nearest, |x, y| {
        x.id == y.id && same_measures(x, y)
    });
    let located = same_result(&x.located, &y.located, |x, y| {
        same_triangle(x, y) && same(x.least, y.least)
    });
    [nearest, located]
}

/// The whole answers are held to the text: a refusal to its row's, an accepted call as it is said.
fn compare_with_text(
    tally: &mut Tally,
    accepted: Judge,
    ours: &Answers,
    text: &Answers,
    name: impl Fn() -> String,
) {
    let judge = |accepts: bool| if accepts { accepted } else { Judge::Rows };
    let (nearest, located) = (&ours.nearest, &ours.located);
    let [same_nearest, same_located] = same_answers(ours, text);
    tally.compare(judge(text.nearest.is_ok()), same_nearest, || {
        format!("nearest, {}: {nearest:?}, text {:?}", name(), text.nearest)
    });
    tally.compare(judge(text.located.is_ok()), same_located, || {
        format!("locate, {}: {located:?}, text {:?}", name(), text.located)
    });
}

fn directions(tally: &mut Tally, parity: usize) {
    for frequency in FREQUENCIES.filter(|frequency| frequency % 2 == parity) {
        let lists = Lattice::new(frequency).lists;
        let grid = rust::FaceGrid::new(&lists.vertices, &lists.neighbors);
        let slices = Slices::new(&lists, &grid);
        let mut inputs = Directions::new(71 + frequency as u64, &lists);
        let name = format!("frequency {frequency}");
        for _ in 0..DIRECTIONS {
            let v = inputs.direction();
            let ours = our_answers(slices.as_grid(), v);
            let rust = rust_answers(&slices, &grid, v);
            compare_with_rust(tally, &ours, &rust, || format!("{name}, {v:?}"));
        }
    }
}

/// Document 01: "A grid query checks count, positions and g against the count (2), the lengths of
/// both start lists (3), the direction (9); then in its cell a part that falls or runs past the
/// ids (3), emptiness (11), an id (4); for a triangle the same at the nearest vertex (3, 4), then
/// 12." W-209: "A query never returns 17; it tries the part read for falling (18), then for running
/// past the ids, still 3." W-210: "Queries and the packing test the recorded pair, with the same two
/// numbers, before g."
pub fn answers_by_the_text(slices: &Slices, v: Vector3) -> Answers {
    match nearest_by_the_text(slices, v) {
        Err(reason) => Answers {
            nearest: Err(reason),
            located: Err(reason),
        },
        Ok(nearest) => Answers {
            located: located_by_the_text(slices, v, nearest.id as usize),
            nearest: Ok(nearest),
        },
    }
}

fn refuse_where(holds: bool, number: u32) -> Result<(), Reason> {
    if holds {
        Err(Reason::row(number))
    } else {
        Ok(())
    }
}

/// The cell of a direction, behind the checks of the grid's lengths and of the direction.
fn cell_by_the_text(slices: &Slices, v: Vector3) -> Result<usize, Reason> {
    let places = slices.positions.len();
    let count = places / 3;
    refuse_where(places == 0 || places % 3 != 0 || count > 65_536, 2)?;
    settings_row(slices.settings).map_or(Ok(()), Err)?;
    let side = pairs::side(count, slices.settings.factor);
    refuse_where(slices.side as usize != side, 2)?;
    refuse_where(slices.cell_starts.len() != 6 * side * side + 1, 3)?;
    refuse_where(slices.triangle_starts.len() != count + 1, 3)?;
    refuse_where(row_9(v), 9)?;
    Ok(cell_of(&rust_of(v).normalize(), side))
}

/// The cell of a normalised direction in a grid of that side.
pub fn cell_of(unit: &rust::Vector3, side: usize) -> usize {
    let (face, u, w) = rust::cube_project(&[unit.x, unit.y, unit.z]);
    let across = |x: f64| {
        let g = side as f64;
        (x.mul_add(0.5, 0.5) * g).clamp(0.0, g - 1.0) as usize
    };
    face * side * side + across(u) * side + across(w)
}

/// The part that is read of a list: from one start to the next, which is the one that falls.
fn part_by_the_text(starts: &[u32], at: usize) -> Result<[usize; 2], Reason> {
    let part = [at, at + 1].map(|at| starts[at] as usize);
    if part[1] < part[0] {
        Err(Reason::fall(at + 1))
    } else {
        Ok(part)
    }
}

fn nearest_by_the_text(slices: &Slices, v: Vector3) -> Result<Nearest, Reason> {
    let cell = cell_by_the_text(slices, v)?;
    let unit = rust_of(v).normalize();
    let count = slices.positions.len() / 3;
    let [start, end] = part_by_the_text(&slices.cell_starts, cell)?;
    refuse_where(end > slices.cell_ids.len(), 3)?;
    let ids = &slices.cell_ids[start..end];
    refuse_where(ids.is_empty(), 11)?;
    refuse_where(ids.iter().any(|&id| usize::from(id) >= count), 4)?;
    let mut best = (ids[0], slices.squared_distance(&unit, ids[0].into()));
    for &id in &ids[1..] {
        let distance = slices.squared_distance(&unit, id.into());
        if distance.total_cmp(&best.1).is_lt() {
            best = (id, distance);
        }
    }
    Ok(Nearest {
        id: best.0.into(),
        candidates: ids.len() as u32,
        distance: best.1,
    })
}

fn located_by_the_text(slices: &Slices, v: Vector3, nearest: usize) -> Result<Located, Reason> {
    let unit = rust_of(v).normalize();
    let count = slices.positions.len() / 3;
    let [start, end] = part_by_the_text(&slices.triangle_starts, nearest)?.map(|at| 3 * at);
    refuse_where(end > slices.triples.len(), 3)?;
    let ids = &slices.triples[start..end];
    refuse_where(ids.iter().any(|&id| usize::from(id) >= count), 4)?;
    let mut kept: Option<Located> = None;
    for next in ids.chunks(3).map(|triple| weighed(slices, &unit, triple)) {
        if next.least > kept.map_or(f64::NEG_INFINITY, |kept| kept.least) {
            kept = Some(next);
        }
    }
    kept.ok_or(Reason::row(12))
}

/// A triangle with its weights at a normalised direction, which the Rust works out.
fn weighed(slices: &Slices, unit: &rust::Vector3, triple: &[u16]) -> Located {
    let face = [0, 1, 2].map(|at| usize::from(triple[at]));
    let [a, b, c] = face.map(|id| slices.position(id));
    located(face, rust::projected_barycentric(unit, &a, &b, &c))
}

/// Of a location whose weights hold zeros of both signs: which comes first, on three vertices or
/// more. Of one whose least is a zero: whether a later triangle has the other zero as its least, which
/// does not exceed it.
const ZERO_KINDS: [&str; 7] = [
    "+0 before -0: the least was +0 by 01; three vertices",
    "+0 before -0: the least was +0 by 01; more",
    "-0 before +0; three vertices",
    "-0 before +0; more",
    "kept with -0, +0 by 01; a later least is +0",
    "kept with -0; a later least is +0",
    "kept with +0; a later least is -0",
];

fn kinds_of_zeros(slices: &Slices, v: Vector3, answers: &Answers) -> [(&'static str, bool); 7] {
    let Ok(Located {
        triple,
        weights,
        least,
    }) = answers.located
    else {
        return ZERO_KINDS.map(|kind| (kind, false));
    };
    let both = first_of_both(&[weights.u, weights.v, weights.w]).is_some();
    let other = earlier_least(weights).to_bits() != least.to_bits();
    let three = slices.positions.len() == 9;
    let later = later_leasts(slices, v, answers, triple);
    let tied = |zero: f64, behind: f64| {
        let is_behind = |later: &f64| later.to_bits() == behind.to_bits();
        least.to_bits() == zero.to_bits() && later.iter().any(is_behind)
    };
    let is = [
        both && other && three,
        both && other && !three,
        both && !other && three,
        both && !other && !three,
        tied(-0.0, 0.0) && other,
        tied(-0.0, 0.0),
        tied(0.0, -0.0),
    ];
    std::array::from_fn(|at| (ZERO_KINDS[at], is[at]))
}

/// The leasts of the triangles that stand behind this one at the nearest vertex.
fn later_leasts(slices: &Slices, v: Vector3, answers: &Answers, triple: [u32; 3]) -> Vec<f64> {
    let unit = rust_of(v).normalize();
    let at = answers.nearest.as_ref().map_or(0, |nearest| nearest.id) as usize;
    let [start, end] = [at, at + 1].map(|at| 3 * slices.triangle_starts[at] as usize);
    slices.triples[start..end]
        .chunks(3)
        .map(|triple| weighed(slices, &unit, triple))
        .skip_while(|next| next.triple != triple)
        .skip(1)
        .map(|next| next.least)
        .collect()
}

/// The Rust's answers, but for row 12, where it has none.
fn rust_or_row_12(slices: &Slices, grid: &rust::FaceGrid, v: Vector3) -> Answers {
    let mut answers = rust_answers(slices, grid, v);
    if let Err(reason) = answers_by_the_text(slices, v).located {
        answers.located = Err(reason);
    }
    answers
}

/// The triangle kept does not depend on the sign of a zero, so it is the Rust's, whichever zero its
/// `f64::min` gives; the least is the clause's.
fn zeros_of_both_signs(tally: &mut Tally) {
    let mut random = Random::new(80);
    let mut rows = Rows::default();
    let mut kinds = Kinds::default();
    for _ in 0..ZERO_MESHES {
        let mesh = zeros::SmallMesh::random(&mut random);
        let Lists {
            vertices,
            neighbors,
        } = &mesh.lists;
        let grid = rust::FaceGrid::new(vertices, neighbors);
        let slices = Slices::new(&mesh.lists, &grid);
        for _ in 0..ZERO_DIRECTIONS {
            let v = mesh.direction(&mut random);
            let rust = rust_or_row_12(&slices, &grid, v);
            rows.count(rust.located.as_ref().err().copied());
            kinds.count(&kinds_of_zeros(&slices, v, &rust));
            let ours = our_answers(slices.as_grid(), v);
            compare_with_rust(tally, &ours, &rust, || format!("{vertices:?}, {v:?}"));
        }
    }
    rows.all_reached(tally, &[11, 12]);
    kinds.all_reached(tally);
}

/// The engine builds these grids too: their meshes are such as it accepts.
fn zeros_by_hand(tally: &mut Tally) {
    for ByHand {
        vertices,
        direction,
        weights,
        leasts: [earlier, least],
    } in zeros::BY_HAND
    {
        let lists = Lists::complete(vertices.to_vec());
        let mesh = lists.flat();
        let built = koshirga::FaceGrid::new(mesh.as_mesh());
        let ours = built.map(|grid| grid.locate(direction));
        let rust = rust::FaceGrid::new(&lists.vertices, &lists.neighbors);
        let (face, [u, v, w]) = rust.locate(&rust_of(direction));
        let of_rust = Weights { u, v, w };
        let by_hand = Located {
            triple: [0, 1, 2],
            weights,
            least,
        };
        let alike = matches!(&ours, Ok(Ok(ours)) if same_triangle(ours, &by_hand));
        tally.compare(
            Judge::Rust,
            alike && face == [0, 1, 2] && same_weights(of_rust, weights),
            || format!("{vertices:?}: {ours:?}, Rust {face:?} {of_rust:?}, by hand {by_hand:?}"),
        );
        let readings = [earlier_least(weights), least_by_the_clause(weights)];
        let read = [(readings[0], earlier), (readings[1], least)];
        let alike = read.iter().all(|&(reading, hand)| same(reading, hand))
            && matches!(&ours, Ok(Ok(ours)) if same(ours.least, least));
        tally.compare(Judge::Beside, alike, || {
            format!("{vertices:?}: {ours:?}, by 01 and by the clause {readings:?}")
        });
    }
}

/// Grids of other pairs. At the usual one the text's answers have to be the Rust's.
fn other_pairs(tally: &mut Tally) {
    let mut random = Random::new(75);
    let mut rows = Rows::default();
    let (mut kinds, mut answered) = (Kinds::default(), Kinds::default());
    for frequency in AT_PAIRS {
        let lists = Lattice::new(frequency).lists;
        let grid = rust::FaceGrid::new(&lists.vertices, &lists.neighbors);
        let usual = Slices::new(&lists, &grid);
        let mut inputs = Directions::new(76 + frequency as u64, &lists);
        for at in 0..=PAIRS {
            let slices = match at {
                0 => usual.clone(),
                _ => grid_beside(&usual, pairs::accepted(&mut random)),
            };
            kinds.count(&kinds_of_pair(slices.settings));
            let name = |v| format!("frequency {frequency}, {:?}, {v:?}", slices.settings);
            for _ in 0..PAIR_DIRECTIONS {
                let v = inputs.direction();
                let ours = our_answers(slices.as_grid(), v);
                let text = answers_by_the_text(&slices, v);
                rows.count(text.located.as_ref().err().copied());
                answered.count(&[("accepted", text.located.is_ok())]);
                if at == 0 && same_answers(&text, &rust_answers(&slices, &grid, v)) != [true; 2] {
                    tally.compare(Judge::Beside, false, || {
                        format!("the text's answer is not the Rust's: {}", name(v))
                    });
                    continue;
                }
                compare_with_text(tally, Judge::Beside, &ours, &text, || name(v));
            }
        }
    }
    answered.all_reached(tally);
    rows.all_reached(tally, &[9, 11]);
    kinds.all_reached(tally);
}

/// Another pair that neither row refuses: the next factor, another margin, the usual pair, or any.
fn changed(random: &mut Random, settings: Settings) -> Settings {
    let Settings { factor, margin } = settings;
    loop {
        let other = match random.below(4) {
            0 => pair(f64::from_bits(random.near(factor.to_bits(), 1)), margin),
            1 => pair(factor, random.below(4) as u32),
            2 => USUAL,
            _ => pairs::accepted(random),
        };
        if other != settings && settings_row(other).is_none() {
            return other;
        }
    }
}

/// Where the side is that of the pair now recorded, the answer is the one before, whatever pair filled
/// the cells; where it isn't, row 2 refuses.
fn changed_pairs(tally: &mut Tally) {
    let mut random = Random::new(77);
    let mut kinds = Kinds::default();
    for frequency in AT_PAIRS {
        let lists = Lattice::new(frequency).lists;
        let count = lists.vertices.len();
        let usual = rust_grid(&lists);
        let mut inputs = Directions::new(78 + frequency as u64, &lists);
        for at in 0..PAIRS {
            let slices = match at {
                0 => usual.clone(),
                _ => grid_beside(&usual, pairs::accepted(&mut random)),
            };
            for _ in 0..CHANGES {
                let built = slices.settings;
                let now = changed(&mut random, built);
                let grid = koshirga::Grid {
                    settings: now,
                    ..slices.as_grid()
                };
                let stays = pairs::side(count, now.factor) == slices.side as usize;
                let other_factor = stays && now.factor != built.factor;
                kinds.count(&[
                    ("the same side: the next double", {
                        let apart = now.factor.to_bits().abs_diff(built.factor.to_bits());
                        stays && apart == 1
                    }),
                    ("the same side: another factor for 1.2", {
                        other_factor && built.factor == USUAL.factor
                    }),
                    ("the same side: 1.2 for another factor", {
                        other_factor && now.factor == USUAL.factor
                    }),
                    ("the same side: another margin alone", {
                        stays && !other_factor && now.margin != built.margin
                    }),
                    ("2: another side", !stays),
                ]);
                for _ in 0..CHANGE_DIRECTIONS {
                    let v = inputs.direction();
                    let answers = our_answers(grid, v);
                    let (judge, same) = if stays {
                        let before = our_answers(slices.as_grid(), v);
                        (Judge::Engine, same_answers(&answers, &before))
                    } else {
                        (Judge::Rows, same_answers(&answers, &refused_by(2)))
                    };
                    tally.compare(judge, same == [true; 2], || {
                        let Answers { nearest, located } = &answers;
                        format!("frequency {frequency}, {built:?} changed to {now:?}, {v:?}: {nearest:?}, {located:?}")
                    });
                }
            }
        }
    }
    kinds.all_reached(tally);
}

/// The text's reading and the engine, both held to what is known by hand, on the grid of one vertex
/// (1, 1, 1) that the usual pair fills: at every pair in range its side is 2.
fn pairs_by_hand(tally: &mut Tally) {
    let usual = rust_grid(&Lists {
        vertices: vec![[1.0; 3]],
        neighbors: vec![vec![]],
    });
    let v = Vector3::new(1.0, 1.0, 1.0);
    for (settings, row) in pairs::BY_HAND {
        let whole = Slices {
            settings,
            ..usual.clone()
        };
        let (mut no_vertex, mut other_side, mut short) =
            (whole.clone(), whole.clone(), whole.clone());
        no_vertex.positions.clear();
        other_side.side = 3;
        short.cell_starts.clear();
        // The vertex is found, but there is no triangle.
        for (slices, nearest, located) in [
            (no_vertex, Some(2), Some(2)),
            (other_side, row.or(Some(2)), row.or(Some(2))),
            (short, row.or(Some(3)), row.or(Some(3))),
            (whole, row, row.or(Some(12))),
        ] {
            let numbers = |answers: &Answers| {
                [
                    answers.nearest.as_ref().err().map(|reason| reason.number),
                    answers.located.as_ref().err().map(|reason| reason.number),
                ]
            };
            let ours = numbers(&our_answers(slices.as_grid(), v));
            let text = numbers(&answers_by_the_text(&slices, v));
            let hand = [nearest, located];
            tally.compare(Judge::Rows, ours == hand && text == hand, || {
                format!("{settings:?}: {ours:?}, text {text:?}, by hand {hand:?}")
            });
        }
    }
}

/// Counts, factors and sides by hand.
const SIDES_BY_HAND: [(usize, f64, usize); 5] = [
    (64_002, 0.5, 52),
    (64_002, 1.2, 124),
    (64_002, 4.0, 414),
    (1, 4.0, 2),
    (65_536, 4.0, 419),
];

/// The side of every count, seen without a grid: with no start list row 3 refuses where g is the side,
/// and row 2 where it is one more or less. The sides lie from 2 to 419, and both occur.
fn sides(tally: &mut Tally) {
    let positions = vec![1.0; 3 * 65_536];
    let row = |count: usize, factor: f64, side: usize| {
        let grid = koshirga::Grid {
            positions: &positions[..3 * count],
            settings: pair(factor, 0),
            side: side as u32,
            cell_starts: &[],
            cell_ids: &[],
            triangle_starts: &[],
            triples: &[],
        };
        let answer = grid.find_nearest_vertex(Vector3::new(1.0, 0.0, 0.0));
        answer.err().map(|refusal| refusal.number())
    };
    for (count, factor, side) in SIDES_BY_HAND {
        let same = pairs::side(count, factor) == side && row(count, factor, side) == Some(3);
        tally.compare(Judge::Rows, same, || {
            format!("side of {count} vertices and factor {factor}, by hand {side}")
        });
    }
    let mut random = Random::new(79);
    let drawn = [0; 9].map(|_| 0.5 + 3.5 * random.unit().abs());
    let mut kinds = Kinds::default();
    for factor in [&pairs::FACTORS[..], &drawn].concat() {
        for count in 1..=65_536 {
            let side = pairs::side(count, factor);
            kinds.count(&[("side 2", side == 2), ("side 419", side == 419)]);
            let rows = [side - 1, side, side + 1].map(|side| row(count, factor, side));
            let same = (2..=419).contains(&side) && rows == [Some(2), Some(3), Some(2)];
            tally.compare(Judge::Rows, same, || {
                format!("{count} vertices, factor {factor:?}, side {side}, one less and one more: {rows:?}")
            });
        }
    }
    kinds.all_reached(tally);
}

/// Up to three changes of a slice, the side or a position.
pub fn damage(random: &mut Random, slices: &mut Slices) {
    let count = slices.positions.len() / 3;
    let some = |random: &mut Random, length: usize| random.below(length as u64) as usize;
    for _ in 0..random.below(4) {
        match random.below(17) {
            0 => slices.side = random.below(6) as u32,
            1 => drop(slices.positions.pop()),
            2 => slices.positions.truncate(3 * (count - 1)),
            3 => drop(slices.cell_starts.pop()),
            4 => slices.triangle_starts.push(0),
            5 => slices
                .cell_ids
                .truncate(some(random, slices.cell_ids.len() + 1)),
            6 => slices
                .triples
                .truncate(some(random, slices.triples.len() + 1)),
            7 => {
                let value = random.below(2 * slices.cell_ids.len() as u64 + 2) as u32;
                let at = some(random, slices.cell_starts.len().max(1));
                slices
                    .cell_starts
                    .iter_mut()
                    .skip(at)
                    .take(8)
                    .for_each(|start| *start = value);
            }
            8 => {
                let value = random.below(2 * slices.triples.len() as u64 + 2) as u32 / 3;
                let at = some(random, slices.triangle_starts.len().max(1));
                slices
                    .triangle_starts
                    .iter_mut()
                    .skip(at)
                    .take(3)
                    .for_each(|start| *start = value);
            }
            9 => {
                let foreign = count as u16 + random.below(2) as u16;
                slices
                    .cell_ids
                    .iter_mut()
                    .step_by(5)
                    .for_each(|id| *id = foreign);
            }
            10 => {
                let foreign = random.below(2 * count as u64) as u16;
                slices
                    .triples
                    .iter_mut()
                    .step_by(7)
                    .for_each(|id| *id = foreign);
            }
            11 => slices
                .triangle_starts
                .iter_mut()
                .for_each(|start| *start = 0),
            12 => slices.triangle_starts.fill(u32::MAX),
            // Nearly every part falls.
            13 => slices.cell_starts.reverse(),
            14 => slices.triangle_starts.reverse(),
            // Both lists behind an id and a triple that no part has: no query tests that.
            15 => {
                let later = |start: &mut u32| *start = start.saturating_add(1);
                slices.cell_starts.iter_mut().for_each(later);
                slices.cell_ids.insert(0, 0);
                slices.triangle_starts.iter_mut().for_each(later);
                slices.triples.splice(..0, [0; 3]);
            }
            // Positions aren't tested again.
            _ => {
                let values = [f64::NAN, f64::INFINITY, 0.0, 1e300, -1e-300];
                let value = values[some(random, values.len())];
                slices
                    .positions
                    .iter_mut()
                    .step_by(4)
                    .for_each(|x| *x = value);
            }
        }
    }
}

/// Of the part at a place, by the starts and how many ids or triples there are: it falls; it is the
/// first, or the last; its end is past them too; an earlier start falls too; it only ends past them.
fn kinds_of_part(starts: &[u32], places: usize, at: usize) -> [bool; 6] {
    let falls = |at: usize| starts[at + 1] < starts[at];
    let past = starts[at + 1] as usize > places;
    [
        falls(at),
        falls(at) && at == 0,
        falls(at) && at + 2 == starts.len(),
        falls(at) && past,
        falls(at) && (0..at).any(falls),
        !falls(at) && past,
    ]
}

/// Whether starts fall somewhere, and whether row 17 of a mesh would refuse them.
fn faults(starts: &[u32], places: usize) -> [bool; 2] {
    let spans = starts.first() == Some(&0) && starts.last() == Some(&(places as u32));
    [starts.windows(2).any(|pair| pair[1] < pair[0]), !spans]
}

/// The kinds of queries, each behind the row that is to refuse it, and whether one is of them. An
/// accepted query has starts that it doesn't read, or that a mesh could not have.
fn kinds_of_query(slices: &Slices, v: Vector3, answers: &Answers) -> [(&'static str, bool); 17] {
    let triples = slices.triples.len() / 3;
    let by = |number| matches!(answers.located, Err(reason) if reason.number == number);
    let cell = cell_by_the_text(slices, v).ok();
    let in_cell = cell.map_or([false; 6], |cell| {
        kinds_of_part(&slices.cell_starts, slices.cell_ids.len(), cell)
    });
    let vertex = answers.nearest.as_ref().ok().map(|nearest| nearest.id);
    let at_vertex = vertex.map_or([false; 6], |id| {
        kinds_of_part(&slices.triangle_starts, triples, id as usize)
    });
    let accepted = answers.located.is_ok();
    let cells = faults(&slices.cell_starts, slices.cell_ids.len()).map(|fault| accepted && fault);
    let triangles = faults(&slices.triangle_starts, triples).map(|fault| accepted && fault);
    [
        ("3: a wrong length", by(3) && cell.is_none()),
        ("18: the cell's part falls", by(18) && in_cell[0]),
        (
            "18: the part of cell 0 falls, index 1",
            by(18) && in_cell[1],
        ),
        ("18: the last cell's part falls", by(18) && in_cell[2]),
        (
            "18: the cell's part falls, and ends past the ids",
            by(18) && in_cell[3],
        ),
        (
            "18: the cell's part falls, and an earlier start too",
            by(18) && in_cell[4],
        ),
        ("3: the cell's part ends past the ids", by(3) && in_cell[5]),
        ("18: the vertex's part falls", by(18) && at_vertex[0]),
        (
            "18: the part of vertex 0 falls, index 1",
            by(18) && at_vertex[1],
        ),
        ("18: the last vertex's part falls", by(18) && at_vertex[2]),
        (
            "18: the vertex's part falls, and ends past the triples",
            by(18) && at_vertex[3],
        ),
        (
            "18: the vertex's part falls, and an earlier start too",
            by(18) && at_vertex[4],
        ),
        (
            "3: the vertex's part ends past the triples",
            by(3) && at_vertex[5],
        ),
        ("accepted: cell starts fall elsewhere", cells[0]),
        ("accepted: cell starts that 17 would refuse", cells[1]),
        ("accepted: triangle starts fall elsewhere", triangles[0]),
        (
            "accepted: triangle starts that 17 would refuse",
            triangles[1],
        ),
    ]
}

/// What a recorded pair meets, each behind the row that is to refuse it.
fn kinds_of_recorded_pair(slices: &Slices, answers: &Answers) -> [(&'static str, bool); 7] {
    let Settings { factor, margin } = slices.settings;
    let count = slices.positions.len() / 3;
    let by = |number| matches!(answers.nearest, Err(reason) if reason.number == number);
    let out_of_range = settings_row(slices.settings).is_some();
    let wrong_length = slices.triangle_starts.len() != count + 1;
    let side_of = |factor| slices.side as usize == pairs::side(count, factor);
    [
        (
            "2: the count, and a pair out of range",
            by(2) && out_of_range,
        ),
        ("19: and a margin above 3", by(19) && margin > 3),
        ("19: and g below 2", by(19) && slices.side < 2),
        ("20: and g not the side", by(20) && !side_of(factor)),
        (
            "19 or 20: and a start list of wrong length",
            (by(19) || by(20)) && wrong_length,
        ),
        (
            "2: g of the usual factor, not of the recorded one",
            by(2) && !out_of_range && side_of(1.2) && !side_of(factor),
        ),
        (
            "accepted: another pair than the usual",
            answers.located.is_ok() && slices.settings != USUAL,
        ),
    ]
}

/// Each damaged grid is asked for a hundred directions. Half of the grids are of the usual pair; in
/// one of three the recorded pair is changed too.
fn damaged(tally: &mut Tally) {
    let mut random = Random::new(73);
    let mut rows = Rows::default();
    let (mut kinds, mut pair_kinds) = (Kinds::default(), Kinds::default());
    for frequency in 1..=3 {
        let lists = Lattice::new(frequency).lists;
        let usual = rust_grid(&lists);
        let others = [0; PAIRS].map(|_| grid_beside(&usual, pairs::accepted(&mut random)));
        let mut inputs = Directions::new(74, &lists);
        for at in 0..DAMAGED / 300 {
            let mut slices = match random.below(2) {
                0 => usual.clone(),
                _ => others[random.below(PAIRS as u64) as usize].clone(),
            };
            damage(&mut random, &mut slices);
            match random.below(12) {
                0 => slices.settings = pairs::accepted(&mut random),
                1..=3 => slices.settings = pairs::refused(&mut random),
                _ => (),
            }
            let name = format!("damaged grid {at} of frequency {frequency}");
            for _ in 0..100 {
                let v = inputs.direction();
                let answers = answers_by_the_text(&slices, v);
                rows.count(answers.located.as_ref().err().copied());
                kinds.count(&kinds_of_query(&slices, v, &answers));
                pair_kinds.count(&kinds_of_recorded_pair(&slices, &answers));
                let ours = our_answers(slices.as_grid(), v);
                let name = || format!("{name}, {:?}, {v:?}", slices.settings);
                compare_with_text(tally, Judge::Rows, &ours, &answers, name);
            }
        }
    }
    rows.all_reached(tally, &[2, 19, 20, 3, 9, 18, 11, 4, 12]);
    kinds.all_reached(tally);
    pair_kinds.all_reached(tally);
}
