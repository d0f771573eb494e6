//! Demand 3's statement with W-208, executed: lists of renumbering calls, refused ones among them, on
//! lattices of the oracle, with their lists in order or not; both grids are built with the same pair
//! and queried by the engine.

use crate::check::{Check, Judge, Kinds, Tally};
use crate::directions::{rust_of, Directions};
use crate::grids::greatest_ids;
use crate::meshes::{has_repeats, permutation, Flat, Lattice, Lists};
use crate::pairs::{self, kinds_of_pair, USUAL};
use crate::patterns::Random;
use crate::queries::cell_of;
use crate::renumber::{mark, State};
use koshirga::{Grid, GridMut, MeshMut, Refusal, Scratch, Settings, Vector3};

/// Lists of calls for each frequency, and directions for each list.
const LISTS: usize = 12;
const DIRECTIONS: usize = 2_000;

pub fn checks() -> Vec<Check> {
    vec![
        Check::new("one entry a vertex", |tally| {
            calls(tally, 1, &[1, 2, 3, 5, 8, 13, 21, 34])
        }),
        Check::new("an entry a pair", |tally| calls(tally, 2, &[1, 2, 3, 4, 5])),
    ]
}

/// A call of any kind: a permutation or none, a form or none, scratch long enough or not.
struct Call {
    permutation: Vec<u32>,
    entries_per_vertex: usize,
    places: usize,
}

impl Call {
    /// Such as no row refuses.
    fn accepted(state: &State, form: usize, permutation: Vec<u32>) -> Self {
        Call {
            entries_per_vertex: if form == 1 { 1 } else { state.mesh.count() },
            places: state.longest(&permutation),
            permutation,
        }
    }

    fn random(random: &mut Random, state: &State, form: usize) -> Self {
        let count = state.mesh.count();
        let ids = permutation(random, count);
        let ids = ids.iter().map(|&id| id as u32).collect();
        let mut call = Call::accepted(state, form, ids);
        match random.below(8) {
            0 => call.permutation[0] = call.permutation[count - 1],
            1 => call.permutation.truncate(count - 1),
            2 => call.entries_per_vertex = count + 1,
            3 => call.places -= 1,
            _ => {}
        }
        call
    }

    fn apply(&self, state: &mut State) -> Result<(), u32> {
        let mesh = MeshMut {
            positions: &mut state.mesh.positions,
            starts: &mut state.mesh.starts,
            entries: &mut state.mesh.entries,
            lists_ascend: &mut state.lists_ascend,
        };
        let scratch = Scratch {
            sources: &mut vec![0; self.places],
            old_starts: &mut vec![0; self.places],
            old_entries: &mut vec![0; self.places],
            done: &mut vec![0; self.places],
            held: &mut vec![0.0; self.places],
        };
        let entries = self.entries_per_vertex;
        koshirga::apply_vertex_permutation(
            mesh,
            &mut state.values,
            &self.permutation,
            entries,
            scratch,
        )
        .map_err(Refusal::number)
    }
}

/// The engine's grid of a mesh, cut to a grid's lengths, and the count of conversions held.
struct Built {
    settings: Settings,
    side: u32,
    held: u32,
    cell_starts: Vec<u32>,
    cell_ids: Vec<u16>,
    triangle_starts: Vec<u32>,
    triples: Vec<u16>,
}

impl Built {
    fn new(mesh: &Flat, settings: Settings) -> Result<Self, u32> {
        let count = mesh.count();
        let side = pairs::side(count, settings.factor);
        let mut cell_starts = vec![0; 6 * side * side + 1];
        let mut cell_ids = vec![0; greatest_ids(count, settings.margin)];
        let mut triangle_starts = vec![0; count + 1];
        // A lattice's triangles take 3 places an entry; one repeat a list at most doubles them.
        let mut triples = vec![0; 6 * mesh.entries.len()];
        let lent = GridMut {
            cell_starts: &mut cell_starts,
            cell_ids: &mut cell_ids,
            triangle_starts: &mut triangle_starts,
            triples: &mut triples,
        };
        let answer = koshirga::build_grid(mesh.as_mesh(), settings, lent);
        let koshirga::Built { side, held } = answer.map_err(Refusal::number)?;
        cell_starts.truncate(6 * (side * side) as usize + 1);
        cell_ids.truncate(cell_starts[cell_starts.len() - 1] as usize);
        triples.truncate(3 * triangle_starts[count] as usize);
        Ok(Built {
            settings,
            side,
            held,
            cell_starts,
            cell_ids,
            triangle_starts,
            triples,
        })
    }

    fn cell(&self, at: usize) -> &[u16] {
        &self.cell_ids[self.cell_starts[at] as usize..self.cell_starts[at + 1] as usize]
    }

    /// The triples at a vertex as a set, each taken through p and sorted.
    fn triples_at(&self, v: usize, p: impl Fn(u16) -> u32) -> Vec<Vec<u32>> {
        let part = 3 * self.triangle_starts[v] as usize..3 * self.triangle_starts[v + 1] as usize;
        let mut triples: Vec<Vec<u32>> = self.triples[part]
            .chunks(3)
            .map(|triple| sorted(triple.iter().map(|&id| p(id)).collect()))
            .collect();
        triples.sort();
        triples.dedup();
        triples
    }

    fn as_grid<'a>(&'a self, mesh: &'a Flat) -> Grid<'a> {
        Grid {
            positions: &mesh.positions,
            settings: self.settings,
            side: self.side,
            cell_starts: &self.cell_starts,
            cell_ids: &self.cell_ids,
            triangle_starts: &self.triangle_starts,
            triples: &self.triples,
        }
    }
}

fn sorted(mut ids: Vec<u32>) -> Vec<u32> {
    ids.sort_unstable();
    ids
}

/// Positions, lists and data after the calls, by the accumulated permutation. W-208: "the mission's
/// last demand compares neighbour lists sorted".
fn state_moved(before: &State, after: &State, p: &[u32], form: usize) -> bool {
    let count = before.mesh.count();
    let through = |list: &[u16]| sorted(list.iter().map(|&id| p[usize::from(id)]).collect());
    let as_they_are = |list: &[u16]| sorted(list.iter().map(|&id| u32::from(id)).collect());
    let [lists, lists_after] = [before, after].map(|state| state.mesh.lists().neighbors);
    let bits = |values: &[f64]| -> Vec<u64> { values.iter().map(|x| x.to_bits()).collect() };
    let vertices = (0..count).all(|v| {
        let at = p[v] as usize;
        let position = |mesh: &Flat, v: usize| bits(&mesh.positions[3 * v..3 * v + 3]);
        position(&before.mesh, v) == position(&after.mesh, at)
            && through(&lists[v]) == as_they_are(&lists_after[at])
    });
    let columns = if form == 1 { 1 } else { count };
    let slab = count * columns;
    let slabs = before.values.len() / slab;
    let data = (0..slabs).all(|s| {
        (0..count).all(|v| {
            (0..columns).all(|w| {
                let column = if columns == 1 { w } else { p[w] as usize };
                let old = before.values[s * slab + v * columns + w];
                let new = after.values[s * slab + p[v] as usize * columns + column];
                old.to_bits() == new.to_bits()
            })
        })
    });
    let tail = bits(&before.values[slabs * slab..]) == bits(&after.values[slabs * slab..]);
    vertices && data && tail
}

/// Sides, counts of conversions held, cells and triples of the two grids.
fn grids_moved(before: &Built, after: &Built, p: &[u32]) -> bool {
    let through = |id: u16| p[usize::from(id)];
    let cells = 6 * (before.side * before.side) as usize;
    before.side == after.side
        && before.held == after.held
        && (0..cells).all(|at| {
            let moved = sorted(before.cell(at).iter().map(|&id| through(id)).collect());
            let now: Vec<u32> = after.cell(at).iter().map(|&id| u32::from(id)).collect();
            moved == now
        })
        && (0..p.len())
            .all(|v| before.triples_at(v, through) == after.triples_at(p[v] as usize, u32::from))
}

/// The candidates that have the distance's bits, ascending as in their cell.
fn at_distance(mesh: &Flat, cell: &[u16], unit: Vector3, distance: f64) -> Vec<u32> {
    let at = |id: u16, axis: usize| mesh.positions[3 * usize::from(id) + axis];
    cell.iter()
        .filter(|&&id| {
            let vertex = Vector3::new(at(id, 0), at(id, 1), at(id, 2));
            unit.minus(vertex).norm_squared().to_bits() == distance.to_bits()
        })
        .map(|&id| u32::from(id))
        .collect()
}

fn calls(tally: &mut Tally, form: usize, frequencies: &[usize]) {
    let mut random = Random::new(90 + form as u64);
    let mut kinds = Kinds::default();
    for &frequency in frequencies {
        let mut lists = Lattice::new(frequency).lists;
        for list in 0..LISTS {
            if list == LISTS / 2 {
                let side = pairs::side(lists.vertices.len(), USUAL.factor);
                lists.bring_edge_on(&mut random, side);
            }
            let mut start = lists.clone();
            if random.below(2) == 0 {
                start.shuffle(&mut random);
            }
            one_list(tally, &mut kinds, &mut random, &start, form, list);
        }
    }
    kinds.all_reached(tally);
}

/// What the calls of a list came to, and whether the start's lists ascend.
fn kinds_of_calls(before: &State, calls: usize, accepted: usize) -> [(&'static str, bool); 9] {
    let lists = before.mesh.lists();
    let ascend = lists.ascend();
    let repeats = lists.neighbors.iter().any(|list| has_repeats(list));
    let refused = accepted == 0 && calls > 0;
    [
        ("no call, lists in order", calls == 0 && ascend),
        ("no call, lists out of order", calls == 0 && !ascend),
        ("refused calls alone, lists in order", refused && ascend),
        (
            "refused calls alone, lists out of order",
            refused && !ascend,
        ),
        (
            "none accepted, the mark false",
            accepted == 0 && !before.lists_ascend,
        ),
        (
            "none accepted, the mark true",
            accepted == 0 && before.lists_ascend,
        ),
        ("accepted calls, lists in order", accepted > 0 && ascend),
        (
            "accepted calls, lists out of order",
            accepted > 0 && !ascend,
        ),
        (
            "accepted calls, a list with a repeat",
            accepted > 0 && repeats,
        ),
    ]
}

/// Where no call was accepted everything is as it was, lists and mark included. Else every list
/// ascends and the mark is true, by the text of W-208; and as renumbering by p and then q is
/// renumbering by the composition, one call by the accumulated permutation leaves the same.
fn compare_order(
    tally: &mut Tally,
    before: &State,
    after: &State,
    composed: Option<Call>,
    name: impl Fn() -> String,
) {
    let Some(composed) = composed else {
        return tally.compare(Judge::Engine, after.same(before), || {
            format!("not as it was after {}, none accepted", name())
        });
    };
    let ascend = after.mesh.lists().ascend() && after.lists_ascend;
    tally.compare(Judge::Beside, ascend, || {
        format!("lists or mark don't ascend after {}", name())
    });
    let mut once = before.clone();
    let answer = composed.apply(&mut once);
    tally.compare(Judge::Engine, answer.is_ok() && once.same(after), || {
        format!(
            "{answer:?} or another state by one call in place of {}",
            name()
        )
    });
}

/// One list of three is at the usual pair. The kinds are counted by lists.
fn one_list(
    tally: &mut Tally,
    kinds: &mut Kinds,
    random: &mut Random,
    lists: &Lists,
    form: usize,
    length: usize,
) {
    let mesh = lists.flat();
    let count = mesh.count();
    let slab = if form == 1 { count } else { count * count };
    let places = slab * random.below(3) as usize + random.below(slab as u64) as usize;
    let before = State {
        mesh,
        lists_ascend: mark(random),
        values: (0..places).map(|i| i as f64 + 0.5).collect(),
    };
    let mut after = before.clone();
    let mut p: Vec<u32> = (0..count as u32).collect();
    let mut accepted = 0;
    for _ in 0..length {
        let call = Call::random(random, &after, form);
        if call.apply(&mut after).is_ok() {
            accepted += 1;
            p.iter_mut()
                .for_each(|id| *id = call.permutation[*id as usize]);
        }
    }
    let settings = match random.below(3) {
        0 => USUAL,
        _ => pairs::accepted(random),
    };
    let name = || format!("{length} calls on {count} vertices, {places} numbers, {settings:?}");
    tally.compare(
        Judge::Engine,
        state_moved(&before, &after, &p, form),
        || format!("mesh and data after {}", name()),
    );
    let composed = (accepted > 0).then(|| Call::accepted(&before, form, p.clone()));
    compare_order(tally, &before, &after, composed, name);
    let built = |state: &State| Built::new(&state.mesh, settings);
    let (Ok(grid), Ok(grid_after)) = (built(&before), built(&after)) else {
        return tally.compare(Judge::Engine, false, || {
            format!("a grid was refused after {}", name())
        });
    };
    tally.compare(Judge::Engine, grids_moved(&grid, &grid_after, &p), || {
        format!("grids after {}", name())
    });
    let mut directions = Directions::new(random.bits(), lists);
    let (mut answered, mut empty) = (false, false);
    for _ in 0..DIRECTIONS {
        let v = directions.direction();
        let first = grid.as_grid(&before.mesh).find_nearest_vertex(v);
        let second = grid_after.as_grid(&after.mesh).find_nearest_vertex(v);
        answered |= first.is_ok();
        empty |= first.is_err_and(|refusal| refusal.number() == 11);
        let same = match (first, second) {
            (Err(x), Err(y)) => x == y,
            (Ok(x), Ok(y)) => {
                let unit = v.normalize();
                let cell = cell_of(&rust_of(unit), grid.side as usize);
                let old = at_distance(&before.mesh, grid.cell(cell), unit, x.distance);
                let new = at_distance(&after.mesh, grid_after.cell(cell), unit, y.distance);
                let alone = old.len() == 1;
                (!alone || y.id == p[x.id as usize])
                    && old.first() == Some(&x.id)
                    && new.first() == Some(&y.id)
                    && x.distance.to_bits() == y.distance.to_bits()
                    && x.candidates == y.candidates
                    && x.candidates as usize == grid.cell(cell).len()
            }
            _ => false,
        };
        tally.compare(Judge::Engine, same, || {
            format!("{v:?} after {}: {first:?}, {second:?}", name())
        });
    }
    let of_grids = [
        ("no conversion is held", grid.held == 0),
        ("some are held", grid.held > 0),
        ("a nearest query is answered", answered),
        ("a nearest query meets an empty cell", empty),
    ];
    let of_calls = kinds_of_calls(&before, length, accepted);
    kinds.count(&[&kinds_of_pair(settings)[..], &of_grids, &of_calls].concat());
}
