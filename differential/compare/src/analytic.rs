//! The analytic locator beside the Rust's, on all 80 lattices, and the choice of a face.

use crate::check::{same, Check, Judge, Tally};
use crate::directions::{row_9, rust_of, Directions};
use crate::meshes::{Lattice, FREQUENCIES};
use icotable_oracle as rust;
use koshirga::{choose_face, AnalyticLattice, Outside, Refusal, Signs, Vector3, Weights};

/// Directions of each frequency.
const DIRECTIONS: usize = 300_000;
/// Directions about the icosahedron's vertices, to count flag sums.
const NEAR_VERTICES: usize = 2_000_000;

pub fn checks() -> Vec<Check> {
    vec![
        Check::new("choose_face", every_choice),
        Check::new("flag sums reached", flag_sums),
        Check::new("odd frequencies", |tally| directions(tally, 1)),
        Check::new("even frequencies", |tally| directions(tally, 0)),
        Check::new("refusals", refusals),
    ]
}

/// An expected refusal is that of a row's text; what is accepted is the Rust's.
pub fn judge_of<T, R>(expected: &Result<T, R>) -> Judge {
    match expected {
        Ok(_) => Judge::Rust,
        Err(_) => Judge::Rows,
    }
}

const BOTH: [bool; 2] = [false, true];

/// All 64 cases.
fn every_choice(tally: &mut Tally) {
    for case in 0..64usize {
        let [i, j, k, first, second, third] =
            [32, 16, 8, 4, 2, 1].map(|place| BOTH[usize::from(case & place != 0)]);
        let signs = Signs { i, j, k };
        let outside = Outside {
            first,
            second,
            third,
        };
        let ours = choose_face(signs, outside).map_err(Refusal::number);
        let sum = usize::from(first) + 2 * usize::from(second) + 3 * usize::from(third);
        let line = rust::FACE_MAPPING[usize::from(i)][usize::from(j)][usize::from(k)];
        let table = line.get(sum).map(|&face| face as u32).ok_or(10);
        tally.compare(judge_of(&table), ours == table, || {
            format!("{signs:?} {outside:?}: {ours:?}, FACE_MAPPING {table:?}")
        });
    }
}

/// The oracle's own numbers of the classifier.
pub struct Classifier {
    faces: Vec<rust::MasterFace>,
    planes: [rust::Vector3; 3],
}

impl Classifier {
    pub fn new(lattice: &rust::AnalyticLattice) -> Self {
        Classifier {
            faces: lattice.faces(),
            planes: lattice.symmetry_planes(),
        }
    }

    /// The flags' sum, by which the Rust indexes a line of four faces.
    pub fn flag_sum(&self, p: &rust::Vector3) -> (usize, [bool; 3]) {
        let [i, j, k] = [0, 1, 2].map(|at| usize::from(p.dot(&self.planes[at]) < 0.0));
        let first = &self.faces[rust::FACE_MAPPING[i][j][k][0]];
        let flags = [0, 1, 2].map(|at| p.dot(&first.edge_planes[at]) < -1e-12);
        let sum = (0..3).map(|at| (at + 1) * usize::from(flags[at])).sum();
        (sum, flags)
    }
}

/// Whether the inputs reach what 01 speaks of: sums 4 and 5, and the sum 3 by the flags 1 and 2.
fn flag_sums(tally: &mut Tally) {
    let lattice = Lattice::new(1);
    let classifier = Classifier::new(&rust::AnalyticLattice::new(1));
    let mut inputs = Directions::new(31, &lattice.lists);
    let mut reached = [0u64; 3];
    for _ in 0..NEAR_VERTICES {
        let v = inputs.near_an_icosahedron_vertex();
        if !row_9(v) {
            match classifier.flag_sum(&rust_of(v)) {
                (3, [true, true, false]) => reached[0] += 1,
                (4, _) => reached[1] += 1,
                (5, _) => reached[2] += 1,
                _ => (),
            }
        }
    }
    for (count, case) in reached.into_iter().zip(["3 by flags 1 and 2", "4", "5"]) {
        tally.reached(format!("the sum {case}"), count);
    }
}

/// What a query is to answer: a refusal's number, or ids and weights.
pub type Answer = Result<([u32; 3], Weights), u32>;

pub fn rust_answer(lattice: &rust::AnalyticLattice, classifier: &Classifier, v: Vector3) -> Answer {
    if row_9(v) {
        return Err(9);
    }
    let p = rust_of(v);
    if classifier.flag_sum(&p).0 > 3 {
        return Err(10);
    }
    let (face, [u, v, w]) = lattice.locate(&p);
    Ok((face.map(|id| id as u32), Weights { u, v, w }))
}

pub fn same_weights(x: Weights, y: Weights) -> bool {
    same(x.u, y.u) && same(x.v, y.v) && same(x.w, y.w)
}

fn same_answer(x: &Answer, y: &Answer) -> bool {
    match (x, y) {
        (Ok((ids, weights)), Ok((other_ids, other_weights))) => {
            ids == other_ids && same_weights(*weights, *other_weights)
        }
        (Err(number), Err(other)) => number == other,
        _ => false,
    }
}

/// Frequencies of one parity: location, and the nearest vertex where no weight is NaN.
fn directions(tally: &mut Tally, parity: usize) {
    for frequency in FREQUENCIES.filter(|frequency| frequency % 2 == parity) {
        let lattice = Lattice::new(frequency);
        let oracle = rust::AnalyticLattice::new(frequency);
        let classifier = Classifier::new(&oracle);
        let ours = AnalyticLattice {
            frequency: frequency as u32,
            ids: &lattice.ids,
        };
        let mut inputs = Directions::new(32 + frequency as u64, &lattice.lists);
        for _ in 0..DIRECTIONS {
            let v = inputs.direction();
            let located = ours.locate(v).map_err(Refusal::number);
            let text = rust_answer(&oracle, &classifier, v);
            tally.compare(judge_of(&text), same_answer(&located, &text), || {
                format!("locate, frequency {frequency}, {v:?}: {located:?}, Rust {text:?}")
            });
            let nearest = ours.find_nearest_vertex(v).map_err(Refusal::number);
            let text = match text {
                Err(number) => Err(number),
                Ok((_, w)) if [w.u, w.v, w.w].iter().any(|weight| weight.is_nan()) => continue,
                Ok(_) => Ok(oracle.find_nearest_vertex(&rust_of(v)) as u32),
            };
            tally.compare(judge_of(&text), nearest == text, || {
                format!("nearest, frequency {frequency}, {v:?}: {nearest:?}, Rust {text:?}")
            });
        }
    }
}

/// Rows 1, 8 and 4 beside their text, and that an earlier row is the one returned.
fn refusals(tally: &mut Tally) {
    let mut expect = |frequency: u32, ids: &[u16], v: Vector3, number: Option<u32>| {
        let lattice = AnalyticLattice { frequency, ids };
        let located = lattice.locate(v).err().map(Refusal::number);
        let nearest = lattice.find_nearest_vertex(v).err().map(Refusal::number);
        tally.compare(Judge::Rows, located == number && nearest == number, || {
            let length = ids.len();
            format!("frequency {frequency}, {length} ids, {v:?}: {located:?}, {nearest:?}, rows {number:?}")
        });
    };
    let direction = Vector3::new(0.25, -0.5, 1.0);
    for frequency in [0, 81, 82, 1 << 16, u32::MAX] {
        expect(frequency, &[], Vector3::ZERO, Some(1));
    }
    for frequency in FREQUENCIES {
        let lattice = Lattice::new(frequency);
        let (n, ids) = (frequency as u32, &lattice.ids);
        expect(n, &ids[1..], Vector3::ZERO, Some(8));
        expect(n, &[], direction, Some(8));
        expect(n, ids, Vector3::ZERO, Some(9));
        expect(n, ids, direction, None);
        expect(n, &[&ids[..], &[u16::MAX; 7]].concat(), direction, None);
        let count = 10 * n * n + 2;
        expect(n, &vec![count as u16; ids.len()], direction, Some(4));
        expect(n, &vec![count as u16; ids.len()], Vector3::ZERO, Some(9));
        expect(n, &vec![count as u16 - 1; ids.len()], direction, None);
        // An id is tested where it is read, and nowhere else.
        let (triple, _) = rust::AnalyticLattice::new(frequency).locate(&rust_of(direction));
        let foreign = |id: u16, read: bool| {
            if triple.contains(&usize::from(id)) == read {
                count as u16
            } else {
                id
            }
        };
        let read: Vec<u16> = ids.iter().map(|&id| foreign(id, true)).collect();
        let unread: Vec<u16> = ids.iter().map(|&id| foreign(id, false)).collect();
        expect(n, &read, direction, Some(4));
        expect(n, &unread, direction, None);
    }
}
