//! Lattices of the oracle as flat slices, and random meshes, with their lists in order or not.

use crate::patterns::{Random, BIAS, SIGN};
use icotable_oracle as rust;

/// The frequencies that row 1 lets pass.
pub const FREQUENCIES: std::ops::RangeInclusive<usize> = 1..=80;

/// Positions and neighbour lists, as the oracle takes them.
#[derive(Clone)]
pub struct Lists {
    pub vertices: Vec<[f64; 3]>,
    pub neighbors: Vec<Vec<u16>>,
}

/// The same as flat slices.
#[derive(Clone, Debug, Default, PartialEq)]
pub struct Flat {
    pub positions: Vec<f64>,
    pub starts: Vec<u32>,
    pub entries: Vec<u16>,
}

impl Flat {
    pub fn count(&self) -> usize {
        self.positions.len() / 3
    }

    pub fn as_mesh(&self) -> koshirga::Mesh<'_> {
        koshirga::Mesh {
            positions: &self.positions,
            starts: &self.starts,
            entries: &self.entries,
        }
    }

    /// The lists of a mesh that rows 2 to 4 let pass, 17 and 18 among them.
    pub fn lists(&self) -> Lists {
        Lists {
            vertices: self
                .positions
                .chunks(3)
                .map(|p| [p[0], p[1], p[2]])
                .collect(),
            neighbors: self
                .starts
                .windows(2)
                .map(|pair| self.entries[pair[0] as usize..pair[1] as usize].to_vec())
                .collect(),
        }
    }
}

impl Lists {
    pub fn flat(&self) -> Flat {
        let mut starts = vec![0];
        let mut entries = Vec::new();
        for list in &self.neighbors {
            entries.extend_from_slice(list);
            starts.push(entries.len() as u32);
        }
        Flat {
            positions: self.vertices.concat(),
            starts,
            entries,
        }
    }

    /// Up to 40 vertices. Lists hold repeats and own vertices, and a neighbour need not list back;
    /// in one mesh of two an island is cut off.
    pub fn random(random: &mut Random) -> Self {
        let count = 1 + random.below(40);
        let longest = [6, 6, 6, 32][random.below(4) as usize];
        let cut = random.below(2 * count).min(count);
        let list = |random: &mut Random, v: u64| -> Vec<u16> {
            let (low, high) = if v < cut { (0, cut) } else { (cut, count) };
            let low = if random.below(8) == 0 { 0 } else { low };
            (0..random.below(longest + 1))
                .map(|_| (low + random.below(high - low)) as u16)
                .collect()
        };
        Lists {
            neighbors: (0..count).map(|v| list(random, v)).collect(),
            vertices: (0..count)
                .map(|_| [random.unit(), random.unit(), random.unit()])
                .collect(),
        }
    }

    /// Each vertex is a neighbour of all others.
    pub fn complete(vertices: Vec<[f64; 3]>) -> Self {
        let count = vertices.len() as u16;
        let others = |v: u16| (0..count).filter(|&other| other != v).collect();
        Lists {
            neighbors: (0..count).map(others).collect(),
            vertices,
        }
    }

    /// Whether every list ascends, repeats side by side.
    pub fn ascend(&self) -> bool {
        self.neighbors.iter().all(|list| list.is_sorted())
    }

    pub fn sort(&mut self) {
        self.neighbors
            .iter_mut()
            .for_each(|list| list.sort_unstable());
    }

    /// Brings each list into a random order, and repeats an entry in one list of four.
    pub fn shuffle(&mut self, random: &mut Random) {
        for list in &mut self.neighbors {
            if (1..32).contains(&list.len()) && random.below(4) == 0 {
                list.push(list[random.below(list.len() as u64) as usize]);
            }
            let order = permutation(random, list.len());
            *list = order.iter().map(|&at| list[at]).collect();
        }
    }

    /// Brings about half of the vertices almost edge-on to a cube face: beside the greatest
    /// coordinate another becomes tiny. Then a number across so many cells comes to an end of the
    /// signed range, beside it or beyond.
    pub fn bring_edge_on(&mut self, random: &mut Random, side: usize) {
        for position in &mut self.vertices {
            if random.below(2) == 0 {
                continue;
            }
            let [x, y, z] = position.map(f64::abs);
            let greatest = match x.max(y).max(z) {
                of if of == x => 0,
                of if of == y => 1,
                _ => 2,
            };
            let at_an_end = position[greatest] * side as f64 * 2f64.powi(-64);
            let bits = match random.below(5) {
                // Subnormal, then of any magnitude below 2^−53.
                0 => random.with_exponent(0, 0),
                1 => random.with_exponent(1, BIAS - 54),
                2 => (at_an_end * 2f64.powi(random.between(-2, 2) as i32)).to_bits(),
                _ => random.near(at_an_end.to_bits(), 2),
            };
            let tiny = (greatest + 1 + random.below(2) as usize) % 3;
            position[tiny] = f64::from_bits(bits ^ SIGN * random.below(2));
        }
    }
}

/// Whether an id stands in a list twice, side by side or not.
pub fn has_repeats(list: &[u16]) -> bool {
    (1..list.len()).any(|at| list[..at].contains(&list[at]))
}

/// The lattice of a frequency, with its id table.
pub struct Lattice {
    pub lists: Lists,
    pub ids: Vec<u16>,
}

impl Lattice {
    pub fn new(frequency: usize) -> Self {
        let geometry = rust::lattice_geometry(frequency);
        Lattice {
            ids: geometry
                .face_ids
                .concat()
                .iter()
                .map(|&id| id as u16)
                .collect(),
            lists: Lists {
                vertices: geometry.vertices,
                neighbors: geometry.neighbors,
            },
        }
    }
}

/// A random permutation of the numbers below `count` (Fisher and Yates).
pub fn permutation(random: &mut Random, count: usize) -> Vec<usize> {
    let mut numbers: Vec<usize> = (0..count).collect();
    for last in (1..count).rev() {
        numbers.swap(last, random.below(last as u64 + 1) as usize);
    }
    numbers
}
