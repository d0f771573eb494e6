//! Directions at and beside the places where a locator changes its answer.

use crate::meshes::Lists;
use crate::patterns::{Random, Vectors};
use icotable_oracle as rust;
use koshirga::Vector3;

pub fn rust_of(v: Vector3) -> rust::Vector3 {
    rust::Vector3::new(v.x, v.y, v.z)
}

fn ours_of(v: rust::Vector3) -> Vector3 {
    Vector3::new(v.x, v.y, v.z)
}

/// Document 01, row 9 as row 5: "a non-finite component or computed squared length outside
/// 2^−40..2^40, ends allowed".
pub fn row_9(v: Vector3) -> bool {
    let components = [v.x, v.y, v.z];
    let squared_length = rust_of(v).norm_squared();
    let ends = 2f64.powi(-40)..=2f64.powi(40);
    components.iter().any(|component| !component.is_finite()) || !ends.contains(&squared_length)
}

/// Classes of directions, each drawn as often as the others.
const CLASSES: u64 = 10;

pub struct Directions<'a> {
    random: Random,
    vectors: Vectors,
    mesh: &'a Lists,
    points: Vec<rust::Vector3>,
    planes: Vec<rust::Vector3>,
}

impl<'a> Directions<'a> {
    /// For a mesh with neighbours.
    pub fn new(seed: u64, mesh: &'a Lists) -> Self {
        let points = rust::icosahedron_points();
        let mut planes = vec![
            points[2] + points[7],
            points[3] + points[4],
            points[0] + points[1],
        ];
        for [i, j, k] in rust::FACE_VERTICES {
            planes.extend([
                points[i].cross(&points[j]),
                points[j].cross(&points[k]),
                points[k].cross(&points[i]),
            ]);
        }
        Directions {
            random: Random::new(seed),
            vectors: Vectors::new(seed),
            mesh,
            points,
            planes,
        }
    }

    pub fn direction(&mut self) -> Vector3 {
        match self.random.below(CLASSES) {
            0 | 1 => ours_of(self.on_the_sphere()),
            2 => {
                let vertex = self.vertex();
                self.moved(self.position(vertex))
            }
            3 => self.on_an_edge(),
            4 => self.inside_a_triangle(),
            5 => self.on_a_plane(),
            6 => self.on_an_axis(),
            7 => self.near_an_icosahedron_vertex(),
            8 => self.vectors.at_an_end(),
            _ => self.vectors.vector(),
        }
    }

    /// About a vertex of the icosahedron, at lengths up to 2^20, where several flags may be set.
    pub fn near_an_icosahedron_vertex(&mut self) -> Vector3 {
        let at = self.random.below(self.points.len() as u64) as usize;
        let length = 2f64.powi(self.random.between(-20, 20) as i32);
        let noise = 2f64.powi(self.random.between(-60, -36) as i32);
        let mut component = |x: f64| (x + noise * self.random.unit()) * length;
        let p = self.points[at];
        let v = Vector3::new(component(p.x), component(p.y), component(p.z));
        // Row 9 refuses a length a little above 2^20.
        if length > 1e6 {
            v.scale(1.0 - 2f64.powi(-20))
        } else {
            v
        }
    }

    fn on_the_sphere(&mut self) -> rust::Vector3 {
        let random = &mut self.random;
        rust::Vector3::new(random.unit(), random.unit(), random.unit()).normalize()
    }

    fn vertex(&mut self) -> usize {
        self.random.below(self.mesh.vertices.len() as u64) as usize
    }

    fn position(&self, vertex: usize) -> rust::Vector3 {
        rust::Vector3::from(self.mesh.vertices[vertex])
    }

    /// As it is, or moved by some ulps, or at another length.
    fn moved(&mut self, v: rust::Vector3) -> Vector3 {
        let v = ours_of(v);
        match self.random.below(4) {
            0 => v,
            1 => v.scale(self.random.unit()),
            2 => v.scale(2f64.powi(self.random.between(-19, 19) as i32)),
            _ => {
                let mut near = |x: f64| f64::from_bits(self.random.near(x.to_bits(), 4));
                Vector3::new(near(v.x), near(v.y), near(v.z))
            }
        }
    }

    /// Between a vertex and a neighbour: half of them in the middle.
    fn on_an_edge(&mut self) -> Vector3 {
        let vertex = self.vertex();
        let list = &self.mesh.neighbors[vertex];
        let neighbor = usize::from(list[self.random.below(list.len() as u64) as usize]);
        let part = if self.random.below(2) == 0 {
            0.5
        } else {
            self.random.unit().abs()
        };
        let (a, b) = (self.position(vertex), self.position(neighbor));
        self.moved(a * (1.0 - part) + b * part)
    }

    /// In the middle of a master face, or of three vertices one of which neighbours the others.
    fn inside_a_triangle(&mut self) -> Vector3 {
        let middle = if self.random.below(2) == 0 {
            let face = self.random.below(20) as usize;
            let [a, b, c] = rust::FACE_VERTICES[face].map(|corner| self.points[corner]);
            a + b + c
        } else {
            let vertex = self.vertex();
            let list = &self.mesh.neighbors[vertex];
            let mut draw = || usize::from(list[self.random.below(list.len() as u64) as usize]);
            let (b, c) = (draw(), draw());
            self.position(vertex) + self.position(b) + self.position(c)
        };
        self.moved(middle.normalize())
    }

    /// On a symmetry plane or on a side plane of a face, as close as rounding allows.
    fn on_a_plane(&mut self) -> Vector3 {
        let at = self.random.below(self.planes.len() as u64) as usize;
        let normal = self.planes[at].normalize();
        let v = self.on_the_sphere();
        self.moved(v - normal * v.dot(&normal))
    }

    /// An axis or a diagonal: components of a length, its opposite and zeros of both signs.
    fn on_an_axis(&mut self) -> Vector3 {
        let length = 2f64.powi(self.random.between(-20, 19) as i32);
        let values = [length, -length, 0.0, -0.0, 0.5 * length];
        let mut component = || values[self.random.below(values.len() as u64) as usize];
        Vector3::new(component(), component(), component())
    }
}
