//! The mesh as seen from outside, along the direction.

use crate::svg::{Anchor, Picture, Point};
use crate::Scene;
use koshirga::{Located, MeshData, Vector3};

/// An orthographic view: the direction comes towards the eye, and up is as near to +z as can be.
struct View {
    towards: Vector3,
    right: Vector3,
    up: Vector3,
    centre: Point,
    scale: f64,
}

impl View {
    fn new(direction: Vector3, centre: Point, scale: f64) -> Self {
        let towards = direction.normalize();
        let pole = if towards.z.abs() < 0.999 {
            Vector3::new(0.0, 0.0, 1.0)
        } else {
            Vector3::new(0.0, 1.0, 0.0)
        };
        let right = pole.cross(towards).normalize();
        View {
            towards,
            right,
            up: towards.cross(right),
            centre,
            scale,
        }
    }

    fn on_paper(&self, p: Vector3) -> Point {
        let (x, y) = self.centre;
        (
            x + self.scale * p.dot(self.right),
            y - self.scale * p.dot(self.up),
        )
    }

    /// Whether a point of the sphere lies on the side that is seen.
    fn shows(&self, p: Vector3) -> bool {
        p.dot(self.towards) >= 0.0
    }

    fn outline(&self, points: &[Vector3]) -> Vec<Point> {
        let shown = points.iter().filter(|&&p| self.shows(p));
        shown.map(|&p| self.on_paper(p)).collect()
    }

    fn edges<'a>(&'a self, mesh: &'a MeshData) -> impl Iterator<Item = (Point, Point)> + 'a {
        (0..mesh.vertex_count()).flat_map(move |id| {
            let from = mesh.position(id);
            let later = mesh
                .neighbors(id)
                .iter()
                .filter(move |&&to| usize::from(to) > id);
            later
                .map(move |&to| (from, mesh.position(to.into())))
                .filter(|&(from, to)| self.shows(from) && self.shows(to))
                .map(|(from, to)| (self.on_paper(from), self.on_paper(to)))
        })
    }

    /// What both views show.
    fn draw(&self, scene: &Scene, picture: &mut Picture, sizes: Sizes) {
        let mesh = scene.mesh;
        let at = |id: usize| self.on_paper(mesh.position(id));
        picture.edges(self.edges(mesh), sizes.edge);
        let corners = scene.located.triple.map(|id| at(id as usize));
        picture.polygon(&corners, "triangle");
        let shown = (0..mesh.vertex_count()).filter(|&id| self.shows(mesh.position(id)));
        for id in shown {
            let (x, y) = at(id);
            if mesh.neighbors(id).len() == 5 {
                picture.circle(x, y, 1.6 * sizes.vertex + 0.8, "five");
            } else if sizes.vertex >= 0.5 {
                picture.circle(x, y, sizes.vertex, "vertex");
            }
        }
        let margin = scene.grid.as_grid().settings.margin;
        picture.polyline(&self.outline(&scene.cell.surroundings(margin)), "placed");
        picture.polyline(&self.outline(&scene.cell.outline()), "cell");
        for &id in scene.candidates() {
            let (x, y) = at(id.into());
            picture.circle(x, y, sizes.candidate, "candidate");
        }
        let (x, y) = at(scene.nearest.id as usize);
        picture.circle(x, y, 1.8 * sizes.candidate, "nearest");
    }
}

/// The width of an edge, the radius of a vertex and of a candidate.
struct Sizes {
    edge: f64,
    vertex: f64,
    candidate: f64,
}

/// The whole side of the mesh that faces the direction.
pub fn draw_globe(scene: &Scene, picture: &mut Picture) {
    let (centre, radius) = ((370.0, 430.0), 312.0);
    let view = View::new(scene.direction, centre, radius);
    picture.text(
        40.0,
        94.0,
        "heading",
        Anchor::Start,
        "The mesh, seen along the direction (the direction is in the middle)",
    );
    picture.circle(centre.0, centre.1, radius, "globe");
    let n = f64::from(scene.frequency);
    let sizes = Sizes {
        edge: (6.0 / n).clamp(0.25, 1.0),
        vertex: (14.0 / n).min(2.4),
        candidate: (24.0 / n).clamp(1.2, 4.0),
    };
    view.draw(scene, picture, sizes);
    picture.cross(centre.0, centre.1, 5.0);
    let part = radius / magnification(scene);
    let (width, height) = (part * PANEL[2], part * PANEL[3]);
    if width < 2.0 * radius {
        let (left, top) = (centre.0 - width / 2.0, centre.1 - height / 2.0);
        picture.rectangle(left, top, width, height, "magnified");
    }
}

/// Corner, width and height of the magnified part.
const PANEL: [f64; 4] = [740.0, 654.0, 590.0, 306.0];
/// The triangle's longest side there, where all candidates find room.
const SIDE: f64 = 104.0;
/// The least that it shrinks to for candidates far away, which then may lie outside.
const LEAST_SIDE: f64 = 48.0;
/// Room for a candidate's mark and id.
const MARGIN: f64 = 28.0;

/// How many times the sphere's radius is magnified.
fn magnification(scene: &Scene) -> f64 {
    let [a, b, c] = scene
        .located
        .triple
        .map(|id| scene.mesh.position(id as usize));
    let sides = [a.minus(b), b.minus(c), c.minus(a)].map(Vector3::norm);
    let view = View::new(scene.direction, (0.0, 0.0), 1.0);
    let room = scene.candidates().iter().map(|&id| {
        let (x, y) = view.on_paper(scene.mesh.position(id.into()));
        let across = (PANEL[2] / 2.0 - MARGIN) / x.abs();
        let down = (PANEL[3] / 2.0 - MARGIN) / y.abs();
        across.min(down)
    });
    let longest = sides.into_iter().fold(0.0, f64::max);
    room.fold(SIDE / longest, f64::min)
        .max(LEAST_SIDE / longest)
}

/// The triangle and what stands around it, with ids and weights.
pub fn draw_magnified(scene: &Scene, picture: &mut Picture) {
    let [left, top, width, height] = PANEL;
    let centre = (left + width / 2.0, top + height / 2.0);
    let view = View::new(scene.direction, centre, magnification(scene));
    picture.text(
        left,
        top - 12.0,
        "heading",
        Anchor::Start,
        "Around the direction: candidates, corners and their weights",
    );
    picture.begin_clip(PANEL);
    let sizes = Sizes {
        edge: 1.0,
        vertex: 2.4,
        candidate: 4.5,
    };
    view.draw(scene, picture, sizes);
    draw_labels(scene, &view, picture);
    picture.cross(centre.0, centre.1, 7.0);
    picture.end_clip();
    picture.rectangle(left, top, width, height, "frame");
}

/// Each corner's id and weight, and the ids of the other candidates. They stand on the side that is
/// away from the triangle's middle.
fn draw_labels(scene: &Scene, view: &View, picture: &mut Picture) {
    let at = |id: u32| view.on_paper(scene.mesh.position(id as usize));
    let Located {
        triple, weights, ..
    } = scene.located;
    let middle = |part: fn(Point) -> f64| triple.map(|id| part(at(id))).iter().sum::<f64>() / 3.0;
    let middle = (middle(|p| p.0), middle(|p| p.1));
    let others = scene.candidates().iter().map(|&id| u32::from(id));
    for id in others.filter(|id| !triple.contains(id)) {
        let (x, y, anchor) = away(middle, at(id), 9.0, 13.0);
        picture.text(x, y + 4.0, "candidate-id halo", anchor, &id.to_string());
    }
    for (id, weight) in triple.into_iter().zip([weights.u, weights.v, weights.w]) {
        let (x, y, anchor) = away(middle, at(id), 14.0, 26.0);
        let weight = format!("{weight:.4}");
        picture.text(x, y - 2.0, "corner halo", anchor, &id.to_string());
        picture.text(x, y + 12.0, "corner-weight halo", anchor, &weight);
    }
}

/// A place beside a point, on the side that is away from the middle.
fn away(middle: Point, point: Point, across: f64, down: f64) -> (f64, f64, Anchor) {
    let (dx, dy) = (point.0 - middle.0, point.1 - middle.1);
    let length = dx.hypot(dy);
    let (dx, dy) = (dx / length, dy / length);
    let anchor = if dx > 0.35 {
        Anchor::Start
    } else if dx < -0.35 {
        Anchor::End
    } else {
        Anchor::Middle
    };
    (point.0 + across * dx, point.1 + down * dy, anchor)
}
