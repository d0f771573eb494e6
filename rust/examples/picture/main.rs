//! A picture of what the engine says about a direction, as SVG on standard output: the lattice's
//! mesh seen along the direction, the cells of its grid with their numbers of ids, and the triangle
//! magnified.
//!
//! Usage: `picture [X Y Z [FREQUENCY [FACTOR MARGIN]]] > picture.svg`. Exit status: 0; 1 where the
//! engine refuses; 2 where the arguments can't be read.

#[path = "../arguments/mod.rs"]
mod arguments;
mod cube;
mod mesh_view;
mod svg;

use arguments::Arguments;
use cube::Cell;
use koshirga::{FaceGrid, LatticeGeometry, Located, MeshData, Nearest, Refusal, Settings, Vector3};
use std::process::ExitCode;
use svg::{Anchor, Picture};

/// What is drawn.
pub struct Scene<'a> {
    pub frequency: u32,
    pub direction: Vector3,
    pub mesh: &'a MeshData,
    pub grid: &'a FaceGrid<'a>,
    pub located: Located,
    pub nearest: Nearest,
    pub cell: Cell,
}

impl Scene<'_> {
    /// The candidates: the ids in the direction's cell.
    pub fn candidates(&self) -> &[u16] {
        self.cell.ids(self.grid)
    }
}

fn main() -> ExitCode {
    let usage = "[X Y Z [FREQUENCY [FACTOR MARGIN]]]";
    let (arguments, settings) = arguments::read("picture", usage, parse);
    match picture(&arguments, settings) {
        Ok(svg) => {
            print!("{svg}");
            ExitCode::SUCCESS
        }
        Err(refusal) => {
            eprintln!("picture: {refusal}");
            ExitCode::FAILURE
        }
    }
}

/// The direction and the frequency, and behind them the grid's pair, or the usual one.
fn parse(given: &[String]) -> Result<(Arguments, Settings), String> {
    let (given, settings) = match given {
        [others @ .., factor, margin] if others.len() == 4 => {
            let (factor, margin) = (arguments::number(factor)?, arguments::number(margin)?);
            (others, Settings { factor, margin })
        }
        _ => (given, Settings::default()),
    };
    Ok((arguments::parse(given, 6)?, settings))
}

fn picture(arguments: &Arguments, settings: Settings) -> Result<String, Refusal> {
    let Arguments {
        direction,
        frequency,
    } = *arguments;
    let lattice = LatticeGeometry::new(frequency)?;
    let grid = FaceGrid::with_settings(lattice.mesh.as_mesh(), settings)?;
    let scene = Scene {
        frequency,
        direction,
        mesh: &lattice.mesh,
        grid: &grid,
        located: grid.locate(direction)?,
        nearest: grid.find_nearest_vertex(direction)?,
        cell: Cell::of(direction.normalize(), grid.as_grid().side),
    };
    // The cell is worked out here once more, as the engine doesn't return it.
    assert_eq!(scene.candidates().len(), scene.nearest.candidates as usize);
    assert!(scene.candidates().contains(&(scene.nearest.id as u16)));

    let mut picture = Picture::new(1370.0, 980.0);
    draw_title(&scene, &mut picture);
    mesh_view::draw_globe(&scene, &mut picture);
    cube::draw(&scene, &mut picture);
    mesh_view::draw_magnified(&scene, &mut picture);
    draw_figures(&scene, &mut picture);
    draw_symbols(&mut picture);
    Ok(picture.finish())
}

fn draw_title(scene: &Scene, picture: &mut Picture) {
    let grid = scene.grid.as_grid();
    let title = format!(
        "Lattice of frequency {}: {} vertices, {} triangles. Grid of side {}: {} cells, {} ids",
        scene.frequency,
        scene.mesh.vertex_count(),
        grid.triples.len() / 9,
        grid.side,
        grid.cell_starts.len() - 1,
        grid.cell_ids.len()
    );
    picture.text(40.0, 46.0, "title", Anchor::Start, &title);
    let Settings { factor, margin } = grid.settings;
    let pair = format!("The grid is built with factor {factor} and margin {margin}.");
    picture.text(40.0, 69.0, "label", Anchor::Start, &pair);
}

/// The answers in numbers, below the mesh.
fn draw_figures(scene: &Scene, picture: &mut Picture) {
    let Vector3 { x, y, z } = scene.direction;
    let [a, b, c] = scene.located.triple;
    let weights = scene.located.weights;
    let rows = [
        ("direction", format!("({x}, {y}, {z})")),
        ("triangle", format!("{a}, {b}, {c}")),
        (
            "weights",
            format!("{:.6}, {:.6}, {:.6}", weights.u, weights.v, weights.w),
        ),
        ("least", format!("{:.6}", scene.located.least)),
        ("nearest vertex", scene.nearest.id.to_string()),
        (
            "squared distance",
            format!("{:.6e}", scene.nearest.distance),
        ),
        (
            "compared",
            format!("{} candidates", scene.nearest.candidates),
        ),
        ("cell", scene.cell.to_string()),
    ];
    for (at, (name, value)) in rows.iter().enumerate() {
        let y = 790.0 + 23.0 * at as f64;
        picture.text(40.0, y, "label", Anchor::Start, name);
        picture.text(180.0, y, "value", Anchor::Start, value);
    }
}

/// What the marks mean, beside the figures.
fn draw_symbols(picture: &mut Picture) {
    let rows = [
        ("the direction", "direction"),
        ("its triangle", "triangle"),
        ("the nearest vertex", "nearest"),
        ("the candidates", "candidate"),
        ("vertices with five neighbours", "five"),
        ("the direction's cell", "cell"),
        ("where its candidates are placed", "placed"),
    ];
    for (at, (name, class)) in rows.iter().enumerate() {
        let (x, y) = (428.0, 785.0 + 23.0 * at as f64);
        match *class {
            "direction" => picture.cross(x, y, 7.0),
            "triangle" => picture.polygon(
                &[(x - 8.0, y + 6.0), (x + 8.0, y + 6.0), (x, y - 7.0)],
                class,
            ),
            "nearest" => picture.circle(x, y, 6.0, class),
            "candidate" => picture.circle(x, y, 4.0, class),
            "five" => picture.circle(x, y, 3.5, class),
            _ => picture.polyline(&[(x - 10.0, y), (x + 10.0, y)], class),
        }
        picture.text(x + 20.0, y + 5.0, "label", Anchor::Start, name);
    }
}
