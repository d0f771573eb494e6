//! The cube grid: its cells, and its six faces unfolded.

use crate::svg::{Anchor, Picture, Point};
use crate::Scene;
use koshirga::{mul_add, to_i64, FaceGrid, Vector3};
use std::fmt;

/// A cell by its cube face and its two indices there.
pub struct Cell {
    pub face: usize,
    pub ci: i64,
    pub cj: i64,
    side: i64,
}

impl Cell {
    /// The cell of a normalised direction (docs/DATASHEET.md, "Grid queries").
    pub fn of(v: Vector3, side: u32) -> Self {
        let (ax, ay, az) = (v.x.abs(), v.y.abs(), v.z.abs());
        let (face, u, w, d) = if ax >= ay && ax >= az {
            if v.x > 0.0 {
                (0, v.y, v.z, v.x)
            } else {
                (1, -v.y, v.z, -v.x)
            }
        } else if ay >= az {
            if v.y > 0.0 {
                (2, v.x, v.z, v.y)
            } else {
                (3, -v.x, v.z, -v.y)
            }
        } else if v.z > 0.0 {
            (4, v.x, v.y, v.z)
        } else {
            (5, -v.x, v.y, -v.z)
        };
        let g = f64::from(side);
        // Clamped first, and so never held at an end.
        let index = |t: f64| to_i64((mul_add(t, 0.5, 0.5) * g).clamp(0.0, g - 1.0)).whole;
        Cell {
            face,
            ci: index(u / d),
            cj: index(w / d),
            side: i64::from(side),
        }
    }

    /// The ids that stand in the cell.
    pub fn ids<'a>(&self, grid: &'a FaceGrid) -> &'a [u16] {
        let grid = grid.as_grid();
        let g = self.side as usize;
        let at = self.face * g * g + self.ci as usize * g + self.cj as usize;
        &grid.cell_ids[grid.cell_starts[at] as usize..grid.cell_starts[at + 1] as usize]
    }

    /// The cell's outline, as directions.
    pub fn outline(&self) -> Vec<Vector3> {
        self.around([self.ci, self.ci + 1], [self.cj, self.cj + 1])
    }

    /// Around all places whose vertices are candidates: those of the cell's surroundings.
    pub fn surroundings(&self, margin: u32) -> Vec<Vector3> {
        let margin = i64::from(margin);
        // A place is cut toward zero, so index 0 takes the places from -1 to 1, and one below it
        // those from -2 to -1.
        let low = |index: i64| if index <= 0 { index - 1 } else { index };
        self.around(
            [low(self.ci - margin), self.ci + margin + 1],
            [low(self.cj - margin), self.cj + margin + 1],
        )
    }

    /// The four sides of a rectangle on the face, in short steps, as directions.
    fn around(&self, [i, i2]: [i64; 2], [j, j2]: [i64; 2]) -> Vec<Vector3> {
        const STEPS: i64 = 16;
        let corners = [(i, j), (i2, j), (i2, j2), (i, j2), (i, j)];
        let on_face = |index: f64| 2.0 * index / self.side as f64 - 1.0;
        corners
            .windows(2)
            .flat_map(|ends| {
                (0..=STEPS).map(move |step| {
                    let part = step as f64 / STEPS as f64;
                    let between = |from: i64, to: i64| from as f64 + part * (to - from) as f64;
                    let u = on_face(between(ends[0].0, ends[1].0));
                    let w = on_face(between(ends[0].1, ends[1].1));
                    point(self.face, u, w).normalize()
                })
            })
            .collect()
    }
}

impl fmt::Display for Cell {
    fn fmt(&self, f: &mut fmt::Formatter) -> fmt::Result {
        let Cell { face, ci, cj, .. } = self;
        write!(f, "face {face} ({}), ci {ci}, cj {cj}", LAYOUT[*face].name)
    }
}

/// The point of the cube that a face shows at u and w.
fn point(face: usize, u: f64, w: f64) -> Vector3 {
    match face {
        0 => Vector3::new(1.0, u, w),
        1 => Vector3::new(-1.0, -u, w),
        2 => Vector3::new(u, 1.0, w),
        3 => Vector3::new(-u, -1.0, w),
        4 => Vector3::new(u, w, 1.0),
        _ => Vector3::new(-u, w, -1.0),
    }
}

/// Where a face stands in the unfolded cube, seen from outside, and which axes go right and down.
struct Place {
    name: &'static str,
    column: f64,
    row: f64,
    right: Vector3,
    down: Vector3,
}

const fn place(
    name: &'static str,
    column: f64,
    row: f64,
    right: [f64; 3],
    down: [f64; 3],
) -> Place {
    Place {
        name,
        column,
        row,
        right: Vector3::new(right[0], right[1], right[2]),
        down: Vector3::new(down[0], down[1], down[2]),
    }
}

const LAYOUT: [Place; 6] = [
    place("+x", 0.0, 1.0, [0.0, 1.0, 0.0], [0.0, 0.0, -1.0]),
    place("-x", 2.0, 1.0, [0.0, -1.0, 0.0], [0.0, 0.0, -1.0]),
    place("+y", 1.0, 1.0, [-1.0, 0.0, 0.0], [0.0, 0.0, -1.0]),
    place("-y", 3.0, 1.0, [1.0, 0.0, 0.0], [0.0, 0.0, -1.0]),
    place("+z", 1.0, 0.0, [-1.0, 0.0, 0.0], [0.0, 1.0, 0.0]),
    place("-z", 1.0, 2.0, [-1.0, 0.0, 0.0], [0.0, -1.0, 0.0]),
];

const LEFT: f64 = 740.0;
const TOP: f64 = 128.0;
const FACE: f64 = 142.0;
const ACROSS: f64 = FACE + 7.0;
const DOWN: f64 = FACE + 22.0;
/// The legend numbers each shade, or every second, fifth and so on, so that they stand at least so
/// far apart.
const TICKS: f64 = 15.0;
/// Cells of this size and above show their number.
const NUMBERED: f64 = 13.0;
/// What a digit needs where a number has more than two: in the legend, and in a cell.
const TICK_DIGIT: f64 = 7.0;
const CELL_DIGIT: f64 = 5.5;

impl Place {
    fn corner(&self) -> Point {
        (LEFT + self.column * ACROSS, TOP + self.row * DOWN)
    }

    fn on_paper(&self, p: Vector3) -> Point {
        let (x, y) = self.corner();
        let across = (1.0 + p.dot(self.right)) / 2.0;
        let down = (1.0 + p.dot(self.down)) / 2.0;
        (x + FACE * across, y + FACE * down)
    }

    /// A cell as corner, width and height on paper.
    fn rectangle(&self, face: usize, ci: usize, cj: usize, side: usize) -> [f64; 4] {
        let on_face = |index: usize| 2.0 * index as f64 / side as f64 - 1.0;
        let (x, y) = self.on_paper(point(face, on_face(ci), on_face(cj)));
        let (x2, y2) = self.on_paper(point(face, on_face(ci + 1), on_face(cj + 1)));
        [x.min(x2), y.min(y2), (x - x2).abs(), (y - y2).abs()]
    }
}

/// The six faces, each cell in the shade of its number of ids, with the legend.
pub fn draw(scene: &Scene, picture: &mut Picture) {
    let grid = scene.grid.as_grid();
    let side = grid.side as usize;
    let counts: Vec<usize> = grid
        .cell_starts
        .windows(2)
        .map(|ends| (ends[1] - ends[0]) as usize)
        .collect();
    let most = counts.iter().copied().max().unwrap_or(0);
    picture.text(
        LEFT,
        94.0,
        "heading",
        Anchor::Start,
        "The cube grid unfolded: ids in each cell",
    );
    for count in 0..=most {
        let cells = (0..counts.len())
            .filter(|&cell| counts[cell] == count)
            .map(|cell| rectangle(cell, side));
        picture.cells(cells, &shade(count, most));
    }
    let cell_size = FACE / side as f64;
    if cell_size >= NUMBERED.max(CELL_DIGIT * digits(most)) {
        let size = if cell_size >= 24.0 {
            "count wide"
        } else {
            "count"
        };
        for (cell, &count) in counts.iter().enumerate() {
            let [x, y, width, height] = rectangle(cell, side);
            let light = if dark(count, most) { " light" } else { "" };
            let class = format!("{size}{light}");
            let (x, y) = (
                x + width / 2.0,
                y + height / 2.0 + cell_size.min(24.0) / 5.0,
            );
            picture.text(x, y, &class, Anchor::Middle, &count.to_string());
        }
    }
    for (face, place) in LAYOUT.iter().enumerate() {
        let (x, y) = place.corner();
        picture.rectangle(x, y, FACE, FACE, "frame");
        let name = format!("face {face}: {}", place.name);
        picture.text(x, y - 6.0, "small", Anchor::Start, &name);
    }
    let cell = &scene.cell;
    let place = &LAYOUT[cell.face];
    let [x, y, width, height] =
        place.rectangle(cell.face, cell.ci as usize, cell.cj as usize, side);
    picture.rectangle(x, y, width, height, "cell");
    if width < 8.0 {
        // Too small to be found by its outline alone.
        picture.circle(x + width / 2.0, y + height / 2.0, 8.0, "cell");
    }
    draw_legend(&counts, most, picture);
    let placed = match grid.settings.margin {
        0 => "one cell".to_string(),
        margin => format!("{0} by {0} cells", 2 * margin + 1),
    };
    let explanation = [
        "A vertex is placed on each face that it is in",
        &format!("front of, in {placed} there. A query"),
        "compares the ids of its direction's cell.",
    ];
    for (line, text) in explanation.iter().enumerate() {
        let (x, y) = (LEFT + 2.0 * ACROSS, TOP + 2.0 * DOWN + 16.0 * line as f64);
        picture.text(x, y + 12.0, "small", Anchor::Start, text);
    }
}

fn rectangle(cell: usize, side: usize) -> [f64; 4] {
    let (face, rest) = (cell / (side * side), cell % (side * side));
    LAYOUT[face].rectangle(face, rest / side, rest % side, side)
}

/// The shades, and above each how many cells have it.
fn draw_legend(counts: &[usize], most: usize, picture: &mut Picture) {
    let (left, width) = (LEFT + 2.0 * ACROSS, 2.0 * ACROSS - 7.0);
    let (base, tallest) = (TOP + 96.0, 66.0);
    let step = width / (most + 1) as f64;
    let gap = (step / 4.0).min(1.0);
    let apart = TICKS.max(TICK_DIGIT * digits(most));
    let mut strides = [1, 2, 5, 10, 20, 50, 100, 200, 500].into_iter();
    let stride = strides
        .find(|&stride| stride as f64 * step >= apart)
        .unwrap_or(1000);
    let cells_with = |count| counts.iter().filter(|&&c| c == count).count();
    let commonest = (0..=most).map(cells_with).max().unwrap_or(0).max(1);
    picture.text(
        left,
        TOP + 2.0,
        "label",
        Anchor::Start,
        "Number of cells by their number of ids",
    );
    for count in 0..=most {
        let x = left + step * count as f64;
        let cells = cells_with(count);
        let height = tallest * cells as f64 / commonest as f64;
        picture.rectangle(x + gap, base - height, step - 2.0 * gap, height, "bar");
        picture.cells(
            [[x + gap / 2.0, base + 2.0, step - gap, 14.0]].into_iter(),
            &shade(count, most),
        );
        let middle = x + step / 2.0;
        if count % stride == 0 {
            let y = base + 29.0;
            picture.text(middle, y, "tick", Anchor::Middle, &count.to_string());
        }
        if cells == commonest {
            let y = base - height - 3.0;
            picture.text(middle, y, "tick", Anchor::Middle, &cells.to_string());
        }
    }
}

/// How many digits a number has.
fn digits(number: usize) -> f64 {
    number.to_string().len() as f64
}

/// From a light yellow over green to a dark blue.
fn shade(count: usize, most: usize) -> String {
    const STOPS: [[f64; 3]; 5] = [
        [255.0, 252.0, 217.0],
        [199.0, 233.0, 180.0],
        [65.0, 182.0, 196.0],
        [34.0, 94.0, 168.0],
        [8.0, 29.0, 88.0],
    ];
    let at = 4.0 * part(count, most);
    let stop = (at as usize).min(3);
    let [r, g, b] = [0, 1, 2].map(|channel| {
        let (from, to) = (STOPS[stop][channel], STOPS[stop + 1][channel]);
        (from + (at - stop as f64) * (to - from)).round() as u8
    });
    format!("#{r:02x}{g:02x}{b:02x}")
}

fn dark(count: usize, most: usize) -> bool {
    part(count, most) > 0.55
}

fn part(count: usize, most: usize) -> f64 {
    count as f64 / most.max(1) as f64
}
