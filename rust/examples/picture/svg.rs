//! The marks of the picture, written as SVG.

use std::fmt::Write;

/// Colours and lines by class.
const STYLE: &str = "\
text { font-family: 'DejaVu Sans', Helvetica, Arial, sans-serif; fill: #1f2933; }
.title { font-size: 21px; font-weight: bold; }
.heading { font-size: 15px; font-weight: bold; }
.label { font-size: 13px; fill: #52606d; }
.value { font-size: 13px; }
.small { font-size: 11px; fill: #52606d; }
.corner { font-size: 13px; font-weight: bold; }
.corner-weight { font-size: 12px; }
.halo { paint-order: stroke; stroke: #ffffff; stroke-width: 4px; stroke-linejoin: round; }
.candidate-id { font-size: 11px; fill: #1d4ed8; }
.globe { fill: #f7f9fb; stroke: #9aa5b1; stroke-width: 1; }
.edge { fill: none; stroke: #9aa5b1; }
.vertex { fill: #52606d; }
.five { fill: #1f2933; }
.triangle { fill: #f6a821; fill-opacity: 0.8; stroke: #b45309; stroke-width: 1.5; stroke-linejoin: round; }
.direction { fill: none; stroke: #c81e1e; stroke-width: 2; }
.nearest { fill: none; stroke: #c81e1e; stroke-width: 2; }
.candidate { fill: #2f6fed; stroke: #ffffff; stroke-width: 0.8; }
.cell { fill: none; stroke: #7c3aed; stroke-width: 2; }
.placed { fill: none; stroke: #7c3aed; stroke-width: 1.2; stroke-dasharray: 4 3; }
.count { font-size: 7.5px; }
.wide { font-size: 12px; }
.light { fill: #ffffff; }
.tick { font-size: 9px; fill: #52606d; }
.bar { fill: #9aa5b1; }
.frame { fill: none; stroke: #9aa5b1; stroke-width: 1; }
.magnified { fill: none; stroke: #52606d; stroke-width: 1; stroke-dasharray: 2 2; }
";

#[derive(Clone, Copy)]
pub enum Anchor {
    Start,
    Middle,
    End,
}

/// A picture that grows by one mark after another, later ones on top.
pub struct Picture {
    body: String,
    width: f64,
    height: f64,
}

pub type Point = (f64, f64);

impl Picture {
    pub fn new(width: f64, height: f64) -> Self {
        Picture {
            body: String::new(),
            width,
            height,
        }
    }

    /// Writing to a string doesn't fail.
    fn put(&mut self, mark: std::fmt::Arguments) {
        self.body.write_fmt(mark).expect("a string takes all");
        self.body.push('\n');
    }

    /// A line of text, which holds no character that XML reserves. Minus signs are set as such.
    pub fn text(&mut self, x: f64, y: f64, class: &str, anchor: Anchor, text: &str) {
        let anchor = match anchor {
            Anchor::Start => "start",
            Anchor::Middle => "middle",
            Anchor::End => "end",
        };
        let text = text.replace('-', "\u{2212}");
        self.put(format_args!(
            "<text x=\"{x:.1}\" y=\"{y:.1}\" class=\"{class}\" text-anchor=\"{anchor}\">{text}</text>"
        ));
    }

    pub fn circle(&mut self, x: f64, y: f64, radius: f64, class: &str) {
        self.put(format_args!(
            "<circle cx=\"{x:.2}\" cy=\"{y:.2}\" r=\"{radius:.2}\" class=\"{class}\"/>"
        ));
    }

    pub fn rectangle(&mut self, x: f64, y: f64, width: f64, height: f64, class: &str) {
        self.put(format_args!(
            "<rect x=\"{x:.2}\" y=\"{y:.2}\" width=\"{width:.2}\" height=\"{height:.2}\" class=\"{class}\"/>"
        ));
    }

    pub fn polygon(&mut self, points: &[Point], class: &str) {
        let points = list(points);
        self.put(format_args!(
            "<polygon points=\"{points}\" class=\"{class}\"/>"
        ));
    }

    pub fn polyline(&mut self, points: &[Point], class: &str) {
        let points = list(points);
        self.put(format_args!(
            "<polyline points=\"{points}\" class=\"{class}\"/>"
        ));
    }

    /// The mark of the direction.
    pub fn cross(&mut self, x: f64, y: f64, arm: f64) {
        self.polyline(&[(x - arm, y), (x + arm, y)], "direction");
        self.polyline(&[(x, y - arm), (x, y + arm)], "direction");
    }

    /// Many edges as one path.
    pub fn edges(&mut self, edges: impl Iterator<Item = (Point, Point)>, width: f64) {
        let mut path = String::new();
        for ((x, y), (x2, y2)) in edges {
            write!(path, "M{x:.1} {y:.1}L{x2:.1} {y2:.1}").expect("a string takes all");
        }
        self.put(format_args!(
            "<path d=\"{path}\" class=\"edge\" stroke-width=\"{width:.2}\"/>"
        ));
    }

    /// Many rectangles of one colour as one path: corner, width and height.
    pub fn cells(&mut self, cells: impl Iterator<Item = [f64; 4]>, colour: &str) {
        let mut path = String::new();
        for [x, y, width, height] in cells {
            write!(path, "M{x:.2} {y:.2}h{width:.2}v{height:.2}h{:.2}z", -width)
                .expect("a string takes all");
        }
        self.put(format_args!(
            "<path d=\"{path}\" fill=\"{colour}\" shape-rendering=\"crispEdges\"/>"
        ));
    }

    /// What is drawn until `end_clip` shows inside a rectangle alone.
    pub fn begin_clip(&mut self, [x, y, width, height]: [f64; 4]) {
        self.put(format_args!(
            "<clipPath id=\"clip\"><rect x=\"{x}\" y=\"{y}\" width=\"{width}\" height=\"{height}\"/></clipPath>\n<g clip-path=\"url(#clip)\">"
        ));
    }

    pub fn end_clip(&mut self) {
        self.put(format_args!("</g>"));
    }

    pub fn finish(self) -> String {
        let Picture {
            body,
            width,
            height,
        } = self;
        format!(
            "<svg xmlns=\"http://www.w3.org/2000/svg\" width=\"{width}\" height=\"{height}\" viewBox=\"0 0 {width} {height}\">\n<style>\n{STYLE}</style>\n<rect width=\"{width}\" height=\"{height}\" fill=\"#ffffff\"/>\n{body}</svg>\n"
        )
    }
}

fn list(points: &[Point]) -> String {
    let each = points.iter().map(|(x, y)| format!("{x:.2},{y:.2}"));
    each.collect::<Vec<_>>().join(" ")
}
