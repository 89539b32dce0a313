//! Where a picture's parts stand without Graphviz: nodes in layers, or on an ellipse with arcs bent towards
//! its middle, so that no two overlap; labels where they cover least.

use std::f64::consts::{PI, SQRT_2};

use super::layers::in_layers;
use super::{Arc, Picture};

pub const LINE: f64 = 17.0;
const CHARACTER: f64 = 7.9;
const PADDING: f64 = 10.0;
const GAP: f64 = 44.0;
/// How far arcs bend towards the middle, as a part of the way.
const PULL: f64 = 0.3;

#[derive(Clone, Copy, Debug, PartialEq)]
pub struct Point {
    pub x: f64,
    pub y: f64,
}

impl Point {
    fn plus(self, other: Point) -> Point {
        Point { x: self.x + other.x, y: self.y + other.y }
    }

    fn times(self, factor: f64) -> Point {
        Point { x: self.x * factor, y: self.y * factor }
    }

    fn minus(self, other: Point) -> Point {
        self.plus(other.times(-1.0))
    }

    fn length(self) -> f64 {
        self.x.hypot(self.y)
    }
}

#[derive(Clone, Copy, Debug, Default, PartialEq)]
pub struct Size {
    pub width: f64,
    pub height: f64,
}

impl Size {
    /// Room for lines of text.
    pub fn of_lines(lines: &[String]) -> Size {
        let width = lines.iter().map(|line| text_width(line)).fold(0.0, f64::max);
        Size { width, height: LINE * lines.len() as f64 }
    }

    fn plus(self, more: f64) -> Size {
        Size { width: self.width + more, height: self.height + more }
    }

    fn max(self, other: Size) -> Size {
        Size { width: self.width.max(other.width), height: self.height.max(other.height) }
    }
}

/// Characters of wide scripts take two places in a monospaced font.
pub fn text_width(line: &str) -> f64 {
    line.chars().map(|c| if c < '\u{1100}' { CHARACTER } else { 2.0 * CHARACTER }).sum()
}

#[derive(Clone, Copy, Debug, PartialEq)]
pub struct Rect {
    pub centre: Point,
    pub size: Size,
}

impl Rect {
    pub fn left(&self) -> f64 {
        self.centre.x - self.size.width / 2.0
    }

    pub fn right(&self) -> f64 {
        self.centre.x + self.size.width / 2.0
    }

    pub fn top(&self) -> f64 {
        self.centre.y - self.size.height / 2.0
    }

    pub fn bottom(&self) -> f64 {
        self.centre.y + self.size.height / 2.0
    }

    /// The area that two rectangles share.
    pub fn overlap(&self, other: &Rect) -> f64 {
        let width = self.right().min(other.right()) - self.left().max(other.left());
        let height = self.bottom().min(other.bottom()) - self.top().max(other.top());
        width.max(0.0) * height.max(0.0)
    }

    /// Where the way from the centre to a point leaves the rectangle.
    fn border_towards(&self, point: Point) -> Point {
        let way = point.minus(self.centre);
        let sides = [(way.x, self.size.width), (way.y, self.size.height)];
        let parts = sides.map(|(part, side)| side / 2.0 / part.abs().max(1e-9));
        self.centre.plus(way.times(parts[0].min(parts[1])))
    }
}

/// A quadratic curve.
#[derive(Clone, Copy, Debug)]
pub struct Curve {
    pub start: Point,
    pub control: Point,
    pub end: Point,
}

impl Curve {
    pub fn at(&self, part: f64) -> Point {
        let rest = 1.0 - part;
        let ends = self.start.times(rest * rest).plus(self.end.times(part * part));
        ends.plus(self.control.times(2.0 * rest * part))
    }
}

pub struct Layout {
    pub nodes: Vec<Rect>,
    pub curves: Vec<Curve>,
    pub labels: Vec<Rect>,
}

impl Layout {
    pub fn new(picture: &Picture) -> Self {
        let nodes = place_nodes(picture);
        let pull = if picture.layered { 0.0 } else { PULL };
        let curves: Vec<Curve> =
            picture.arcs.iter().map(|arc| curve(&nodes, arc, &picture.arcs, pull)).collect();
        let labels = place_labels(&picture.arcs, &curves, &nodes);
        Layout { nodes, curves, labels }
    }

    /// The rectangle around everything.
    pub fn bounds(&self) -> Rect {
        let middles = self.curves.iter().map(|curve| Rect::point(curve.at(0.5)));
        let parts = self.nodes.iter().chain(&self.labels).copied().chain(middles);
        parts.reduce(|a, b| a.around(&b)).unwrap_or(Rect::point(Point { x: 0.0, y: 0.0 }))
    }
}

impl Rect {
    fn point(centre: Point) -> Rect {
        Rect { centre, size: Size::default() }
    }

    fn around(&self, other: &Rect) -> Rect {
        let (left, right) = (self.left().min(other.left()), self.right().max(other.right()));
        let (top, bottom) = (self.top().min(other.top()), self.bottom().max(other.bottom()));
        Rect {
            centre: Point { x: (left + right) / 2.0, y: (top + bottom) / 2.0 },
            size: Size { width: right - left, height: bottom - top },
        }
    }
}

fn place_nodes(picture: &Picture) -> Vec<Rect> {
    let sizes: Vec<Size> =
        picture.nodes.iter().map(|node| Size::of_lines(&node.lines).plus(2.0 * PADDING)).collect();
    let labels = picture.arcs.iter().map(|arc| Size::of_lines(&arc.labels));
    let node = sizes.iter().copied().fold(Size::default(), Size::max);
    let label = labels.fold(Size::default(), Size::max);
    let room = Size { width: node.width + label.width, height: node.height + label.height };
    let centres = if picture.layered {
        in_layers(sizes.len(), &picture.arcs, room.plus(GAP))
    } else {
        on_ellipse(sizes.len(), room.plus(GAP))
    };
    sizes.iter().zip(centres).map(|(&size, centre)| Rect { centre, size }).collect()
}

/// Points on an ellipse, any two of them apart by the room's width or by its height: on the unit
/// circle two neighbours are a chord apart, so one of the coordinates differs by chord / √2.
fn on_ellipse(count: usize, room: Size) -> Vec<Point> {
    if count < 2 {
        return vec![Point { x: 0.0, y: 0.0 }; count];
    }
    let chord = 2.0 * (PI / count as f64).sin();
    let first = if count == 2 { PI } else { -PI / 2.0 };
    let point = |i: usize| {
        let angle = first + 2.0 * PI * i as f64 / count as f64;
        let (x, y) = (angle.cos() * room.width, angle.sin() * room.height);
        Point { x, y }.times(SQRT_2 / chord)
    };
    (0..count).map(point).collect()
}

fn curve(nodes: &[Rect], arc: &Arc, arcs: &[Arc], pull: f64) -> Curve {
    let (from, to) = (&nodes[arc.from], &nodes[arc.to]);
    let middle = from.centre.plus(to.centre).times((1.0 - pull) / 2.0);
    let control = middle.plus(aside(from.centre, to.centre, bend(arc, arcs)));
    Curve { start: from.border_towards(control), control, end: to.border_towards(control) }
}

/// Two arcs between the same nodes bend away from each other, further where labels need room.
fn bend(arc: &Arc, arcs: &[Arc]) -> f64 {
    let opposite = arcs.iter().find(|other| (other.from, other.to) == (arc.to, arc.from));
    opposite.map_or(0.0, |other| 34.0 + LINE * arc.labels.len().max(other.labels.len()) as f64)
}

/// A way of the given length, to the left of the way from one point to another.
fn aside(from: Point, to: Point, length: f64) -> Point {
    let way = to.minus(from);
    Point { x: way.y, y: -way.x }.times(length / way.length())
}

/// Labels near the middle of their curves, each moved to where it covers least of what stands.
fn place_labels(arcs: &[Arc], curves: &[Curve], nodes: &[Rect]) -> Vec<Rect> {
    let mut placed = nodes.to_vec();
    for (arc, curve) in arcs.iter().zip(curves) {
        let size = Size::of_lines(&arc.labels);
        placed.push(least_covering(curve, size, &placed));
    }
    placed.split_off(nodes.len())
}

fn least_covering(curve: &Curve, size: Size, placed: &[Rect]) -> Rect {
    let parts = [0.5, 0.44, 0.56, 0.38, 0.62, 0.32, 0.68, 0.26, 0.74, 0.2, 0.8];
    let candidates = parts.map(|part| {
        let rect = Rect { centre: curve.at(part), size };
        (placed.iter().map(|other| rect.overlap(other)).sum::<f64>(), rect)
    });
    let least = candidates.into_iter().min_by(|a, b| a.0.total_cmp(&b.0));
    least.expect("there are candidates").1
}
