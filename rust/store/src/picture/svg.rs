//! A picture written as SVG.

use std::fmt::Write;

use super::layout::{text_width, Curve, Layout, Point, Rect, LINE};
use super::{at_most, escape, Arc, Legend, Node, Picture};

const MARGIN: f64 = 24.0;
const SAMPLE: f64 = 40.0;
/// As many arcs are listed below a picture.
const MAX_LINES: usize = 40;

const STYLE: &str = "\
text { font: 13px monospace; text-anchor: middle; fill: #222 }
.title { font-size: 16px; text-anchor: start }
.legend text { text-anchor: start }
.node rect { stroke-width: 2 }
.black rect { fill: #222; stroke: #222 }
.red rect { fill: #c62828; stroke: #c62828 }
.black text, .red text { fill: #fff }
.value rect { fill: #fff; stroke: #222 }
.goal rect { fill: #e3f1e3; stroke-width: 4 }
.arc { fill: none; stroke: #8a8a8a; stroke-width: 1.6 }
.dark { stroke: #222; stroke-width: 2 }
.label rect { fill: #fff }
";

/// An arrow head in the colour of its arc.
fn marker(id: &str, fill: &str) -> String {
    format!(
        "<marker id=\"{id}\" viewBox=\"0 0 10 10\" refX=\"9\" refY=\"5\" markerWidth=\"11\" \
         markerHeight=\"11\" markerUnits=\"userSpaceOnUse\" orient=\"auto\">\
         <path d=\"M0 0.5 L10 5 L0 9.5 z\" fill=\"{fill}\"/></marker>\n"
    )
}

/// The picture as SVG. In layers arcs cross, so their actions stand below and not beside them.
pub fn svg(mut picture: Picture) -> String {
    if picture.layered {
        let below = arcs_below(&picture);
        picture.legend.extend(below);
        picture.arcs.iter_mut().for_each(|arc| arc.labels.clear());
    }
    laid_out(&picture)
}

fn arcs_below(picture: &Picture) -> Vec<Legend> {
    let name = |node: usize| picture.nodes[node].lines.join(" ");
    let line = |arc: &Arc| {
        let actions = arc.labels.join(", ");
        format!("{} to {}: {actions}", name(arc.from), name(arc.to))
    };
    let lines: Vec<String> = picture.arcs.iter().map(line).collect();
    at_most(lines, MAX_LINES).into_iter().map(Legend::Note).collect()
}

fn laid_out(picture: &Picture) -> String {
    let layout = Layout::new(picture);
    let bounds = layout.bounds();
    let mut body = String::new();
    for (arc, curve) in picture.arcs.iter().zip(&layout.curves) {
        body += &arc_path(arc, curve);
    }
    for (node, rect) in picture.nodes.iter().zip(&layout.nodes) {
        body += &node_box(node, rect);
    }
    for (arc, rect) in picture.arcs.iter().zip(&layout.labels) {
        body += &label(arc, rect);
    }
    let legend_top = bounds.bottom() + MARGIN + LINE;
    body += &legend(picture, bounds.left(), legend_top);
    let height = bounds.size.height + 3.0 * MARGIN + LINE * (picture.legend.len() + 2) as f64;
    let width = bounds.size.width.max(written_width(picture)) + 2.0 * MARGIN;
    let (left, top) = (bounds.left() - MARGIN, bounds.top() - 2.0 * MARGIN - LINE);
    let title = text("title", left + MARGIN, top + MARGIN + 4.0, &picture.title);
    frame(Point { x: left, y: top }, width, height, &(title + &body))
}

/// The drawing surface with style and arrow heads.
fn frame(corner: Point, width: f64, height: f64, body: &str) -> String {
    let Point { x, y } = corner;
    format!(
        "<svg xmlns=\"http://www.w3.org/2000/svg\" width=\"{width:.0}\" height=\"{height:.0}\" \
         viewBox=\"{x:.0} {y:.0} {width:.0} {height:.0}\">\n<style>\n{STYLE}</style>\n<defs>\n{}{}\
         </defs>\n<rect x=\"{x:.0}\" y=\"{y:.0}\" width=\"{width:.0}\" height=\"{height:.0}\" \
         fill=\"#fff\"/>\n{body}</svg>\n",
        marker("tip", "#8a8a8a"),
        marker("dark-tip", "#222"),
    )
}

fn written_width(picture: &Picture) -> f64 {
    let lines = picture.legend.iter().map(|line| SAMPLE + 10.0 + text_width(line.text()));
    lines.fold(text_width(&picture.title) * 16.0 / 13.0, f64::max)
}

fn arc_path(arc: &Arc, curve: &Curve) -> String {
    let Curve { start, control, end } = curve;
    let way = format!(
        "M{:.1} {:.1} Q{:.1} {:.1} {:.1} {:.1}",
        start.x, start.y, control.x, control.y, end.x, end.y
    );
    path(arc.class, &way, &arc.title)
}

fn path(class: &str, way: &str, title: &str) -> String {
    let tip = if class == "dark" { "dark-tip" } else { "tip" };
    format!(
        "<path class=\"arc {class}\" marker-end=\"url(#{tip})\" d=\"{way}\"><title>{}</title></path>\n",
        escape(title)
    )
}

fn node_box(node: &Node, rect: &Rect) -> String {
    let title = escape(&node.title);
    let lines = lines(&node.lines, rect.centre);
    let shape = shape(rect, 6.0);
    format!("<g class=\"node {}\"><title>{title}</title>{shape}{lines}</g>\n", node.class)
}

fn label(arc: &Arc, rect: &Rect) -> String {
    if arc.labels.is_empty() {
        return String::new();
    }
    format!("<g class=\"label\">{}{}</g>\n", shape(rect, 2.0), lines(&arc.labels, rect.centre))
}

fn shape(rect: &Rect, round: f64) -> String {
    format!(
        "<rect x=\"{:.1}\" y=\"{:.1}\" width=\"{:.1}\" height=\"{:.1}\" rx=\"{round}\"/>",
        rect.left(),
        rect.top(),
        rect.size.width,
        rect.size.height
    )
}

/// Lines of text around a centre.
fn lines(lines: &[String], centre: Point) -> String {
    let first = centre.y - LINE * (lines.len() as f64 - 1.0) / 2.0 + 4.5;
    let line = |(i, line): (usize, &String)| text("", centre.x, first + LINE * i as f64, line);
    lines.iter().enumerate().map(line).collect()
}

fn text(class: &str, x: f64, y: f64, line: &str) -> String {
    let class = if class.is_empty() { String::new() } else { format!(" class=\"{class}\"") };
    format!("<text{class} x=\"{x:.1}\" y=\"{y:.1}\">{}</text>", escape(line))
}

fn legend(picture: &Picture, left: f64, top: f64) -> String {
    let mut out = String::from("<g class=\"legend\">\n");
    for (i, entry) in picture.legend.iter().enumerate() {
        let y = top + LINE * i as f64;
        let (sample, indent) = sample(entry, left, y - 4.5);
        let words = text("", left + indent, y, entry.text());
        writeln!(out, "{sample}{words}").unwrap();
    }
    out + "</g>\n"
}

/// A small sample of what a legend's line speaks of, and the room it takes.
fn sample(entry: &Legend, left: f64, y: f64) -> (String, f64) {
    let indent = SAMPLE + 10.0;
    match entry {
        Legend::Node(class, _) => {
            let (x, top) = (left + SAMPLE - 20.0, y - 5.0);
            let shape = format!("<rect x=\"{x:.1}\" y=\"{top:.1}\" width=\"20\" height=\"10\"/>");
            (format!("<g class=\"node {class}\">{shape}</g>"), indent)
        }
        Legend::Arc(class, words) => {
            (path(class, &format!("M{left:.1} {y:.1} h{SAMPLE}"), words), indent)
        }
        Legend::Note(_) => (String::new(), 0.0),
    }
}
