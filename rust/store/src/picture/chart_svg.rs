//! A chart written as SVG.

use std::fmt::Write;

use super::chart::{Band, Chart, Kind, Lane, Mark, MarkKind, Row, Segment};
use super::chart_legend::{legend, legend_width};
use super::escape;
use super::layout::{text_width, LINE};

const LANE: f64 = 24.0;
const GAP: f64 = 10.0;
pub(super) const MARGIN: f64 = 24.0;
const NARROW: f64 = 34.0;
const WIDE: f64 = 150.0;
/// How far into a column a new value starts; what the step needs is marked before.
const TURN: f64 = 21.0;
/// What a text of 11 pixels takes of the room of one of 13.
const SMALL: f64 = 11.0 / 13.0;
/// How far a column's title leads to the right and up, as parts of its length.
const SLANT: (f64, f64) = (0.5, 0.87);

const STYLE: &str = "\
text { font: 13px monospace; fill: #222 }
.title { font-size: 16px }
.name { text-anchor: end }
.inserted { fill: #ffe9b3 }
.not-run { fill: #e4e4e4 }
.row { stroke: #ccc }
.black rect { fill: #333 }
.bar { font-size: 11px }
.black .bar { fill: #fff }
.red rect { fill: #f6caca; stroke: #c62828 }
.needed { fill: #1565c0; stroke: #fff }
.missing { fill: #fff; stroke: #d50000; stroke-width: 3 }
.again { stroke: #1565c0; stroke-width: 3 }
.stop { stroke: #d50000; stroke-width: 3; stroke-dasharray: 8 5 }
.met { fill: #2e7d32 }
.unmet { fill: #d50000 }
";

/// Where columns and rows of a band stand.
struct Frame {
    /// The left edge of each column, and the right edge of the last.
    lefts: Vec<f64>,
    /// The top of each row, and the bottom of the last.
    tops: Vec<f64>,
    width: f64,
}

pub fn svg(chart: &Chart) -> String {
    let mut body = text("title", MARGIN, MARGIN, &chart.title);
    let (mut top, mut width) = (MARGIN + LINE, legend_width(chart));
    for band in &chart.bands {
        let frame = Frame::new(band, top);
        body += &band_part(band, &frame);
        top = frame.bottom() + MARGIN;
        width = width.max(frame.width);
    }
    let (legend, height) = legend(chart, top);
    let height = top + height;
    format!(
        "<svg xmlns=\"http://www.w3.org/2000/svg\" width=\"{width:.0}\" height=\"{height:.0}\" \
         viewBox=\"0 0 {width:.0} {height:.0}\">\n<style>\n{STYLE}</style>\n\
         <rect width=\"{width:.0}\" height=\"{height:.0}\" fill=\"#fff\"/>\n{body}{legend}</svg>\n"
    )
}

fn band_part(band: &Band, frame: &Frame) -> String {
    let mut out = column_parts(band, frame);
    for (row, &top) in band.rows.iter().zip(&frame.tops) {
        out += &row_part(row, top, frame);
    }
    out + &stop_line(band, frame)
}

impl Frame {
    fn new(band: &Band, top: f64) -> Self {
        let names = band.rows.iter().map(|row| text_width(&row.name)).fold(40.0, f64::max);
        let titles = band.columns.iter().map(|column| text_width(&column.title));
        let head = top + titles.fold(0.0, f64::max) * SLANT.1 + 16.0;
        let mut lefts = vec![MARGIN + names + 12.0];
        for width in widths(band) {
            lefts.push(lefts[lefts.len() - 1] + width);
        }
        let mut tops = vec![head];
        for row in &band.rows {
            tops.push(tops[tops.len() - 1] + LANE * row.lanes.len() as f64 + GAP);
        }
        let goals = band.rows.iter().filter_map(|row| row.goal.as_ref());
        let goal = goals.map(|(goal, _)| text_width(goal) + 30.0).fold(0.0, f64::max);
        let slanted = |i: usize| lefts[i + 1] + text_width(&band.columns[i].title) * SLANT.0;
        let titles = (0..band.columns.len()).map(slanted).fold(0.0, f64::max);
        let width = (lefts[lefts.len() - 1] + goal).max(titles) + MARGIN;
        Frame { lefts, tops, width }
    }

    fn head(&self) -> f64 {
        self.tops[0]
    }

    fn bottom(&self) -> f64 {
        self.tops[self.tops.len() - 1]
    }

    /// Where a value starts that is set in a column.
    fn turn(&self, column: usize) -> f64 {
        self.lefts[column] + turn_in(column)
    }

    fn right(&self) -> f64 {
        self.lefts[self.lefts.len() - 1]
    }
}

fn turn_in(column: usize) -> f64 {
    if column == 0 {
        3.0
    } else {
        TURN
    }
}

/// Columns wide enough for the names of the values that start in them.
fn widths(band: &Band) -> Vec<f64> {
    let mut widths = vec![NARROW; band.columns.len()];
    let lanes = band.rows.iter().flat_map(|row| &row.lanes);
    for segment in lanes.flat_map(|lane| &lane.segments) {
        let name = (text_width(&segment.name) * SMALL).min(WIDE);
        let width = &mut widths[segment.first];
        *width = width.max(turn_in(segment.first) + name + 12.0);
    }
    widths
}

fn column_parts(band: &Band, frame: &Frame) -> String {
    let mut out = String::new();
    for (i, column) in band.columns.iter().enumerate() {
        let (left, right) = (frame.lefts[i], frame.lefts[i + 1]);
        let class = match column.kind {
            Kind::Inserted => "inserted",
            Kind::NotRun => "not-run",
            Kind::State | Kind::Relaxed => "",
        };
        if !class.is_empty() {
            let height = frame.bottom() - frame.head() + 6.0;
            out += &rect(class, left, frame.head() - 6.0, right - left, height);
        }
        let (x, y) = ((left + right) / 2.0 + 4.0, frame.head() - 12.0);
        let title = escape(&column.title);
        let turned =
            format!("<text transform=\"translate({x:.1} {y:.1}) rotate(-60)\">{title}</text>");
        writeln!(out, "{turned}").unwrap();
    }
    let goals = band.rows.iter().any(|row| row.goal.is_some());
    let goal = if goals { "goal" } else { "" };
    out + &text("", frame.right() + 8.0, frame.head() - 12.0, goal)
}

fn row_part(row: &Row, top: f64, frame: &Frame) -> String {
    let height = LANE * row.lanes.len() as f64;
    let middle = top + height / 2.0 + 4.5;
    let line = top + height + GAP / 2.0;
    let (left, right) = (frame.lefts[0], frame.right());
    let mut out = format!(
        "<line class=\"row\" x1=\"{left:.1}\" y1=\"{line:.1}\" x2=\"{right:.1}\" y2=\"{line:.1}\"/>\n"
    );
    out += &text("name", left - 8.0, middle, &row.name);
    let colour = if row.black { "black" } else { "red" };
    writeln!(out, "<g class=\"{colour}\">").unwrap();
    for (i, lane) in row.lanes.iter().enumerate() {
        out += &lane_part(lane, top + LANE * i as f64, frame);
    }
    out += "</g>\n";
    if let Some((goal, met)) = &row.goal {
        let (class, sign) = if *met { ("met", "✓") } else { ("unmet", "✗") };
        out += &text(class, right + 8.0, middle, &format!("{sign} {goal}"));
    }
    out
}

fn lane_part(lane: &Lane, top: f64, frame: &Frame) -> String {
    let bars = lane.segments.iter().map(|segment| bar(segment, top, frame));
    let marks = lane.marks.iter().map(|mark| mark_part(mark, top, frame));
    bars.chain(marks).collect()
}

fn bar(segment: &Segment, top: f64, frame: &Frame) -> String {
    let left = frame.turn(segment.first);
    let right = segment.last.map_or(frame.right() - 2.0, |last| frame.turn(last) - 3.0);
    let name = fitting(&segment.name, (right - left - 8.0).min(WIDE));
    let title = escape(&segment.name);
    let shape = rect("", left, top + 2.0, (right - left).max(3.0), LANE - 5.0);
    format!("<g><title>{title}</title>{shape}{}</g>\n", text("bar", left + 6.0, top + 16.0, &name))
}

/// As much of a name as there is room for.
fn fitting(name: &str, room: f64) -> String {
    let room = room / SMALL;
    if text_width(name) <= room {
        return name.to_owned();
    }
    let mut cut = String::new();
    for c in name.chars() {
        if text_width(&cut) + text_width("x…") > room {
            break;
        }
        cut.push(c);
    }
    if cut.is_empty() {
        cut
    } else {
        cut + "…"
    }
}

fn mark_part(mark: &Mark, top: f64, frame: &Frame) -> String {
    let turn = frame.turn(mark.column);
    mark_sign(mark.kind, turn - 11.0, turn, top + LANE / 2.0 - 0.5)
}

pub(super) fn mark_sign(kind: MarkKind, x: f64, turn: f64, y: f64) -> String {
    match kind {
        MarkKind::Needed => {
            format!("<circle class=\"needed\" cx=\"{x:.1}\" cy=\"{y:.1}\" r=\"4.5\"/>\n")
        }
        MarkKind::Missing => {
            format!("<circle class=\"missing\" cx=\"{x:.1}\" cy=\"{y:.1}\" r=\"5\"/>\n")
        }
        MarkKind::Again => format!(
            "<line class=\"again\" x1=\"{turn:.1}\" y1=\"{:.1}\" x2=\"{turn:.1}\" y2=\"{:.1}\"/>\n",
            y - 9.0,
            y + 9.0
        ),
    }
}

fn stop_line(band: &Band, frame: &Frame) -> String {
    let Some(column) = band.stop else { return String::new() };
    let (x, top, bottom) = (frame.lefts[column] + 1.0, frame.head() - 10.0, frame.bottom() + 8.0);
    format!(
        "<line class=\"stop\" x1=\"{x:.1}\" y1=\"{top:.1}\" x2=\"{x:.1}\" y2=\"{bottom:.1}\"/>\n"
    )
}

pub(super) fn rect(class: &str, x: f64, y: f64, width: f64, height: f64) -> String {
    let class = if class.is_empty() { String::new() } else { format!(" class=\"{class}\"") };
    format!(
        "<rect{class} x=\"{x:.1}\" y=\"{y:.1}\" width=\"{width:.1}\" height=\"{height:.1}\"/>\n"
    )
}

pub(super) fn text(class: &str, x: f64, y: f64, words: &str) -> String {
    let class = if class.is_empty() { String::new() } else { format!(" class=\"{class}\"") };
    format!("<text{class} x=\"{x:.1}\" y=\"{y:.1}\">{}</text>\n", escape(words))
}
