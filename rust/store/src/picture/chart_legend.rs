//! The legend and the notes below a chart.

use super::chart::{Chart, Kind, MarkKind};
use super::chart_svg::{mark_sign, rect, text, MARGIN};
use super::layout::{text_width, LINE};

/// Samples and their words.
const LEGEND: [(&str, &str); 6] = [
    ("black", "value of a black variable; the next one replaces it"),
    ("red", "value of a red variable, which keeps every value it has had"),
    ("inserted", "move that the repair inserted; the other steps are the relaxed plan's"),
    ("needed", "value that the step needs"),
    ("missing", "value that the step needs and that is not there in the real run"),
    ("again", "value set again"),
];

pub fn legend(chart: &Chart, top: f64) -> (String, f64) {
    let mut out = String::new();
    let mut y = top + 4.0;
    for (class, words) in LEGEND.iter().filter(|(class, _)| is_shown(chart, class)) {
        out += &sample(class, MARGIN, y);
        out += &text("", MARGIN + 34.0, y, words);
        y += LINE;
    }
    for note in &chart.notes {
        out += &text("", MARGIN, y + 4.0, note);
        y += LINE;
    }
    (out, y - top + MARGIN)
}

pub fn legend_width(chart: &Chart) -> f64 {
    let words = LEGEND.iter().map(|(_, words)| text_width(words) + 34.0);
    let notes = chart.notes.iter().map(|note| text_width(note));
    words.chain(notes).fold(0.0, f64::max) + 2.0 * MARGIN
}

fn is_shown(chart: &Chart, class: &str) -> bool {
    let rows = || chart.bands.iter().flat_map(|band| &band.rows);
    let columns = || chart.bands.iter().flat_map(|band| &band.columns);
    let marks = || rows().flat_map(|row| &row.lanes).flat_map(|lane| &lane.marks);
    match class {
        "black" => rows().any(|row| row.black),
        "red" => rows().any(|row| !row.black),
        "inserted" => columns().any(|column| column.kind == Kind::Inserted),
        "needed" => marks().any(|mark| mark.kind == MarkKind::Needed),
        "missing" => marks().any(|mark| mark.kind == MarkKind::Missing),
        _ => marks().any(|mark| mark.kind == MarkKind::Again),
    }
}

fn sample(class: &str, x: f64, y: f64) -> String {
    match class {
        "needed" => mark_sign(MarkKind::Needed, x + 12.0, 0.0, y - 5.0),
        "missing" => mark_sign(MarkKind::Missing, x + 12.0, 0.0, y - 5.0),
        "again" => mark_sign(MarkKind::Again, 0.0, x + 12.0, y - 5.0),
        "inserted" => rect("inserted", x, y - 11.0, 24.0, 12.0),
        _ => format!("<g class=\"{class}\">{}</g>\n", rect("", x, y - 11.0, 24.0, 12.0)),
    }
}
