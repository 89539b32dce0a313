//! Pictures: what they show, and how it is drawn.

pub mod causal;
pub mod chart;
pub mod chart_legend;
pub mod chart_svg;
pub mod dot;
pub mod graphviz;
pub mod layers;
pub mod layout;
pub mod svg;
pub mod values;

/// A box with lines of text; the title shows when a pointer rests on it.
pub struct Node {
    pub lines: Vec<String>,
    pub class: &'static str,
    pub title: String,
}

/// An arc with its actions; parallel ones are one arc.
pub struct Arc {
    pub from: usize,
    pub to: usize,
    pub class: &'static str,
    pub labels: Vec<String>,
    pub title: String,
}

/// A line below the picture.
pub enum Legend {
    Node(&'static str, &'static str),
    Arc(&'static str, &'static str),
    Note(String),
}

impl Legend {
    pub fn text(&self) -> &str {
        match self {
            Legend::Node(_, text) | Legend::Arc(_, text) => text,
            Legend::Note(text) => text,
        }
    }
}

pub struct Picture {
    pub title: String,
    pub nodes: Vec<Node>,
    pub arcs: Vec<Arc>,
    pub legend: Vec<Legend>,
    /// Whether arcs lead from layer to layer downwards; otherwise nodes stand around.
    pub layered: bool,
}

/// The first labels, and how many more there are.
fn at_most(mut labels: Vec<String>, most: usize) -> Vec<String> {
    if labels.len() > most {
        let more = labels.len() - (most - 1);
        labels.truncate(most - 1);
        labels.push(format!("and {more} more"));
    }
    labels
}

/// A text in lines of about 100 characters.
fn notes(text: &str) -> Vec<Legend> {
    let mut lines = vec![String::new()];
    for word in text.split(' ') {
        if lines.last().is_some_and(|line| line.chars().count() + word.chars().count() > 100) {
            lines.push(String::new());
        }
        let line = lines.last_mut().expect("there is a line");
        *line += if line.is_empty() { "" } else { " " };
        *line += word;
    }
    lines.into_iter().map(Legend::Note).collect()
}

/// Text for SVG.
pub fn escape(text: &str) -> String {
    text.replace('&', "&amp;").replace('<', "&lt;").replace('>', "&gt;").replace('"', "&quot;")
}
