//! A picture as DOT, the language of Graphviz.

use std::fmt::Write;

use super::{Arc, Legend, Node, Picture};

pub fn dot(picture: &Picture) -> String {
    let mut out = String::from("digraph store {\n");
    let below: String = picture.legend.iter().map(legend_line).collect();
    writeln!(out, "  label=\"{below}\" labelloc=b labeljust=l").unwrap();
    out += "  fontname=\"Helvetica\" fontsize=12 ranksep=0.8 nodesep=0.4\n";
    out += "  node [shape=box style=\"rounded,filled\" fontname=\"Helvetica\" fontsize=13]\n";
    out += "  edge [fontname=\"Helvetica\" fontsize=11 arrowsize=0.8]\n";
    out += "  subgraph cluster {\n";
    writeln!(out, "  label=\"{}\" labelloc=t pencolor=none fontsize=16", escaped(&picture.title))
        .unwrap();
    for (number, node) in picture.nodes.iter().enumerate() {
        out += &node_line(number, node);
    }
    out += "  }\n";
    for arc in &picture.arcs {
        out += &arc_line(arc);
    }
    out + "}\n"
}

/// Colours of nodes speak for themselves; those of arcs are named.
fn legend_line(line: &Legend) -> String {
    match line {
        Legend::Node(..) => String::new(),
        Legend::Arc("dark", words) => format!("dark: {}\\l", escaped(words)),
        Legend::Arc(_, words) => format!("grey: {}\\l", escaped(words)),
        Legend::Note(words) => escaped(words) + "\\l",
    }
}

fn node_line(number: usize, node: &Node) -> String {
    let style = match node.class {
        "black" => "fillcolor=\"#222222\" color=\"#222222\" fontcolor=white",
        "red" => "fillcolor=\"#c62828\" color=\"#c62828\" fontcolor=white",
        "value goal" => "fillcolor=\"#e3f1e3\" penwidth=3",
        _ => "fillcolor=white",
    };
    let lines: Vec<String> = node.lines.iter().map(|line| escaped(line)).collect();
    let (label, title) = (lines.join("\\n"), escaped(&node.title));
    format!("  n{number} [label=\"{label}\" tooltip=\"{title}\" {style}]\n")
}

fn arc_line(arc: &Arc) -> String {
    let style =
        if arc.class == "dark" { "color=\"#222222\" penwidth=1.6" } else { "color=\"#8a8a8a\"" };
    let label: String =
        arc.labels.iter().map(|line| format!("\u{a0}\u{a0}\u{a0}{}\\l", escaped(line))).collect();
    let title = escaped(&arc.title);
    let (from, to) = (arc.from, arc.to);
    format!("  n{from} -> n{to} [label=\"{label}\" labeltooltip=\"{title}\" tooltip=\"{title}\" {style}]\n")
}

/// Graphviz reads backslashes, quotes and what looks like an entity of HTML.
fn escaped(text: &str) -> String {
    let text = text.replace('\\', "\\\\").replace('"', "\\\"").replace('&', "&amp;");
    text.replace('\n', "\\n")
}
