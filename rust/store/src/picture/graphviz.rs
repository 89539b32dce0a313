//! Graphviz, where it is installed.

use std::io::{self, Write};
use std::process::{Command, Stdio};

use super::{dot::dot, svg::svg, Legend, Picture};

/// With more arcs Graphviz takes long, and what it draws cannot be read.
const MAX_ARCS: usize = 200;

/// The picture as SVG, and why it is a plain one if it is.
pub fn drawn(mut picture: Picture) -> (String, Option<String>) {
    match by_graphviz(&picture) {
        Ok(svg) => (svg, None),
        Err(reason) => {
            picture.legend.push(Legend::Note(format!("Drawn without Graphviz: {reason}.")));
            (svg(picture), Some(format!("drawn without Graphviz: {reason}")))
        }
    }
}

/// The picture as SVG, drawn without Graphviz as was asked for.
pub fn plain(mut picture: Picture) -> String {
    picture.legend.push(Legend::Note("Drawn without Graphviz.".to_owned()));
    svg(picture)
}

fn by_graphviz(picture: &Picture) -> Result<String, String> {
    if picture.arcs.len() > MAX_ARCS {
        return Err(format!("there are more than {MAX_ARCS} arcs"));
    }
    run(&dot(picture)).map_err(|error| match error.kind() {
        io::ErrorKind::NotFound => "it is not installed".to_owned(),
        _ => format!("it failed ({error})"),
    })
}

fn run(dot: &str) -> io::Result<String> {
    let mut command = Command::new("dot");
    command.arg("-Tsvg").stdin(Stdio::piped()).stdout(Stdio::piped()).stderr(Stdio::null());
    let mut child = command.spawn()?;
    let written = child.stdin.take().map_or(Ok(()), |mut input| input.write_all(dot.as_bytes()));
    let output = child.wait_with_output()?;
    let svg = String::from_utf8(output.stdout).map_err(io::Error::other)?;
    if output.status.success() && svg.trim_end().ends_with("</svg>") {
        return written.map(|()| svg);
    }
    Err(io::Error::other(format!("dot: {}", output.status)))
}
