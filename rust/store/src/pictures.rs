//! The commands that draw.

use crate::commands::{refused, Call, Outcome};
use crate::outcome::{complain, Failure};
use crate::picture::{causal, chart, dot, graphviz, values, Picture};
use crate::show::{self, Which};

pub fn graph(call: &mut Call) -> Outcome {
    let store = call.store(0)?;
    draw(call, 1, causal::causal_picture(&store))
}

pub fn values(call: &mut Call) -> Outcome {
    let store = call.store(0)?;
    let (file, name) = (call.arguments[0], call.arguments[1]);
    let Some(variable) = store.variable(name) else {
        let names: Vec<&str> = store.variables.iter().map(|v| v.name.as_str()).collect();
        let expected = format!("expected a variable ({}), found `{name}`", names.join(", "));
        return Err(Failure::of_file(file, expected));
    };
    draw(call, 2, values::value_picture(&store, variable))
}

fn draw(call: &Call, out: usize, picture: Picture) -> Outcome {
    if call.has("--dot") {
        return call.put(out, dot::dot(&picture).as_bytes());
    }
    if call.has("--plain") {
        return call.put(out, graphviz::plain(picture).as_bytes());
    }
    let (svg, reason) = graphviz::drawn(picture);
    call.put(out, svg.as_bytes())?;
    reason.iter().for_each(|reason| complain(reason));
    Ok(())
}

pub fn chart(call: &mut Call) -> Outcome {
    let store = call.store(0)?;
    let plan = call.plan(&store)?;
    let shown =
        show::plan(&store, &plan, Which::All).map_err(|refusal| refused(&store, refusal))?;
    call.put(2, chart::chart(&store, &plan).as_bytes())?;
    shown.fault.map_or(Ok(()), |fault| Err(Failure::No(fault)))
}
