//! A store written as text.

use std::fmt::{self, Write};

use reference::Fact;

use crate::store::{Action, Store, Variable};

pub fn text(store: &Store) -> String {
    let mut out = String::new();
    write_store(&mut out, store).expect("a string takes any text");
    out
}

fn write_store(out: &mut String, store: &Store) -> fmt::Result {
    store.variables.iter().try_for_each(|variable| write_variable(out, variable))?;
    store.actions.iter().try_for_each(|action| write_action(out, store, action))
}

fn write_variable(out: &mut String, variable: &Variable) -> fmt::Result {
    let values = variable.values.join(" ");
    writeln!(out, "variable {} {}: {values}", variable.name, variable.colour())?;
    writeln!(out, "  initial {}", variable.values[variable.initial])?;
    if let Some(goal) = variable.goal {
        writeln!(out, "  goal {}", variable.values[goal])?;
    }
    Ok(())
}

fn write_action(out: &mut String, store: &Store, action: &Action) -> fmt::Result {
    writeln!(out, "action {} cost {}", action.name, action.cost)?;
    write_facts(out, store, "needs", &action.needs)?;
    write_facts(out, store, "sets", &action.sets)
}

fn write_facts(out: &mut String, store: &Store, keyword: &str, facts: &[Fact]) -> fmt::Result {
    if facts.is_empty() {
        return Ok(());
    }
    writeln!(out, "  {keyword} {}", store.facts(facts))
}
