//! Compares the proved library with the reference.
//!
//! `compare [SUITE..] [--seed N] [--count N]` runs the named suites, by default all. It stops at
//! the first difference with a non-zero status and the input as hex, and fails too if the planner's suite drew hardly
//! any record that passes only because facts set again make no arcs, or whose plan tells the rule for paths from one
//! that comes close to it, or whose searches tell the count from one that comes close, or whose marks tell the rule for
//! marks. What is handed to the library lies against forbidden pages, so that a touch outside ends the run too.

mod check;
mod newest;
mod plan;
mod runs;
mod sheet;

use compare::suite::{Options, Suite};
use std::process::ExitCode;
use std::thread;

const SUITES: &[(&str, Suite)] = &[
    ("check", check::run),
    ("runs", runs::run),
    ("newest", newest::run),
    ("sheet", sheet::run),
    ("plan", plan::run),
];

fn main() -> ExitCode {
    match Options::parse(std::env::args().skip(1)).and_then(on_small_stack) {
        Ok(()) => ExitCode::SUCCESS,
        Err(message) => {
            eprintln!("{message}");
            ExitCode::FAILURE
        }
    }
}

/// The library is to need no more stack than this.
const STACK: usize = 256 << 10;

fn on_small_stack(options: Options) -> Result<(), String> {
    let thread = thread::Builder::new().stack_size(STACK).spawn(move || run(&options));
    thread.map_err(|error| error.to_string())?.join().unwrap_or(Err("panicked".to_string()))
}

fn run(options: &Options) -> Result<(), String> {
    if let Some(unknown) = options.suites.iter().find(|name| SUITES.iter().all(|s| s.0 != *name)) {
        return Err(format!("no suite named {unknown}"));
    }
    println!("seed {}", options.seed);
    for (name, suite) in SUITES {
        if options.suites.is_empty() || options.suites.iter().any(|chosen| chosen == name) {
            let compared = suite(options).map_err(|fault| format!("{name}: {fault}"))?;
            println!("{name}: {compared} compared");
        }
    }
    Ok(())
}
