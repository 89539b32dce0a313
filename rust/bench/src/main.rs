//! Times the proved library against the reference.

mod calls;
mod classes;

use bench::options::Options;
use bench::table;
use std::process::ExitCode;

fn main() -> ExitCode {
    let options = match Options::parse(std::env::args().skip(1)) {
        Ok(options) => options,
        Err(message) => {
            eprintln!("{message}");
            return ExitCode::FAILURE;
        }
    };
    table::header(&options);
    for class in classes::all().iter().filter(|class| options.chosen(class.name)) {
        table::line(class, &options);
    }
    ExitCode::SUCCESS
}
