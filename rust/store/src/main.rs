//! The command line. Nothing here is proved.

mod start;

use std::panic;
use std::process::ExitCode;

use store::commands;
use store::files::Files;
use store::outcome::{complain, settle, NO_ANSWER};

fn main() -> ExitCode {
    panic::set_hook(Box::new(|fault| complain(&format!("fault of this program: {fault}"))));
    let arguments: Vec<String> =
        std::env::args_os().skip(1).map(|name| name.to_string_lossy().into_owned()).collect();
    let status = panic::catch_unwind(|| {
        let mut files = Files::new(start::standard());
        let outcome = commands::run(&arguments, &mut files);
        settle(outcome, &files)
    });
    ExitCode::from(status.unwrap_or(NO_ANSWER))
}
