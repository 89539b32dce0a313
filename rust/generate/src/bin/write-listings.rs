//! Writes `stdin` and `stdout` of the program `crates/listings` into the folder named:
//! `cargo run -p generate --bin write-listings ../crates/listings`.

use generate::listings;
use std::fs;
use std::path::PathBuf;

fn main() -> std::io::Result<()> {
    let Some(folder) = std::env::args_os().nth(1).map(PathBuf::from) else {
        eprintln!("usage: write-listings FOLDER");
        std::process::exit(2);
    };
    let records = listings::records();
    fs::write(folder.join("stdin"), listings::stored(&records))?;
    fs::write(folder.join("stdout"), listings::texts(&records))
}
