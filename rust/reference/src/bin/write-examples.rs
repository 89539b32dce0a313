//! Writes the examples of clause 12 as records into the folder named.

use std::fs;
use std::path::PathBuf;

fn main() -> std::io::Result<()> {
    let Some(folder) = std::env::args_os().nth(1).map(PathBuf::from) else {
        eprintln!("usage: write-examples FOLDER");
        std::process::exit(2);
    };
    for (name, bytes) in reference::examples::files() {
        fs::write(folder.join(name).with_extension("record"), bytes)?;
    }
    Ok(())
}
