//! What the program `crates/listings` is run on and held to is what the reference writes today, and the
//! listing program writes it too, record by record.

use generate::listings;
use reference::listing;
use std::fs;
use std::io::Write;
use std::path::{Path, PathBuf};
use std::process::{Command, Stdio};

fn above(path: &str) -> PathBuf {
    Path::new(env!("CARGO_MANIFEST_DIR")).join(path)
}

#[test]
fn listings_are_as_stored() {
    let records = listings::records();
    let folder = above("../../crates/listings");
    assert_eq!(fs::read(folder.join("stdin")).unwrap(), listings::stored(&records));
    assert_eq!(fs::read_to_string(folder.join("stdout")).unwrap(), listings::texts(&records));
}

#[test]
fn the_program_writes_them() {
    for (number, bytes) in listings::records().iter().enumerate() {
        assert_eq!(listed(bytes), listing::listing(bytes), "record {number}");
    }
}

/// What the program writes, on 512 KiB of stack and in an empty environment.
fn listed(record: &[u8]) -> String {
    let program = above("../../build/bin/listing");
    assert!(program.is_file(), "{} is missing: run `sh tools/build` first", program.display());
    let mut child = Command::new("sh")
        .args(["-c", "ulimit -s 512 && exec env -i \"$0\""])
        .arg(program)
        .stdin(Stdio::piped())
        .stdout(Stdio::piped())
        .spawn()
        .unwrap();
    child.stdin.take().unwrap().write_all(record).unwrap();
    let output = child.wait_with_output().unwrap();
    assert!(output.status.success());
    String::from_utf8(output.stdout).unwrap()
}
