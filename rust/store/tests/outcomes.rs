//! How the program ends: 0, 1 or 2, with one line that says why, also where nothing can be written.

mod common;

use common::Folder;

const COMMANDS: [&str; 12] = [
    "record two-shelves.store",
    "text two-shelves.store",
    "plan two-shelves.store",
    "plan two-shelves.store short.list",
    "plan two-shelves-without-1.store",
    "repair two-shelves.store short.list",
    "sheet two-shelves.store",
    "explain 10 3",
    "graph two-shelves.store --plain",
    "values two-shelves.store box --dot",
    "chart two-shelves.store",
    "help",
];

fn folder() -> Folder {
    let folder =
        Folder::with(&["two-shelves.store", "two-shelves-without-1.store", "two-shelves.record"]);
    folder.write("short.list", "0 2 3");
    folder
}

/// Each command with its output lost: status 2, and one line that names it.
fn check_lost(output: &str, reason: &str) {
    let folder = folder();
    for command in COMMANDS {
        let (status, out, error) = folder.run(&format!("store {command} {output}"));
        assert_eq!((status, out.as_str()), (2, ""), "{command}");
        assert_eq!(error, format!("store: standard output{reason}\n"), "{command}");
    }
}

#[test]
fn a_full_disk() {
    check_lost(">/dev/full", ": No space left on device (os error 28)");
}

#[test]
fn a_closed_output() {
    check_lost(">&-", " is closed");
    check_lost("1</dev/null", ": Bad file descriptor (os error 9)");
}

/// A pipe is opened for writing while something reads it, which is then closed.
#[test]
fn a_reader_that_has_gone() {
    let folder = folder();
    folder.run("mkfifo pipe");
    for command in COMMANDS {
        let line = format!("exec 3<>pipe 4>pipe 3<&-; store {command} >&4");
        let (status, _, error) = folder.run(&line);
        assert_eq!(status, 2, "{command}");
        assert_eq!(error, "store: standard output: Broken pipe (os error 32)\n", "{command}");
    }
}

#[test]
fn a_full_disk_for_messages_too() {
    let folder = folder();
    for (command, status) in [
        ("plan two-shelves.store short.list", 1),
        ("plan two-shelves-without-1.store", 1),
        ("plan none.store", 2),
        ("plan two-shelves.store >/dev/full", 2),
        ("nothing", 2),
    ] {
        assert_eq!(folder.run(&format!("store {command} 2>/dev/full")).0, status, "{command}");
        assert_eq!(folder.run(&format!("store {command} 2>&-")).0, status, "{command}");
    }
}

#[test]
fn files_that_cannot_be_written() {
    let folder = folder();
    for (out, reason) in [
        ("/dev/full", "No space left on device (os error 28)"),
        ("none/out.record", "No such file or directory (os error 2)"),
        (".", "Is a directory (os error 21)"),
    ] {
        let (status, _, error) = folder.run(&format!("store record two-shelves.store {out}"));
        assert_eq!((status, error), (2, format!("store: {out}: {reason}\n")));
    }
}

#[test]
fn a_file_is_written_whole_or_left() {
    let folder = folder();
    folder.write("out", "before");
    let line = "ulimit -f 0; store text two-shelves.store out";
    let reason = "store: out: File too large (os error 27)\n";
    assert_eq!(folder.run(line), (2, String::new(), reason.to_owned()));
    assert_eq!(folder.read("out"), b"before");
    assert_eq!(folder.run("chmod 600 out && store text two-shelves.store out").0, 0);
    assert!(folder.read("out").starts_with(b"variable carriage"));
    assert!(folder.run("ls -l out").1.starts_with("-rw-------"));
    assert_eq!(folder.run("ls | grep part").1, "");
}

#[test]
fn wrong_calls_are_told_in_one_line() {
    let folder = folder();
    for (call, reason) in [
        ("", "no command; `store help` lists them"),
        ("draw x", "no command `draw`; `store help` lists them"),
        ("--plan x", "no command `--plan`; `store help` lists them"),
        ("plan", "usage: store plan FILE [LIST] [--relaxed]"),
        ("text a b c", "usage: store text FILE [OUT]"),
        ("values two-shelves.store", "usage: store values FILE VARIABLE [OUT] [--dot | --plain]"),
        ("plan two-shelves.store --names", "usage: store plan FILE [LIST] [--relaxed]"),
        ("record two-shelves.store --names", "--names needs OUT, a file to put the names beside"),
        ("plan - -", "standard input: named twice"),
        ("explain ten 3", "expected a refusal's number and place, as in `store explain 10 3`"),
        ("plan none.store", "none.store: No such file or directory (os error 2)"),
        ("plan /dev/zero", "/dev/zero: longer than 16 MiB"),
        ("plan .", ".: Is a directory (os error 21)"),
        (
            "values two-shelves.store crane",
            "two-shelves.store: expected a variable (carriage, box), found `crane`",
        ),
    ] {
        let (status, out, error) = folder.run(&format!("cat two-shelves.store | store {call}"));
        assert_eq!(
            (status, out, error),
            (2, String::new(), format!("store: {reason}\n")),
            "{call}"
        );
    }
}

#[test]
fn a_closed_input() {
    let (status, out, error) = folder().run("store plan - <&-");
    assert_eq!(
        (status, out.as_str(), error.as_str()),
        (2, "", "store: standard input is closed\n")
    );
}

#[test]
fn help() {
    let folder = folder();
    let (status, out, error) = folder.run("store help");
    assert_eq!((status, error.as_str()), (0, ""));
    assert_eq!(folder.run("store --help"), (0, out.clone(), String::new()));
    assert!(out.starts_with("store record FILE"));
}
