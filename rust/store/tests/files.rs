//! Files that are read and written: records by their content, names beside them, sources kept.

mod common;

use std::fs;

use common::{example, path, Folder, EXAMPLES};
use reference::record;
use store::names::{crc_32, named, write};
use store::{parse, text, Store};

#[test]
fn record_to_standard_output_or_a_file() {
    let folder = Folder::with(&["two-shelves.store"]);
    let expected = fs::read(path("two-shelves", "record")).unwrap();
    assert_eq!(folder.shell("store record two-shelves.store").stdout, expected);
    assert_eq!(folder.shell("store record - <two-shelves.store").stdout, expected);
    let written = folder.run("store record two-shelves.store out");
    assert_eq!(written, (0, String::new(), String::new()));
    assert_eq!(folder.read("out"), expected);
}

#[test]
fn a_record_is_known_by_its_content() {
    let folder = Folder::with(&["tray.store", "tray.record"]);
    let (from_text, from_record) =
        (folder.run("store plan tray.store"), folder.run("store plan tray.record"));
    assert!(from_record
        .1
        .starts_with("2 steps, cost 2, unreal: 1 step runs, 0 path searches\n0  a0  v0 = v0.1"));
    folder.run("mv tray.store t; mv tray.record tray.store; mv t tray.record");
    assert_eq!(folder.run("store plan tray.record"), from_text);
    assert_eq!(folder.run("store plan tray.store"), from_record);
    assert_eq!(folder.run("store plan - <tray.store"), from_record);
    assert_eq!(folder.run("store text tray.store | store record - | cmp - tray.store").0, 0);
}

#[test]
fn no_bytes_are_a_record() {
    let folder = Folder::new();
    let (status, out, error) = folder.run("store plan - </dev/null");
    assert_eq!((status, out.as_str()), (1, "refused 1 0\n"));
    assert_eq!(error, "store: the record ends inside or before the edition (bits 0 to 3): it has 0 bytes, 0 bits\n");
}

#[test]
fn other_encodings_are_named_with_their_place() {
    let folder = Folder::new();
    folder.write("latin.store", b"# \xc3\xa4\n# \xc3\xa4\xe4");
    let expected = "store: latin.store: line 2, column 4: expected text in UTF-8\n";
    assert_eq!(folder.run("store plan latin.store"), (2, String::new(), expected.to_owned()));
}

#[test]
fn a_text_with_an_error_ends_with_2() {
    let folder = Folder::new();
    folder.write("x.store", "variable box red: a b\n  initial c\n");
    let expected =
        "store: x.store: line 2, column 11: expected a value of `box` (a, b), found `c`\n";
    assert_eq!(folder.run("store plan x.store"), (2, String::new(), expected.to_owned()));
}

#[test]
fn a_source_is_not_overwritten() {
    let folder = Folder::with(&["two-shelves.store"]);
    folder.run("ln two-shelves.store hard; ln -s two-shelves.store soft; echo 0 >list");
    let before = folder.read("two-shelves.store");
    for call in [
        "record two-shelves.store two-shelves.store",
        "record two-shelves.store ./two-shelves.store",
        "record two-shelves.store hard",
        "record two-shelves.store soft",
        "record hard soft",
        "text soft hard",
        "sheet two-shelves.store hard",
        "graph two-shelves.store hard --dot",
        "values two-shelves.store box hard --plain",
        "plan two-shelves.store >>two-shelves.store",
        "record - hard <two-shelves.store",
        "chart two-shelves.store list list",
    ] {
        let (status, out, error) = folder.run(&format!("store {call}"));
        assert_eq!((status, out.as_str()), (2, ""), "{call}");
        assert!(error.contains("not written, as it is the file"), "{call}: {error}");
        assert_eq!(error.lines().count(), 1);
        assert_eq!(folder.read("two-shelves.store"), before, "{call}");
    }
    folder.run("cp two-shelves.store out.names");
    let (status, _, error) = folder.run("store record --names out.names out");
    assert_eq!(status, 2);
    assert!(error.starts_with("store: out.names: not written"), "{error}");
    assert_eq!(folder.read("out.names"), before);
    assert_eq!(folder.run("ls out").0, 2, "the record is not there without its names");
}

#[test]
fn names_beside_a_record() {
    let folder = Folder::with(&["two-shelves.store"]);
    let call = "store record two-shelves.store out.record --names";
    assert_eq!(folder.run(call), (0, String::new(), String::new()));
    let from_text = folder.run("store text two-shelves.store");
    assert_eq!(folder.run("store text out.record"), from_text);
    assert_eq!(folder.run("store plan out.record"), folder.run("store plan two-shelves.store"));
    assert!(folder.run("store text - <out.record").1.starts_with("variable v0 black: v0.0 v0.1\n"));
}

#[test]
fn names_of_another_record_are_an_error() {
    let folder = Folder::with(&["goal-met.store", "two-shelves.record"]);
    folder.run("store record --names goal-met.store out; cp two-shelves.record out");
    let (status, out, error) = folder.run("store plan out");
    assert_eq!((status, out.as_str()), (2, ""));
    assert!(error
        .starts_with("store: out.names: line 1, column 24: these are the names of another record"));
}

#[test]
fn every_example_takes_its_names_back() {
    for name in EXAMPLES {
        let (store, unnamed) =
            (example(name), Store::from_record(&example(name).record()).unwrap());
        assert_eq!(named(&unnamed, &write(&store)), Ok(store));
    }
}

/// The error of the names of two shelves with a part replaced.
fn names_error(from: &str, to: &str) -> String {
    let store = example("two-shelves");
    let sound = write(&store);
    assert!(sound.contains(from));
    named(&store, &sound.replace(from, to)).unwrap_err().to_string()
}

#[test]
fn errors_in_names() {
    let error = names_error;
    assert_eq!(
        error("shelf-0 shelf-1\n", "shelf-0\n"),
        "line 2, column 27: expected a value name, found end of line"
    );
    assert_eq!(
        error("shelf-1\n", "shelf-1 x\n"),
        "line 2, column 36: expected end of line, found `x`"
    );
    assert_eq!(
        error("shelf-0 shelf-1\n", "a a\n"),
        "line 2, column 22: expected a new value name, found `a` a second time"
    );
}

#[test]
fn names_too_few_too_many_or_twice() {
    let error = names_error;
    assert_eq!(
        error("action put-down\n", ""),
        "line 7, column 1: expected `action`, found end of text"
    );
    assert_eq!(
        error("put-down\n", "put-down\naction x\n"),
        "line 8, column 1: expected end of text, found `action`"
    );
    assert_eq!(
        error("put-down", "pick-up"),
        "line 8, column 1: expected each name once, found `pick-up` twice"
    );
    assert_eq!(
        error("box", "carriage"),
        "line 8, column 1: expected each name once, found `carriage` twice"
    );
    assert_eq!(
        error("put-down", "{x}"),
        "line 7, column 8: expected a name without braces, found `{x}`"
    );
    assert_eq!(error("record", "recode"), "line 1, column 1: expected `record`, found `recode`");
}

#[test]
fn the_check_sum_is_the_known_one() {
    assert_eq!(crc_32(b"123456789"), 0xcbf4_3926);
    assert_eq!(crc_32(b""), 0);
}

#[test]
fn text_writes_templates_out() {
    let folder = Folder::new();
    let template = "for V in a b\nvariable {V} red: x y\ninitial x\nend\n";
    folder.write("x.store", template);
    let (status, out, _) = folder.run("store text x.store");
    assert_eq!((status, out.as_str()), (0, text(&parse(template).unwrap()).as_str()));
    assert_eq!(record::check(&parse(&out).unwrap().record()), Ok(()));
}
