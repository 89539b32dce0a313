//! Newest values with their names.

mod common;

use common::{example, Folder};
use store::show;

#[test]
fn values_have_their_names() {
    let shown = |name: &str, list: &[u16]| show::newest(&example(name), list).unwrap();
    let all_real = "\
4 steps: 4 run red-black, 4 for real
carriage = shelf-0
box = shelf-0
";
    assert_eq!(shown("two-shelves", &[0, 2, 1, 3]), all_real);
    let one = "\
1 step: 1 runs red-black, 1 for real
tray = taken
box-1 = tray
box-2 = shelf
";
    assert_eq!(shown("tray", &[0]), one);
    let none = "\
0 steps: 0 run red-black, 0 for real
tray = free
box-1 = shelf
box-2 = shelf
";
    assert_eq!(shown("tray", &[]), none);
}

#[test]
fn what_stops_a_list_is_told() {
    let stops = "\
6 steps: 4 run red-black, 3 for real
carriage = shelf
box = on-shelf
lamp = off
red-black run: step 4, drive-out, needs carriage = home
real run: step 3, scan, needs box = on-carriage, lamp = off
";
    assert_eq!(show::newest(&example("newest"), &[0, 2, 3, 4, 0, 1]).unwrap(), stops);
}

/// Values of the library against the effects of the steps, the last one first.
#[test]
fn values_are_those_set_last() {
    let store = example("newest");
    let text = show::newest(&store, &[0, 2, 3, 4]).unwrap();
    let values: Vec<&str> = text.lines().skip(1).take(3).collect();
    let last = |v: usize| [4, 3, 2, 0].iter().find_map(|&number| store.actions[number].set(v));
    for (v, shown) in values.iter().enumerate() {
        let value = last(v).unwrap_or(store.variables[v].initial);
        assert_eq!(*shown, store.fact(reference::Fact::new(v, value)));
    }
}

#[test]
fn the_command() {
    let folder = Folder::with(&["tray.store", "newest.record", "two-shelves-without-2.store"]);
    let (status, out, error) = folder.run("store newest tray.store");
    let tray = "\
2 steps: 2 run red-black, 1 for real
tray = taken
box-1 = tray
box-2 = tray
real run: step 1, load-2, needs tray = free
";
    assert_eq!((status, out.as_str(), error.as_str()), (0, tray, ""));
    assert_eq!(folder.run("echo load-1 load-2 | store newest tray.store -").1, tray);
    assert_eq!(folder.run("store record tray.store | store newest - | grep -c =").1, "4\n");
    let (status, out, _) = folder.run("echo 0 3 | store newest newest.record -");
    let stopped = "\
2 steps: 1 runs red-black, 1 for real
v0 = v0.1
v1 = v1.0
v2 = v2.1
red-black run: step 1, a3, needs v1 = v1.1
real run: step 1, a3, needs v1 = v1.1
";
    assert_eq!((status, out.as_str()), (0, stopped));
}

/// A list that is too short for the values: a refusal of the library that the tool itself never meets.
#[test]
fn too_few_entries_in_words() {
    let folder = Folder::with(&["tray.store"]);
    let words = |place: usize| folder.run(&format!("store explain 11 {place} tray.store")).1;
    let need = "; newest values need as many entries as there are variables, 3\n";
    assert!(words(2).ends_with(need));
    assert!(!words(3).contains("newest"));
}

#[test]
fn refusals_and_wrong_calls() {
    let folder = Folder::with(&["tray.store", "lamp-2.store", "two-shelves-without-2.store"]);
    let (status, out, error) = folder.run("yes load-1 | head -32769 | store newest tray.store -");
    assert_eq!((status, out.as_str()), (1, "refused 13 32768\n"));
    assert_eq!(error, "store: the list has 32,769 entries; 32,768 is the most\n");
    let (status, out, _) = folder.run("store newest two-shelves-without-2.store");
    assert_eq!((status, out.as_str()), (1, "refused 10 3\n"), "no plan, and no list is named");
    let (status, out, _) = folder.run("echo 0 1 | store newest lamp-2.store -");
    assert!(status == 0 && out.starts_with("2 steps: 1 runs"), "the painting may be any: {out}");
    let (status, _, error) = folder.run("echo 0 5 | store newest tray.store -");
    assert!(status == 2 && error.contains("found `5`"), "{error}");
    let (status, _, error) = folder.run("store newest");
    assert_eq!((status, error.as_str()), (2, "store: usage: store newest FILE [LIST]\n"));
}
