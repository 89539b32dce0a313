//! The office of examples/, written with templates, and what lies beside it.

mod common;

use std::fs;

use common::{path, well_formed, Folder};
use store::{parse, Store};

fn office() -> Store {
    parse(&text("office.store")).unwrap()
}

fn bytes(name: &str) -> Vec<u8> {
    let (stem, extension) = name.rsplit_once('.').unwrap();
    fs::read(path(&format!("office/{stem}"), extension)).unwrap()
}

fn text(name: &str) -> String {
    String::from_utf8(bytes(name)).unwrap()
}

#[test]
fn the_files_are_what_the_tool_writes() {
    let folder = Folder::new();
    folder.write("office.store", bytes("office.store"));
    for (call, file) in [
        ("record office.store", "office.record"),
        ("plan office.store", "plan.txt"),
        ("sheet office.store", "office.sheet"),
        ("graph --dot office.store", "graph.dot"),
        ("chart office.store", "chart.svg"),
    ] {
        assert!(folder.shell(&format!("store {call}")).stdout == bytes(file), "{file}");
    }
    folder.run("store record --names office.store office.record");
    assert_eq!(folder.read("office.record.names"), bytes("office.record.names"));
}

#[test]
fn its_numbers() {
    let store = office();
    assert_eq!((store.variables.len(), store.actions.len()), (8, 142));
    assert_eq!(store::text(&store).lines().count(), 450);
    assert!(text("office.store").lines().count() < 50);
}

#[test]
fn its_pictures() {
    well_formed(&text("chart.svg"));
    let graph = text("graph.svg").replace("&#45;", "-");
    well_formed(&graph);
    for variable in &office().variables {
        assert!(graph.contains(&format!(">{}</text>", variable.name)), "{}", variable.name);
    }
}

#[test]
fn every_file_of_the_folder_is_in_its_index() {
    let index = fs::read_to_string(path("README", "md")).unwrap();
    for folder in [path("x", "y"), path("office/x", "y")] {
        for file in fs::read_dir(folder.parent().unwrap()).unwrap() {
            let name = file.unwrap().file_name().into_string().unwrap();
            let stem = name.split('.').next().unwrap();
            assert!(index.contains(stem), "{name}");
        }
    }
}
