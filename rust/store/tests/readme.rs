//! The README as it stands: its first text is a store, and what it shows behind a `$` is what comes out.

mod common;

use std::fs;

use common::Folder;

fn readme() -> String {
    fs::read_to_string(concat!(env!("CARGO_MANIFEST_DIR"), "/README.md")).unwrap()
}

/// The indented blocks, without their indentation; a blank line stays in a block that goes on behind it.
fn blocks(text: &str) -> Vec<String> {
    let mut blocks: Vec<String> = Vec::new();
    let mut open = false;
    for line in text.lines() {
        match line.strip_prefix("    ") {
            Some(line) if open => *blocks.last_mut().unwrap() += &format!("{line}\n"),
            Some(line) => blocks.push(format!("{line}\n")),
            None if line.is_empty() && open => {
                *blocks.last_mut().unwrap() += "\n";
                continue;
            }
            None => {}
        }
        open = line.starts_with("    ");
    }
    blocks.into_iter().map(|block| block.trim_end().to_owned() + "\n").collect()
}

#[test]
fn what_the_readme_shows_is_what_comes_out() {
    let blocks = blocks(&readme());
    let folder = Folder::new();
    folder.write("shop.store", &blocks[0]);
    folder.write("lift.store", fs::read(common::path("lift", "store")).unwrap());
    let mut run = 0;
    for block in blocks.iter().filter(|block| block.starts_with("$ ")) {
        for call in block.split("$ ").skip(1) {
            let (line, expected) = call.split_once('\n').unwrap();
            let (_, out, _) = folder.run(&format!("{{ {line}\n}} 2>&1"));
            assert_eq!(out.trim_end(), expected.trim_end(), "$ {line}");
            run += 1;
        }
    }
    assert!(run >= 15, "{run}");
}

#[test]
fn the_first_text_is_the_example() {
    let store = store::parse(&blocks(&readme())[0]).unwrap();
    assert_eq!(store.record(), fs::read(common::path("two-shelves", "record")).unwrap());
}

#[test]
fn the_lines_of_the_office_are_counted() {
    let text = fs::read_to_string(common::path("office/office", "store")).unwrap();
    let out = store::text(&store::parse(&text).unwrap());
    let said =
        format!("is {} lines, and {} written out", text.lines().count(), out.lines().count());
    assert!(readme().contains(&said), "{said}");
}
