//! Sheets as files.

mod common;

use common::Folder;
use store::library::{read_sheet, write_sheet, Sheet};

/// A sheet of two shelves, of edition 1 without marks.
fn of(steps: &[u16], marks: &[u8], cost: u32, real: bool) -> Sheet {
    let edition = if marks.is_empty() { 1 } else { 2 };
    let all = [marks, &vec![0; steps.len() - marks.len()]].concat();
    Sheet { steps: steps.to_vec(), marks: all, edition, cost, real }
}

fn folder() -> Folder {
    let folder =
        Folder::with(&["two-shelves.store", "two-shelves.record", "tray.store", "goal-met.store"]);
    for name in ["two-shelves", "tray", "goal-met"] {
        let line = format!("store sheet {name}.store {name}.sheet");
        assert_eq!(folder.run(&line), (0, String::new(), String::new()));
    }
    folder
}

#[test]
fn a_sheet_is_written_and_read() {
    let folder = folder();
    let sheet = of(&[0, 2, 1, 3], &[0, 0, 1, 0], 10, true);
    assert_eq!(read_sheet(&folder.read("two-shelves.sheet")), Ok(sheet.clone()));
    assert_eq!(sheet.edition, 2);
    assert_eq!(folder.shell("store sheet two-shelves.store").stdout, write_sheet(&sheet).unwrap());
    let expected = "\
sheet of edition 2: 4 steps, cost 10, real
0  action 0
1  action 2
2  action 1  (inserted)
3  action 3
";
    assert_eq!(folder.run("store read two-shelves.sheet"), (0, expected.to_owned(), String::new()));
    let none = "sheet of edition 2: 0 steps, cost 0, real\n";
    assert_eq!(folder.run("store read goal-met.sheet").1, none);
    let left = "\
sheet of edition 2: 4 steps, cost 10, real
1 inserted move left out
0  action 0
1  action 2
3  action 3
";
    let (status, out, error) = folder.run("store read --relaxed two-shelves.sheet");
    assert_eq!((status, out.as_str(), error.as_str()), (0, left, ""));
    let (status, out, _) = folder.run("store read two-shelves.sheet two-shelves.store --relaxed");
    assert_eq!(status, 0);
    assert!(
        out.contains("\n1 inserted move left out\n0  drive-out  carriage = shelf-1\n"),
        "{out}"
    );
    assert!(
        !out.contains("drive-back") && out.contains("\njudge: cost 10, relaxed a plan (4 "),
        "{out}"
    );
}

/// The sheet of two shelves as it was filed before there were marks.
const FILED: [u8; 12] = [0x18, 0, 0x20, 0, 0, 0, 0x50, 0, 0x01, 0, 0x20, 0x18];

#[test]
fn a_sheet_of_edition_1_is_read() {
    let folder = folder();
    folder.write("filed.sheet", FILED);
    let read = read_sheet(&FILED).unwrap();
    assert_eq!(read, of(&[0, 2, 1, 3], &[], 10, true));
    assert_eq!(write_sheet(&read).unwrap(), FILED);
    let expected = "\
sheet of edition 1, without marks: 4 steps, cost 10, real
0  action 0
1  action 2
2  action 1
3  action 3
";
    assert_eq!(folder.run("store read filed.sheet"), (0, expected.to_owned(), String::new()));
    let (status, out, error) = folder.run("store read filed.sheet two-shelves.store");
    assert_eq!((status, error.as_str()), (0, ""));
    assert!(!out.contains("inserted"), "{out}");
    assert!(out.contains("\n2  drive-back  carriage = shelf-0\n"), "{out}");
    let (status, out, error) = folder.run("store read --relaxed filed.sheet");
    let reason = "--relaxed has nothing to go by: a sheet of edition 1 has no marks";
    assert_eq!((status, out, error), (2, String::new(), format!("store: {reason}\n")));
}

#[test]
fn a_sheet_in_its_store() {
    let folder = folder();
    let (status, out, error) = folder.run("store read tray.sheet tray.store");
    assert_eq!((status, error.as_str()), (0, ""));
    let expected = "\
sheet of edition 2: 2 steps, cost 2, unreal
0  load-1  tray = taken, box-1 = tray
1  load-2  tray = taken, box-2 = tray
judge: cost 2, relaxed a plan (2 steps run), red-black a plan (2 steps run), real no plan (1 step runs)
real run: step 1, load-2, needs tray = free
";
    assert_eq!(out, expected);
    let (status, out, _) = folder.run("store read two-shelves.sheet two-shelves.record");
    assert_eq!(status, 0);
    assert!(out.contains("\n2  a1  v0 = v0.0  (inserted)\n"), "{out}");
}

#[test]
fn a_sheet_that_does_not_fit() {
    let folder = folder();
    let sheets = [
        ("cost", of(&[0, 2, 1, 3], &[], 11, true)),
        ("verdict", of(&[0, 2, 1, 3], &[0, 0, 1, 0], 10, false)),
        ("plan", of(&[0, 2, 3], &[], 6, false)),
        ("goal", of(&[0, 1], &[0, 0], 8, false)),
        ("relaxed", of(&[0, 2, 1, 3], &[0, 1, 1, 0], 10, true)),
        ("moves", of(&[0, 1, 0, 2, 1, 3], &[0, 1, 1, 0, 1, 0], 18, true)),
    ];
    let reasons = [
        "the sheet says cost 11, its steps cost 10",
        "the sheet says unreal, its steps are real",
        "not a red-black plan: step 2, put-down, needs carriage = shelf-0",
        "not a red-black plan: goal missed: box = shelf-0",
        "the sheet's marks do not fit: its other steps are no relaxed plan",
        "the sheet's marks do not fit: the repair of its other steps is another plan",
    ];
    for ((name, sheet), reason) in sheets.into_iter().zip(reasons) {
        folder.write(name, write_sheet(&sheet).unwrap());
        let (status, out, error) = folder.run(&format!("store read {name} two-shelves.store"));
        assert_eq!((status, error), (1, format!("store: {reason}\n")));
        assert!(out.contains(reason), "{out}");
    }
}

#[test]
fn a_sheet_of_another_store() {
    let folder = folder();
    let (status, out, error) = folder.run("store read two-shelves.sheet tray.store");
    assert_eq!((status, out.as_str()), (1, "refused 9 1\n"));
    let reason = "entry 1 of the list is 2, and the store has 2 actions, numbered from 0";
    assert_eq!(error, format!("store: {reason}\n"));
}

#[test]
fn a_refused_store_has_no_sheet() {
    let folder = Folder::with(&["two-shelves-without-2.store"]);
    let (status, out, _) = folder.run("store sheet two-shelves-without-2.store out.sheet");
    assert_eq!((status, out.as_str()), (1, "refused 10 3\n"));
    assert_eq!(folder.run("ls").1, "two-shelves-without-2.store\n");
}
