//! Lists of actions that are read, shown and judged.

mod common;

use common::{example, Folder};
use reference::Refusal;
use store::list::{read, Listed};
use store::plan::Plan;
use store::show::{self, Which};
use store::{parse, Store};

fn plan(text: &str, store: &Store) -> Plan {
    match read(text, store).unwrap() {
        Listed::Plan(plan) => plan,
        other => panic!("{other:?}"),
    }
}

#[test]
fn listings_are_read() {
    let store = example("two-shelves");
    let listing = "reached 5\nrelaxed 3 0 2 3\nplan 4 10 0 2 1 3\nreal 4\n";
    let found = Plan { searches: None, ..Plan::find(&store).unwrap() };
    assert_eq!(plan(listing, &store), found, "a listing has no path searches");
    assert_eq!(read("refused 11 3\n", &store), Ok(Listed::Refused(Refusal::new(11, 3))));
    assert_eq!(read("relaxed 1 3\nplan 2 8 0 1\n", &store), Ok(Listed::Apart));
}

#[test]
fn inserted_moves_are_left_out() {
    let folder = Folder::with(&["lift.store"]);
    let expected = "\
6 steps, cost 11, real: 6 steps run, 6 path searches
3 inserted moves left out
0  switch-on  switch = on
1  go-up      lift = up
3  load       crate = loaded
";
    let (status, out, error) = folder.run("store plan lift.store --relaxed");
    assert_eq!((status, error.as_str()), (0, ""));
    assert_eq!(out, expected);
    assert_eq!(folder.run("echo 0 2 4 | store repair --relaxed lift.store -").1, expected);
    let listing = "printf 'relaxed 3 0 2 4\\nplan 6 11 0 2 3 4 2 1\\n'";
    let (status, out, _) = folder.run(&format!("{listing} | store plan --relaxed lift.store -"));
    assert_eq!((status, out), (0, expected.replace(", 6 path searches", "")));
    let (status, out, error) = folder.run("echo 0 2 | store plan --relaxed lift.store -");
    let reason = "--relaxed has nothing to go by: the list does not tell its inserted moves";
    assert_eq!((status, out, error), (2, String::new(), format!("store: {reason}\n")));
    assert_eq!(folder.run("store chart --relaxed lift.store").0, 2);
}

#[test]
fn names_and_numbers_with_blanks_or_commas() {
    let store = example("two-shelves");
    let texts = [
        "0 2\n1 # back\n\n3\n",
        "drive-out pick-up drive-back put-down",
        "drive-out, pick-up, drive-back, put-down",
        "drive-out,2,\n1 ,put-down,",
        "0,2,1,3",
    ];
    for text in texts {
        let read = plan(text, &store);
        assert_eq!(read, Plan::list(vec![0, 2, 1, 3]), "{text}");
        assert_eq!((read.marks.as_ref(), read.inserted()), (None, 0));
    }
    assert_eq!(plan("# none", &store).steps, []);
}

#[test]
fn errors_in_lists() {
    let store = example("two-shelves");
    let error = |text: &str| read(text, &store).unwrap_err().to_string();
    let expected = "expected an action's name or a number from 0 to 3";
    assert_eq!(error("0\n 2 4"), format!("line 2, column 4: {expected}, found `4`"));
    assert_eq!(error("drive"), format!("line 1, column 1: {expected}, found `drive`"));
    assert_eq!(error(", 0"), format!("line 1, column 1: {expected}, found `,`"));
    assert_eq!(error("0,,2"), format!("line 1, column 3: {expected}, found `,`"));
    assert_eq!(error("plan 3 10 0 2"), "line 1, column 14: expected 3 steps, found 2");
    assert_eq!(
        error("plan 1 4 drive-out"),
        "line 1, column 10: expected an action number from 0 to 3, found `drive-out`"
    );
    assert_eq!(error("real 4 5"), "line 1, column 8: expected end of line, found `5`");
    let none = parse("variable a red: x\ninitial x").unwrap();
    assert_eq!(
        read("0", &none).unwrap_err().to_string(),
        "line 1, column 1: expected no steps, since the store has no actions"
    );
}

#[test]
fn names_that_could_be_something_else() {
    let text = "variable a red: x\ninitial x\naction 1 cost 0\naction go cost 0\naction 2 cost 0\naction real cost 0";
    let store = parse(text).unwrap();
    let error = |text: &str| read(text, &store).unwrap_err().to_string();
    assert_eq!(
        error("0 1"),
        "line 1, column 3: `1` is the name of action 0 and the number of another: rename it"
    );
    assert_eq!(plan("2 0", &store).steps, [2, 0]);
    assert_eq!(plan("0 real", &store).steps, [0, 3]);
    assert_eq!(
        error("real 0"),
        "line 1, column 1: `real` is an action's name and a word of the listing program: write the number"
    );
}

#[test]
fn a_list_that_is_no_plan() {
    let store = example("two-shelves");
    let shown = |text: &str| show::plan(&store, &plan(text, &store), Which::All).unwrap();
    let unrepaired = "\
3 steps, cost 6, unreal: 2 steps run
not a red-black plan: step 2, put-down, needs carriage = shelf-0
0  drive-out  carriage = shelf-1
1  pick-up    box = on-carriage
2  put-down   box = shelf-0
real run: step 2, put-down, needs carriage = shelf-0
";
    assert_eq!(shown("0 2 3").text, unrepaired);
    let fault = shown("0 1").fault.unwrap();
    assert_eq!(fault, "not a red-black plan: goal missed: box = shelf-0");
}

#[test]
fn a_list_that_is_no_plan_ends_with_1() {
    let folder = Folder::with(&["two-shelves.store", "tray.store"]);
    for (list, status) in [("0 2 1 3", 0), ("drive-out,2,1,put-down", 0), ("0 2 3", 1), ("", 1)] {
        let line = format!("echo '{list}' | store plan two-shelves.store -");
        assert_eq!(folder.run(&line).0, status, "{list}");
    }
    let (status, out, error) = folder.run("echo load-1 load-2 | store plan tray.store -");
    assert_eq!((status, error.as_str()), (0, ""), "an unreal plan is a red-black plan");
    assert!(out.starts_with("2 steps, cost 2, unreal: 1 step runs\n"));
    let (status, out, error) = folder.run("echo 0 2 | store plan two-shelves.store -");
    let reason = "not a red-black plan: goal missed: carriage = shelf-0, box = shelf-0";
    assert_eq!((status, error), (1, format!("store: {reason}\n")));
    assert!(out.contains(reason));
}

#[test]
fn a_listing_that_refuses_is_explained() {
    let folder = Folder::with(&["two-shelves.store"]);
    let (status, out, error) = folder.run("echo refused 11 3 | store plan two-shelves.store -");
    assert_eq!((status, out.as_str()), (1, "refused 11 3\n"));
    assert!(error.contains("room for 4 steps would do"), "{error}");
}

#[test]
fn a_relaxed_plan_is_repaired() {
    let folder = Folder::with(&["two-shelves.store"]);
    let (status, out, _) = folder.run("echo 0 2 3 | store repair two-shelves.store -");
    assert_eq!((status, out), (0, folder.run("store plan two-shelves.store").1));
    let (status, out, error) = folder.run("echo 0 3 | store repair two-shelves.store -");
    assert_eq!((status, out.as_str()), (1, "refused 9 1\n"));
    assert_eq!(error, "store: no relaxed plan: step 1, put-down, needs box = on-carriage\n");
}
