//! The examples of clause 12 as text.

mod common;

use common::{example, path, EXAMPLES};
use store::plan::Plan;
use store::show::{self, Which};

#[test]
fn each_text_gives_the_bytes_of_the_record_beside_it() {
    for name in EXAMPLES {
        let record = std::fs::read(path(name, "record")).unwrap();
        assert_eq!(example(name).record(), record, "{name}");
    }
}

#[test]
fn every_text_in_the_folder_is_listed() {
    let folder = path("x", "store");
    let files = std::fs::read_dir(folder.parent().unwrap()).unwrap();
    let names = files.map(|file| file.unwrap().file_name().into_string().unwrap());
    for name in names.filter_map(|name| name.strip_suffix(".store").map(str::to_owned)) {
        assert!(EXAMPLES.contains(&name.as_str()), "{name}");
    }
}

#[test]
fn two_shelves_shows_its_inserted_move() {
    let store = example("two-shelves");
    let plan = Plan::find(&store).unwrap();
    let expected = "\
4 steps, cost 10, real: 4 steps run, 1 path search
0  drive-out   carriage = shelf-1
1  pick-up     box = on-carriage
2  drive-back  carriage = shelf-0  (inserted)
3  put-down    box = shelf-0
";
    assert_eq!(show::plan(&store, &plan, Which::All).unwrap().text, expected);
}

#[test]
fn the_cheaper_way_out_is_taken() {
    let store = example("two-shelves-with-4");
    let plan = Plan::find(&store).unwrap();
    let expected = "\
4 steps, cost 9, real: 4 steps run, 1 path search
0  slip-out    carriage = shelf-1
1  pick-up     box = on-carriage
2  drive-back  carriage = shelf-0  (inserted)
3  put-down    box = shelf-0
";
    assert_eq!(show::plan(&store, &plan, Which::All).unwrap().text, expected);
}

#[test]
fn drives_set_the_gate_shut_again() {
    let store = example("gate");
    let plan = Plan::find(&store).unwrap();
    let expected = "\
7 steps, cost 14, real: 7 steps run, 5 path searches
0  shut        gate = shut
1  drive-out   gate = shut, carriage = shelf
2  open        gate = open  (inserted)
3  fetch       box = fetched
4  shut        gate = shut  (inserted)
5  drive-back  gate = shut, carriage = home  (inserted)
6  open        gate = open  (inserted)
";
    assert_eq!(show::plan(&store, &plan, Which::All).unwrap().text, expected);
}

#[test]
fn the_cheaper_way_back_is_taken() {
    let store = example("detour");
    let plan = Plan::find(&store).unwrap();
    let expected = "\
5 steps, cost 5, real: 5 steps run, 1 path search
0  enter  carriage = ramp
1  down   carriage = cellar
2  fetch  box = fetched
3  up     carriage = ramp  (inserted)
4  leave  carriage = door  (inserted)
";
    assert_eq!(show::plan(&store, &plan, Which::All).unwrap().text, expected);
}

#[test]
fn path_searches_are_told() {
    let store = example("lift");
    let plan = Plan::find(&store).unwrap();
    let expected = "\
6 steps, cost 11, real: 6 steps run, 6 path searches
0  switch-on   switch = on
1  go-up       lift = up
2  go-down     lift = down  (inserted)
3  load        crate = loaded
4  go-up       lift = up  (inserted)
5  switch-off  switch = off  (inserted)
";
    assert_eq!(show::plan(&store, &plan, Which::All).unwrap().text, expected);
    let list = show::plan(&store, &Plan::list(plan.steps), Which::All).unwrap().text;
    assert!(list.starts_with("6 steps, cost 11, real: 6 steps run\n"), "{list}");
}

#[test]
fn tray_says_why_it_is_unreal() {
    let store = example("tray");
    let plan = Plan::find(&store).unwrap();
    let expected = "\
2 steps, cost 2, unreal: 1 step runs, 0 path searches
0  load-1  tray = taken, box-1 = tray
1  load-2  tray = taken, box-2 = tray
real run: step 1, load-2, needs tray = free
";
    assert_eq!(show::plan(&store, &plan, Which::All).unwrap().text, expected);
}

#[test]
fn goal_met_has_no_steps() {
    let store = example("goal-met");
    let plan = Plan::find(&store).unwrap();
    let shown = show::plan(&store, &plan, Which::All).unwrap();
    assert_eq!(shown.text, "0 steps, cost 0, real: 0 steps run, 0 path searches\n");
    assert_eq!(shown.fault, None);
}
