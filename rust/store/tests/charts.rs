//! Plans as charts.

mod common;

use common::{example, random_accepted, unnamed, well_formed, Folder, Random};
use reference::state::{Semantics, State};
use reference::Fact;
use store::picture::chart::{chart, chart_of, Band, Kind, MarkKind};
use store::plan::Plan;
use store::Store;

fn bands(store: &Store) -> Vec<Band> {
    chart_of(store, &Plan::find(store).unwrap()).bands
}

#[test]
fn two_shelves() {
    let store = example("two-shelves");
    let band = &bands(&store)[0];
    let titles: Vec<&str> = band.columns.iter().map(|column| column.title.as_str()).collect();
    assert_eq!(titles, ["initial", "0  drive-out", "1  pick-up", "2  drive-back", "3  put-down"]);
    let kinds: Vec<Kind> = band.columns.iter().map(|column| column.kind).collect();
    let relaxed = Kind::Relaxed;
    assert_eq!(kinds, [Kind::State, relaxed, relaxed, Kind::Inserted, relaxed]);
    assert_eq!(band.stop, None);
    let row = |v: usize| -> Vec<Vec<(usize, Option<usize>, &str)>> {
        let lanes = band.rows[v].lanes.iter();
        lanes
            .map(|lane| lane.segments.iter().map(|s| (s.first, s.last, s.name.as_str())).collect())
            .collect()
    };
    let carriage = vec![(0, Some(1), "shelf-0"), (1, Some(3), "shelf-1"), (3, None, "shelf-0")];
    assert_eq!(row(0), [carriage]);
    let boxes = [(0, None, "shelf-1"), (2, None, "on-carriage"), (4, None, "shelf-0")];
    assert_eq!(row(1), boxes.map(|lane| vec![lane]));
    assert_eq!(band.rows[1].goal, Some(("shelf-0".to_owned(), true)));
}

#[test]
fn the_real_run_stops() {
    let store = example("tray");
    let shown = chart_of(&store, &Plan::find(&store).unwrap());
    assert_eq!(shown.bands[0].stop, Some(2));
    let marks = |v: usize, kind: MarkKind| {
        let lanes = shown.bands[0].rows[v].lanes.iter().flat_map(|lane| &lane.marks);
        lanes.filter(|mark| mark.kind == kind).map(|mark| mark.column).collect::<Vec<_>>()
    };
    assert_eq!(marks(0, MarkKind::Needed), [1]);
    assert_eq!(marks(0, MarkKind::Missing), [2]);
    assert_eq!(marks(0, MarkKind::Again), [2]);
    assert!(shown.notes[0].contains("stops at the dashed line: step 1, load-2, needs tray = free."));
    let drawn = chart(&store, &Plan::find(&store).unwrap());
    assert_eq!(drawn.matches("class=\"stop\"").count(), 1);
    assert_eq!(
        drawn.matches("class=\"missing\"").count(),
        2,
        "one in the chart and one in the legend"
    );
}

#[test]
fn lists_that_are_no_plans() {
    let store = example("two-shelves");
    let plan = Plan::list(vec![0, 2, 3, 1]);
    let shown = chart_of(&store, &plan);
    let kinds: Vec<Kind> = shown.bands[0].columns.iter().map(|column| column.kind).collect();
    assert_eq!(kinds[3..], [Kind::NotRun, Kind::NotRun]);
    assert_eq!(shown.bands[0].stop, Some(3));
    assert!(shown.notes[0].starts_with("Not a red-black plan: step 2, put-down, needs"));
    let missed = chart_of(&store, &Plan::list(vec![0, 1]));
    assert_eq!(missed.bands[0].stop, Some(3), "behind the last step for a goal missed");
    assert_eq!(missed.bands[0].rows[1].goal, Some(("shelf-0".to_owned(), false)));
    well_formed(&chart(&store, &plan));
    well_formed(&chart(&store, &Plan::default()));
}

#[test]
fn long_plans_are_cut_into_bands() {
    let store = example("two-shelves");
    let plan = Plan::list([0, 1].repeat(100));
    let shown = chart_of(&store, &plan);
    let counts: Vec<usize> = shown.bands.iter().map(|band| band.columns.len()).collect();
    assert_eq!(counts, [21; 6]);
    assert_eq!(shown.bands[0].columns[0].title, "before 80");
    assert_eq!(shown.notes.last().unwrap(), "Steps 80 to 199 of 200 are shown.");
    well_formed(&chart(&store, &plan));
}

/// Each column shows the facts that are held behind its step.
#[test]
fn columns_show_the_states_of_the_red_black_run() {
    let mut random = Random::new(21);
    let mut steps = 0;
    for _ in 0..1000 {
        let store = unnamed(&random_accepted(&mut random));
        let Ok(plan) = Plan::find(&store) else { continue };
        well_formed(&chart(&store, &plan));
        let task = store.task();
        let mut state = State::initial(&task);
        for (step, &number) in plan.steps.iter().enumerate().take(100) {
            state.apply(task.action(number as usize), &Semantics::red_black(&task));
            let band = &chart_of(&store, &plan).bands[step / 20];
            check_column(&store, band, step % 20 + 1, &state);
            steps += 1;
        }
    }
    assert!(steps > 500, "{steps}");
}

fn check_column(store: &Store, band: &Band, column: usize, state: &State) {
    for (v, variable) in store.variables.iter().enumerate() {
        let segments = || band.rows[v].lanes.iter().flat_map(|lane| &lane.segments);
        for value in 0..variable.values.len() {
            let mut at =
                segments().filter(|s| s.first <= column && s.last.is_none_or(|last| column < last));
            assert_eq!(at.any(|s| s.value == value), state.holds(Fact::new(v, value)));
        }
    }
}

#[test]
fn statuses() {
    let folder = Folder::with(&["two-shelves.store", "two-shelves-without-1.store"]);
    assert_eq!(folder.run("store chart two-shelves.store").0, 0);
    let (status, out, error) = folder.run("echo 0 2 3 | store chart two-shelves.store -");
    assert_eq!(status, 1);
    well_formed(&out);
    assert!(error.starts_with("store: not a red-black plan"), "{error}");
    assert_eq!(folder.run("echo 0 2 1 3 | store chart two-shelves.store - out.svg").0, 0);
    well_formed(std::str::from_utf8(&folder.read("out.svg")).unwrap());
    assert_eq!(folder.run("store chart two-shelves-without-1.store").1, "refused 8 0\n");
}
