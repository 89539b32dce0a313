//! Graphs: well formed as SVG and DOT, nothing overlapping in small stores, and what they show.

mod common;

use std::process::Command;

use common::{
    example, path, random_accepted, random_task, unnamed, well_formed, Folder, Random, EXAMPLES,
};
use store::picture::causal::{causal_graph, causal_picture};
use store::picture::dot::dot;
use store::picture::layers::layers;
use store::picture::layout::{Layout, Rect};
use store::picture::svg::svg;
use store::picture::values::{has_return, value_arcs, value_picture, ValueArc};
use store::picture::Picture;
use store::{parse, Store};

fn pictures(store: &Store) -> Vec<Picture> {
    let values = (0..store.variables.len()).map(|variable| value_picture(store, variable));
    std::iter::once(causal_picture(store)).chain(values).collect()
}

fn overlapping(rects: &[Rect]) -> bool {
    let later = |i: usize| rects[i + 1..].iter();
    (0..rects.len()).any(|i| later(i).any(|other| rects[i].overlap(other) > 0.0))
}

/// The pictures as they are laid out without Graphviz: in layers without labels.
fn laid_out(mut picture: Picture) -> Layout {
    if picture.layered {
        picture.arcs.iter_mut().for_each(|arc| arc.labels.clear());
    }
    Layout::new(&picture)
}

#[test]
fn examples_are_well_formed_and_nothing_overlaps() {
    for name in EXAMPLES {
        pictures(&example(name)).into_iter().for_each(|picture| well_formed(&svg(picture)));
        for picture in pictures(&example(name)) {
            let layout = laid_out(picture);
            assert!(!overlapping(&[layout.nodes, layout.labels].concat()), "{name}");
        }
    }
}

#[test]
fn nodes_never_overlap() {
    let mut random = Random::new(3);
    for _ in 0..10 {
        let store = unnamed(&random_task(&mut random));
        let variable = random.below(store.variables.len());
        for picture in [causal_picture(&store), value_picture(&store, variable)] {
            assert!(!overlapping(&laid_out(picture).nodes));
        }
        well_formed(&svg(causal_picture(&store)));
        well_formed(&svg(value_picture(&store, variable)));
    }
}

#[test]
fn names_are_escaped() {
    let text = "variable a<b red: x&y \">\n initial x&y\naction <go> cost 1\n sets a<b = \">\n";
    let store = parse(text).unwrap();
    pictures(&store).into_iter().for_each(|picture| well_formed(&svg(picture)));
    assert!(svg(causal_picture(&store)).contains(">a&lt;b</text>"));
    assert!(dot(&value_picture(&store, 0)).contains("label=\"x&amp;y\\n(initial)\""));
    assert!(dot(&value_picture(&store, 0)).contains("label=\"\\\">\""));
}

#[test]
fn nodes_show_the_painting() {
    let shown = svg(causal_picture(&example("two-shelves")));
    assert_eq!(shown.matches("class=\"node black\"><title>").count(), 1);
    assert_eq!(shown.matches("class=\"node red\"><title>").count(), 1);
    assert!(shown.contains("The painting is accepted."));
    let shown = svg(causal_picture(&example("two-black-effects")));
    assert!(shown.contains("The painting is refused, 7: the black causal graph has a cycle"));
}

#[test]
fn arcs_lead_from_layer_to_layer() {
    let office = parse(&std::fs::read_to_string(path("office/office", "store")).unwrap()).unwrap();
    let picture = causal_picture(&office);
    assert_eq!(layers(picture.nodes.len(), &picture.arcs), [0, 1, 1, 2, 2, 2, 2, 2]);
    let mut random = Random::new(9);
    for _ in 0..50 {
        let picture = causal_picture(&unnamed(&random_accepted(&mut random)));
        let layers = layers(picture.nodes.len(), &picture.arcs);
        let back = |from: usize, to: usize| {
            picture.arcs.iter().any(|arc| (arc.from, arc.to) == (to, from))
        };
        for arc in &picture.arcs {
            assert!(layers[arc.from] <= layers[arc.to]);
            assert!(!back(arc.from, arc.to) || layers[arc.from] == layers[arc.to]);
        }
    }
}

#[test]
fn parallel_arcs_are_one_with_its_actions() {
    let office = parse(&std::fs::read_to_string(path("office/office", "store")).unwrap()).unwrap();
    let picture = causal_picture(&office);
    assert_eq!(picture.arcs.len(), 12);
    let arc = picture.arcs.iter().find(|arc| (arc.from, arc.to) == (1, 3)).unwrap();
    assert_eq!(arc.labels, ["pick-1-at-0-by-1", "put-1-at-0-by-1", "and 10 more"]);
    assert_eq!(arc.title.matches("-by-1").count(), 12);
    assert!(svg(picture)
        .contains("carriage-1 to box-1: pick-1-at-0-by-1, put-1-at-0-by-1, and 10 more"));
}

fn graphviz() -> bool {
    Command::new("dot").arg("-V").output().is_ok_and(|output| output.status.success())
}

#[test]
fn graphviz_draws_where_it_is_installed() {
    let folder = Folder::with(&["two-shelves.store", "two-shelves.record"]);
    for call in
        ["graph two-shelves.store", "values two-shelves.store box", "values two-shelves.record v0"]
    {
        let (status, out, error) = folder.run(&format!("store {call}"));
        assert_eq!(status, 0, "{call}");
        well_formed(&out);
        if graphviz() {
            assert_eq!(error, "");
            assert!(out.contains("Generated by graphviz"));
        } else {
            assert_eq!(error, "store: drawn without Graphviz: it is not installed\n");
        }
        assert_eq!(folder.run(&format!("store {call} out.svg")).0, 0);
        assert_eq!(String::from_utf8(folder.read("out.svg")).unwrap(), out);
    }
}

#[test]
fn without_graphviz_the_picture_says_so() {
    let folder = Folder::with(&["two-shelves.store"]);
    let tool = env!("CARGO_BIN_EXE_store");
    let (status, out, error) = folder.run(&format!("PATH=/none {tool} graph two-shelves.store"));
    assert_eq!(
        (status, error.as_str()),
        (0, "store: drawn without Graphviz: it is not installed\n")
    );
    assert!(out.contains("Drawn without Graphviz: it is not installed."));
    well_formed(&out);
    folder.write("dot", "#!/bin/sh\nexit 3\n");
    let line = format!("chmod +x dot; PATH=.:$PATH {tool} graph two-shelves.store");
    let (status, out, error) = folder.run(&line);
    let reason = "it failed (dot: exit status: 3)";
    assert_eq!((status, error), (0, format!("store: drawn without Graphviz: {reason}\n")));
    assert!(out.contains(reason));
    let (status, out, error) = folder.run("store graph two-shelves.store --plain");
    assert_eq!((status, error.as_str()), (0, ""));
    assert!(out.contains("Drawn without Graphviz."));
}

#[test]
fn many_arcs_are_drawn_plainly() {
    let folder = Folder::new();
    let template = "for V in {1..16}\nvariable v{V} red: 0 1\ninitial 0\nend\n\
                    for A in {1..16}\nfor B in {1..16}\naction {A}-{B} cost 1\nneeds v{A} = 0\nsets v{B} = 1\nend\nend\n";
    folder.write("x.store", template);
    let (status, out, error) = folder.run("store graph x.store");
    assert_eq!(status, 0);
    assert_eq!(error, "store: drawn without Graphviz: there are more than 200 arcs\n");
    well_formed(&out);
    assert_eq!(folder.run("store graph x.store --dot").1.matches(" -> ").count(), 240);
}

#[test]
fn graphviz_reads_every_graph() {
    if !graphviz() {
        return;
    }
    let mut stores: Vec<Store> = EXAMPLES.iter().map(|name| example(name)).collect();
    stores.push(parse("variable a<b&amp;\\N red: x&y \">\n initial x&y\naction \"go\\l cost 1\n sets a<b&amp;\\N = \">\n").unwrap());
    let folder = Folder::new();
    for picture in stores.iter().flat_map(pictures) {
        folder.write("x.dot", dot(&picture));
        let (status, out, error) = folder.run("dot -Tsvg x.dot");
        assert_eq!((status, error.as_str()), (0, ""), "{}", dot(&picture));
        well_formed(&out);
    }
    let (_, out, _) = folder.run("dot -Tsvg x.dot");
    assert!(out.contains("&quot;go\\l"), "{out}");
}

#[test]
fn causal_arcs() {
    let arcs = |name: &str| causal_graph(&example(name)).into_iter().collect::<Vec<_>>();
    assert_eq!(arcs("two-shelves"), [((0, 1), vec![2, 3])]);
    assert_eq!(arcs("lamp-1"), [((0, 1), vec![0]), ((1, 0), vec![0, 1])]);
    assert_eq!(arcs("two-black-effects"), [((0, 1), vec![0]), ((1, 0), vec![0])]);
    assert_eq!(arcs("gate"), [((0, 1), vec![2, 3]), ((0, 2), vec![4]), ((1, 2), vec![4])]);
    assert_eq!(arcs("gate"), arcs("door"));
    let tray = causal_graph(&example("tray"));
    assert_eq!(tray.into_keys().collect::<Vec<_>>(), [(0, 1), (0, 2), (1, 0), (2, 0)]);
}

#[test]
fn arcs_of_values() {
    let arc = |from, to, action| ValueArc { from, to, action };
    assert_eq!(value_arcs(&example("two-shelves"), 0), [arc(0, 1, 0), arc(1, 0, 1)]);
    assert_eq!(value_arcs(&example("two-shelves"), 1), [arc(1, 2, 2), arc(2, 0, 3)]);
    assert_eq!(value_arcs(&example("lamp-1"), 1), [arc(0, 1, 0), arc(2, 1, 0)]);
    let shown = svg(value_picture(&example("lamp-2"), 0));
    assert!(shown.contains(">drive-out 1, no return</text>"));
}

/// The lowest action with an arc that lacks its return.
fn lowest_without_return(store: &Store) -> Option<usize> {
    let black = (0..store.variables.len()).filter(|&v| store.variables[v].black);
    let lacking = black.flat_map(|v| {
        let arcs = value_arcs(store, v).into_iter();
        arcs.filter(move |&arc| !has_return(store, v, arc)).map(|arc| arc.action)
    });
    lacking.min()
}

/// The lowest action for which the planner misses a return, of a store without black cycles.
fn refused_action(store: &Store) -> Option<usize> {
    let refusal = reference::painting::painting(&store.task()).err()?;
    assert_eq!(refusal.number, 8);
    Some(refusal.place as usize)
}

#[test]
fn returns_are_those_of_the_planner() {
    for name in EXAMPLES.into_iter().filter(|&name| name != "two-black-effects") {
        let store = example(name);
        assert_eq!(lowest_without_return(&store), refused_action(&store), "{name}");
    }
    let mut random = Random::new(5);
    let (mut accepted, mut refused) = (0, 0);
    for _ in 0..2000 {
        let task = random_accepted(&mut random);
        let left_out = random.below(2 * task.action_count() + 1);
        let task = if left_out < task.action_count() { task.without(left_out) } else { task };
        let store = unnamed(&task);
        let place = refused_action(&store);
        assert_eq!(lowest_without_return(&store), place);
        *(if place.is_some() { &mut refused } else { &mut accepted }) += 1;
    }
    assert!(accepted > 100 && refused > 100, "{accepted} {refused}");
}
