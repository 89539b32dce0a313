//! Errors name line, column and what was expected.

use store::parse;

fn error(text: &str) -> String {
    parse(text).unwrap_err().to_string()
}

const BOX: &str = "variable box red: here there\n  initial here\n";

/// The error of a text behind a sound variable on lines 1 and 2.
fn after_box(text: &str) -> String {
    error(&format!("{BOX}{text}"))
}

#[test]
fn statements() {
    assert_eq!(error(""), "line 1, column 1: expected at least one variable, found end of text");
    assert_eq!(
        error("# none\n\n"),
        "line 3, column 1: expected at least one variable, found end of text"
    );
    assert_eq!(
        error("  vari box\n"),
        "line 1, column 3: expected `variable`, `action`, `list` or `for`, found `vari`"
    );
    assert_eq!(
        error("goal x\n"),
        "line 1, column 1: expected `variable`, `action`, `list` or `for`, found `goal`"
    );
    assert_eq!(
        after_box("  needs box = here"),
        "line 3, column 3: expected `initial`, `goal`, `variable` or `action`, found `needs`"
    );
    assert_eq!(
        after_box("action go cost 1\n  initial here"),
        "line 4, column 3: expected `needs`, `sets`, `action` or `variable`, found `initial`"
    );
    assert_eq!(
        after_box("= 3"),
        "line 3, column 1: expected `initial`, `goal`, `variable` or `action`, found `=`"
    );
}

#[test]
fn variables() {
    assert_eq!(error("variable"), "line 1, column 9: expected a variable name, found end of line");
    assert_eq!(error("variable : red"), "line 1, column 10: expected a variable name, found `:`");
    assert_eq!(
        error("variable box blue: x"),
        "line 1, column 14: expected `black` or `red`, found `blue`"
    );
    assert_eq!(error("variable box red here"), "line 1, column 18: expected `:`, found `here`");
    assert_eq!(
        error("variable box red: # none"),
        "line 1, column 18: expected a value name, found end of line"
    );
    assert_eq!(
        error("variable box red: x, y"),
        "line 1, column 20: expected a value name, found `,`"
    );
    assert_eq!(
        error("variable box red: x y x"),
        "line 1, column 23: expected a new value name, found `x` a second time"
    );
    assert_eq!(
        after_box("variable box black: x"),
        "line 3, column 10: expected a new variable name, found `box` a second time"
    );
}

#[test]
fn initial_values_and_goals() {
    assert_eq!(
        error("variable box red: x\naction go cost 1"),
        "line 1, column 10: expected an `initial` line for variable `box`"
    );
    assert_eq!(
        error("\nvariable box red: x"),
        "line 2, column 10: expected an `initial` line for variable `box`"
    );
    assert_eq!(
        after_box("  initial here"),
        "line 3, column 3: expected one initial value, found `initial` a second time"
    );
    assert_eq!(
        after_box("  goal here\n  goal there"),
        "line 4, column 3: expected one goal value, found `goal` a second time"
    );
    assert_eq!(
        after_box("  goal away"),
        "line 3, column 8: expected a value of `box` (here, there), found `away`"
    );
    assert_eq!(
        after_box("  goal here now"),
        "line 3, column 13: expected end of line, found `now`"
    );
}

#[test]
fn actions() {
    assert_eq!(after_box("action"), "line 3, column 7: expected an action name, found end of line");
    assert_eq!(after_box("action go"), "line 3, column 10: expected `cost`, found end of line");
    assert_eq!(after_box("action go 4"), "line 3, column 11: expected `cost`, found `4`");
    for wrong in ["65536", "-1", "+1", "four", "99999999999999999999999", "1.5"] {
        assert_eq!(
            after_box(&format!("action go cost {wrong}")),
            format!("line 3, column 16: expected a cost from 0 to 65535, found `{wrong}`")
        );
    }
    assert!(parse(&format!("{BOX}action go cost 65535")).is_ok());
    assert_eq!(
        after_box("action go cost 1\naction go cost 2"),
        "line 4, column 8: expected a new action name, found `go` a second time"
    );
}

#[test]
fn facts() {
    let in_action = |text: &str| after_box(&format!("action go cost 1\n{text}"));
    assert_eq!(
        in_action("  needs bx = here"),
        "line 4, column 9: expected the name of a variable above, found `bx`"
    );
    assert_eq!(
        in_action("  sets"),
        "line 4, column 7: expected the name of a variable above, found end of line"
    );
    assert_eq!(in_action("  sets box here"), "line 4, column 12: expected `=`, found `here`");
    assert_eq!(
        in_action("  sets box = away"),
        "line 4, column 14: expected a value of `box` (here, there), found `away`"
    );
    assert_eq!(
        in_action("  sets box = here box = there"),
        "line 4, column 19: expected `,`, found `box`"
    );
    assert_eq!(
        in_action("  sets box = here,"),
        "line 4, column 19: expected the name of a variable above, found end of line"
    );
    assert_eq!(
        in_action("  sets box = here, box = there"),
        "line 4, column 20: expected a variable once in a list, found `box` a second time"
    );
    assert_eq!(
        in_action("  needs box = here\n  sets box = here\n  needs box = here"),
        "line 6, column 9: expected a variable once in a list, found `box` a second time"
    );
}

fn many(count: usize, line: impl Fn(usize) -> String) -> String {
    (0..count).map(line).collect()
}

#[test]
fn limits() {
    let variables = |count| many(count, |i| format!("variable x{i} red: a\ninitial a\n"));
    assert!(parse(&variables(64)).is_ok());
    assert_eq!(
        error(&variables(65)),
        "line 129, column 1: expected at most 64 variables, found one more"
    );
    let values = |count| format!("variable x red:{}\ninitial 0", many(count, |i| format!(" {i}")));
    assert!(parse(&values(64)).is_ok());
    assert_eq!(
        error(&values(65)),
        "line 1, column 199: expected at most 64 values, found one more"
    );
    let actions = |count| format!("{BOX}{}", many(count, |i| format!("action a{i} cost 0\n")));
    assert!(parse(&actions(1024)).is_ok());
    assert_eq!(
        error(&actions(1025)),
        "line 1027, column 1: expected at most 1024 actions, found one more"
    );
    let facts = |count| {
        let facts = many(count, |i| format!("needs x{i} = a\n"));
        format!("{}action go cost 1\n{facts}", variables(20))
    };
    assert!(parse(&facts(15)).is_ok());
    assert_eq!(
        error(&facts(16)),
        "line 57, column 7: expected at most 15 facts in a list, found one more"
    );
}

#[test]
fn columns_count_characters() {
    assert_eq!(
        error("variable Käfig red: ö ö"),
        "line 1, column 23: expected a new value name, found `ö` a second time"
    );
    assert_eq!(error("variable a\u{1} red: x"), {
        "line 1, column 11: expected `black` or `red`, found `\\u{1}`"
    });
}
