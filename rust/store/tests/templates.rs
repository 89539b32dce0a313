//! Templates, written out in order, with errors that name their place and round.

mod common;

use common::{path, Random};
use store::{parse, text};

fn error(text: &str) -> String {
    parse(text).unwrap_err().to_string()
}

const HEAD: &str = "variable box red: a b c\n  initial a\n";

#[test]
fn written_out_in_the_order_of_the_text() {
    let template = "\
list boxes: 1 2
for B in {boxes}
  variable box-{B} red: shelf-{0..2} on-{1..2}-{boxes}
    initial shelf-0
    goal shelf-{B}
end
for B in {boxes}
  for S T in 0 1, 1 2
    action move-{B}-{S}-{T} cost {B}{S}
      needs box-{B} = shelf-{S}
      sets box-{B} = shelf-{T}
  end
end
action last cost 0
";
    let mut plain = String::new();
    for b in 1..=2 {
        plain +=
            &format!("variable box-{b} red: shelf-0 shelf-1 shelf-2 on-1-1 on-1-2 on-2-1 on-2-2\n");
        plain += &format!("  initial shelf-0\n  goal shelf-{b}\n");
    }
    for b in 1..=2 {
        for (s, t) in [(0, 1), (1, 2)] {
            plain += &format!("action move-{b}-{s}-{t} cost {b}{s}\n");
            plain += &format!("  needs box-{b} = shelf-{s}\n  sets box-{b} = shelf-{t}\n");
        }
    }
    plain += "action last cost 0\n";
    assert_eq!(text(&parse(template).unwrap()), plain);
}

#[test]
fn one_name_takes_values_with_or_without_commas() {
    let with = |values: &str| parse(&format!("{HEAD}for X in {values}\naction {{X}} cost 1\nend"));
    assert_eq!(with("p q r"), with("p, q, r"));
    assert_eq!(with("p q r"), with("p q, r"));
    assert_eq!(with("n{1..3}").unwrap().actions.len(), 3);
    assert_eq!(with("{7..7}").unwrap().actions[0].name, "7");
}

#[test]
fn errors_name_the_place_in_the_template_and_the_round() {
    let text = format!("{HEAD}for B in 1 2\n  for S in a b x\n    action go-{{B}}-{{S}} cost 1\n      sets box = {{S}}\n  end\nend");
    assert_eq!(
        error(&text),
        "line 6, column 18: expected a value of `box` (a, b, c), found `x` (with B = 1, S = x)"
    );
    assert_eq!(
        error(&format!("{HEAD}for B in 1 1\n  action go-{{B}} cost 1\nend")),
        "line 4, column 10: expected a new action name, found `go-1` a second time (with B = 1)"
    );
    assert_eq!(
        error(&format!("{HEAD}for B in 1\n  action go-{{B}}\nend")),
        "line 4, column 16: expected `cost`, found end of line (with B = 1)"
    );
    assert_eq!(
        error("for B in 1 2\n  variable box-{B} red: x\nend"),
        "line 2, column 12: expected an `initial` line for variable `box-1` (with B = 1)"
    );
    assert_eq!(
        error(&format!("{HEAD}for B in 1\nend\naction go-{{B}} cost 1")),
        "line 5, column 8: expected a list, a loop or a range above for `{B}` in `go-{B}`"
    );
}

#[test]
fn errors_in_braces() {
    let braces = |name: &str| error(&format!("{HEAD}for B in 1\naction {name} cost 1\nend"));
    let pairs = |name: &str| {
        format!("line 4, column 8: expected braces in pairs, found `{name}` (with B = 1)")
    };
    for name in ["go-{B", "go-B}", "go-{{B}}", "}{"] {
        assert_eq!(braces(name), pairs(name));
    }
    for inside in ["b", "", "1..", "..2", "3..2", "1..x", "-1..2", "0..1024", "0..99999999999"] {
        let expected = "line 4, column 8: expected a list, a loop or a range above for";
        let name = format!("go-{{{inside}}}");
        assert_eq!(braces(&name), format!("{expected} `{{{inside}}}` in `{name}` (with B = 1)"));
    }
    assert_eq!(
        error(&format!("list all: {{0..31}}\nlist too: {{all}}-{{0..32}}\n{HEAD}")),
        "line 2, column 11: expected at most 1024 names from `{all}-{0..32}`"
    );
    assert_eq!(
        error("variable {box} red: a"),
        "line 1, column 10: expected a list, a loop or a range above for `{box}` in `{box}`"
    );
}

#[test]
fn errors_in_loops_and_lists() {
    assert_eq!(
        error("for"),
        "line 1, column 1: expected an `end` for this `for`, found end of text"
    );
    assert_eq!(
        error("for\nend"),
        "line 1, column 4: expected a name to put into braces, found end of line"
    );
    assert_eq!(error("for B\nend"), "line 1, column 6: expected `in`, found end of line");
    assert_eq!(error("for B in\nend"), "line 1, column 9: expected a value, found end of line");
    assert_eq!(error("for B in 1,\nend"), "line 1, column 12: expected a value, found end of line");
    assert_eq!(error("for B in = 1\nend"), "line 1, column 10: expected a value, found `=`");
    assert_eq!(
        error("for B B in 1 1\nend"),
        "line 1, column 7: expected a new name, found `B` a second time"
    );
    assert_eq!(
        error("for B in 1\nfor B in 1\nend\nend"),
        "line 2, column 5: expected a new name, found `B` a second time (with B = 1)"
    );
    assert_eq!(
        error("for B C in 1 2, 3\nend"),
        "line 1, column 17: expected 2 values in a round, found 1"
    );
}

#[test]
fn errors_in_ends_and_lists() {
    assert_eq!(error("end"), "line 1, column 1: expected `end` only behind a `for`, found `end`");
    assert_eq!(error("for B in 1\nend now"), "line 2, column 5: expected end of line, found `now`");
    assert_eq!(
        error("list"),
        "line 1, column 5: expected a name to put into braces, found end of line"
    );
    assert_eq!(error("list a 1"), "line 1, column 8: expected `:`, found `1`");
    assert_eq!(
        error("list a:"),
        "line 1, column 8: expected a name for the list, found end of line"
    );
    assert_eq!(
        error("list a: 1\nlist a: 2"),
        "line 2, column 6: expected a new name, found `a` a second time"
    );
    assert_eq!(
        error("for B in 1\nlist a: 2\nend"),
        "line 2, column 1: expected `list` outside of `for` (with B = 1)"
    );
}

#[test]
fn limits() {
    let deep = |depth: usize| {
        let opened: String = (0..depth).map(|i| format!("for x{i} in 1\n")).collect();
        format!("{HEAD}{opened}{}", "end\n".repeat(depth))
    };
    assert!(parse(&deep(8)).is_ok());
    assert_eq!(error(&deep(9)), "line 11, column 1: expected at most 8 `for` inside each other");
    assert!(error(&deep(100_000)).starts_with("line 11, column 1:"));
    let rounds = format!("{HEAD}for A in {{1..100}}\nfor B in {{1..1000}}\nend\nend");
    assert_eq!(error(&rounds), "line 4, column 1: expected at most 100000 rounds in all");
    let many = format!(
        "{HEAD}for A in {{1..40}}\nfor B in {{1..40}}\naction {{A}}-{{B}} cost 1\nend\nend"
    );
    assert_eq!(
        error(&many),
        "line 5, column 1: expected at most 1024 actions, found one more (with A = 26, B = 25)"
    );
}

/// Texts with parts cut out, doubled or changed are read or refused with a place.
#[test]
fn damaged_templates() {
    let office = std::fs::read_to_string(path("office/office", "store")).unwrap();
    let parts =
        ["{", "}", "..", " ", "\n", "end\n", "for ", "in", ",", "=", "list x: {0..9}\n", "{S}"];
    let mut random = Random::new(23);
    let (mut read, mut refused) = (0, 0);
    for _ in 0..1000 {
        let mut text = office.clone();
        let (from, to) = (random.below(text.len()), random.below(text.len()));
        match random.below(3) {
            0 => text.replace_range(from.min(to)..from.max(to), ""),
            1 => text.insert_str(from, parts[random.below(parts.len())]),
            _ => text.replace_range(from..from + 1, parts[random.below(parts.len())]),
        }
        match parse(&text) {
            Ok(_) => read += 1,
            Err(error) => {
                assert!(error.at.line <= text.lines().count() + 1, "{error}");
                refused += 1;
            }
        }
    }
    assert!(read > 20 && refused > 500, "{read} {refused}");
}
