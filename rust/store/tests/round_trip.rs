//! Record to text and back, and text to text.

mod common;

use common::{example, random_task, Random, EXAMPLES};
use reference::{examples, record};
use store::{parse, text, Store};

fn round_trip(bytes: &[u8]) {
    let store = Store::from_record(bytes).unwrap();
    let read = parse(&text(&store)).unwrap();
    assert_eq!(read, store);
    assert_eq!(read.record(), bytes);
}

#[test]
fn records_come_back_through_text() {
    for (name, bytes) in examples::files() {
        if record::check(&bytes).is_ok() {
            round_trip(&bytes);
        } else {
            let refused = ["no-bytes", "variables-65", "actions-1025", "repeated-variable"];
            assert!(refused.contains(&name));
        }
    }
}

#[test]
fn random_records_come_back_through_text() {
    let mut random = Random::new(1);
    for _ in 0..200 {
        round_trip(&record::write(&random_task(&mut random)));
    }
}

#[test]
fn the_longest_record_comes_back() {
    let bytes = record::write(&examples::sized(64, 1024, 15));
    assert_eq!(bytes.len(), record::MAX_BYTES);
    round_trip(&bytes);
}

#[test]
fn names_come_back_from_written_text() {
    for name in EXAMPLES {
        assert_eq!(parse(&text(&example(name))).unwrap(), example(name));
    }
}

#[test]
fn refused_records_keep_number_and_place() {
    let refusal = Store::from_record(&[]).unwrap_err();
    assert_eq!((refusal.number, refusal.place), (1, 0));
}

#[test]
fn made_up_names() {
    let store = Store::from_record(&record::write(&examples::two_shelves())).unwrap();
    let expected = "\
variable v0 black: v0.0 v0.1
  initial v0.0
  goal v0.0
variable v1 red: v1.0 v1.1 v1.2
  initial v1.1
  goal v1.0
action a0 cost 4
  needs v0 = v0.0
  sets v0 = v0.1
";
    assert!(text(&store).starts_with(expected));
}

#[test]
fn facts_are_put_in_rising_order() {
    let head = "variable a red: x y\ninitial x\nvariable b red: x y\ninitial x\n";
    let joined = format!("{head}action go cost 1\nneeds b = x, a = y\nsets a = x\nsets b = y\n");
    let apart = format!("{head}action go cost 1\nsets b=y,a=x\nneeds a=y\nneeds b=x # late\n");
    assert_eq!(parse(&joined), parse(&apart));
    let record = parse(&joined).unwrap().record();
    assert_eq!(record::check(&record), Ok(()));
}

#[test]
fn line_ends_marks_and_blanks_do_not_matter() {
    let plain = "variable a red: x y\n  initial x\n";
    let other = "\u{feff}\tvariable  a red:x  y # two\r\n\r\n initial x";
    assert_eq!(parse(plain), parse(other));
}
