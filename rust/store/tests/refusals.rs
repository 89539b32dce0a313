//! Every refusal, 1 to 13, in words.

mod common;

use common::{example, random_accepted, random_task, unnamed, Folder, Random};
use reference::{examples, record, Fact, Refusal};
use store::explain::{in_general, in_words, record as of_record, sheet as of_sheet};
use store::library::{self, check, write_sheet, Sheet};
use store::plan::Plan;
use store::{parse, Store};

fn with_field(mut bytes: Vec<u8>, at: usize, width: usize, value: usize) -> Vec<u8> {
    for i in 0..width {
        let (byte, bit) = ((at + i) / 8, 7 - (at + i) % 8);
        let set = value >> (width - 1 - i) & 1;
        bytes[byte] = bytes[byte] & !(1 << bit) | (set as u8) << bit;
    }
    bytes
}

/// Number, place and words of the refusal of a record.
fn of_bytes(bytes: &[u8]) -> (u8, u32, String) {
    let refusal = check(bytes).unwrap_err();
    (refusal.number, refusal.place, of_record::in_words(bytes, refusal))
}

fn two_shelves() -> Vec<u8> {
    record::write(&examples::two_shelves())
}

#[test]
fn records_cut_short() {
    let words = |bytes: usize| of_bytes(&two_shelves()[..bytes]);
    assert_eq!(
        words(0),
        (
            1,
            0,
            "the record ends inside or before the edition (bits 0 to 3): it has 0 bytes, 0 bits"
                .into()
        )
    );
    assert_eq!(words(1), (1, 4, "the record ends inside or before the count of variables (bits 4 to 10): it has 1 byte, 8 bits".into()));
    assert_eq!(words(4), (1, 29, "the record ends inside or before the initial value of variable 0 (bits 29 to 34): it has 4 bytes, 32 bits".into()));
    assert_eq!(words(12), (1, 92, "the record ends inside or before the value of precondition 0 of action 0 (bits 92 to 97): it has 12 bytes, 96 bits".into()));
}

#[test]
fn counts_and_edition() {
    let with = |at, width, value| of_bytes(&with_field(two_shelves(), at, width, value));
    assert_eq!(with(0, 4, 2), (2, 0, "the edition (bits 0 to 3) is 2; it must be 1".into()));
    assert_eq!(
        with(4, 7, 0),
        (3, 4, "the count of variables (bits 4 to 10) is 0; it must be 1 to 64".into())
    );
    assert_eq!(with(4, 7, 65).2, "the count of variables (bits 4 to 10) is 65; it must be 1 to 64");
    assert_eq!(
        with(11, 11, 1025),
        (3, 11, "the count of actions (bits 11 to 21) is 1025; it must be 0 to 1,024".into())
    );
}

#[test]
fn values_and_variables() {
    let with = |at, width, value| of_bytes(&with_field(two_shelves(), at, width, value));
    let below = "it must be below 2, variable 0's count of values";
    assert_eq!(
        with(29, 6, 2),
        (4, 29, format!("the initial value of variable 0 (bits 29 to 34) is 2; {below}"))
    );
    assert_eq!(
        with(36, 6, 63),
        (4, 36, format!("the goal value of variable 0 (bits 36 to 41) is 63; {below}"))
    );
    let without = with_field(with_field(two_shelves(), 35, 1, 0), 36, 6, 1);
    let no_goal =
        "the goal value of variable 0 (bits 36 to 41) is 1; it must be 0, as there is no goal";
    assert_eq!(of_bytes(&without), (4, 36, no_goal.into()));
    assert_eq!(
        with(92, 6, 2),
        (4, 92, format!("the value of precondition 0 of action 0 (bits 92 to 97) is 2; {below}"))
    );
    assert_eq!(with(86, 6, 2), (5, 86, "the variable of precondition 0 of action 0 (bits 86 to 91) is 2; it must be below 2, the count of variables".into()));
    // The second precondition of action 2 follows 22 + 2 * 20 + 2 * 48 + 24 + 12 bits.
    let rising = "the variable of precondition 1 of action 2 (bits 194 to 199) is 0; it must be above 0, the variable of the fact before, and below 2, the count of variables";
    assert_eq!(with(194, 6, 0), (5, 194, rising.into()));
    assert_eq!(with(206, 6, 9).2, "the variable of effect 0 of action 2 (bits 206 to 211) is 9; it must be below 2, the count of variables");
}

#[test]
fn what_stands_behind() {
    let mut longer = two_shelves();
    longer.push(0);
    assert_eq!(
        of_bytes(&longer),
        (
            6,
            278,
            "the last field ends before bit 278, so the record has 35 bytes; here are 36".into()
        )
    );
    let padded = with_field(two_shelves(), 279, 1, 1);
    assert_eq!(
        of_bytes(&padded),
        (6, 278, "behind the last field the bits 278 to 279 must be 0".into())
    );
}

#[test]
fn every_fault_of_a_record_finds_its_field() {
    let mut random = Random::new(11);
    let mut seen = [0; 7];
    for _ in 0..3000 {
        let mut bytes = record::write(&random_task(&mut random));
        match random.below(4) {
            3 => bytes = with_field(bytes, 0, 22, random.below(1 << 22)),
            0 => bytes.truncate(random.below(bytes.len())),
            1 => {
                bytes = with_field(
                    bytes.clone(),
                    random.below(8 * bytes.len() - 8),
                    6,
                    random.below(64),
                )
            }
            _ => bytes.push(random.below(256) as u8),
        }
        let Err(refusal) = check(&bytes) else { continue };
        seen[refusal.number as usize] += 1;
        let words = of_record::in_words(&bytes, refusal);
        assert!(!words.starts_with("refusal"), "{refusal:?} {words}");
        assert!(words.contains("bit"), "{words}");
    }
    assert!(seen[1..].iter().all(|&count| count > 0), "{seen:?}");
}

fn planned(text: &str) -> (u8, u32, String) {
    of_store(&parse(text).unwrap())
}

fn of_store(store: &Store) -> (u8, u32, String) {
    let refusal = Plan::find(store).unwrap_err();
    (refusal.number, refusal.place, in_words(store, refusal, None))
}

#[test]
fn cycles() {
    let words = "the black causal graph has a cycle: carriage to lock by drive, lock to carriage by drive; painting carriage or lock red would make it accepted";
    let text = "\
variable carriage black: a b\n initial a
variable lock black: a b\n initial a
action drive cost 1\n sets carriage = b, lock = b
action back cost 1\n sets carriage = a
action open cost 1\n sets lock = a
";
    assert_eq!(planned(text), (7, 0, words.into()));
    let (number, place, words) = of_store(&example("two-black-effects"));
    assert_eq!((number, place), (7, 0));
    assert!(
        words.ends_with("red would leave no cycle, but then an arc lacks its return"),
        "{words}"
    );
}

/// Variables with a pair of moves each, a move of the second needing the first.
fn black(pairs: &[(&str, &str)], names: &[&str]) -> String {
    let variables = names.iter().map(|name| format!("variable {name} black: 0 1\ninitial 0\n"));
    let moves = pairs.iter().map(|(u, v)| {
        let needs = |value: u8| format!("needs {u} = 0, {v} = {value}\nsets {v} = {}\n", 1 - value);
        format!("action {u}-{v} cost 1\n{}action {u}-{v}-back cost 1\n{}", needs(0), needs(1))
    });
    variables.chain(moves).collect()
}

#[test]
fn longer_cycles_and_several() {
    let three = black(&[("p", "q"), ("q", "r"), ("r", "p")], &["x", "p", "q", "r"]);
    let words = "the black causal graph has a cycle: p to q by p-q, q to r by q-r, r to p by r-p; painting p, q or r red would make it accepted";
    assert_eq!(planned(&three), (7, 1, words.into()));
    let shared = black(&[("p", "q"), ("q", "p"), ("q", "r"), ("r", "q")], &["p", "q", "r"]);
    let words = "the black causal graph has a cycle: p to q by p-q, q to p by q-p; painting q red would make it accepted";
    assert_eq!(planned(&shared), (7, 0, words.into()));
    let apart = black(&[("p", "q"), ("q", "p"), ("r", "s"), ("s", "r")], &["p", "q", "r", "s"]);
    assert!(planned(&apart).2.ends_with("; painting p and r red would leave no cycle"));
}

#[test]
fn advice_on_cycles_holds() {
    let mut random = Random::new(13);
    let mut count = 0;
    for _ in 0..400 {
        let store = unnamed(&random_task(&mut random));
        if store.variables.len() > 12 {
            continue;
        }
        let Err(refusal) = library::plan(&store.record(), 0) else { continue };
        if refusal.number != 7 {
            continue;
        }
        count += 1;
        check_advice(&store, &in_words(&store, refusal, None));
    }
    assert!(count > 20, "{count}");
}

/// Each variable that `or` offers, or all that `and` names together, leave no cycle when painted red.
fn check_advice(store: &Store, words: &str) {
    let advice = words.split("; painting ").nth(1).unwrap();
    let named = advice.split(" red would").next().unwrap();
    let names: Vec<&str> = named.split([' ', ',']).filter(|name| name.starts_with('v')).collect();
    let groups: Vec<Vec<&str>> = match named.contains(" and ") {
        true => vec![names],
        false => names.into_iter().map(|name| vec![name]).collect(),
    };
    for group in groups {
        let mut painted = store.clone();
        for name in group {
            let variable = store.variable(name).unwrap();
            painted.variables[variable].black = false;
        }
        let number =
            library::plan(&painted.record(), 0).map_or_else(|refusal| refusal.number, |_| 0);
        assert_ne!(number, 7, "{words}");
        assert!(!advice.contains("accepted") || number != 8, "{words}");
    }
}

#[test]
fn returns() {
    let begin = "drive-out moves carriage from shelf-0 to shelf-1, and";
    let lacking = "what is lacking is an action that sets carriage = shelf-0 and needs nothing but carriage = shelf-1";
    let none = format!("{begin} no action moves it back; {lacking}");
    assert_eq!(of_store(&example("two-shelves-without-1")), (8, 0, none));
    let more = format!("{begin} drive-back, which moves it back, also needs lamp = flashing; {lacking} and lamp = on");
    assert_eq!(of_store(&example("lamp-2")), (8, 0, more));
}

#[test]
fn a_gate_set_again_is_not_what_moves() {
    let mut store = example("gate");
    store.actions.retain(|action| action.name != "drive-back");
    let begin = "drive-out moves carriage from home to shelf, and no action moves it back;";
    let lacking = "what is lacking is an action that sets carriage = home and needs nothing but carriage = shelf and gate = shut";
    assert_eq!(of_store(&store), (8, 2, format!("{begin} {lacking}")));
    store.actions[2].sets[0] = Fact::new(0, 0);
    let (number, place, words) = of_store(&store);
    assert_eq!((number, place), (7, 0));
    assert!(
        words.contains("gate to carriage by drive-out, carriage to gate by drive-out"),
        "{words}"
    );
}

#[test]
fn every_lacking_return_is_named() {
    let mut random = Random::new(17);
    let mut count = 0;
    for _ in 0..2000 {
        let task = random_accepted(&mut random);
        let store = unnamed(&task.without(random.below(task.action_count().max(1))));
        let Err(refusal) = library::plan(&store.record(), 0) else { continue };
        if refusal.number != 8 {
            continue;
        }
        count += 1;
        let words = in_words(&store, refusal, None);
        assert!(words.contains("what is lacking is an action that sets"), "{words}");
        assert!(words.starts_with(&format!("a{} moves", refusal.place)), "{words}");
    }
    assert!(count > 50, "{count}");
}

#[test]
fn goals_not_reached() {
    let words = "no plan: 3 facts are reached, and not box = shelf-0; put-down needs box = on-carriage, which is not reached";
    assert_eq!(of_store(&example("two-shelves-without-2")), (10, 3, words.into()));
    let text = "\
variable a red: 0 1\n initial 0\n goal 1
variable b red: 0 1 2\n initial 0\n goal 1
variable c red: 0 1\n initial 0
action first cost 1\n needs c = 1\n sets b = 1
action second cost 1\n needs b = 2, c = 1\n sets b = 1
action third cost 1\n needs b = 1\n sets b = 1
";
    let words = "no plan: 3 facts are reached, and not a = 1 and b = 1; no action sets a = 1; first needs c = 1, which is not reached, and 2 other actions that set it are held up too";
    assert_eq!(planned(text), (10, 3, words.into()));
}

#[test]
fn room() {
    let store = example("two-shelves");
    let words = |store: &Store, place| in_words(store, Refusal::new(11, place), None);
    let bound = "F × P, which is always enough, is 6";
    assert_eq!(words(&store, 3), format!("there is room for 3 steps, and the plan is longer: room for 4 steps would do ({bound})"));
    assert_eq!(
        words(&store, 4),
        "there is room for 4 steps, which is enough for this store's plan"
    );
    let long = counter(18);
    let (number, place, words) = of_store(&long);
    assert_eq!((number, place), (11, 32_768));
    let end = "than 32,768 steps, the most that a list holds: no room can do (F × P, which is always enough, is 4,980,736)";
    assert_eq!(words, format!("there is room for 32768 steps, and the plan is longer {end}"));
}

/// Black digits that count up: digit k moves only when all lower ones are 1 below and 0 further down.
fn counter(digits: usize) -> Store {
    let mut text = String::new();
    for k in 0..digits {
        text += &format!("variable d{k} black: 0 1\ninitial 0\n");
    }
    text += "variable done red: no yes\ninitial no\ngoal yes\n";
    for k in 0..digits {
        for value in 0..2 {
            text += &format!("action set-{k}-{value} cost 1\nneeds d{k} = {}", 1 - value);
            for lower in k.saturating_sub(14)..k {
                text += &format!(", d{lower} = {}", u8::from(lower + 1 == k));
            }
            text += &format!("\nsets d{k} = {value}\n");
        }
    }
    text += &format!("action finish cost 1\nneeds d{} = 1\nsets done = yes\n", digits - 1);
    parse(&text).unwrap()
}

#[test]
fn large_products() {
    let variables = "for V in {1..64}\nvariable v{V} black: {0..63}\ninitial 0\nend\n";
    let store = parse(&format!("{variables}action go cost 1\nsets v1 = 1")).unwrap();
    let words = in_words(&store, Refusal::new(11, 3), None);
    assert_eq!(
        words,
        "there is room for 3 steps, and the plan is longer; of this store the planner says 8"
    );
    let red = variables.replace("end\n", "end\nvariable red red: 0 1 2\ninitial 0\ngoal 2\n");
    let steps = "action one cost 1\nsets red = 1\naction two cost 1\nneeds red = 1\nsets red = 2\n";
    let store = parse(&(red.replace("1..64", "1..63") + steps)).unwrap();
    let words = in_words(&store, Refusal::new(11, 1), None);
    let bound = "F × P, which is always enough, is a number of over 38 digits";
    assert_eq!(
        words,
        format!(
            "there is room for 1 step, and the plan is longer: room for 2 steps would do ({bound})"
        )
    );
}

#[test]
fn entries_of_lists() {
    let store = example("two-shelves");
    let words =
        |number, place, list: &[u16]| in_words(&store, Refusal::new(number, place), Some(list));
    assert_eq!(
        words(9, 1, &[0, 7]),
        "entry 1 of the list is 7, and the store has 4 actions, numbered from 0"
    );
    assert_eq!(words(9, 1, &[0, 3]), "no relaxed plan: step 1, put-down, needs box = on-carriage");
    assert_eq!(words(9, 1, &[0]), "no relaxed plan: goal missed: box = shelf-0");
    assert_eq!(
        words(13, 32_768, &vec![0; 40_000]),
        "the list has 40,000 entries; 32,768 is the most"
    );
    assert_eq!(
        words(13, 1, &[0, 2000]),
        "entry 1 of the list is 2000; a sheet holds actions up to 1,023"
    );
    let folder = Folder::with(&["two-shelves.store"]);
    let (status, out, error) = folder.run("yes 0 | head -32769 | store plan two-shelves.store -");
    assert_eq!((status, out.as_str()), (1, "refused 13 32768\n"));
    assert!(error.contains("32,768"), "{error}");
}

/// The sheet of two shelves.
fn sheet(edition: u32) -> Vec<u8> {
    let (steps, marks) = (vec![0, 2, 1, 3], vec![0, 0, 1, 0]);
    let sheet = write_sheet(&Sheet { steps, marks, edition, cost: 10, real: true }).unwrap();
    assert_eq!(sheet.len(), 11 + edition as usize);
    sheet
}

/// Place and words of the refusal of a sheet.
fn of_sheet_bytes(bytes: &[u8]) -> (u32, String) {
    let refusal = library::read_sheet(bytes).unwrap_err();
    assert_eq!(refusal.number, 12);
    (refusal.place, of_sheet::in_words(bytes, refusal))
}

#[test]
fn sheets_cut_short() {
    for (edition, bytes, place, field, has) in [
        (1, 0, 0, "the edition", "0 bytes, 0 bits"),
        (1, 1, 5, "the count of steps", "1 byte, 8 bits"),
        (1, 4, 21, "the cost", "4 bytes, 32 bits"),
        (1, 7, 53, "step 0", "7 bytes, 56 bits"),
        (1, 9, 63, "step 1", "9 bytes, 72 bits"),
        (2, 4, 21, "the cost", "4 bytes, 32 bits"),
        (2, 7, 54, "step 0", "7 bytes, 56 bits"),
        (2, 8, 64, "the mark of step 1", "8 bytes, 64 bits"),
        (2, 9, 65, "step 1", "9 bytes, 72 bits"),
        (2, 12, 87, "step 3", "12 bytes, 96 bits"),
    ] {
        let words = format!("the sheet ends inside or before {field} at bit {place}: it has {has}");
        assert_eq!(of_sheet_bytes(&sheet(edition)[..bytes]), (place, words));
    }
}

#[test]
fn sheets_with_a_fault() {
    let with = |at, width, value| of_sheet_bytes(&with_field(sheet(1), at, width, value));
    let edition = "the edition (bits 0 to 3) is 3; it must be 1 or 2";
    assert_eq!(with(0, 4, 3), (0, edition.to_owned()));
    let steps = "the count of steps (bits 5 to 20) is 32,769; it must be 32,768 at most";
    assert_eq!(with(5, 16, 32_769), (5, steps.to_owned()));
    let padding = "behind the last step the bits 93 to 95 must be 0";
    assert_eq!(with(95, 1, 1), (93, padding.to_owned()));
    let longer = [sheet(1), vec![0]].concat();
    let behind =
        "its steps end before bit 93, so the sheet has 12 bytes; it has 13 bytes, 104 bits";
    assert_eq!(of_sheet_bytes(&longer), (93, behind.to_owned()));
    let padding = "behind the last step the bits 97 to 103 must be 0";
    let padded = with_field(sheet(2), 97, 7, 1);
    assert_eq!(of_sheet_bytes(&padded), (97, padding.to_owned()));
    let longer = [sheet(2), vec![0, 0]].concat();
    let behind =
        "its steps end before bit 97, so the sheet has 13 bytes; it has 15 bytes, 120 bits";
    assert_eq!(of_sheet_bytes(&longer), (97, behind.to_owned()));
}

#[test]
fn explanations_for_other_programs() {
    let folder =
        Folder::with(&["two-shelves.store", "variables-65.record", "two-black-effects.record"]);
    folder.write("list", "0 3");
    folder.write("cut.sheet", [0x18, 0]);
    for (call, words) in [
        ("11 3 two-shelves.store", "room for 4 steps would do"),
        ("3 4 variables-65.record", "the count of variables (bits 4 to 10) is 65"),
        ("7 0 two-black-effects.record", "v0 to v1 by a0, v1 to v0 by a0"),
        ("9 1 two-shelves.store list", "step 1, put-down, needs box = on-carriage"),
        ("12 5 cut.sheet", "before the count of steps"),
        ("10 3", "3 facts are reached"),
        ("7 99 two-shelves.store", "variable 99"),
        ("8 99 two-shelves.store", "action 99"),
        ("4 99 variables-65.record", "not one of this record"),
    ] {
        let (status, out, error) = folder.run(&format!("store explain {call}"));
        assert_eq!((status, error.as_str()), (0, ""), "{call}");
        assert!(out.contains(words), "{call}: {out}");
        assert_eq!(out.lines().count(), 1);
    }
}

#[test]
fn refusals_that_are_not_those_of_the_store() {
    let mut random = Random::new(19);
    for _ in 0..300 {
        let store = unnamed(&random_accepted(&mut random));
        let list: Vec<u16> = (0..random.below(5)).map(|_| random.below(12) as u16).collect();
        let place = random.below(70);
        for number in 0..16 {
            let refusal = Refusal::new(number, place);
            for words in [
                in_words(&store, refusal, None),
                in_words(&store, refusal, Some(&list)),
                of_sheet::in_words(&store.record(), refusal),
                of_record::in_words(&store.record(), refusal),
            ] {
                assert!(!words.is_empty() && !words.contains('\n'));
            }
        }
    }
    let store = example("two-shelves");
    let words = in_words(&store, Refusal::new(9, 3), Some(&[0, 2, 3]));
    assert_eq!(words, "the list is a relaxed plan of this store");
}

#[test]
fn all_numbers_have_words() {
    let mut known: Vec<String> =
        (1..=13).map(|number| in_general(Refusal::new(number, 4))).collect();
    assert!(known.iter().all(|words| !words.contains("is no refusal")));
    known.sort();
    known.dedup();
    assert_eq!(known.len(), 13);
    assert!(in_general(Refusal::new(14, 0)).contains("14 is no refusal"));
}
