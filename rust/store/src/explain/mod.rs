//! Refusals in words, with the names of the store.

mod black;
mod list;
mod painting;
mod planning;
pub mod record;
pub mod sheet;

use reference::Refusal;

use crate::show::counted;
use crate::store::Store;

/// What a refusal of a record that passes 1 to 6 means in its store; for 9 and 13 with the list.
pub fn in_words(store: &Store, refusal: Refusal, list: Option<&[u16]>) -> String {
    let place = refusal.place as usize;
    let words = match refusal.number {
        1..=6 => Some(record::in_words(&store.record(), refusal)),
        7 => painting::cycle(store, place),
        8 => painting::lacking_return(store, place),
        9 => list.map(|list| list::entry(store, list, place)),
        10 => Some(planning::no_plan(store, place)),
        11 => Some(planning::no_room(store, place)),
        13 => list.map(|list| list::too_long(list, place)),
        _ => None,
    };
    words.unwrap_or_else(|| in_general(refusal))
}

/// The same where it is not known which call refused: 11 may be that of newest values.
pub fn of_any_call(store: &Store, refusal: Refusal, list: Option<&[u16]>) -> String {
    let words = in_words(store, refusal, list);
    let (variables, place) = (store.variables.len(), refusal.place as usize);
    if refusal.number != 11 || place >= variables {
        return words;
    }
    format!("{words}; newest values need as many entries as there are variables, {variables}")
}

/// What a refusal means where nothing is known but its number and place.
pub fn in_general(refusal: Refusal) -> String {
    let place = refusal.place;
    match refusal.number {
        1 => format!("the record ends inside or before the field that starts at bit {place}"),
        2 => "the record's edition is not 1".to_owned(),
        3 if place == 4 => "the count of variables is not 1 to 64".to_owned(),
        3 => "the count of actions is more than 1,024".to_owned(),
        4 => format!(
            "the value at bit {place} is not below its variable's count of values, or is a goal value \
             other than 0 though there is no goal"
        ),
        5 => format!(
            "the fact at bit {place} has a variable that the record does not have, or one that is not \
             above that of the fact before it"
        ),
        6 => format!("behind the last field, from bit {place} on, padding is not 0 or bytes follow"),
        7 => format!("variable {place} is the lowest on a cycle of the black causal graph"),
        8 => format!("action {place} is the lowest with an arc that lacks its return"),
        9 => format!(
            "entry {place} of the list is no action of the record, or does not apply in a relaxed run; \
             if the list ends there, a goal is missed"
        ),
        10 => format!("no plan: {place} facts are reached, and not all goals are among them"),
        11 => format!("there is room for {place} (steps, values, or bytes of a sheet), and the result is longer"),
        12 => format!(
            "the sheet is faulty at bit {place}: cut short, not of edition 1 or 2, too many steps, or \
             more behind its last step"
        ),
        13 => format!(
            "the list has more than 32,768 entries, or in writing a sheet entry {place} is over 1,023"
        ),
        number => format!("{number} is no refusal: they are numbered 1 to 13"),
    }
}

/// The length of a record or sheet.
fn length(bytes: &[u8]) -> String {
    format!("{}, {} bits", counted(bytes.len(), "byte"), 8 * bytes.len())
}

/// Words with commas, and `and` before the last.
fn and(words: &[String]) -> String {
    joined(words, "and")
}

/// Words with commas, and `or` before the last.
fn or(words: &[String]) -> String {
    joined(words, "or")
}

fn joined(words: &[String], last: &str) -> String {
    match words {
        [] => String::new(),
        [one] => one.clone(),
        [front @ .., end] => format!("{} {last} {end}", front.join(", ")),
    }
}

/// A number with commas between its thousands.
fn grouped(number: u128) -> String {
    let digits = number.to_string();
    let mut out = String::new();
    for (i, digit) in digits.chars().enumerate() {
        if i > 0 && (digits.len() - i).is_multiple_of(3) {
            out.push(',');
        }
        out.push(digit);
    }
    out
}
