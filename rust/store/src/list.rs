//! Lists of actions as text: names or numbers, or what the listing program prints.

use reference::entry::MAX_STEPS;
use reference::Refusal;

use crate::plan::Plan;
use crate::store::Store;
use crate::token::{lines, Error, Line, Token};

/// What a text of a list says.
#[derive(Clone, Debug, PartialEq, Eq)]
pub enum Listed {
    Plan(Plan),
    /// The listing program's line for a refusal.
    Refused(Refusal),
    /// The listing program's lines for a plan and for a relaxed plan that is not part of it.
    Apart,
}

/// What the lines say of a plan.
#[derive(Default)]
struct Lists {
    steps: Vec<u16>,
    relaxed: Option<Vec<u16>>,
}

/// The words that start the listing program's lines.
const WORDS: [&str; 6] = ["reached", "relaxed", "plan", "real", "unreal", "refused"];

pub fn read(text: &str, store: &Store) -> Result<Listed, Error> {
    let mut lists = Lists::default();
    for mut line in lines(text) {
        let Some(first) = line.peek().cloned() else { continue };
        if !WORDS.contains(&first.text.as_str()) {
            lists.steps.extend(entries(&mut line, store)?);
            continue;
        }
        if store.action(&first.text).is_some() {
            let message = "is an action's name and a word of the listing program";
            return Err(first.error(format!("`{}` {message}: write the number", first.text)));
        }
        line.token();
        if let Some(refusal) = listing_line(&first.text, &mut line, store, &mut lists)? {
            return Ok(Listed::Refused(refusal));
        }
    }
    let plan = match lists.relaxed {
        None => Some(Plan::list(lists.steps)),
        Some(relaxed) => Plan::repaired(lists.steps, &relaxed),
    };
    Ok(plan.map_or(Listed::Apart, Listed::Plan))
}

fn listing_line(
    word: &str,
    line: &mut Line,
    store: &Store,
    lists: &mut Lists,
) -> Result<Option<Refusal>, Error> {
    match word {
        "relaxed" => {
            let count = line.number("a count of steps", MAX_STEPS)?;
            lists.relaxed = Some(counted(line, store, count)?);
        }
        "plan" => {
            let count = line.number("a count of steps", MAX_STEPS)?;
            line.number("a cost", u32::MAX as usize)?;
            lists.steps = counted(line, store, count)?;
        }
        "refused" => {
            let number = line.number("a refusal's number", 31)?;
            let place = line.number("a refusal's place", u32::MAX as usize)?;
            line.end()?;
            return Ok(Some(Refusal::new(number as u8, place)));
        }
        _ => {
            line.number("a count", u32::MAX as usize)?;
            line.end()?;
        }
    }
    Ok(None)
}

/// Actions by name or number, with blanks or commas between them.
fn entries(line: &mut Line, store: &Store) -> Result<Vec<u16>, Error> {
    let mut entries = Vec::new();
    while let Some(token) = line.token() {
        entries.push(entry(&token, store)?);
        if line.peek().is_some_and(|token| token.text == ",") {
            line.token();
        }
    }
    Ok(entries)
}

fn entry(token: &Token, store: &Store) -> Result<u16, Error> {
    let Some(last) = store.actions.len().checked_sub(1) else {
        return Err(token.error("expected no steps, since the store has no actions"));
    };
    match (store.action(&token.text), token.number(last)) {
        (Some(named), Some(number)) if named != number => Err(token.error(format!(
            "`{number}` is the name of action {named} and the number of another: rename it"
        ))),
        (Some(named), _) => Ok(named as u16),
        (None, Some(number)) => Ok(number as u16),
        (None, None) => {
            Err(token.instead_of(&format!("an action's name or a number from 0 to {last}")))
        }
    }
}

/// The rest of a listing program's line: as many numbers as it says.
fn counted(line: &mut Line, store: &Store, count: usize) -> Result<Vec<u16>, Error> {
    let mut numbers = Vec::new();
    while let Some(token) = line.peek() {
        let Some(last) = store.actions.len().checked_sub(1) else {
            return Err(token.error("expected no steps, since the store has no actions"));
        };
        numbers.push(line.number("an action number", last)? as u16);
    }
    if numbers.len() != count {
        return Err(line.error(format!("expected {count} steps, found {}", numbers.len())));
    }
    Ok(numbers)
}
