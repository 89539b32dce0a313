//! What stands in braces: the name of a list or of a loop, or a range of numbers.

use std::rc::Rc;

use crate::token::{Error, Token};

/// A token stands for no more names than this.
const MAX_NAMES: usize = 1024;

/// Names of lists and loops with their values.
#[derive(Default)]
pub struct Scope {
    known: Vec<(String, Vec<String>)>,
}

impl Scope {
    pub fn push(&mut self, name: String, values: Vec<String>) {
        self.known.push((name, values));
    }

    pub fn truncate(&mut self, length: usize) {
        self.known.truncate(length);
    }

    pub fn len(&self) -> usize {
        self.known.len()
    }

    pub fn is_empty(&self) -> bool {
        self.known.is_empty()
    }

    pub fn has(&self, name: &str) -> bool {
        self.get(name).is_some()
    }

    fn get(&self, name: &str) -> Option<&[String]> {
        self.known.iter().find(|(known, _)| known == name).map(|(_, values)| values.as_slice())
    }

    /// The values from a place on, in words behind those of the loops around.
    pub fn words(&self, outside: &str, from: usize) -> String {
        let known = self.known[from..].iter();
        let own: Vec<String> =
            known.map(|(name, values)| format!("{name} = {}", values.join(" "))).collect();
        let own = own.join(", ");
        if outside.is_empty() {
            own
        } else {
            format!("{outside}, {own}")
        }
    }
}

/// The tokens that a token stands for: itself if it has no braces, else one for each value of what is
/// in braces, the last braces changing fastest.
pub fn filled(token: &Token, scope: &Scope, round: &Rc<str>) -> Result<Vec<Token>, Error> {
    let mut texts = vec![String::new()];
    let mut rest = token.text.as_str();
    while let Some(brace) = rest.find(['{', '}']) {
        let (before, from) = rest.split_at(brace);
        let inside = from.strip_prefix('{').and_then(|inside| inside.split_once('}'));
        let Some((inside, behind)) = inside.filter(|(inside, _)| !inside.contains('{')) else {
            return Err(fault(token, round, "expected braces in pairs, found"));
        };
        let Some(values) = values(inside, scope) else {
            let message = format!("expected a list, a loop or a range above for `{{{inside}}}` in");
            return Err(fault(token, round, &message));
        };
        if texts.len() * values.len() > MAX_NAMES {
            let message = format!("expected at most {MAX_NAMES} names from");
            return Err(fault(token, round, &message));
        }
        let longer = texts
            .iter()
            .flat_map(|text| values.iter().map(move |value| format!("{text}{before}{value}")));
        texts = longer.collect();
        rest = behind;
    }
    Ok(texts.into_iter().map(|text| token.with_text(text + rest, round)).collect())
}

fn fault(token: &Token, round: &Rc<str>, message: &str) -> Error {
    let text = token.text.escape_debug();
    token.with_text(String::new(), round).error(format!("{message} `{text}`"))
}

fn values(inside: &str, scope: &Scope) -> Option<Vec<String>> {
    match scope.get(inside) {
        Some(values) => Some(values.to_vec()),
        None => range(inside),
    }
}

/// The numbers of a range `0..5`, both ends among them.
fn range(inside: &str) -> Option<Vec<String>> {
    let (first, last) = inside.split_once("..")?;
    let number = |text: &str| {
        let digits = text.bytes().all(|byte| byte.is_ascii_digit());
        text.parse::<u32>().ok().filter(|_| digits)
    };
    let (first, last) = (number(first)?, number(last)?);
    if last < first || (last - first) as usize >= MAX_NAMES {
        return None;
    }
    Some((first..=last).map(|number| number.to_string()).collect())
}
