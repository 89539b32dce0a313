//! Templates: `list` lines and `for` blocks, written out line by line in the order of the text.

use std::rc::Rc;

use crate::braces::{filled, Scope};
use crate::token::{lines, Error, Line, Token};

const MAX_DEPTH: usize = 8;
const MAX_ROUNDS: usize = 100_000;

/// Hands on the lines of a text, those of a `for` block once a round, with everything in braces filled in.
pub fn expand(text: &str, sink: &mut dyn FnMut(Line) -> Result<(), Error>) -> Result<(), Error> {
    let items = items(&mut lines(text), &mut Vec::new())?;
    Writer { scope: Scope::default(), round: "".into(), rounds: 0, sink }.items(&items)
}

enum Item {
    Line(Line),
    Loop(Loop),
}

struct Loop {
    keyword: Token,
    head: Line,
    body: Vec<Item>,
}

/// The lines up to the `end` of the innermost open `for`, or up to the end of the text.
fn items(lines: &mut dyn Iterator<Item = Line>, open: &mut Vec<Token>) -> Result<Vec<Item>, Error> {
    let mut items = Vec::new();
    while let Some(mut line) = lines.next() {
        match line.peek().map(|token| token.text.as_str()) {
            Some("for") => items.push(Item::Loop(block(line, lines, open)?)),
            Some("end") => {
                let keyword = line.name("`end`")?;
                line.end()?;
                open.pop().ok_or_else(|| keyword.instead_of("`end` only behind a `for`"))?;
                return Ok(items);
            }
            _ => items.push(Item::Line(line)),
        }
    }
    match open.last() {
        Some(keyword) => Err(keyword.error("expected an `end` for this `for`, found end of text")),
        None => Ok(items),
    }
}

fn block(
    mut head: Line,
    lines: &mut dyn Iterator<Item = Line>,
    open: &mut Vec<Token>,
) -> Result<Loop, Error> {
    let keyword = head.name("`for`")?;
    if open.len() == MAX_DEPTH {
        let message = format!("expected at most {MAX_DEPTH} `for` inside each other");
        return Err(keyword.error(message));
    }
    open.push(keyword.clone());
    let body = items(lines, open)?;
    Ok(Loop { keyword, head, body })
}

struct Writer<'a> {
    scope: Scope,
    /// The loops' values now, in words.
    round: Rc<str>,
    rounds: usize,
    sink: &'a mut dyn FnMut(Line) -> Result<(), Error>,
}

impl Writer<'_> {
    fn items(&mut self, items: &[Item]) -> Result<(), Error> {
        items.iter().try_for_each(|item| match item {
            Item::Line(line) => self.line(line),
            Item::Loop(block) => self.block(block),
        })
    }

    fn line(&mut self, line: &Line) -> Result<(), Error> {
        let mut line = self.filled(line)?;
        match line.peek() {
            Some(token) if token.text == "list" => self.list(&mut line),
            _ => (self.sink)(line),
        }
    }

    fn filled(&self, line: &Line) -> Result<Line, Error> {
        let filled = line.rest().iter().map(|token| filled(token, &self.scope, &self.round));
        let tokens: Result<Vec<Vec<Token>>, Error> = filled.collect();
        Ok(Line::new(tokens?.concat(), line.end_position(), &self.round))
    }

    fn list(&mut self, line: &mut Line) -> Result<(), Error> {
        let keyword = line.name("`list`")?;
        if !self.round.is_empty() {
            return Err(keyword.error("expected `list` outside of `for`"));
        }
        let name = self.new_name(line)?;
        line.pass(":")?;
        let mut values = vec![line.name("a name for the list")?.text];
        while !line.at_end() {
            values.push(line.name("a name for the list")?.text);
        }
        self.scope.push(name.text, values);
        Ok(())
    }

    fn new_name(&self, line: &mut Line) -> Result<Token, Error> {
        let name = line.name("a name to put into braces")?;
        if self.scope.has(&name.text) {
            return Err(name.twice("a new name"));
        }
        Ok(name)
    }

    fn block(&mut self, block: &Loop) -> Result<(), Error> {
        let mut head = self.filled(&block.head)?;
        let names = self.names(&mut head)?;
        let (depth, round) = (self.scope.len(), self.round.clone());
        for values in rounds(&mut head, names.len())? {
            self.rounds += 1;
            if self.rounds > MAX_ROUNDS {
                let message = format!("expected at most {MAX_ROUNDS} rounds in all");
                return Err(block.keyword.error(message));
            }
            for (name, value) in names.iter().zip(values) {
                self.scope.push(name.clone(), vec![value]);
            }
            self.round = self.scope.words(&round, depth).into();
            self.items(&block.body)?;
            self.scope.truncate(depth);
        }
        self.round = round;
        Ok(())
    }

    /// The names of a loop, up to `in`.
    fn names(&self, head: &mut Line) -> Result<Vec<String>, Error> {
        let mut names = vec![self.new_name(head)?.text];
        while head.peek().is_some_and(|token| token.text != "in") {
            let name = self.new_name(head)?;
            if names.contains(&name.text) {
                return Err(name.twice("a new name"));
            }
            names.push(name.text);
        }
        head.pass("in")?;
        Ok(names)
    }
}

/// The values of each round: commas part the rounds of several names; each value of one name is a round.
fn rounds(head: &mut Line, names: usize) -> Result<Vec<Vec<String>>, Error> {
    let mut rounds: Vec<Vec<String>> = Vec::new();
    loop {
        let first = head.name("a value")?;
        let mut group = vec![first.text.clone()];
        while head.peek().is_some_and(|token| token.text != ",") {
            group.push(head.name("a value")?.text);
        }
        if names == 1 {
            rounds.extend(group.into_iter().map(|value| vec![value]));
        } else if group.len() == names {
            rounds.push(group);
        } else {
            let found = group.len();
            return Err(first.error(format!("expected {names} values in a round, found {found}")));
        }
        if head.at_end() {
            return Ok(rounds);
        }
        head.pass(",")?;
    }
}
