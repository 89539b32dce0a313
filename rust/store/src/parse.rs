//! The text form of a store, read line by line.

use reference::record::{MAX_ACTIONS, MAX_VARIABLES};
use reference::Fact;

use crate::store::{Action, Store, Variable};
use crate::template::expand;
use crate::token::{Error, Line, Position, Token};

const MAX_VALUES: usize = 64;
const MAX_FACTS: usize = 15;
const MAX_COST: usize = 65_535;

pub fn parse(text: &str) -> Result<Store, Error> {
    let mut parser = Parser { store: Store::default(), block: Block::None };
    expand(text, &mut |line| parser.line(line))?;
    parser.finish(Position::behind(text))
}

/// What `initial`, `goal`, `needs` and `sets` belong to.
enum Block {
    None,
    Variable { name: Token, initial: bool },
    Action,
}

struct Parser {
    store: Store,
    block: Block,
}

impl Parser {
    fn line(&mut self, mut line: Line) -> Result<(), Error> {
        let Some(keyword) = line.token() else { return Ok(()) };
        match keyword.text.as_str() {
            "variable" => self.variable(keyword, &mut line)?,
            "initial" => self.initial(keyword, &mut line)?,
            "goal" => self.goal(keyword, &mut line)?,
            "action" => self.action(keyword, &mut line)?,
            "needs" | "sets" => self.facts(keyword, &mut line)?,
            _ => return Err(keyword.instead_of(self.expected())),
        }
        line.end()
    }

    fn expected(&self) -> &'static str {
        match self.block {
            Block::None => "`variable`, `action`, `list` or `for`",
            Block::Variable { .. } => "`initial`, `goal`, `variable` or `action`",
            Block::Action => "`needs`, `sets`, `action` or `variable`",
        }
    }

    fn finish(self, end: Position) -> Result<Store, Error> {
        self.check_initial()?;
        if self.store.variables.is_empty() {
            return Err(Error::new(end, "expected at least one variable, found end of text"));
        }
        Ok(self.store)
    }

    fn check_initial(&self) -> Result<(), Error> {
        match &self.block {
            Block::Variable { name, initial: false } => {
                Err(name.error(format!("expected an `initial` line for variable `{}`", name.text)))
            }
            _ => Ok(()),
        }
    }

    fn variable(&mut self, keyword: Token, line: &mut Line) -> Result<(), Error> {
        self.check_initial()?;
        check_count(self.store.variables.len(), MAX_VARIABLES, "variables", &keyword)?;
        let name = line.name("a variable name")?;
        if self.store.variable(&name.text).is_some() {
            return Err(name.twice("a new variable name"));
        }
        let black = colour(line)?;
        line.pass(":")?;
        let values = values(line)?;
        let variable = Variable { name: name.text.clone(), values, black, initial: 0, goal: None };
        self.store.variables.push(variable);
        self.block = Block::Variable { name, initial: false };
        Ok(())
    }

    fn initial(&mut self, keyword: Token, line: &mut Line) -> Result<(), Error> {
        let (Block::Variable { initial, .. }, Some(variable)) =
            (&mut self.block, self.store.variables.last_mut())
        else {
            return Err(keyword.instead_of(self.expected()));
        };
        if *initial {
            return Err(keyword.twice("one initial value"));
        }
        *initial = true;
        variable.initial = value_of(variable, line)?;
        Ok(())
    }

    fn goal(&mut self, keyword: Token, line: &mut Line) -> Result<(), Error> {
        let (Block::Variable { .. }, Some(variable)) =
            (&self.block, self.store.variables.last_mut())
        else {
            return Err(keyword.instead_of(self.expected()));
        };
        if variable.goal.is_some() {
            return Err(keyword.twice("one goal value"));
        }
        variable.goal = Some(value_of(variable, line)?);
        Ok(())
    }

    fn action(&mut self, keyword: Token, line: &mut Line) -> Result<(), Error> {
        self.check_initial()?;
        check_count(self.store.actions.len(), MAX_ACTIONS, "actions", &keyword)?;
        let name = line.name("an action name")?;
        if self.store.actions.iter().any(|action| action.name == name.text) {
            return Err(name.twice("a new action name"));
        }
        line.pass("cost")?;
        let cost = line.number("a cost", MAX_COST)? as u16;
        let name = name.text;
        self.store.actions.push(Action { name, cost, needs: Vec::new(), sets: Vec::new() });
        self.block = Block::Action;
        Ok(())
    }

    /// A `needs` or `sets` line adds its facts to the list, which stays in rising order.
    fn facts(&mut self, keyword: Token, line: &mut Line) -> Result<(), Error> {
        let Store { variables, actions } = &mut self.store;
        let (Block::Action, Some(action)) = (&self.block, actions.last_mut()) else {
            return Err(keyword.instead_of(self.expected()));
        };
        let list = if keyword.text == "needs" { &mut action.needs } else { &mut action.sets };
        loop {
            list.push(fact(variables, list, line)?);
            if line.at_end() {
                break;
            }
            line.pass(",")?;
        }
        list.sort();
        Ok(())
    }
}

fn check_count(count: usize, limit: usize, what: &str, found: &Token) -> Result<(), Error> {
    if count < limit {
        return Ok(());
    }
    Err(found.error(format!("expected at most {limit} {what}, found one more")))
}

fn colour(line: &mut Line) -> Result<bool, Error> {
    let colour = line.name("`black` or `red`")?;
    match colour.text.as_str() {
        "black" => Ok(true),
        "red" => Ok(false),
        _ => Err(colour.instead_of("`black` or `red`")),
    }
}

fn values(line: &mut Line) -> Result<Vec<String>, Error> {
    let mut values = Vec::new();
    while values.is_empty() || !line.at_end() {
        let value = line.name("a value name")?;
        check_count(values.len(), MAX_VALUES, "values", &value)?;
        if values.contains(&value.text) {
            return Err(value.twice("a new value name"));
        }
        values.push(value.text);
    }
    Ok(values)
}

fn value_of(variable: &Variable, line: &mut Line) -> Result<usize, Error> {
    let expected = format!("a value of `{}` ({})", variable.name, variable.values.join(", "));
    let value = line.name(&expected)?;
    let known = variable.values.iter().position(|name| *name == value.text);
    known.ok_or_else(|| value.instead_of(&expected))
}

fn fact(variables: &[Variable], list: &[Fact], line: &mut Line) -> Result<Fact, Error> {
    let expected = "the name of a variable above";
    let name = line.name(expected)?;
    let known = variables.iter().position(|variable| variable.name == name.text);
    let variable = known.ok_or_else(|| name.instead_of(expected))?;
    if list.iter().any(|fact| fact.variable() == variable) {
        return Err(name.twice("a variable once in a list"));
    }
    check_count(list.len(), MAX_FACTS, "facts in a list", &name)?;
    line.pass("=")?;
    Ok(Fact::new(variable, value_of(&variables[variable], line)?))
}
