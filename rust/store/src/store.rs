//! A store: a planning task with names.

use reference::{Fact, Refusal, Task};

#[derive(Clone, Debug, PartialEq, Eq)]
pub struct Variable {
    pub name: String,
    pub values: Vec<String>,
    pub black: bool,
    pub initial: usize,
    pub goal: Option<usize>,
}

impl Variable {
    pub fn colour(&self) -> &'static str {
        if self.black {
            "black"
        } else {
            "red"
        }
    }

    fn without_names(&self) -> reference::Variable {
        reference::Variable {
            values: self.values.len() as u8,
            black: self.black,
            initial: self.initial as u8,
            goal: self.goal.map(|value| value as u8),
        }
    }

    fn numbered(number: usize, variable: &reference::Variable) -> Self {
        Variable {
            name: format!("v{number}"),
            values: (0..variable.values).map(|value| format!("v{number}.{value}")).collect(),
            black: variable.black,
            initial: variable.initial.into(),
            goal: variable.goal.map(usize::from),
        }
    }
}

/// Preconditions and effects rise by variable.
#[derive(Clone, Debug, PartialEq, Eq)]
pub struct Action {
    pub name: String,
    pub cost: u16,
    pub needs: Vec<Fact>,
    pub sets: Vec<Fact>,
}

impl Action {
    /// The value of a variable that the action needs.
    pub fn needed(&self, variable: usize) -> Option<usize> {
        value_in(&self.needs, variable)
    }

    /// The value of a variable that the action sets.
    pub fn set(&self, variable: usize) -> Option<usize> {
        value_in(&self.sets, variable)
    }

    /// The variables that it changes: a fact that it needs and sets again is no change.
    pub fn changed(&self) -> impl Iterator<Item = usize> + Clone + '_ {
        let changes = self.sets.iter().filter(|fact| !self.needs.contains(fact));
        changes.map(|fact| fact.variable())
    }
}

fn value_in(facts: &[Fact], variable: usize) -> Option<usize> {
    facts.iter().find(|fact| fact.variable() == variable).map(|fact| fact.value())
}

#[derive(Clone, Debug, Default, PartialEq, Eq)]
pub struct Store {
    pub variables: Vec<Variable>,
    pub actions: Vec<Action>,
}

impl Store {
    pub fn task(&self) -> Task {
        let mut task = Task::new(self.variables.iter().map(Variable::without_names).collect());
        for action in &self.actions {
            task.push(action.cost, &action.needs, &action.sets);
        }
        task
    }

    pub fn record(&self) -> Vec<u8> {
        reference::record::write(&self.task())
    }

    /// A record's store, with made-up names: v0, v0.0, a0 and so on.
    pub fn from_record(record: &[u8]) -> Result<Store, Refusal> {
        let task = reference::record::read(record)?;
        let variables = task.variables.iter().enumerate();
        let actions = task.actions().enumerate().map(|(number, action)| Action {
            name: format!("a{number}"),
            cost: action.cost,
            needs: action.preconditions.to_vec(),
            sets: action.effects.to_vec(),
        });
        Ok(Store {
            variables: variables.map(|(v, variable)| Variable::numbered(v, variable)).collect(),
            actions: actions.collect(),
        })
    }

    pub fn variable(&self, name: &str) -> Option<usize> {
        self.variables.iter().position(|variable| variable.name == name)
    }

    pub fn action(&self, name: &str) -> Option<usize> {
        self.actions.iter().position(|action| action.name == name)
    }

    pub fn goals(&self) -> impl Iterator<Item = Fact> + '_ {
        let numbered = self.variables.iter().enumerate();
        numbered.filter_map(|(v, variable)| Some(Fact::new(v, variable.goal?)))
    }

    /// Facts with their names, separated by commas.
    pub fn facts(&self, facts: &[Fact]) -> String {
        let named: Vec<String> = facts.iter().map(|&fact| self.fact(fact)).collect();
        named.join(", ")
    }

    pub fn fact(&self, fact: Fact) -> String {
        let variable = &self.variables[fact.variable()];
        format!("{} = {}", variable.name, variable.values[fact.value()])
    }
}
