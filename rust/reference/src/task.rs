/// A variable and a value in one number: variable × 64 + value.
#[derive(Clone, Copy, Debug, Default, PartialEq, Eq, PartialOrd, Ord)]
pub struct Fact(u16);

/// The number of possible facts.
pub const FACTS: usize = 4096;

impl Fact {
    pub const fn new(variable: usize, value: usize) -> Self {
        Fact((variable << 6 | value) as u16)
    }

    pub const fn from_index(index: usize) -> Self {
        Fact(index as u16)
    }

    #[inline(always)]
    pub const fn index(self) -> usize {
        self.0 as usize & (FACTS - 1)
    }

    #[inline(always)]
    pub const fn variable(self) -> usize {
        self.index() >> 6
    }

    #[inline(always)]
    pub const fn value(self) -> usize {
        self.0 as usize & 63
    }
}

/// The variables of some facts as a set.
#[inline(always)]
pub fn variables_of(facts: &[Fact]) -> u64 {
    facts.iter().fold(0, |set, fact| set | 1 << fact.variable())
}

#[derive(Clone, Copy, Debug, PartialEq, Eq)]
pub struct Variable {
    /// Count of values, 1 to 64.
    pub values: u8,
    pub black: bool,
    pub initial: u8,
    pub goal: Option<u8>,
}

/// Where an action's facts stand: preconditions, then effects.
#[derive(Clone, Copy, Debug, PartialEq, Eq)]
struct Span {
    cost: u16,
    preconditions: u8,
    effects: u8,
    first: u32,
}

#[derive(Clone, Copy, Debug)]
pub struct Action<'a> {
    pub cost: u16,
    pub preconditions: &'a [Fact],
    pub effects: &'a [Fact],
}

#[derive(Clone, Debug, Default, PartialEq, Eq)]
pub struct Task {
    pub variables: Vec<Variable>,
    spans: Vec<Span>,
    facts: Vec<Fact>,
}

impl Task {
    pub fn new(variables: Vec<Variable>) -> Self {
        Task { variables, ..Task::default() }
    }

    pub fn push(&mut self, cost: u16, preconditions: &[Fact], effects: &[Fact]) {
        self.open_action(self.facts.len(), cost, preconditions.len(), effects.len());
        self.facts.extend_from_slice(preconditions);
        self.facts.extend_from_slice(effects);
    }

    pub fn action_count(&self) -> usize {
        self.spans.len()
    }

    #[inline(always)]
    pub fn action(&self, number: usize) -> Action<'_> {
        let span = self.spans[number];
        let (needs, sets) = (span.preconditions as usize, span.effects as usize);
        let facts = &self.facts[span.first as usize..][..needs + sets];
        let (preconditions, effects) = facts.split_at(needs);
        Action { cost: span.cost, preconditions, effects }
    }

    #[inline(always)]
    pub fn preconditions(&self, number: usize) -> &[Fact] {
        let Span { first, preconditions, .. } = self.spans[number];
        &self.facts[first as usize..][..preconditions as usize]
    }

    #[inline(always)]
    pub fn effects(&self, number: usize) -> &[Fact] {
        let Span { first, preconditions, effects, .. } = self.spans[number];
        &self.facts[first as usize + preconditions as usize..][..effects as usize]
    }

    #[inline(always)]
    pub fn cost(&self, number: usize) -> u32 {
        self.spans[number].cost.into()
    }

    pub fn costs(&self) -> impl Iterator<Item = u16> + '_ {
        self.spans.iter().map(|span| span.cost)
    }

    /// The black variables as a set.
    pub fn black(&self) -> u64 {
        let numbered = self.variables.iter().enumerate();
        numbered.fold(0, |set, (v, variable)| set | u64::from(variable.black) << v)
    }

    pub fn actions(&self) -> impl ExactSizeIterator<Item = Action<'_>> + DoubleEndedIterator {
        (0..self.action_count()).map(|number| self.action(number))
    }

    /// The task without one action; later ones move down by one.
    pub fn without(&self, number: usize) -> Task {
        let kept: Vec<usize> = (0..self.action_count()).filter(|&a| a != number).collect();
        self.with_actions(&kept)
    }

    /// The task with the named actions, in that order.
    pub fn with_actions(&self, numbers: &[usize]) -> Task {
        let mut task = Task::new(self.variables.clone());
        for &number in numbers {
            let action = self.action(number);
            task.push(action.cost, action.preconditions, action.effects);
        }
        task
    }

    pub fn goals(&self) -> impl Iterator<Item = Fact> + '_ {
        let numbered = self.variables.iter().enumerate();
        numbered.filter_map(|(v, variable)| Some(Fact::new(v, variable.goal? as usize)))
    }

    #[inline(always)]
    fn open_action(&mut self, first: usize, cost: u16, preconditions: usize, effects: usize) {
        self.spans.push(Span {
            cost,
            preconditions: preconditions as u8,
            effects: effects as u8,
            first: first as u32,
        });
    }
}

/// Fills a task that may hold another one.
pub(crate) struct Loader<'a> {
    task: &'a mut Task,
    filled: usize,
}

impl<'a> Loader<'a> {
    pub fn new(task: &'a mut Task) -> Self {
        task.variables.clear();
        task.spans.clear();
        Loader { task, filled: 0 }
    }

    /// Facts are written over what is there; `finish` cuts the rest off.
    pub fn reserve(&mut self, actions: usize, most_facts: usize) {
        self.task.spans.reserve(actions);
        self.task.facts.resize(most_facts, Fact::default());
    }

    pub fn variable(&mut self, variable: Variable) {
        self.task.variables.push(variable);
    }

    #[inline(always)]
    pub fn action(&mut self, cost: u16, preconditions: usize, effects: usize) {
        self.task.open_action(self.filled, cost, preconditions, effects);
    }

    #[inline(always)]
    pub fn fact(&mut self, fact: Fact) {
        self.task.facts[self.filled] = fact;
        self.filled += 1;
    }

    #[inline(always)]
    pub fn facts(&mut self, four: [Fact; 4]) {
        self.task.facts[self.filled..][..4].copy_from_slice(&four);
        self.filled += 4;
    }

    pub fn finish(self) {
        self.task.facts.truncate(self.filled);
    }
}
