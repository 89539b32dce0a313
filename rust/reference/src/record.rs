//! The record: checked, read and written (SPECIFICATION, The record).

use crate::bits::{BitWriter, Bits};
use crate::refusal::Refusal;
use crate::task::{Action, Fact, Loader, Task, Variable, FACTS};

pub const MAX_VARIABLES: usize = 64;
pub const MAX_ACTIONS: usize = 1024;
pub const MAX_BYTES: usize = 49_315;

const HEADER_BITS: usize = 22;
const VARIABLE_BITS: usize = 20;
const ACTION_BITS: usize = 24;
const FACT_BITS: usize = 12;

pub fn check(bytes: &[u8]) -> Result<(), Refusal> {
    scan(bytes, &mut ())
}

pub fn read(bytes: &[u8]) -> Result<Task, Refusal> {
    let mut task = Task::default();
    load(bytes, &mut task)?;
    Ok(task)
}

/// Reads a record into a task that may hold another one, in one pass with the check. After a
/// refusal the task means nothing.
pub fn load(bytes: &[u8], task: &mut Task) -> Result<(), Refusal> {
    let mut loader = Loader::new(task);
    scan(bytes, &mut loader)?;
    loader.finish();
    Ok(())
}

/// Packs a task; what does not fit its field is cut, so that faulty records can be written too.
pub fn write(task: &Task) -> Vec<u8> {
    let facts: usize = task.actions().map(|a| a.preconditions.len() + a.effects.len()).sum();
    let heads =
        HEADER_BITS + VARIABLE_BITS * task.variables.len() + ACTION_BITS * task.action_count();
    let mut bytes = vec![0; (heads + FACT_BITS * facts).div_ceil(8)];
    let mut out = BitWriter::new(&mut bytes);
    out.put(1, 4);
    out.put(task.variables.len() as u64, 7);
    out.put(task.action_count() as u64, 11);
    task.variables.iter().for_each(|&variable| write_variable(&mut out, variable));
    task.actions().for_each(|action| write_action(&mut out, action));
    out.finish();
    bytes
}

fn write_variable(out: &mut BitWriter, variable: Variable) {
    out.put(u64::from(variable.values.wrapping_sub(1)), 6);
    out.put(u64::from(variable.black), 1);
    out.put(u64::from(variable.initial), 6);
    out.put(u64::from(variable.goal.is_some()), 1);
    out.put(u64::from(variable.goal.unwrap_or(0)), 6);
}

fn write_action(out: &mut BitWriter, action: Action) {
    out.put(u64::from(action.cost), 16);
    out.put(action.preconditions.len() as u64, 4);
    out.put(action.effects.len() as u64, 4);
    for fact in action.preconditions.iter().chain(action.effects) {
        out.put(fact.index() as u64, FACT_BITS);
    }
}

/// Takes the fields of a record as they are read.
trait Sink {
    fn reserve(&mut self, actions: usize, most_facts: usize);
    fn variable(&mut self, variable: Variable);
    fn action(&mut self, cost: u16, preconditions: usize, effects: usize);
    fn fact(&mut self, fact: Fact);
    fn facts(&mut self, four: [Fact; 4]);
}

impl Sink for () {
    fn reserve(&mut self, _: usize, _: usize) {}
    fn variable(&mut self, _: Variable) {}
    fn action(&mut self, _: u16, _: usize, _: usize) {}
    fn fact(&mut self, _: Fact) {}
    fn facts(&mut self, _: [Fact; 4]) {}
}

impl Sink for Loader<'_> {
    fn reserve(&mut self, actions: usize, most_facts: usize) {
        Loader::reserve(self, actions, most_facts);
    }

    fn variable(&mut self, variable: Variable) {
        Loader::variable(self, variable);
    }

    #[inline(always)]
    fn action(&mut self, cost: u16, preconditions: usize, effects: usize) {
        Loader::action(self, cost, preconditions, effects);
    }

    #[inline(always)]
    fn fact(&mut self, fact: Fact) {
        Loader::fact(self, fact);
    }

    #[inline(always)]
    fn facts(&mut self, four: [Fact; 4]) {
        Loader::facts(self, four);
    }
}

fn scan<S: Sink>(bytes: &[u8], sink: &mut S) -> Result<(), Refusal> {
    let mut scanner = Scanner::new(bytes, sink);
    let (variables, actions) = scanner.header()?;
    for v in 0..variables {
        scanner.variable(v)?;
    }
    for _ in 0..actions {
        scanner.action(variables)?;
    }
    refuse_unless(scanner.bits.ends_at(scanner.at), 6, scanner.at)
}

fn refuse_unless(met: bool, number: u8, place: usize) -> Result<(), Refusal> {
    if met {
        Ok(())
    } else {
        Err(Refusal::new(number, place))
    }
}

struct Scanner<'a, S> {
    bits: Bits<'a>,
    end: usize,
    at: usize,
    /// Count of values of each variable.
    values: [u8; MAX_VARIABLES],
    sink: &'a mut S,
}

impl<'a, S: Sink> Scanner<'a, S> {
    fn new(bytes: &'a [u8], sink: &'a mut S) -> Self {
        let bits = Bits::new(bytes);
        Scanner { bits, end: bits.len(), at: 0, values: [0; MAX_VARIABLES], sink }
    }

    /// The next field, or 1 at its first bit.
    fn field(&mut self, width: usize) -> Result<usize, Refusal> {
        refuse_unless(self.at + width <= self.end, 1, self.at)?;
        let field = self.bits.field(self.at, width);
        self.at += width;
        Ok(field)
    }

    fn header(&mut self) -> Result<(usize, usize), Refusal> {
        refuse_unless(self.field(4)? == 1, 2, 0)?;
        let variables = self.field(7)?;
        refuse_unless((1..=MAX_VARIABLES).contains(&variables), 3, 4)?;
        let actions = self.field(11)?;
        refuse_unless(actions <= MAX_ACTIONS, 3, 11)?;
        debug_assert_eq!(self.at, HEADER_BITS);
        let most_facts = (self.end / FACT_BITS).min(30 * actions);
        self.sink.reserve(actions, most_facts);
        Ok((variables, actions))
    }

    fn variable(&mut self, number: usize) -> Result<(), Refusal> {
        let first = self.at;
        if first + VARIABLE_BITS > self.end {
            return Err(self.cut_variable());
        }
        let field = self.bits.field(first, VARIABLE_BITS);
        let (values, black, initial) = ((field >> 14) + 1, field >> 13 & 1, field >> 7 & 63);
        let (present, goal) = (field >> 6 & 1 == 1, field & 63);
        refuse_unless(initial < values, 4, first + 7)?;
        let limit = if present { values } else { 1 };
        refuse_unless(goal < limit, 4, first + 14)?;
        self.at += VARIABLE_BITS;
        self.values[number] = values as u8;
        self.sink.variable(Variable {
            values: values as u8,
            black: black == 1,
            initial: initial as u8,
            goal: present.then_some(goal as u8),
        });
        Ok(())
    }

    /// The refusal for a variable that is cut short, unless its initial value is wrong.
    #[cold]
    fn cut_variable(&mut self) -> Refusal {
        let first = self.at;
        let mut fields = || {
            let values = self.field(6)? + 1;
            self.field(1)?;
            let initial = self.field(6)?;
            refuse_unless(initial < values, 4, first + 7)?;
            self.field(1)?;
            self.field(6)
        };
        let answer: Result<usize, Refusal> = fields();
        answer.unwrap_err()
    }

    #[inline(always)]
    fn action(&mut self, variables: usize) -> Result<(), Refusal> {
        if self.at + ACTION_BITS > self.end {
            return Err(self.cut_action());
        }
        let head = self.bits.field(self.at, ACTION_BITS);
        self.at += ACTION_BITS;
        let (preconditions, effects) = (head >> 4 & 15, head & 15);
        self.sink.action((head >> 8) as u16, preconditions, effects);
        self.facts(preconditions, variables)?;
        self.facts(effects, variables)
    }

    /// The refusal for an action whose head is cut short.
    #[cold]
    fn cut_action(&mut self) -> Refusal {
        let fields = [16, 4, 4].map(|width| self.field(width));
        fields.into_iter().find_map(Result::err).unwrap()
    }

    /// A list of facts: four to a load as long as they are sound, then one by one.
    #[inline(always)]
    fn facts(&mut self, count: usize, variables: usize) -> Result<(), Refusal> {
        let last = self.at + FACT_BITS * count;
        let mut at = self.at;
        let mut lowest = 0;
        while at + 4 * FACT_BITS <= last.min(self.end) {
            let Some(next) = self.four_facts(at, lowest) else { break };
            lowest = next;
            at += 4 * FACT_BITS;
        }
        let window = self.bits.window(at);
        for shift in [52, 40, 28, 16] {
            if at == last {
                break;
            }
            let fact = Fact::from_index((window >> shift) as usize % FACTS);
            if at + FACT_BITS > self.end || !self.sound(fact, lowest) {
                self.at = at;
                return Err(self.faulty_fact(lowest, variables));
            }
            self.sink.fact(fact);
            lowest = fact.variable() + 1;
            at += FACT_BITS;
        }
        self.at = at;
        Ok(())
    }

    /// The lowest variable that may follow, if the four facts at `at` are sound.
    #[inline(always)]
    fn four_facts(&mut self, at: usize, lowest: usize) -> Option<usize> {
        let window = self.bits.window(at);
        let facts =
            [52, 40, 28, 16].map(|shift| Fact::from_index((window >> shift) as usize % FACTS));
        let lows =
            [lowest, facts[0].variable() + 1, facts[1].variable() + 1, facts[2].variable() + 1];
        let sound = (0..4).fold(true, |sound, i| sound & self.sound(facts[i], lows[i]));
        if !sound {
            return None;
        }
        self.sink.facts(facts);
        Some(facts[3].variable() + 1)
    }

    /// A variable not below V has a count of 0 values here.
    #[inline(always)]
    fn sound(&self, fact: Fact, lowest: usize) -> bool {
        (lowest <= fact.variable()) & (fact.value() < self.values[fact.variable()] as usize)
    }

    /// The refusal for a fact that is cut short or wrong, field by field.
    #[cold]
    fn faulty_fact(&mut self, lowest: usize, variables: usize) -> Refusal {
        let first = self.at;
        let mut fact = || {
            let variable = self.field(6)?;
            refuse_unless((lowest..variables).contains(&variable), 5, first)?;
            self.field(6)?;
            Err(Refusal::new(4, first + 6))
        };
        let answer: Result<(), Refusal> = fact();
        answer.unwrap_err()
    }
}

#[cfg(test)]
mod tests {
    use super::*;
    use crate::examples;

    fn refusal(bytes: &[u8]) -> (u8, u32) {
        let refusal = check(bytes).unwrap_err();
        assert_eq!(read(bytes).unwrap_err(), refusal);
        (refusal.number, refusal.place)
    }

    fn with_field(mut bytes: Vec<u8>, at: usize, width: usize, value: usize) -> Vec<u8> {
        for i in 0..width {
            let (byte, bit) = ((at + i) / 8, 7 - (at + i) % 8);
            let set = value >> (width - 1 - i) & 1;
            bytes[byte] = bytes[byte] & !(1 << bit) | (set as u8) << bit;
        }
        bytes
    }

    #[test]
    fn two_shelves_has_35_bytes() {
        let bytes = write(&examples::two_shelves());
        assert_eq!(bytes.len(), 35);
        assert_eq!(read(&bytes), Ok(examples::two_shelves()));
        assert!(Bits::new(&bytes).ends_at(278));
    }

    #[test]
    fn no_bytes() {
        assert_eq!(refusal(&[]), (1, 0));
    }

    #[test]
    fn examples_are_accepted_or_out_of_range() {
        for (name, bytes) in examples::files() {
            let expected = match name {
                "no-bytes" => Err(Refusal::new(1, 0)),
                "variables-65" => Err(Refusal::new(3, 4)),
                "actions-1025" => Err(Refusal::new(3, 11)),
                "repeated-variable" => Err(Refusal::new(5, 78)),
                _ => Ok(()),
            };
            assert_eq!(check(&bytes), expected, "{name}");
        }
    }

    #[test]
    fn longest_record() {
        let task = examples::sized(64, 1024, 15);
        let bytes = write(&task);
        assert_eq!(bytes.len(), MAX_BYTES);
        assert_eq!(read(&bytes), Ok(task));
    }

    #[test]
    fn header_ranges() {
        let bytes = write(&examples::two_shelves());
        assert_eq!(refusal(&with_field(bytes.clone(), 0, 4, 2)), (2, 0));
        assert_eq!(refusal(&with_field(bytes.clone(), 4, 7, 0)), (3, 4));
        assert_eq!(refusal(&with_field(bytes, 11, 11, 2047)), (3, 11));
    }

    #[test]
    fn values_below_their_counts() {
        let bytes = write(&examples::two_shelves());
        assert_eq!(refusal(&with_field(bytes.clone(), 22 + 7, 6, 2)), (4, 29));
        assert_eq!(refusal(&with_field(bytes.clone(), 22 + 14, 6, 2)), (4, 36));
        let no_goal = with_field(bytes.clone(), 22 + 13, 1, 0);
        assert_eq!(check(&no_goal), Ok(()));
        assert_eq!(refusal(&with_field(no_goal, 22 + 14, 6, 1)), (4, 36));
        assert_eq!(refusal(&with_field(bytes, 62 + 24 + 6, 6, 2)), (4, 92));
    }

    #[test]
    fn variables_below_v_and_rising() {
        let bytes = write(&examples::two_shelves());
        assert_eq!(refusal(&with_field(bytes.clone(), 62 + 24, 6, 2)), (5, 86));
        let second = 62 + 48 + 48 + 24 + 12;
        assert_eq!(check(&with_field(bytes.clone(), second, 6, 1)), Ok(()));
        assert_eq!(refusal(&with_field(bytes, second, 6, 0)), (5, second as u32));
    }

    #[test]
    fn padding_and_bytes_left_over() {
        let mut bytes = write(&examples::two_shelves());
        assert_eq!(refusal(&with_field(bytes.clone(), 279, 1, 1)), (6, 278));
        bytes.push(0);
        assert_eq!(refusal(&bytes), (6, 278));
    }

    #[test]
    fn every_truncation_ends_in_its_field() {
        let bytes = write(&examples::two_shelves());
        let mut starts = vec![0, 4, 11];
        for v in 0..2 {
            starts.extend([0, 6, 7, 13, 14].map(|offset| 22 + 20 * v + offset));
        }
        let mut at = 62;
        for facts in [2, 2, 3, 3] {
            starts.extend([at, at + 16, at + 20]);
            starts.extend((0..2 * facts).map(|half| at + 24 + 6 * half));
            at += 24 + 12 * facts;
        }
        starts.push(at);
        for len in 0..bytes.len() {
            let cut = starts.windows(2).find(|field| 8 * len < field[1]).unwrap()[0];
            assert_eq!(refusal(&bytes[..len]), (1, cut as u32));
        }
    }
}
