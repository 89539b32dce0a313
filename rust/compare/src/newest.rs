//! Newest values.

use compare::guard::Guarded;
use compare::lent::Lent;
use compare::lists;
use compare::suite::{hex, list_hex, same, same_lent, Options};
use generate::{damage, mixture, records, Random};
use mardiskos::lent::NewestValues;
use reference::{entry, examples, record, Refusal, Task};

const COUNT: usize = 100_000;
const MOST_ENTRIES: usize = 70_000;
const MOST_BYTES: usize = 60_000;

pub fn run(options: &Options) -> Result<String, String> {
    let mut suite = Newest {
        random: Random::new(options.seed),
        record: Guarded::new(MOST_BYTES),
        list: Guarded::new(MOST_ENTRIES),
        lent: Lent::new(MOST_ENTRIES),
        calls: 0,
        refused: 0,
        stopped: 0,
        unreal: 0,
    };
    suite.examples()?;
    let records = options.count.unwrap_or(COUNT);
    for _ in 0..records {
        suite.drawn()?;
    }
    let Newest { calls, refused, stopped, unreal, .. } = suite;
    let kinds = format!("{refused} refused, {stopped} stop red-black, {unreal} earlier for real");
    Ok(format!("{records} records, {calls} calls ({kinds})"))
}

struct Newest {
    random: Random,
    record: Guarded<u8>,
    list: Guarded<u16>,
    lent: Lent<u16>,
    calls: usize,
    refused: usize,
    stopped: usize,
    unreal: usize,
}

impl Newest {
    /// The store examples: every short list with a list for the values that is too short, just long
    /// enough, and longer.
    fn examples(&mut self) -> Result<(), String> {
        for (_, bytes) in examples::files() {
            let task = record::read(&bytes).unwrap_or_default();
            let variables = task.variables.len();
            for list in lists::every_short(&task) {
                for len in variables.saturating_sub(1)..variables + 2 {
                    self.newest(&bytes, &list, len)?;
                }
            }
        }
        Ok(())
    }

    fn drawn(&mut self) -> Result<(), String> {
        let (task, bytes) = self.task();
        for _ in 0..4 {
            let list = self.drawn_list(&task, &bytes);
            let len = self.length(task.variables.len());
            self.newest(&bytes, &list, len)?;
        }
        Ok(())
    }

    /// A task and its record, one in twenty damaged; in every second task actions set what they need.
    fn task(&mut self) -> (Task, Vec<u8>) {
        let random = &mut self.random;
        let mut task = mixture::task(random);
        if random.chance(1, 2) {
            task = records::setting_needs(random, task);
        }
        let mut bytes = record::write(&task);
        if random.chance(1, 20) {
            damage::any(random, &mut bytes);
            task = record::read(&bytes).unwrap_or_default();
        }
        (task, bytes)
    }

    fn drawn_list(&mut self, task: &Task, bytes: &[u8]) -> Vec<u16> {
        match self.random.below(2) {
            0 => lists::stopping(&mut self.random, task),
            _ => lists::judged(&mut self.random, task, bytes),
        }
    }

    /// How many entries are lent for the values: mostly as many as there are variables or a few more, and sometimes far
    /// more than a list of actions may have.
    fn length(&mut self, variables: usize) -> usize {
        let random = &mut self.random;
        if random.chance(1, 1000) {
            return random.within(32_760, MOST_ENTRIES);
        }
        match random.below(8) {
            0 => random.below(variables + 1),
            1 => variables.saturating_sub(1),
            2 | 3 => variables,
            4 => variables + 1,
            5 => 64 + random.below(3),
            _ => variables + random.below(9),
        }
    }

    fn newest(&mut self, bytes: &[u8], list: &[u16], len: usize) -> Result<(), String> {
        self.lent.refill(&mut self.random, len);
        let (record, actions) = (self.record.copy(bytes), self.list.copy(list));
        let library = mardiskos::lent::newest(record, actions, self.lent.library());
        let reference = newest_values(entry::newest(bytes, list, self.lent.reference()));
        self.count(reference, list.len());
        let (record, actions) = (|| hex(bytes), || list_hex(list));
        let input =
            || format!("newest\nrecord: {}\nlist: {}\nlent: {len} entries", record(), actions());
        same(library, reference, input)?;
        same_lent("values list", self.lent.difference(), input)
    }

    fn count(&mut self, answer: NewestValues, entries: usize) {
        self.calls += 1;
        self.refused += usize::from(answer.code != 0);
        self.stopped += usize::from(answer.code == 0 && (answer.steps as usize) < entries);
        self.unreal += usize::from(answer.runs < answer.steps);
    }
}

fn newest_values(answer: Result<entry::NewestResult, Refusal>) -> NewestValues {
    match answer {
        Err(refusal) => NewestValues { code: refusal.code(), ..NewestValues::default() },
        Ok(result) => NewestValues { code: 0, steps: result.steps, runs: result.runs },
    }
}
