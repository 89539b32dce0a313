//! Judging, the forward run and the relaxed plan.

use compare::guard::Guarded;
use compare::lent::Lent;
use compare::lists;
use compare::suite::{hex, list_hex, same, same_lent, Options};
use generate::{mixture, Random};
use mardiskos::lent::{ForwardRun, Judgement, RelaxedPlan};
use reference::{entry, examples, record, Refusal};

const COUNT: usize = 100_000;
const MOST_ENTRIES: usize = 41_000;
const MOST_BYTES: usize = 60_000;

pub fn run(options: &Options) -> Result<String, String> {
    let mut runs = Runs {
        random: Random::new(options.seed),
        record: Guarded::new(MOST_BYTES),
        list: Guarded::new(MOST_ENTRIES),
        lent: Lent::new(MOST_ENTRIES),
        calls: 0,
    };
    runs.examples()?;
    let records = options.count.unwrap_or(COUNT);
    for _ in 0..records {
        let bytes = mixture::record(&mut runs.random);
        runs.judge_several(&bytes)?;
        runs.forward_around(&bytes)?;
        runs.relax_around(&bytes)?;
    }
    Ok(format!("{records} records, {} calls", runs.calls))
}

struct Runs {
    random: Random,
    record: Guarded<u8>,
    list: Guarded<u16>,
    lent: Lent<u16>,
    calls: usize,
}

impl Runs {
    /// The store examples: every short list judged, every short length lent.
    fn examples(&mut self) -> Result<(), String> {
        for (_, bytes) in examples::files() {
            let task = record::read(&bytes).unwrap_or_default();
            lists::every_short(&task).iter().try_for_each(|list| self.judge(&bytes, list))?;
            for len in 0..8 {
                self.forward(&bytes, len)?;
                self.relax(&bytes, len)?;
            }
        }
        Ok(())
    }

    fn judge_several(&mut self, bytes: &[u8]) -> Result<(), String> {
        let task = record::read(bytes).unwrap_or_default();
        for _ in 0..4 {
            let list = lists::judged(&mut self.random, &task, bytes);
            self.judge(bytes, &list)?;
        }
        Ok(())
    }

    fn judge(&mut self, bytes: &[u8], list: &[u16]) -> Result<(), String> {
        self.calls += 1;
        let library = mardiskos::lent::judge(self.record.copy(bytes), self.list.copy(list));
        let reference = judgement(entry::judge(bytes, list));
        let input = || format!("judge\nrecord: {}\nlist: {}", hex(bytes), list_hex(list));
        same(library, reference, input)
    }

    fn forward_around(&mut self, bytes: &[u8]) -> Result<(), String> {
        let steps = entry::forward(bytes, &mut [0; 1024]).map_or(0, |run| run.steps);
        for len in lengths(&mut self.random, steps as usize) {
            self.forward(bytes, len)?;
        }
        Ok(())
    }

    fn forward(&mut self, bytes: &[u8], len: usize) -> Result<(), String> {
        self.lent.refill(&mut self.random, len);
        let library = mardiskos::lent::forward(self.record.copy(bytes), self.lent.library());
        let reference = forward_run(entry::forward(bytes, self.lent.reference()));
        self.compare(library, reference, || lent_input("forward", bytes, len))
    }

    fn relax_around(&mut self, bytes: &[u8]) -> Result<(), String> {
        let steps = entry::relax(bytes, &mut [0; 1024]).unwrap_or(0);
        for len in lengths(&mut self.random, steps as usize) {
            self.relax(bytes, len)?;
        }
        Ok(())
    }

    fn relax(&mut self, bytes: &[u8], len: usize) -> Result<(), String> {
        self.lent.refill(&mut self.random, len);
        let library = mardiskos::lent::relax(self.record.copy(bytes), self.lent.library());
        let reference = relaxed_plan(entry::relax(bytes, self.lent.reference()));
        self.compare(library, reference, || lent_input("relax", bytes, len))
    }

    /// The answers, and the lent list whole.
    fn compare<T: PartialEq + std::fmt::Debug>(
        &mut self,
        library: T,
        reference: T,
        input: impl Fn() -> String,
    ) -> Result<(), String> {
        self.calls += 1;
        same(library, reference, &input)?;
        same_lent("lent list", self.lent.difference(), &input)
    }
}

/// Every length around the result's, and sometimes one around the longest allowed.
fn lengths(random: &mut Random, steps: usize) -> Vec<usize> {
    let mut lengths = vec![0, steps, steps + 1, steps + random.below(9)];
    lengths.extend(steps.checked_sub(1));
    lengths.extend((steps > 0).then(|| random.below(steps)));
    if random.chance(1, 500) {
        lengths.push(random.within(32_760, 41_000));
    }
    lengths
}

fn lent_input(call: &str, bytes: &[u8], len: usize) -> String {
    format!("{call}\nrecord: {}\nlent: {len} entries", hex(bytes))
}

fn judgement(answer: Result<entry::Judgement, Refusal>) -> Judgement {
    match answer {
        Err(refusal) => Judgement { code: refusal.code(), ..Judgement::default() },
        Ok(entry::Judgement { relaxed, red_black, real }) => Judgement {
            code: 0,
            relaxed_steps: relaxed.steps,
            red_black_steps: red_black.steps,
            real_steps: real.steps,
            relaxed_plan: relaxed.plan,
            red_black_plan: red_black.plan,
            real_plan: real.plan,
        },
    }
}

fn forward_run(answer: Result<entry::ForwardResult, Refusal>) -> ForwardRun {
    match answer {
        Err(refusal) => ForwardRun { code: refusal.code(), ..ForwardRun::default() },
        Ok(run) => ForwardRun { code: 0, steps: run.steps, reached: run.reached },
    }
}

fn relaxed_plan(answer: Result<u32, Refusal>) -> RelaxedPlan {
    match answer {
        Err(refusal) => RelaxedPlan { code: refusal.code(), steps: 0 },
        Ok(steps) => RelaxedPlan { code: 0, steps },
    }
}
