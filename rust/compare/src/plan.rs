//! The planner and the repair of a caller's relaxed plan.

use compare::guard::Guarded;
use compare::lent::Lent;
use compare::lists;
use compare::suite::{hex, list_hex, require, same, same_lent, same_of, Options};
use generate::marks::{marked_by, unmarked, OTHERS as OTHER_MARKS};
use generate::repair::{self, OTHERS};
use generate::searches::{Asked, Count, OTHERS as OTHER_COUNTS};
use generate::{extremes, gates, mixture, Random};
use mardiskos::lent::PlanResult;
use reference::{entry, examples, record, search, Refusal, Task};
use std::fmt::Debug;

const COUNT: usize = 100_000;
const MOST_ENTRIES: usize = 41_000;
const MOST_BYTES: usize = 60_000;
const MAX_STEPS: usize = entry::MAX_STEPS;
const SEARCHED_STATES: usize = 500;
/// One record in so many must pass 7 only since facts set again make no arcs.
const LEAST_GAINED: usize = 16;
/// By each of the rules that come close to 6.7 one record in so many must have another plan.
const LEAST_OTHERS: [usize; OTHERS.len()] = [8, 16, 80];
/// By each of the counts that come close to 6.9 one record in so many must have another number.
const LEAST_COUNTS: [usize; OTHER_COUNTS.len()] = [10, 60, 10, 5];
/// By each of the rules that come close to 6.10 one record in so many must have other marks.
const LEAST_MARKS: [usize; OTHER_MARKS.len()] = [5, 200];
/// Records with more actions or longer plans are left out of all three.
const COUNTED_ACTIONS: usize = 60;
const COUNTED_STEPS: usize = 100;
/// Two repairs must have more searches than 16 bits count; one is of a caller's list with so many entries.
const MANY_SEARCHES: usize = 1 << 16;
const MANY_ENTRIES: usize = 16_384;

pub fn run(options: &Options) -> Result<String, String> {
    let mut plans = Plans {
        random: Random::new(options.seed),
        record: Guarded::new(MOST_BYTES),
        relaxed: Guarded::new(MOST_ENTRIES),
        plan: Lent::new(MOST_ENTRIES),
        work: Lent::new(MOST_ENTRIES),
        marks: Lent::new(MOST_ENTRIES),
        room: vec![0; MAX_STEPS],
        calls: 0,
        unmarked: [0; 2],
        most_searches: 0,
        planned: 0,
        searched: 0,
        gated: 0,
        gained: 0,
        others: [0; OTHERS.len()],
        counts: [0; OTHER_COUNTS.len()],
        markings: [0; OTHER_MARKS.len()],
    };
    plans.examples()?;
    plans.many_searches()?;
    let records = options.count.unwrap_or(COUNT);
    for _ in 0..records {
        plans.compare_record()?;
    }
    plans.summary(records)
}

struct Plans {
    random: Random,
    record: Guarded<u8>,
    relaxed: Guarded<u16>,
    plan: Lent<u16>,
    work: Lent<u16>,
    marks: Lent<u8>,
    /// Room for the longest plan.
    room: Vec<u16>,
    calls: usize,
    /// Plans with marked steps that were taken away: of the planner, and of callers' lists.
    unmarked: [usize; 2],
    /// Of one call.
    most_searches: u32,
    planned: usize,
    searched: usize,
    /// Records in which an action that changes a black variable sets again a fact of another that it
    /// needs, and those that would be refused with 7 if that made arcs.
    gated: usize,
    gained: usize,
    /// Records whose plan would be another one by each of the rules that come close to 6.7.
    others: [usize; OTHERS.len()],
    /// Records whose path searches would be another number by each of the counts that come close to 6.9.
    counts: [usize; OTHER_COUNTS.len()],
    /// Records whose marks would be others by each of the rules that come close to 6.10.
    markings: [usize; OTHER_MARKS.len()],
}

/// The lengths lent: plan list, work list, mark area.
type Room = [usize; 3];

impl Plans {
    /// The store examples: the planner with all short lists and mark areas lent, and every short list repaired.
    fn examples(&mut self) -> Result<(), String> {
        for (_, bytes) in examples::files() {
            for number in 0..1000 {
                self.call(&bytes, None, [number / 100, number / 10 % 10, number % 10])?;
            }
            let task = record::read(&bytes).unwrap_or_default();
            for list in lists::every_short(&task) {
                let answer = self.longest_plan(&bytes, Some(&list));
                self.around(&bytes, Some(&list), answer)?;
            }
        }
        Ok(())
    }

    /// Two served towers: one for the planner, with an insertion that alone has many searches, and one for
    /// a caller's list with many insertions.
    fn many_searches(&mut self) -> Result<(), String> {
        let tower = extremes::served_tower(&mut self.random, 3, 22);
        self.searched_often(&tower, None)?;
        let tower = extremes::served_tower(&mut self.random, 2, 2);
        let rounds = lists::rounds(&record::write(&tower), MANY_ENTRIES);
        self.searched_often(&tower, Some(&rounds))
    }

    fn searched_often(&mut self, task: &Task, relaxed: Option<&[u16]>) -> Result<(), String> {
        let bytes = record::write(task);
        let answer = self.longest_plan(&bytes, relaxed);
        let own = lists::relaxed_plan(&bytes);
        let asked = repair::asked(task, relaxed.unwrap_or(&own)).unwrap();
        let many = asked.searches(Count::Places) >= MANY_SEARCHES;
        require(many, "too few searches", || input(&bytes, relaxed))?;
        let searches = answer.map_or(0, |result| result.searches);
        same_searches(&asked, searches, || input(&bytes, relaxed))?;
        self.around(&bytes, relaxed, answer)
    }

    fn compare_record(&mut self) -> Result<(), String> {
        let bytes = mixture::record(&mut self.random);
        let answer = self.longest_plan(&bytes, None);
        if let Ok(task) = record::read(&bytes) {
            self.count_gates(&task, answer);
            self.count_rules(&bytes, &task, answer)?;
            self.check_reference(&bytes, &task, answer)?;
            self.repairs(&bytes, &task)?;
        }
        self.around(&bytes, None, answer)
    }

    fn count_gates(&mut self, task: &Task, answer: Result<entry::PlanResult, Refusal>) {
        let passes = !matches!(answer, Err(Refusal { number: 7, .. }));
        self.gated += usize::from(gates::has_gate(task));
        self.gained += usize::from(passes && gates::was_cyclic(task));
    }

    /// Where something is inserted: what other rules for paths and marks and other counts of searches give.
    fn count_rules(
        &mut self,
        bytes: &[u8],
        task: &Task,
        answer: Result<entry::PlanResult, Refusal>,
    ) -> Result<(), String> {
        let Ok(entry::PlanResult { steps, searches, .. }) = answer else { return Ok(()) };
        let steps = steps as usize;
        let relaxed = entry::relax(bytes, &mut self.room).unwrap() as usize;
        if steps == relaxed || steps > COUNTED_STEPS || task.action_count() > COUNTED_ACTIONS {
            return Ok(());
        }
        let relaxed = self.room[..relaxed].to_vec();
        let (mut plan, mut marks) = (vec![0; steps], vec![0; steps]);
        entry::plan(bytes, &mut plan, &mut self.room, &mut marks).unwrap();
        for (count, rule) in self.others.iter_mut().zip(OTHERS) {
            let other = repair::repaired(task, &relaxed, rule).unwrap();
            *count += usize::from(other != plan);
        }
        for (count, other) in self.markings.iter_mut().zip(OTHER_MARKS) {
            *count += usize::from(marked_by(other, &plan, &marks) != marks);
        }
        let worded = repair::worded(task, &relaxed).unwrap();
        for (count, other) in self.counts.iter_mut().zip(OTHER_COUNTS) {
            *count += usize::from(worded.asked.searches(other) != searches as usize);
        }
        let names = ["marks word by word", "marks of the reference"];
        same_of(names, [worded.marks, marks], || input(bytes, None))?;
        same_searches(&worded.asked, searches, || input(bytes, None))
    }

    /// What was compared, or that too few records have gates or tell rules and counts apart.
    fn summary(self, records: usize) -> Result<String, String> {
        let Plans { calls, most_searches, planned, searched, unmarked, .. } = self;
        let Plans { gated, gained, others, counts, markings, .. } = self;
        let gates =
            format!("{gated} with gates set again, {gained} pass 7 only since that is no arc");
        let rules = format!("other plans by other rules: {}", listed(&others, &OTHERS));
        let numbers = format!("other searches by other counts: {}", listed(&counts, &OTHER_COUNTS));
        let marks = format!("other marks by other rules: {}", listed(&markings, &OTHER_MARKS));
        let few = |counts: &[usize], least: &[usize]| {
            counts.iter().zip(least).any(|(&count, least)| count < records / least)
        };
        if few(&others, &LEAST_OTHERS)
            || few(&counts, &LEAST_COUNTS)
            || few(&markings, &LEAST_MARKS)
            || few(&[gained], &[LEAST_GAINED])
        {
            let counted = format!("{gates}; {rules}; {numbers}; {marks}");
            return Err(format!("too few of {records} records: {counted}"));
        }
        let answers = format!("{planned} with a plan, {searched} searched");
        let calls = format!("{calls} calls with up to {most_searches} searches");
        let [own, callers] = unmarked;
        let taken = format!("marked steps taken away from {own} plans and {callers} of callers");
        let counted = format!("{answers}; {gates}; {rules}; {numbers}; {marks}; {taken}");
        Ok(format!("{records} records ({counted}), {calls}"))
    }

    /// The reference's answer with all the room that counts.
    fn longest_plan(
        &mut self,
        bytes: &[u8],
        relaxed: Option<&[u16]>,
    ) -> Result<entry::PlanResult, Refusal> {
        let mut work = std::mem::take(&mut self.room);
        let (mut plan, mut marks) = (vec![0; MAX_STEPS], vec![0; MAX_STEPS]);
        let answer = match relaxed {
            Some(relaxed) => entry::repair(bytes, relaxed, &mut plan, &mut work, &mut marks),
            None => entry::plan(bytes, &mut plan, &mut work, &mut marks),
        };
        self.room = work;
        answer
    }

    fn repairs(&mut self, bytes: &[u8], task: &Task) -> Result<(), String> {
        let relaxed = lists::relaxed(&mut self.random, task, bytes);
        let answer = self.longest_plan(bytes, Some(&relaxed));
        let within = answer.is_ok_and(|result| is_within(task, relaxed.len(), result));
        require(within || answer.is_err(), "repair of the reference beyond its ceilings", || {
            input(bytes, Some(&relaxed))
        })?;
        self.around(bytes, Some(&relaxed), answer)
    }

    /// Capacities around the result's length, the lists and the mark area varied apart.
    fn around(
        &mut self,
        bytes: &[u8],
        relaxed: Option<&[u16]>,
        answer: Result<entry::PlanResult, Refusal>,
    ) -> Result<(), String> {
        let steps = match answer {
            Ok(result) => result.steps as usize,
            Err(_) => self.random.below(20),
        };
        self.call(bytes, relaxed, [steps; 3])?;
        if answer.is_ok() {
            self.take_away(bytes, relaxed, steps)?;
        }
        for room in rooms(&mut self.random, steps) {
            self.call(bytes, relaxed, room)?;
        }
        if self.random.chance(1, 200) {
            let room = [0; 3].map(|_| self.random.within(32_760, MOST_ENTRIES));
            self.call(bytes, relaxed, room)?;
        }
        Ok(())
    }

    /// Takes the marked steps away from the library's plan, which lies there: the relaxed plan is left, and the
    /// library's repair of it is the same plan with the same marks.
    fn take_away(
        &mut self,
        bytes: &[u8],
        relaxed: Option<&[u16]>,
        steps: usize,
    ) -> Result<(), String> {
        let (plan, marks) = (self.plan.library().to_vec(), self.marks.library().to_vec());
        let left = unmarked(&plan, &marks);
        let names = ["without the marked steps", "relaxed plan"];
        let own = relaxed.is_none().then(|| lists::relaxed_plan(bytes));
        let went_in = own.as_deref().or(relaxed).unwrap_or_default();
        same_of(names, [&left[..], went_in], || input(bytes, relaxed))?;
        if left.len() < steps {
            self.unmarked[usize::from(relaxed.is_some())] += 1;
        }
        self.refill([steps; 3]);
        self.library(bytes, Some(&left));
        let again = (self.plan.library().to_vec(), self.marks.library().to_vec());
        same_of(["repaired again", "before"], [again, (plan, marks)], || input(bytes, relaxed))
    }

    fn refill(&mut self, [plan, work, marks]: Room) {
        self.plan.refill(&mut self.random, plan);
        self.work.refill(&mut self.random, work);
        self.marks.refill(&mut self.random, marks);
    }

    fn call(&mut self, bytes: &[u8], relaxed: Option<&[u16]>, room: Room) -> Result<(), String> {
        self.calls += 1;
        self.refill(room);
        let library = self.library(bytes, relaxed);
        let reference = plan_result(self.reference(bytes, relaxed));
        self.most_searches = self.most_searches.max(library.searches);
        let input = || format!("{}\nlent: {room:?}", input(bytes, relaxed));
        same(library, reference, input)?;
        same_lent("plan list", self.plan.difference(), input)?;
        same_lent("work list", self.work.difference(), input)?;
        same_lent("mark area", self.marks.difference(), input)
    }

    fn library(&mut self, bytes: &[u8], relaxed: Option<&[u16]>) -> PlanResult {
        let record = self.record.copy(bytes);
        let (plan, work, marks) = (self.plan.library(), self.work.library(), self.marks.library());
        match relaxed {
            Some(relaxed) => {
                mardiskos::lent::repair(record, self.relaxed.copy(relaxed), plan, work, marks)
            }
            None => mardiskos::lent::plan(record, plan, work, marks),
        }
    }

    fn reference(
        &mut self,
        bytes: &[u8],
        relaxed: Option<&[u16]>,
    ) -> Result<entry::PlanResult, Refusal> {
        let Plans { plan, work, marks, .. } = self;
        let (plan, work, marks) = (plan.reference(), work.reference(), marks.reference());
        match relaxed {
            Some(relaxed) => entry::repair(bytes, relaxed, plan, work, marks),
            None => entry::plan(bytes, plan, work, marks),
        }
    }

    /// The reference's own answer: a red-black plan within its ceilings, or none by search.
    fn check_reference(
        &mut self,
        bytes: &[u8],
        task: &Task,
        answer: Result<entry::PlanResult, Refusal>,
    ) -> Result<(), String> {
        let found = match answer {
            Ok(result) => {
                self.planned += 1;
                self.check_plan(bytes, task, result)?;
                true
            }
            Err(Refusal { number: 10, .. }) => false,
            Err(_) => return Ok(()),
        };
        let searched = search::has_red_black_plan(task, SEARCHED_STATES);
        self.searched += usize::from(searched.is_some());
        same_of(["search", "reference"], [searched.unwrap_or(found), found], || input(bytes, None))
    }

    fn check_plan(
        &mut self,
        bytes: &[u8],
        task: &Task,
        result: entry::PlanResult,
    ) -> Result<(), String> {
        let steps = result.steps as usize;
        let (mut plan, mut marks) = (vec![0; steps], vec![0; steps]);
        entry::plan(bytes, &mut plan, &mut self.room, &mut marks).unwrap();
        let judged = entry::judge(bytes, &plan).unwrap();
        let relaxed = entry::relax(bytes, &mut self.room).unwrap();
        let sound = judged.red_black.plan
            && judged.real.plan == result.real
            && judged.real.steps == result.runs
            && is_within(task, relaxed as usize, result);
        require(sound, "unsound plan of the reference", || input(bytes, None))
    }
}

/// Record and relaxed plan, if it is a caller's.
fn input(bytes: &[u8], relaxed: Option<&[u16]>) -> String {
    let list = relaxed.map_or("own".to_string(), list_hex);
    format!("record: {}\nrelaxed plan: {list}", hex(bytes))
}

/// The searches of the reference are to be those of the repair done word by word.
fn same_searches(
    asked: &Asked,
    searches: u32,
    input: impl FnOnce() -> String,
) -> Result<(), String> {
    let answers = [asked.searches(Count::Places), searches as usize];
    same_of(["searches word by word", "searches of the reference"], answers, input)
}

/// Whether a repair of so many actions has at most n × P steps and n × P × m searches.
fn is_within(task: &Task, actions: usize, result: entry::PlanResult) -> bool {
    let black = || task.variables.iter().filter(|variable| variable.black);
    let times = |product: u128, factor: u128| product.saturating_mul(factor);
    let steps = black().map(|variable| variable.values.into()).fold(actions as u128, times);
    let searches = times(steps, black().count() as u128);
    u128::from(result.steps) <= steps && u128::from(result.searches) <= searches
}

/// Each count with its name.
fn listed(counts: &[usize], names: &[impl Debug]) -> String {
    let named = counts.iter().zip(names).map(|(count, name)| format!("{count} {name:?}"));
    named.collect::<Vec<_>>().join(", ")
}

/// Each of the three alone is too short, or all are long enough, or any.
fn rooms(random: &mut Random, steps: usize) -> [Room; 6] {
    let less = steps.saturating_sub(1);
    let [a, b, c] = [0; 3].map(|_| steps + random.below(6));
    let [d, e, f, g, h] = [0; 5].map(|_| random.below(steps + 3));
    [[steps + 1, a, b], [less, a, b], [a, less, b], [a, b, less], [d, e, c], [f, g, h]]
}

fn plan_result(answer: Result<entry::PlanResult, Refusal>) -> PlanResult {
    match answer {
        Err(refusal) => PlanResult { code: refusal.code(), ..PlanResult::default() },
        Ok(result) => PlanResult {
            code: 0,
            steps: result.steps,
            cost: result.cost,
            runs: result.runs,
            searches: result.searches,
            real: result.real,
        },
    }
}
