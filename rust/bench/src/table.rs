//! One line a class: both sides timed in turn, best of the rounds.

use crate::copies;
use crate::options::Options;
use generate::Random;
use std::rc::Rc;
use std::time::Instant;

const ROUNDS: usize = 1000;
const LEAST_ROUNDS: usize = 10;

/// What is lent to a call.
#[derive(Clone, PartialEq)]
pub struct Lent {
    pub plan: Vec<u16>,
    pub work: Vec<u16>,
    pub marks: Vec<u8>,
    pub bytes: Vec<u8>,
}

impl Lent {
    /// A plan list of so many entries, and nothing else.
    pub fn list(entries: usize) -> Self {
        Lent { plan: vec![0; entries], work: vec![], marks: vec![], bytes: vec![] }
    }

    /// Plan list, work list and mark area for so many steps.
    pub fn steps(count: usize) -> Self {
        Lent { work: vec![0; count], ..Lent::marked(count) }
    }

    /// Plan list and mark area for so many steps.
    pub fn marked(count: usize) -> Self {
        Lent { marks: vec![0; count], ..Lent::list(count) }
    }

    /// So many bytes for a sheet.
    pub fn bytes(count: usize) -> Self {
        Lent { bytes: vec![0; count], ..Lent::list(0) }
    }

    fn clear(&mut self) {
        self.plan.fill(0);
        self.work.fill(0);
        self.marks.fill(0);
        self.bytes.fill(0);
    }
}

/// The numbers of an answer.
pub type Answer = [u64; 4];

/// One input, what is lent, and the call of each side on it.
pub struct Case {
    lent: Lent,
    /// How often the library steps a state by value.
    steps: usize,
    library: Call,
    reference: Call,
}

type Call = Box<dyn Fn(&mut Lent) -> Answer>;

impl Case {
    pub fn new<I: 'static>(
        input: I,
        lent: Lent,
        library: fn(&I, &mut Lent) -> Answer,
        reference: fn(&I, &mut Lent) -> Answer,
    ) -> Self {
        let input = Rc::new(input);
        let same = input.clone();
        Case {
            lent,
            steps: 0,
            library: Box::new(move |lent| library(&input, lent)),
            reference: Box::new(move |lent| reference(&same, lent)),
        }
    }

    pub fn stepping(self, steps: usize) -> Self {
        Case { steps, ..self }
    }

    /// Both sides answer the same and leave the same.
    fn check(&mut self) {
        let mut other = self.lent.clone();
        let library = (self.library)(&mut self.lent);
        let reference = (self.reference)(&mut other);
        assert!(library == reference && self.lent == other, "library and reference differ");
    }

    fn best(mut self, options: &Options) -> Times {
        self.check();
        let started = Instant::now();
        let mut best = Times { library: f64::MAX, reference: f64::MAX, steps: self.steps };
        for round in 0..ROUNDS {
            best.library = best.library.min(time(&self.library, &mut self.lent));
            best.reference = best.reference.min(time(&self.reference, &mut self.lent));
            if round >= LEAST_ROUNDS && started.elapsed() > options.budget {
                break;
            }
        }
        best
    }
}

fn time(call: &Call, lent: &mut Lent) -> f64 {
    lent.clear();
    let started = Instant::now();
    std::hint::black_box(call(lent));
    started.elapsed().as_secs_f64()
}

struct Times {
    library: f64,
    reference: f64,
    steps: usize,
}

impl Times {
    /// Nanoseconds that the library takes more, for each step by value.
    fn over(&self) -> String {
        if self.steps == 0 {
            return String::new();
        }
        format!("{:.1}", (self.library - self.reference) * 1e9 / self.steps as f64)
    }
}

/// A name, and the case of a size: 4 at full, 2 at half, 1 at quarter size.
pub struct Class {
    pub name: &'static str,
    case: fn(&mut Random, usize) -> Case,
}

impl Class {
    pub fn new(name: &'static str, case: fn(&mut Random, usize) -> Case) -> Self {
        Class { name, case }
    }
}

pub fn header(options: &Options) {
    let build = if cfg!(debug_assertions) { "Debug build, times mean little" } else { "Release" };
    let budget = options.budget.as_millis();
    println!(
        "{build}. Same inputs, both sides in turn, best of up to {ROUNDS} rounds or {budget} ms."
    );
    println!("All that is lent is cleared before each call, outside the time taken.");
    println!("ratio: time of the library to that of the Rust planner.");
    println!("growth: time of the library to that at the next smaller size.");
    println!(
        "over: what the library takes more at full size, in nanoseconds for each step by value."
    );
    let [sets, values] = [512, 64].map(copies::two);
    println!(
        "Two copies with a store between them take {sets:.1} ns here for the 512 bytes of the sets, \
         {values:.1} for the 64 of newest values.\n"
    );
    println!(
        "{:<30}{:>26}{:>22}{:>14}{:>7}",
        "", "library, microseconds", "ratio", "growth", "over"
    );
    print!("{:<30}", "class");
    print!("{:>9}{:>8}{:>9}", "full", "half", "quarter");
    print!("{:>7}{:>6}{:>9}", "full", "half", "quarter");
    println!("{:>8}{:>6}{:>7}", "full", "half", "full");
}

/// A class at full, half and quarter size.
pub fn line(class: &Class, options: &Options) {
    let mut random = Random::new(class.name.len() as u64);
    let timed = [4, 2, 1].map(|n| (class.case)(&mut random, n).best(options));
    let [full, half, quarter] = timed.each_ref().map(|times| times.library * 1e6);
    print!("{:<30}{full:>9.1}{half:>8.1}{quarter:>9.1}", class.name);
    let ratios = timed.each_ref().map(|times| times.library / times.reference);
    print!("{:>7.2}{:>6.2}{:>9.2}", ratios[0], ratios[1], ratios[2]);
    println!("{:>8.2}{:>6.2}{:>7}", full / half, half / quarter, timed[0].over());
}
