//! The record check. Every input lies against a forbidden page, so that a read outside ends the run.

use compare::guard::Guarded;
use compare::suite::{hex, same, Options};
use generate::{damage, mixture, records, Random};
use reference::{examples, record, refusal};
use std::fmt;

const COUNT: usize = 200_000;
const MOST_BYTES: usize = 300_000;

pub fn run(options: &Options) -> Result<String, String> {
    let mut check =
        Check { random: Random::new(options.seed), place: Guarded::new(MOST_BYTES), compared: 0 };
    check.examples()?;
    check.truncations()?;
    check.flips()?;
    check.large()?;
    check.over_long()?;
    for _ in 0..options.count.unwrap_or(COUNT) {
        check.small()?;
    }
    Ok(format!("{} inputs", check.compared))
}

#[derive(PartialEq)]
struct Code(u64);

impl fmt::Debug for Code {
    fn fmt(&self, f: &mut fmt::Formatter) -> fmt::Result {
        match self.0 {
            0 => write!(f, "accepted"),
            code => write!(f, "{} at {}", code % 32, code / 32),
        }
    }
}

struct Check {
    random: Random,
    place: Guarded<u8>,
    compared: usize,
}

impl Check {
    fn compare(&mut self, bytes: &[u8]) -> Result<(), String> {
        let input = match self.compared % 8 {
            0 => self.place.at_start(bytes.len()),
            _ => self.place.at_end(bytes.len()),
        };
        input.copy_from_slice(bytes);
        self.compared += 1;
        let library = Code(mardiskos::lent::check(input));
        let reference = Code(refusal::code(&record::check(bytes)));
        same(library, reference, || format!("record: {}", hex(bytes)))
    }

    fn examples(&mut self) -> Result<(), String> {
        for (_, bytes) in examples::files() {
            self.compare(&bytes)?;
            self.every_truncation(&bytes)?;
            self.every_flip(&bytes, 1)?;
        }
        Ok(())
    }

    fn every_truncation(&mut self, bytes: &[u8]) -> Result<(), String> {
        (0..bytes.len()).try_for_each(|len| self.compare(&bytes[..len]))
    }

    /// Each single bit turned over, or every `stride`-th.
    fn every_flip(&mut self, bytes: &[u8], stride: usize) -> Result<(), String> {
        let mut damaged = bytes.to_vec();
        let first = self.random.below(stride);
        for at in (first..8 * bytes.len()).step_by(stride) {
            damage::flip(&mut damaged, at);
            self.compare(&damaged)?;
            damage::flip(&mut damaged, at);
        }
        Ok(())
    }

    fn truncations(&mut self) -> Result<(), String> {
        for _ in 0..40 {
            let bytes = self.small_record();
            self.every_truncation(&bytes)?;
        }
        let middle = record::write(&records::filled_task(&mut self.random, records::MIDDLE));
        self.every_truncation(&middle)?;
        let longest = self.longest();
        self.every_truncation(&longest)
    }

    fn flips(&mut self) -> Result<(), String> {
        for _ in 0..40 {
            let bytes = self.small_record();
            self.every_flip(&bytes, 1)?;
        }
        for _ in 0..3 {
            let middle = record::write(&records::filled_task(&mut self.random, records::MIDDLE));
            self.every_flip(&middle, 1)?;
        }
        let longest = self.longest();
        self.every_flip(&longest, 29)
    }

    fn longest(&mut self) -> Vec<u8> {
        record::write(&records::dense_task(&mut self.random, 64, 1024, 15))
    }

    fn large(&mut self) -> Result<(), String> {
        for _ in 0..60 {
            let full = record::write(&records::full_task(&mut self.random));
            self.with_damage(full)?;
            let longest = self.longest();
            self.with_damage(longest)?;
        }
        for (variables, actions) in [(64, 1024), (65, 1024), (64, 1025), (65, 1025), (63, 1023)] {
            let sized = examples::sized(variables, actions, self.random.below(16));
            self.with_damage(record::write(&sized))?;
        }
        Ok(())
    }

    /// The record as it is, with other header fields, and damaged anywhere.
    fn with_damage(&mut self, bytes: Vec<u8>) -> Result<(), String> {
        self.compare(&bytes)?;
        let mut header = bytes.clone();
        damage::header(&mut self.random, &mut header);
        self.compare(&header)?;
        let mut damaged = bytes;
        damage::any(&mut self.random, &mut damaged);
        self.compare(&damaged)
    }

    fn over_long(&mut self) -> Result<(), String> {
        for _ in 0..100 {
            let mut bytes =
                if self.random.chance(1, 4) { self.longest() } else { self.small_record() };
            let more = self.random.within(1, MOST_BYTES - bytes.len());
            let zeros = bytes.len() + more;
            let mut noise = bytes.clone();
            bytes.resize(zeros, 0);
            self.compare(&bytes)?;
            noise.extend(self.random.bytes(more));
            self.compare(&noise)?;
        }
        Ok(())
    }

    fn small(&mut self) -> Result<(), String> {
        if self.random.chance(1, 10) {
            return self.noise();
        }
        let bytes = self.small_record();
        self.with_damage(bytes)
    }

    fn small_record(&mut self) -> Vec<u8> {
        record::write(&mixture::small_task(&mut self.random))
    }

    /// Random bytes, with a right edition in most cases and a right header in some.
    fn noise(&mut self) -> Result<(), String> {
        let most = *self.random.pick(&[4, 12, 40, 300]);
        let len = self.random.within(0, most);
        let mut bytes = self.random.bytes(len);
        if self.random.chance(9, 10) {
            damage::set_field(&mut bytes, 0, 4, 1);
        }
        if self.random.chance(1, 2) {
            let variables = self.random.within(1, 8) as u64;
            damage::set_field(&mut bytes, 4, 7, variables);
        }
        self.compare(&bytes)
    }
}
