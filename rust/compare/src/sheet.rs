//! Sheets of both editions, written and read.

use compare::guard::Guarded;
use compare::lent::Lent;
use compare::suite::{hex, list_hex, same, same_lent, same_of, Options};
use generate::{damage, Random};
use mardiskos::lent::{Sheet, SheetSize};
use reference::{entry, examples, sheet, Refusal};

const COUNT: usize = 1_000_000;
const MAX_STEPS: usize = 32_768;
const MOST_ENTRIES: usize = 41_000;
const MOST_BYTES: usize = 60_000;
const EDITIONS: [u32; 2] = [1, 2];

pub fn run(options: &Options) -> Result<String, String> {
    let mut sheets = Sheets {
        random: Random::new(options.seed),
        list: Guarded::new(MOST_ENTRIES),
        marks: Guarded::new(MOST_ENTRIES),
        bytes: Guarded::new(MOST_BYTES),
        lent_list: Lent::new(MOST_ENTRIES),
        lent_marks: Lent::new(MOST_ENTRIES),
        lent_bytes: Lent::new(MOST_BYTES),
        counts: Default::default(),
    };
    sheets.examples()?;
    for edition in EDITIONS {
        sheets.large(edition)?;
        sheets.every_damage(edition)?;
    }
    for _ in 0..options.count.unwrap_or(COUNT) {
        EDITIONS.iter().try_for_each(|&edition| sheets.small(edition))?;
    }
    let counts = EDITIONS.map(|edition| {
        let Counts { written, read, back, again } = *sheets.counts(edition);
        let (back, again) = (format!("{back} read back"), format!("{again} written again"));
        format!("edition {edition}: {written} written ({back}), {read} read ({again})")
    });
    Ok(counts.join("; "))
}

/// What was done with sheets of an edition; one that is damaged counts for the edition that it had.
#[derive(Clone, Copy, Default)]
struct Counts {
    written: usize,
    back: usize,
    read: usize,
    again: usize,
}

struct Sheets {
    random: Random,
    list: Guarded<u16>,
    marks: Guarded<u8>,
    bytes: Guarded<u8>,
    lent_list: Lent<u16>,
    lent_marks: Lent<u8>,
    lent_bytes: Lent<u8>,
    counts: [Counts; 2],
}

/// What a sheet is written of.
#[derive(Clone)]
struct Plan {
    list: Vec<u16>,
    marks: Vec<u8>,
    edition: u32,
    cost: u32,
    real: bool,
}

impl Plan {
    fn size(&self) -> usize {
        sheet::size(self.edition, self.list.len())
    }

    /// The bytes of the sheet.
    fn sheet(&self) -> Vec<u8> {
        let mut bytes = vec![0; self.size()];
        self.write(&mut bytes).unwrap();
        bytes
    }

    fn write(&self, bytes: &mut [u8]) -> Result<u32, Refusal> {
        sheet::write(&self.list, &self.marks, self.edition, self.cost, self.real, bytes)
    }

    /// What is to be read of the sheet: the plan with a mark of 0 or 1 a step and edition 1 or 2.
    fn read(&self) -> (Sheet, Vec<u16>, Vec<u8>) {
        let edition = if self.edition == 1 { 1 } else { 2 };
        let mark = |step: usize| edition == 2 && self.marks.get(step).is_some_and(|&m| m != 0);
        let marks = (0..self.list.len()).map(|step| u8::from(mark(step))).collect();
        let (steps, cost, real) = (self.list.len() as u32, self.cost, self.real);
        (Sheet { code: 0, steps, cost, edition, real }, self.list.clone(), marks)
    }

    fn input(&self) -> String {
        let Plan { list, marks, edition, cost, real } = self;
        let (list, marks) = (list_hex(list), hex(marks));
        format!("write\nlist: {list}\nmarks: {marks}\nedition {edition}, cost {cost}, real {real}")
    }
}

impl Sheets {
    fn counts(&mut self, edition: u32) -> &mut Counts {
        &mut self.counts[usize::from(edition != 1)]
    }

    /// Writes into so many bytes; what was written is read back.
    fn write(&mut self, plan: &Plan, len: usize) -> Result<(), String> {
        self.counts(plan.edition).written += 1;
        self.lent_bytes.refill(&mut self.random, len);
        let (list, marks) = (self.list.copy(&plan.list), self.marks.copy(&plan.marks));
        let lent = &mut self.lent_bytes;
        let Plan { edition, cost, real, .. } = *plan;
        let library =
            mardiskos::lent::write_sheet(list, marks, edition, cost, real, lent.library());
        let reference = sheet_size(plan.write(lent.reference()));
        let input = || format!("{}\n{len} bytes lent", plan.input());
        same(library, reference, input)?;
        same_lent("byte area", self.lent_bytes.difference(), input)?;
        if library.code != 0 {
            return Ok(());
        }
        self.counts(edition).back += 1;
        let bytes = self.lent_bytes.library()[..library.bytes as usize].to_vec();
        let back = self.read_by_library(&bytes, plan.list.len());
        same_of(["read back", "written"], [back, plan.read()], input)
    }

    /// The library's answer with room for so many steps, and what it left there.
    fn read_by_library(&mut self, bytes: &[u8], steps: usize) -> (Sheet, Vec<u16>, Vec<u8>) {
        self.refill(steps, steps);
        let (list, marks) = (self.lent_list.library(), self.lent_marks.library());
        let sheet = mardiskos::lent::read_sheet(self.bytes.copy(bytes), list, marks);
        (sheet, list.to_vec(), marks.to_vec())
    }

    fn refill(&mut self, entries: usize, marks: usize) {
        self.lent_list.refill(&mut self.random, entries);
        self.lent_marks.refill(&mut self.random, marks);
    }

    /// Reads a sheet that was made in an edition into a list and a mark area of those lengths; what was read
    /// is written again.
    fn read(&mut self, edition: u32, bytes: &[u8], len: usize, marks: usize) -> Result<(), String> {
        self.counts(edition).read += 1;
        self.refill(len, marks);
        let Sheets { lent_list, lent_marks, .. } = self;
        let library = mardiskos::lent::read_sheet(
            self.bytes.copy(bytes),
            lent_list.library(),
            lent_marks.library(),
        );
        let reference =
            sheet_read(sheet::read(bytes, lent_list.reference(), lent_marks.reference()));
        let input = || format!("read\nsheet: {}\n{len} entries and {marks} marks lent", hex(bytes));
        same(library, reference, input)?;
        same_lent("list", self.lent_list.difference(), input)?;
        same_lent("mark area", self.lent_marks.difference(), input)?;
        if library.code != 0 {
            return Ok(());
        }
        self.counts(edition).again += 1;
        self.lent_bytes.refill(&mut self.random, bytes.len());
        let (Sheet { steps, cost, edition, real, .. }, again) = (library, &mut self.lent_bytes);
        let list = &self.lent_list.library()[..steps as usize];
        let marks = &self.lent_marks.library()[..steps as usize];
        mardiskos::lent::write_sheet(list, marks, edition, cost, real, again.library());
        same_of(["written again", "read"], [&*again.library(), bytes], input)
    }

    /// The plans of the store examples: written into every length, read from every front part.
    fn examples(&mut self) -> Result<(), String> {
        for (_, record) in examples::files() {
            let (mut list, mut work, mut marks) = ([0; 16], [0; 16], [0; 16]);
            let Ok(result) = entry::plan(&record, &mut list, &mut work, &mut marks) else {
                continue;
            };
            let steps = result.steps as usize;
            for edition in EDITIONS {
                let (list, marks) = (list[..steps].to_vec(), marks[..steps].to_vec());
                let entry::PlanResult { cost, real, .. } = result;
                self.example(&Plan { list, marks, edition, cost, real })?;
            }
        }
        Ok(())
    }

    fn example(&mut self, plan: &Plan) -> Result<(), String> {
        let (edition, steps, bytes) = (plan.edition, plan.list.len(), plan.sheet());
        (0..bytes.len() + 3).try_for_each(|len| self.write(plan, len))?;
        for cut in 0..bytes.len() {
            self.read(edition, &bytes[..cut], steps, steps)?;
        }
        for (len, marks) in (0..steps + 3).flat_map(|len| (0..steps + 3).map(move |m| (len, m))) {
            self.read(edition, &bytes, len, marks)?;
        }
        self.flips(edition, bytes, 1)
    }

    /// A plan of so many steps.
    fn plan(&mut self, edition: u32, steps: usize) -> Plan {
        let list = (0..steps).map(|_| self.random.below(1024) as u16).collect();
        let marks = self.some_marks(steps);
        let edition = if edition == 1 { 1 } else { self.second_edition() };
        let (cost, real) = (self.cost(), self.random.chance(1, 2));
        Plan { list, marks, edition, cost, real }
    }

    /// Marks for so many steps, or for fewer or more: of 0 and 1, of any bytes, or of bytes with one bit.
    fn some_marks(&mut self, steps: usize) -> Vec<u8> {
        let random = &mut self.random;
        let len = match random.below(6) {
            0 => 0,
            1 => random.below(steps + 1),
            2 => steps + random.below(9),
            _ => steps,
        };
        let kind = random.below(4);
        let mut mark = || match kind {
            0 => random.bits() as u8,
            1 => 1 << random.below(8) & random.bits() as u8,
            _ => random.below(2) as u8,
        };
        (0..len).map(|_| mark()).collect()
    }

    /// A number that stands for edition 2.
    fn second_edition(&mut self) -> u32 {
        let any = (self.random.bits() as u32).max(2);
        *self.random.pick(&[0, 2, 2, 3, 16, 17, 33, 257, 65_537, 1 << 31 | 1, u32::MAX, any])
    }

    fn cost(&mut self) -> u32 {
        let bits = self.random.bits() as u32;
        *self.random.pick(&[0, 10, 65_535, 65_536, bits, bits, u32::MAX])
    }

    fn small(&mut self, edition: u32) -> Result<(), String> {
        let steps = self.random.below(40);
        let mut plan = self.plan(edition, steps);
        self.write_around(&plan)?;
        let bytes = plan.sheet();
        self.read_around(edition, &bytes, steps)?;
        let mut damaged = bytes.clone();
        damage::any(&mut self.random, &mut damaged);
        self.read_around(edition, &damaged, steps)?;
        self.cut(edition, &bytes, steps)?;
        if let Some(entry) = plan.list.last_mut() {
            *entry = *self.random.pick(&[1024, 1025, 2047, 2048, 65_535]);
            self.random.shuffle(&mut plan.list);
            self.write_around(&plan)?;
        }
        self.noise(edition)
    }

    /// Cut anywhere, or in edition 2 directly behind a mark or before it: the marks of steps 6, 14, .. end a byte,
    /// and those of steps 1, 9, .. begin one.
    fn cut(&mut self, edition: u32, bytes: &[u8], steps: usize) -> Result<(), String> {
        let eights = 11 * self.random.below(steps.div_ceil(8) + 1);
        let at = match (edition, self.random.below(3)) {
            (2, 0) => 15 + eights,
            (2, 1) => 8 + eights,
            _ => self.random.below(bytes.len()),
        };
        self.read_around(edition, &bytes[..at.min(bytes.len())], steps)
    }

    fn write_around(&mut self, plan: &Plan) -> Result<(), String> {
        let size = plan.size();
        let len = match self.random.below(4) {
            0 => self.random.below(size),
            1 => size - 1,
            2 => size,
            _ => size + self.random.below(20),
        };
        self.write(plan, len)
    }

    fn read_around(&mut self, edition: u32, bytes: &[u8], steps: usize) -> Result<(), String> {
        let (len, marks) = match self.random.below(6) {
            0 => (self.around(steps), self.around(steps)),
            1 => (steps, self.around(steps)),
            2 => (steps + self.random.below(20), steps),
            _ => (self.around(steps), steps + self.random.below(20)),
        };
        self.read(edition, bytes, len, marks)
    }

    /// A length around that of a plan.
    fn around(&mut self, steps: usize) -> usize {
        match self.random.below(4) {
            0 => self.random.below(steps + 1),
            1 => steps.saturating_sub(1),
            2 => steps,
            _ => steps + self.random.below(20),
        }
    }

    /// Random bytes, with a right edition and few steps in most cases.
    fn noise(&mut self, edition: u32) -> Result<(), String> {
        let len = self.random.below(30);
        let mut bytes = self.random.bytes(len);
        if self.random.chance(3, 4) {
            damage::set_field(&mut bytes, 0, 4, edition.into());
            let steps = self.random.below(25) as u64;
            damage::set_field(&mut bytes, 5, 16, steps);
        }
        self.read_around(edition, &bytes, 20)
    }

    /// Sheets around the longest, and their bytes cut and damaged.
    fn large(&mut self, edition: u32) -> Result<(), String> {
        let longest = sheet::size(edition, MAX_STEPS);
        for steps in [MAX_STEPS - 1, MAX_STEPS, MAX_STEPS + 1, 40_000] {
            let mut plan = self.plan(edition, steps);
            let around = [longest - 2, longest - 1, longest, longest + 1, longest + 33];
            for len in [0, 6, 50_000].into_iter().chain(around) {
                self.write(&plan, len)?;
            }
            let at = self.random.below(steps);
            plan.list[at] = 1024;
            self.write(&plan, longest + 33)?;
        }
        for steps in [MAX_STEPS - 1, MAX_STEPS] {
            let bytes = self.plan(edition, steps).sheet();
            self.large_read(edition, bytes)?;
        }
        Ok(())
    }

    fn large_read(&mut self, edition: u32, bytes: Vec<u8>) -> Result<(), String> {
        for len in [0, 1, 32_766, 32_767, 32_768, 32_769, 41_000] {
            self.read(edition, &bytes, len, 41_000)?;
            self.read(edition, &bytes, 41_000, len)?;
            self.read(edition, &bytes, len, len)?;
        }
        let longer = [&bytes[..], &[0; 2]].concat();
        self.read(edition, &longer, MAX_STEPS, MAX_STEPS)?;
        let first = self.random.below(40);
        for cut in (first..bytes.len()).step_by(40) {
            self.read(edition, &bytes[..cut], 5, 5)?;
        }
        let mut too_many = bytes;
        for steps in [32_766, 32_767, 32_768, 32_769, 65_535] {
            damage::set_field(&mut too_many, 5, 16, steps);
            self.read(edition, &too_many, MAX_STEPS, MAX_STEPS)?;
        }
        self.flips(edition, too_many, 97)
    }

    fn every_damage(&mut self, edition: u32) -> Result<(), String> {
        for steps in (0..=16).chain([100, 333, 1024]) {
            let bytes = self.plan(edition, steps).sheet();
            for cut in 0..bytes.len() {
                self.read(edition, &bytes[..cut], steps, steps)?;
            }
            self.flips(edition, bytes, 1)?;
        }
        Ok(())
    }

    fn flips(&mut self, edition: u32, mut bytes: Vec<u8>, stride: usize) -> Result<(), String> {
        for at in (self.random.below(stride)..8 * bytes.len()).step_by(stride) {
            damage::flip(&mut bytes, at);
            self.read(edition, &bytes, 1024, 1024)?;
            damage::flip(&mut bytes, at);
        }
        Ok(())
    }
}

fn sheet_size(answer: Result<u32, Refusal>) -> SheetSize {
    match answer {
        Err(refusal) => SheetSize { code: refusal.code(), bytes: 0 },
        Ok(bytes) => SheetSize { code: 0, bytes },
    }
}

fn sheet_read(answer: Result<sheet::Sheet, Refusal>) -> Sheet {
    match answer {
        Err(refusal) => Sheet { code: refusal.code(), ..Sheet::default() },
        Ok(sheet::Sheet { steps, cost, edition, real }) => {
            Sheet { code: 0, steps, cost, edition, real }
        }
    }
}
