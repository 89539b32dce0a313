//! Stores to test with: the examples, and random ones.
#![allow(dead_code)]

use std::fs;
use std::path::{Path, PathBuf};
use std::process::{Command, Output};
use std::sync::atomic::{AtomicUsize, Ordering};

use reference::{Fact, Task, Variable};
use store::{parse, Store};

pub const EXAMPLES: [&str; 17] = [
    "two-shelves",
    "two-shelves-without-1",
    "two-shelves-without-2",
    "lamp-1",
    "lamp-2",
    "two-black-effects",
    "goal-met",
    "tray",
    "door",
    "lit-return",
    "newest",
    "two-shelves-with-4",
    "gate",
    "detour",
    "ring",
    "diamond",
    "lift",
];

pub fn path(name: &str, extension: &str) -> PathBuf {
    let folder = PathBuf::from(env!("CARGO_MANIFEST_DIR")).join("../../examples");
    folder.join(format!("{name}.{extension}"))
}

pub fn example_text(name: &str) -> String {
    fs::read_to_string(path(name, "store")).unwrap()
}

pub fn example(name: &str) -> Store {
    parse(&example_text(name)).unwrap()
}

/// A folder for one test, removed at its end.
pub struct Folder(PathBuf);

impl Folder {
    pub fn new() -> Self {
        static COUNT: AtomicUsize = AtomicUsize::new(0);
        let number = COUNT.fetch_add(1, Ordering::Relaxed);
        let name = format!("store-{}-{number}", std::process::id());
        let folder = std::env::temp_dir().join(name);
        fs::create_dir(&folder).unwrap();
        Folder(folder)
    }

    /// A folder with some examples in it.
    pub fn with(names: &[&str]) -> Self {
        let folder = Folder::new();
        for name in names {
            let (stem, extension) = name.split_once('.').unwrap();
            fs::copy(path(stem, extension), folder.path().join(name)).unwrap();
        }
        folder
    }

    pub fn path(&self) -> &Path {
        &self.0
    }

    pub fn write(&self, name: &str, bytes: impl AsRef<[u8]>) {
        fs::write(self.0.join(name), bytes).unwrap();
    }

    pub fn read(&self, name: &str) -> Vec<u8> {
        fs::read(self.0.join(name)).unwrap()
    }

    /// Runs a line of shell in the folder, with the tool in reach.
    pub fn shell(&self, line: &str) -> Output {
        let tool = Path::new(env!("CARGO_BIN_EXE_store")).parent().unwrap().to_owned();
        let others = std::env::var_os("PATH").unwrap_or_default();
        let folders = std::iter::once(tool).chain(std::env::split_paths(&others));
        let mut command = Command::new("sh");
        command.arg("-c").arg(line).current_dir(&self.0);
        command.env("PATH", std::env::join_paths(folders).unwrap()).output().unwrap()
    }

    /// Status, standard output and standard error of a line of shell.
    pub fn run(&self, line: &str) -> (i32, String, String) {
        let output = self.shell(line);
        let text = |bytes: Vec<u8>| String::from_utf8(bytes).unwrap();
        (output.status.code().unwrap(), text(output.stdout), text(output.stderr))
    }
}

impl Drop for Folder {
    fn drop(&mut self) {
        let _ = fs::remove_dir_all(&self.0);
    }
}

pub struct Random(u64);

impl Random {
    pub fn new(seed: u64) -> Self {
        Random(seed.wrapping_mul(0x9e37_79b9_7f4a_7c15) | 1)
    }

    /// A number below a limit.
    pub fn below(&mut self, limit: usize) -> usize {
        self.0 ^= self.0 << 13;
        self.0 ^= self.0 >> 7;
        self.0 ^= self.0 << 17;
        (self.0 >> 11) as usize % limit
    }

    fn chance(&mut self, of: usize) -> bool {
        self.below(of) == 0
    }
}

fn random_variable(random: &mut Random, most: usize) -> Variable {
    let values = 1 + random.below(most);
    Variable {
        values: values as u8,
        black: random.chance(2),
        initial: random.below(values) as u8,
        goal: random.chance(2).then(|| random.below(values) as u8),
    }
}

fn random_facts(random: &mut Random, variables: &[Variable], chance: usize) -> Vec<Fact> {
    let mut facts = Vec::new();
    for (v, variable) in variables.iter().enumerate() {
        if facts.len() < 15 && random.chance(chance) {
            facts.push(Fact::new(v, random.below(variable.values as usize)));
        }
    }
    facts
}

/// Any task within the limits.
pub fn random_task(random: &mut Random) -> Task {
    let (count, most) = (1 + random.below(64), 1 + random.below(64));
    let variables: Vec<Variable> = (0..count).map(|_| random_variable(random, most)).collect();
    let mut task = Task::new(variables.clone());
    for _ in 0..random.below(40) {
        let chance = 1 + random.below(8);
        let needs = random_facts(random, &variables, chance);
        let sets = random_facts(random, &variables, chance);
        task.push(random.below(65_536) as u16, &needs, &sets);
    }
    task
}

/// A task whose painting is accepted: each black variable moves along its values both ways, and now
/// and then from anywhere to anywhere, under outside conditions on lower variables, which one move in
/// three sets again; other actions set one red variable.
pub fn random_accepted(random: &mut Random) -> Task {
    let count = 2 + random.below(6);
    let variables: Vec<Variable> = (0..count).map(|_| random_variable(random, 5)).collect();
    let mut task = Task::new(variables.clone());
    for (v, variable) in variables.iter().enumerate() {
        for value in 1..variable.values as usize {
            if variable.black {
                push_moves(&mut task, random, v, value);
            } else {
                let needs = random_facts(random, &variables, 5);
                task.push(1, &needs, &[Fact::new(v, value)]);
                task.push(1, &random_facts(random, &variables, 5), &[Fact::new(v, value - 1)]);
            }
        }
    }
    let mut order: Vec<usize> = (0..task.action_count()).collect();
    (1..order.len()).for_each(|i| order.swap(i, random.below(i + 1)));
    task.with_actions(&order)
}

/// Moves between a value and the one below it, or between all.
fn push_moves(task: &mut Task, random: &mut Random, v: usize, value: usize) {
    let outside = random_facts(random, &task.variables[..v], 5);
    if random.chance(8) {
        let values = 0..task.variables[v].values as usize;
        values.for_each(|value| task.push(1, &outside, &[Fact::new(v, value)]));
        return;
    }
    let (d, e) = (Fact::new(v, value - 1), Fact::new(v, value));
    let lamp = (0..v).find(|&u| !task.variables[u].black).filter(|_| random.chance(3));
    match lamp {
        Some(lamp) => push_lamp_moves(task, Fact::new(lamp, 0), d, e),
        None => {
            for (from, to) in [(d, e), (e, d)] {
                let again: &[Fact] = if random.chance(3) { &outside } else { &[] };
                task.push(1, &[&outside[..], &[from]].concat(), &[again, &[to]].concat());
            }
        }
    }
}

/// A move that also sets a lower red variable, and a return that needs what it sets.
fn push_lamp_moves(task: &mut Task, lamp: Fact, from: Fact, to: Fact) {
    task.push(1, &[from], &[lamp, to]);
    task.push(1, &[lamp, to], &[from]);
}

pub fn unnamed(task: &Task) -> Store {
    Store::from_record(&reference::record::write(task)).unwrap()
}

/// Checks that tags are balanced, attributes quoted, and no stray `<` or `&` is left.
pub fn well_formed(text: &str) {
    let mut open = Vec::new();
    for part in without_comments(text).split('<').skip(1) {
        let (tag, content) = part.split_once('>').expect("a tag ends");
        assert!(!content.contains('>'), "{part}");
        if !tag.starts_with(['?', '!']) {
            check_entities(content);
            check_tag(tag, &mut open);
        }
    }
    assert!(open.is_empty(), "{open:?}");
}

fn without_comments(text: &str) -> String {
    let mut parts = text.split("<!--");
    let first = parts.next().unwrap_or("").to_owned();
    parts.fold(first, |text, part| text + part.split_once("-->").expect("a comment ends").1)
}

fn check_tag(tag: &str, open: &mut Vec<String>) {
    assert_eq!(tag.matches('"').count() % 2, 0, "{tag}");
    assert_eq!(tag.matches("=\"").count() * 2, tag.matches('"').count(), "{tag}");
    match tag.strip_prefix('/') {
        Some(closed) => assert_eq!(open.pop().as_deref(), Some(closed)),
        None if tag.ends_with('/') => {}
        None => open.push(tag.split([' ', '/', '\n']).next().unwrap().to_owned()),
    }
}

fn check_entities(content: &str) {
    for entity in content.split('&').skip(1) {
        let known = ["amp;", "lt;", "gt;", "quot;", "#"];
        assert!(known.iter().any(|known| entity.starts_with(known)), "{entity}");
    }
}
