use std::fmt::Debug;
use std::time::{SystemTime, UNIX_EPOCH};

/// A suite answers what it compared, or the first fault.
pub type Suite = fn(&Options) -> Result<String, String>;

pub struct Options {
    pub suites: Vec<String>,
    pub seed: u64,
    pub count: Option<usize>,
}

impl Options {
    pub fn parse(mut words: impl Iterator<Item = String>) -> Result<Self, String> {
        let mut options = Options { suites: Vec::new(), seed: clock(), count: None };
        while let Some(word) = words.next() {
            match word.as_str() {
                "--seed" => options.seed = number(words.next())?,
                "--count" => options.count = Some(number(words.next())? as usize),
                flag if flag.starts_with('-') => return Err(format!("no option named {flag}")),
                _ => options.suites.push(word),
            }
        }
        Ok(options)
    }
}

fn clock() -> u64 {
    SystemTime::now().duration_since(UNIX_EPOCH).map_or(0, |time| time.as_nanos() as u64)
}

fn number(word: Option<String>) -> Result<u64, String> {
    let word = word.ok_or("a number is missing")?;
    word.parse().map_err(|_| format!("not a number: {word}"))
}

pub fn hex(bytes: &[u8]) -> String {
    bytes.iter().map(|byte| format!("{byte:02x}")).collect()
}

pub fn list_hex(list: &[u16]) -> String {
    list.iter().map(|entry| format!("{entry:04x}")).collect()
}

/// Fails with both answers and the input if they differ.
pub fn same<T: PartialEq + Debug>(
    library: T,
    reference: T,
    input: impl FnOnce() -> String,
) -> Result<(), String> {
    same_of(["library", "reference"], [library, reference], input)
}

/// The same for the answers of any two.
pub fn same_of<T: PartialEq + Debug>(
    names: [&str; 2],
    answers: [T; 2],
    input: impl FnOnce() -> String,
) -> Result<(), String> {
    let ([one, other], [first, second]) = (names, &answers);
    if first == second {
        return Ok(());
    }
    Err(format!("difference\n{one}: {first:?}\n{other}: {second:?}\n{}", input()))
}

/// Fails with the fault and the input unless what is asked of our own side holds.
pub fn require(holds: bool, fault: &str, input: impl FnOnce() -> String) -> Result<(), String> {
    if holds {
        return Ok(());
    }
    Err(format!("{fault}\n{}", input()))
}

/// Fails with the first entry in which something lent differs afterwards.
pub fn same_lent(
    what: &str,
    difference: Option<usize>,
    input: impl FnOnce() -> String,
) -> Result<(), String> {
    match difference {
        Some(entry) => Err(format!("difference\n{what} differs at entry {entry}\n{}", input())),
        None => Ok(()),
    }
}
