//! `bench [WORD..] [--quick]`: the classes whose names have one of the words in them, by default all;
//! quick gives each size a tenth of the time.

use std::time::Duration;

pub struct Options {
    words: Vec<String>,
    /// How long each size of a class is run again.
    pub budget: Duration,
}

impl Options {
    pub fn parse(words: impl Iterator<Item = String>) -> Result<Self, String> {
        let (flags, words): (Vec<_>, Vec<_>) = words.partition(|word| word.starts_with('-'));
        if let Some(unknown) = flags.iter().find(|flag| *flag != "--quick") {
            return Err(format!("no option named {unknown}"));
        }
        let budget = Duration::from_millis(if flags.is_empty() { 800 } else { 80 });
        Ok(Options { words, budget })
    }

    pub fn chosen(&self, name: &str) -> bool {
        self.words.is_empty() || self.words.iter().any(|word| name.contains(word.as_str()))
    }
}
