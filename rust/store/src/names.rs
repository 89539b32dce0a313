//! The names of a record's store in a file of their own, tied to the record by its length and CRC-32.

use std::fmt::Write;

use crate::store::Store;
use crate::token::{lines, Error, Line, Position, Token};

/// The file beside a record that holds its names.
pub fn file_of(record: &str) -> String {
    format!("{record}.names")
}

pub fn write(store: &Store) -> String {
    let record = store.record();
    let mut out = format!("record bytes {} crc-32 {:08x}\n", record.len(), crc_32(&record));
    for variable in &store.variables {
        writeln!(out, "variable {}: {}", variable.name, variable.values.join(" ")).unwrap();
    }
    for action in &store.actions {
        writeln!(out, "action {}", action.name).unwrap();
    }
    out
}

/// The store of a record with the names of a text.
pub fn named(store: &Store, text: &str) -> Result<Store, Error> {
    let lines = lines(text).filter(|line| !line.at_end()).collect::<Vec<_>>();
    let mut reader = Reader { lines: lines.into_iter(), end: Position::behind(text) };
    reader.head(&store.record())?;
    let mut named = store.clone();
    for variable in &mut named.variables {
        (variable.name, variable.values) = reader.variable(variable.values.len())?;
    }
    for action in &mut named.actions {
        action.name = reader.action()?;
    }
    match reader.lines.next() {
        Some(line) => Err(line.rest()[0].instead_of("end of text")),
        None => distinct(named, reader.end),
    }
}

struct Reader {
    lines: std::vec::IntoIter<Line>,
    end: Position,
}

impl Reader {
    fn line(&mut self, keyword: &str) -> Result<Line, Error> {
        let missing = format!("expected `{keyword}`, found end of text");
        let mut line = self.lines.next().ok_or(Error::new(self.end, missing))?;
        line.pass(keyword)?;
        Ok(line)
    }

    fn head(&mut self, record: &[u8]) -> Result<(), Error> {
        let mut line = self.line("record")?;
        let (bytes, crc) = (record.len().to_string(), format!("{:08x}", crc_32(record)));
        for expected in ["bytes", &bytes, "crc-32", &crc] {
            let found = line.name(expected)?;
            if found.text != expected {
                return Err(found.error(format!(
                    "these are the names of another record: expected `{expected}`, found `{}`",
                    found.text
                )));
            }
        }
        line.end()
    }

    fn variable(&mut self, count: usize) -> Result<(String, Vec<String>), Error> {
        let mut line = self.line("variable")?;
        let name = line.name("a variable name")?;
        line.pass(":")?;
        let mut values: Vec<String> = Vec::new();
        for _ in 0..count {
            let value = line.name("a value name")?;
            if values.contains(&value.text) {
                return Err(value.twice("a new value name"));
            }
            values.push(plain(&value)?);
        }
        line.end()?;
        Ok((plain(&name)?, values))
    }

    fn action(&mut self) -> Result<String, Error> {
        let mut line = self.line("action")?;
        let name = line.name("an action name")?;
        line.end()?;
        plain(&name)
    }
}

/// Braces belong to templates.
fn plain(name: &Token) -> Result<String, Error> {
    if name.text.contains(['{', '}']) {
        return Err(name.instead_of("a name without braces"));
    }
    Ok(name.text.clone())
}

fn distinct(store: Store, end: Position) -> Result<Store, Error> {
    let variables = store.variables.iter().map(|variable| variable.name.as_str());
    let actions = store.actions.iter().map(|action| action.name.as_str());
    for mut names in [variables.collect::<Vec<_>>(), actions.collect::<Vec<_>>()] {
        names.sort_unstable();
        if let Some(pair) = names.windows(2).find(|pair| pair[0] == pair[1]) {
            return Err(Error::new(
                end,
                format!("expected each name once, found `{}` twice", pair[0]),
            ));
        }
    }
    Ok(store)
}

/// The CRC-32 of IEEE 802.3, as gzip and PNG use it.
pub fn crc_32(bytes: &[u8]) -> u32 {
    !bytes.iter().fold(!0, |crc, &byte| {
        (0..8).fold(crc ^ u32::from(byte), |crc, _| {
            (crc >> 1) ^ (0xedb8_8320 & (crc & 1).wrapping_neg())
        })
    })
}
