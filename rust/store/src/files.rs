//! Files read and written: every write is checked, and no file is written that was read.

use std::fs::{self, File, OpenOptions};
use std::io::{self, Read, Write};
use std::os::fd::AsFd;
use std::os::unix::fs::MetadataExt;
use std::path::Path;

use crate::outcome::Failure;
use crate::store::Store;
use crate::token::{Error, Position};
use crate::{explain, library, names, parse};

/// No input is longer than this; a record has 49,315 bytes at most.
const MAX_BYTES: u64 = 16 << 20;

/// Whether standard input and output were open when the program started.
pub struct Standard {
    pub input: bool,
    pub output: bool,
}

/// The files that a command has read.
pub struct Files {
    open: Standard,
    /// Names, devices and numbers.
    read: Vec<(String, (u64, u64))>,
}

impl Files {
    pub fn new(open: Standard) -> Self {
        Files { open, read: Vec::new() }
    }

    pub fn bytes(&mut self, file: &str) -> Result<Vec<u8>, Failure> {
        let failure = |error: io::Error| Failure::of_file(file, error);
        let opened = if file == "-" { self.input()? } else { File::open(file).map_err(failure)? };
        self.read.push((file.to_owned(), identity(&opened.metadata().map_err(failure)?)));
        let mut bytes = Vec::new();
        opened.take(MAX_BYTES + 1).read_to_end(&mut bytes).map_err(failure)?;
        if bytes.len() as u64 > MAX_BYTES {
            return Err(Failure::of_file(file, "longer than 16 MiB"));
        }
        Ok(bytes)
    }

    /// Standard input, which can be read once.
    fn input(&self) -> Result<File, Failure> {
        if !self.open.input {
            return Err(Failure::Error("standard input is closed".to_owned()));
        }
        if self.read.iter().any(|(name, _)| name == "-") {
            return Err(Failure::of_file("-", "named twice"));
        }
        let opened = io::stdin().as_fd().try_clone_to_owned();
        opened.map(File::from).map_err(|error| Failure::of_file("-", error))
    }

    pub fn text(&mut self, file: &str) -> Result<String, Failure> {
        decoded(file, self.bytes(file)?)
    }

    /// The store of a text or of a record, which is known by its first byte: no text starts with a
    /// control character. A record takes its names from the file beside it, where there is one.
    pub fn store(&mut self, file: &str) -> Result<Store, Failure> {
        let bytes = self.bytes(file)?;
        if is_record(&bytes) {
            return self.record(file, &bytes);
        }
        parse(&decoded(file, bytes)?).map_err(|error| Failure::of_file(file, error))
    }

    fn record(&mut self, file: &str, bytes: &[u8]) -> Result<Store, Failure> {
        library::check(bytes).map_err(|refusal| {
            Failure::Refused(refusal, explain::record::in_words(bytes, refusal))
        })?;
        let store = Store::from_record(bytes).map_err(|refusal| {
            Failure::of_file(file, format!("accepted, and then refused: {refusal:?}"))
        })?;
        let beside = names::file_of(file);
        if file == "-" || !Path::new(&beside).exists() {
            return Ok(store);
        }
        let text = self.text(&beside)?;
        names::named(&store, &text).map_err(|error| Failure::of_file(&beside, error))
    }

    /// Writes a file whole, or leaves what was there; `-` is standard output.
    pub fn write(&self, out: &str, bytes: &[u8]) -> Result<(), Failure> {
        if out == "-" {
            return self.print(bytes);
        }
        let failure = |error: io::Error| Failure::of_file(out, error);
        if let Ok(found) = fs::metadata(out) {
            self.check_unread(out, identity(&found))?;
            if !found.is_file() {
                let opened = OpenOptions::new().write(true).open(out);
                return opened.and_then(|mut file| file.write_all(bytes)).map_err(failure);
            }
        }
        replace(Path::new(out), bytes).map_err(failure)
    }

    /// Writes to standard output and makes sure that it arrived.
    pub fn print(&self, bytes: &[u8]) -> Result<(), Failure> {
        let failure = |error: io::Error| Failure::Error(format!("standard output: {error}"));
        if !self.open.output {
            return Err(Failure::Error("standard output is closed".to_owned()));
        }
        let mut out = File::from(io::stdout().as_fd().try_clone_to_owned().map_err(failure)?);
        let found = out.metadata().map_err(failure)?;
        if found.is_file() {
            self.check_unread("standard output", identity(&found))?;
        }
        out.write_all(bytes).map_err(failure)?;
        if found.is_file() {
            out.sync_all().map_err(failure)?;
        }
        Ok(())
    }

    fn check_unread(&self, out: &str, written: (u64, u64)) -> Result<(), Failure> {
        let same = self.read.iter().find(|(_, read)| *read == written);
        same.map_or(Ok(()), |(name, _)| {
            let name = if name == "-" { "standard input" } else { name };
            let reason = format!("not written, as it is the file {name} that was read");
            Err(Failure::of_file(out, reason))
        })
    }
}

fn identity(found: &fs::Metadata) -> (u64, u64) {
    (found.dev(), found.ino())
}

fn is_record(bytes: &[u8]) -> bool {
    bytes.first().is_none_or(|&first| first.is_ascii_control() && !(9..=13).contains(&first))
}

fn decoded(file: &str, bytes: Vec<u8>) -> Result<String, Failure> {
    String::from_utf8(bytes).map_err(|error| {
        let sound = error.utf8_error().valid_up_to();
        let before = String::from_utf8_lossy(&error.as_bytes()[..sound]);
        Failure::of_file(file, Error::new(Position::behind(&before), "expected text in UTF-8"))
    })
}

/// Writes a new file beside the old one, and puts it in its place once it is on the disk.
fn replace(path: &Path, bytes: &[u8]) -> io::Result<()> {
    let path = fs::canonicalize(path).unwrap_or_else(|_| path.to_owned());
    let mut name = path.file_name().unwrap_or_default().to_owned();
    name.push(format!(".{}.part", std::process::id()));
    let part = path.with_file_name(name);
    let written = write_part(&path, &part, bytes).and_then(|()| fs::rename(&part, &path));
    if written.is_err() {
        let _ = fs::remove_file(part);
    }
    written
}

fn write_part(path: &Path, part: &Path, bytes: &[u8]) -> io::Result<()> {
    let mut file = OpenOptions::new().write(true).create_new(true).open(part)?;
    if let Ok(found) = fs::metadata(path) {
        file.set_permissions(found.permissions())?;
    }
    file.write_all(bytes)?;
    file.sync_all()
}
