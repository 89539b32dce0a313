//! The commands and what they take.

use reference::Refusal;

use crate::files::Files;
use crate::list::{self, Listed};
use crate::outcome::Failure;
use crate::plan::Plan;
use crate::show::{Shown, Which};
use crate::{explain, pictures, tasks, Store};

pub type Outcome = Result<(), Failure>;

/// What a command is called with.
pub struct Call<'a> {
    pub files: &'a mut Files,
    pub arguments: Vec<&'a str>,
    pub flags: Vec<&'a str>,
}

struct Command {
    name: &'static str,
    takes: &'static str,
    /// The least and the most arguments.
    counts: (usize, usize),
    flags: &'static [&'static str],
    what: &'static str,
    run: fn(&mut Call) -> Outcome,
}

const DRAWING: &[&str] = &["--dot", "--plain"];
const SHOWING: &[&str] = &["--relaxed"];

#[rustfmt::skip]
const COMMANDS: [Command; 12] = [
    Command { name: "record", takes: "FILE [OUT] [--names]", counts: (1, 2), flags: &["--names"],
        what: "the record; with --names its names beside it, in OUT.names", run: tasks::record },
    Command { name: "text", takes: "FILE [OUT]", counts: (1, 2), flags: &[],
        what: "the store as text, templates written out", run: tasks::as_text },
    Command { name: "plan", takes: "FILE [LIST] [--relaxed]", counts: (1, 2), flags: SHOWING,
        what: "a plan with names, or a list of actions and whether it is a plan", run: tasks::plan },
    Command { name: "newest", takes: "FILE [LIST]", counts: (1, 2), flags: &[],
        what: "the value that each variable was set to last, by a plan or a list of actions", run: tasks::newest },
    Command { name: "repair", takes: "FILE LIST [--relaxed]", counts: (2, 2), flags: SHOWING,
        what: "the repair of a relaxed plan", run: tasks::repair },
    Command { name: "sheet", takes: "FILE [OUT]", counts: (1, 2), flags: &[],
        what: "the sheet of a plan, of edition 2", run: tasks::sheet },
    Command { name: "read", takes: "SHEET [FILE] [--relaxed]", counts: (1, 2), flags: SHOWING,
        what: "what a sheet says, and what the judge says of it in a store", run: tasks::read },
    Command { name: "explain", takes: "NUMBER PLACE [FILE [LIST]]", counts: (2, 4), flags: &[],
        what: "a refusal in words; FILE is a sheet for 12", run: tasks::explain },
    Command { name: "graph", takes: "FILE [OUT] [--dot | --plain]", counts: (1, 2), flags: DRAWING,
        what: "the causal graph as SVG, or as DOT", run: pictures::graph },
    Command { name: "values", takes: "FILE VARIABLE [OUT] [--dot | --plain]", counts: (2, 3), flags: DRAWING,
        what: "the value graph of a variable", run: pictures::values },
    Command { name: "chart", takes: "FILE [LIST [OUT]]", counts: (1, 3), flags: &[],
        what: "a plan as a chart, as SVG", run: pictures::chart },
    Command { name: "help", takes: "", counts: (0, 0), flags: &[],
        what: "this text", run: help },
];

pub fn run(arguments: &[String], files: &mut Files) -> Outcome {
    let Some((name, rest)) = arguments.split_first() else {
        return Err(Failure::Error("no command; `store help` lists them".to_owned()));
    };
    let name = if ["-h", "--help"].contains(&name.as_str()) { "help" } else { name };
    let known = COMMANDS.iter().find(|command| command.name == name);
    let Some(command) = known else {
        let name = name.escape_debug();
        return Err(Failure::Error(format!("no command `{name}`; `store help` lists them")));
    };
    let (flags, arguments): (Vec<&str>, Vec<&str>) =
        rest.iter().map(String::as_str).partition(|argument| argument.starts_with("--"));
    let (least, most) = command.counts;
    let known = flags.iter().all(|flag| command.flags.contains(flag));
    if !known || !(least..=most).contains(&arguments.len()) {
        return Err(Failure::Error(format!("usage: {}", usage(command))));
    }
    (command.run)(&mut Call { files, arguments, flags })
}

fn usage(command: &Command) -> String {
    format!("store {} {}", command.name, command.takes).trim_end().to_owned()
}

fn help(call: &mut Call) -> Outcome {
    let lines = COMMANDS.iter().map(|command| format!("{:55}{}\n", usage(command), command.what));
    let help = lines.collect::<String>() + HELP;
    call.files.print(help.as_bytes())
}

const HELP: &str = "
FILE is a store as text or a record, which is known by its content; - is standard input or output.
LIST holds actions by name or number, or is what the listing program prints.
Moves that the repair inserted are shown as such; --relaxed leaves them out, and the relaxed plan is left.
Status 0: all is well. 1: refused, or no plan. 2: a wrong call, a wrong text, or a file that fails.
";

impl Call<'_> {
    pub fn has(&self, flag: &str) -> bool {
        self.flags.contains(&flag)
    }

    /// Which steps of a plan are to be shown. Without marks none can be left out; `why` says why there are none.
    pub fn which(&self, plan: &Plan, why: &str) -> Result<Which, Failure> {
        match (self.has("--relaxed"), &plan.marks) {
            (false, _) => Ok(Which::All),
            (true, Some(_)) => Ok(Which::Relaxed),
            (true, None) => Err(Failure::Error(format!("--relaxed has nothing to go by: {why}"))),
        }
    }

    pub fn store(&mut self, place: usize) -> Result<Store, Failure> {
        self.files.store(self.arguments[place])
    }

    /// Writes to the file named at a place, or to standard output.
    pub fn put(&self, place: usize, bytes: &[u8]) -> Outcome {
        self.files.write(self.arguments.get(place).copied().unwrap_or("-"), bytes)
    }

    /// Prints a text, and fails if it shows a fault.
    pub fn show(&self, store: &Store, shown: Result<Shown, Refusal>) -> Outcome {
        let shown = shown.map_err(|refusal| refused(store, refusal))?;
        self.files.print(shown.text.as_bytes())?;
        shown.fault.map_or(Ok(()), |fault| Err(Failure::No(fault)))
    }

    /// The list in the file behind the store's, or the library's plan where none is named.
    pub fn plan(&mut self, store: &Store) -> Result<Plan, Failure> {
        match self.arguments.len() {
            1 => Plan::find(store).map_err(|refusal| refused(store, refusal)),
            _ => self.list(1, store),
        }
    }

    /// The list in a file.
    pub fn list(&mut self, place: usize, store: &Store) -> Result<Plan, Failure> {
        let file = self.arguments[place];
        let text = self.files.text(file)?;
        match list::read(&text, store).map_err(|error| Failure::of_file(file, error))? {
            Listed::Refused(refusal) => Err(refused(store, refusal)),
            Listed::Apart => {
                Err(Failure::of_file(file, "the relaxed plan is not part of the plan"))
            }
            Listed::Plan(plan) => Ok(plan),
        }
    }
}

pub fn refused(store: &Store, refusal: Refusal) -> Failure {
    Failure::Refused(refusal, explain::in_words(store, refusal, None))
}
