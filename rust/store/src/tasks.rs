//! What the commands do that do not draw.

use reference::entry::MAX_STEPS;
use reference::Refusal;

use crate::commands::{refused, Call, Outcome};
use crate::library::{self, Sheet};
use crate::outcome::Failure;
use crate::plan::Plan;
use crate::show::Which;
use crate::{explain, names, show, text};

pub fn record(call: &mut Call) -> Outcome {
    let store = call.store(0)?;
    if !call.has("--names") {
        return call.put(1, &store.record());
    }
    let Some(&out) = call.arguments.get(1).filter(|&&out| out != "-") else {
        return Err(Failure::Error("--names needs OUT, a file to put the names beside".to_owned()));
    };
    call.files.write(&names::file_of(out), names::write(&store).as_bytes())?;
    call.put(1, &store.record())
}

pub fn as_text(call: &mut Call) -> Outcome {
    let store = call.store(0)?;
    call.put(1, text(&store).as_bytes())
}

pub fn plan(call: &mut Call) -> Outcome {
    let store = call.store(0)?;
    let plan = call.plan(&store)?;
    let which = call.which(&plan, "the list does not tell its inserted moves")?;
    call.show(&store, show::plan(&store, &plan, which))
}

pub fn newest(call: &mut Call) -> Outcome {
    let store = call.store(0)?;
    let list = call.plan(&store)?.steps;
    let text = show::newest(&store, &list).map_err(|refusal| {
        Failure::Refused(refusal, explain::in_words(&store, refusal, Some(&list)))
    })?;
    call.files.print(text.as_bytes())
}

pub fn repair(call: &mut Call) -> Outcome {
    let store = call.store(0)?;
    let relaxed = call.list(1, &store)?.steps;
    let repaired = Plan::repair(&store, &relaxed).map_err(|refusal| {
        Failure::Refused(refusal, explain::in_words(&store, refusal, Some(&relaxed)))
    })?;
    let which = if call.has("--relaxed") { Which::Relaxed } else { Which::All };
    call.show(&store, show::plan(&store, &repaired, which))
}

/// The edition that sheets are written in.
const EDITION: u32 = 2;

pub fn sheet(call: &mut Call) -> Outcome {
    let store = call.store(0)?;
    let planned =
        library::plan(&store.record(), MAX_STEPS).map_err(|refusal| refused(&store, refusal))?;
    let mardiskos::Plan { steps, marks, cost, real, .. } = planned;
    let sheet = Sheet { steps, marks, edition: EDITION, cost, real };
    let bytes = library::write_sheet(&sheet).map_err(|refusal| refused(&store, refusal))?;
    call.put(1, &bytes)
}

pub fn read(call: &mut Call) -> Outcome {
    let bytes = call.files.bytes(call.arguments[0])?;
    let sheet = library::read_sheet(&bytes)
        .map_err(|refusal| Failure::Refused(refusal, explain::sheet::in_words(&bytes, refusal)))?;
    let which = call.which(&Plan::on(&sheet), "a sheet of edition 1 has no marks")?;
    if call.arguments.len() == 1 {
        return call.files.print(show::sheet(&sheet, which).as_bytes());
    }
    let store = call.store(1)?;
    let shown = show::sheet_in(&store, &sheet, which).map_err(|refusal| {
        Failure::Refused(refusal, explain::in_words(&store, refusal, Some(&sheet.steps)))
    })?;
    call.show(&store, Ok(shown))
}

pub fn explain(call: &mut Call) -> Outcome {
    let number = |text: &str, limit: u32| text.parse().ok().filter(|&number: &u32| number <= limit);
    let (Some(number), Some(place)) =
        (number(call.arguments[0], 31), number(call.arguments[1], u32::MAX))
    else {
        let message = "expected a refusal's number and place, as in `store explain 10 3`";
        return Err(Failure::Error(message.to_owned()));
    };
    let refusal = Refusal::new(number as u8, place as usize);
    let words = match call.arguments.get(2) {
        None => explain::in_general(refusal),
        Some(file) if number <= 6 => explain::record::in_words(&call.files.bytes(file)?, refusal),
        Some(file) if number == 12 => explain::sheet::in_words(&call.files.bytes(file)?, refusal),
        Some(_) => {
            let store = call.store(2)?;
            let list = call.arguments.get(3).is_some().then(|| call.list(3, &store)).transpose()?;
            explain::of_any_call(&store, refusal, list.as_ref().map(|plan| plan.steps.as_slice()))
        }
    };
    call.files.print(format!("{words}\n").as_bytes())
}
