//! Refusals 9 and 13: entries of a list.

use reference::entry::MAX_STEPS;
use reference::state::Semantics;

use super::grouped;
use crate::run::run;
use crate::show::trouble;
use crate::store::Store;

/// 9: an entry that is no action, or one that does not apply in a relaxed run, or a goal missed.
pub fn entry(store: &Store, list: &[u16], place: usize) -> String {
    let actions = store.actions.len();
    let known = list.iter().take_while(|&&entry| usize::from(entry) < actions).count();
    match list.get(place) {
        Some(entry) if place >= known => format!(
            "entry {place} of the list is {entry}, and the store has {actions} actions, numbered from 0"
        ),
        _ if run(&store.task(), &list[..known], &Semantics::relaxed()).plan => {
            "the list is a relaxed plan of this store".to_owned()
        }
        _ => format!("no relaxed plan: {}", trouble(store, &list[..known], &Semantics::relaxed())),
    }
}

/// 13: a list over 32,768 entries, or an entry that does not fit a sheet.
pub fn too_long(list: &[u16], place: usize) -> String {
    let most = grouped(MAX_STEPS as u128);
    match list.get(place) {
        Some(entry) if list.len() <= MAX_STEPS => {
            format!("entry {place} of the list is {entry}; a sheet holds actions up to 1,023")
        }
        _ => format!("the list has {} entries; {most} is the most", grouped(list.len() as u128)),
    }
}
