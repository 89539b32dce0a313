//! The fixed set of records that the listing programs are run on: the store examples, then
//! drawn records of every kind of answer that the planner has.

use crate::random::Random;
use crate::{damage, gates, mixture, prices, records, stores};
use reference::{examples, listing, record, Task};

/// How many records of each kind, by the last line of the listing without its last number.
const WANTED: [(&str, usize); 12] = [
    ("refused 1", 2),
    ("refused 2", 2),
    ("refused 3", 2),
    ("refused 4", 3),
    ("refused 5", 3),
    ("refused 6", 3),
    ("refused 7", 3),
    ("refused 8", 4),
    ("refused 10", 3),
    ("refused 11", 1),
    ("real", 10),
    ("unreal", 8),
];
const MOST_BYTES: usize = 2_000;
const LEAST_TEXT: usize = 70;

pub fn records() -> Vec<Vec<u8>> {
    let random = &mut Random::new(30);
    let mut set: Vec<Vec<u8>> = examples::files().into_iter().map(|(_, bytes)| bytes).collect();
    set.push(record::write(&stores::tower(random, 4, 6, 12)));
    let mut left = WANTED;
    while left.iter().any(|(_, count)| *count > 0) {
        let bytes = drawn(random);
        let text = listing::listing(&bytes);
        let (kind, short) = (kind(&text), text.len() < LEAST_TEXT);
        let place = left.iter_mut().find(|(name, count)| *name == kind && *count > 0);
        let Some((_, count)) = place else { continue };
        if bytes.len() <= MOST_BYTES && !(short && kind.ends_with("real")) {
            *count -= 1;
            set.push(bytes);
        }
    }
    set
}

fn kind(listing: &str) -> &str {
    let last = listing.lines().last().unwrap();
    last.rsplit_once(' ').unwrap().0
}

fn drawn(random: &mut Random) -> Vec<u8> {
    let mut bytes = record::write(&task(random));
    match random.below(6) {
        0 => damage::any(random, &mut bytes),
        1 => damage::header(random, &mut bytes),
        _ => {}
    }
    bytes
}

/// One in three has ways of different costs and of the same, and one in three facts set again.
fn task(random: &mut Random) -> Task {
    let task = match random.below(40) {
        0 => mixture::any_tower(random),
        1..12 => stores::store(random, stores::LARGE),
        12..15 => records::random_task(random, records::MIDDLE),
        15..28 => prices::store(random),
        _ => mixture::small_task(random),
    };
    if random.chance(1, 3) {
        return gates::with_gates(random, &task);
    }
    task
}

/// The records as they are stored: each behind the count of its bytes.
pub fn stored(records: &[Vec<u8>]) -> Vec<u8> {
    let mut stored = Vec::new();
    for bytes in records {
        stored.extend((bytes.len() as u16).to_be_bytes());
        stored.extend(bytes);
    }
    stored
}

/// Their listings, by the reference.
pub fn texts(records: &[Vec<u8>]) -> String {
    records.iter().map(|bytes| listing::listing(bytes)).collect()
}
