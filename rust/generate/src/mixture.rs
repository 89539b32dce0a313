//! A mixture of all kinds of records, most of them small.

use crate::random::Random;
use crate::{choices, damage, extremes, gates, prices, records, ring, stores};
use reference::{record, Task};

/// A record, one in twenty damaged.
pub fn record(random: &mut Random) -> Vec<u8> {
    let mut bytes = record::write(&task(random));
    if random.chance(1, 20) {
        damage::any(random, &mut bytes);
    }
    bytes
}

/// One in three is changed so that its forward run has more to choose from, and every second one so that
/// facts are set again; of those with two black variables a third then has a gate that is. More than
/// one in three has ways of different costs and of the same.
pub fn task(random: &mut Random) -> Task {
    let mut task = any_task(random);
    if random.chance(1, 3) {
        task = choices::with_choices(random, &task);
    }
    if random.chance(1, 2) {
        task = gates::with_gates(random, &task);
    }
    task
}

fn any_task(random: &mut Random) -> Task {
    match random.below(1000) {
        0..2 => records::full_task(random),
        2..4 => stores::store(random, stores::FULL),
        4 => extreme_task(random),
        5..20 => records::random_task(random, records::MIDDLE),
        20..40 => any_tower(random),
        40..70 => stores::store(random, stores::LARGE),
        70..85 => any_ring(random),
        85..90 => from_anywhere(random),
        90..450 => prices::store(random),
        _ => small_task(random),
    }
}

pub fn small_task(random: &mut Random) -> Task {
    match random.below(8) {
        0 => records::random_task(random, records::TINY),
        1 => records::random_task(random, records::SMALL),
        2 | 3 => stores::store(random, stores::TINY),
        4..=6 => stores::store(random, stores::SMALL),
        _ => stores::damaged_store(random, stores::SMALL),
    }
}

fn extreme_task(random: &mut Random) -> Task {
    match random.below(11) {
        0 => extremes::chain(random, 1024),
        1 => extremes::wheel(random),
        2 => extremes::lamp_wheel(random),
        3 => extremes::returns(random, 1024),
        4 => extremes::anywhere_apart(random, 1024),
        5 => ring::ring(random, 64, 60, 14),
        6 => extremes::falling_wave(1024),
        7 => extremes::different_waves(random, 1024),
        8 => extremes::gates(random, 1024),
        9 => prices::grid(random, 60, 13),
        _ => records::dense_task(random, 64, 1024, 15),
    }
}

/// A few rooms, boxes and errands, in one of four cases with one action taken out.
fn any_ring(random: &mut Random) -> Task {
    let (rooms, boxes) = (random.within(4, 16), random.within(0, 6));
    let errands = random.within(1, 4);
    let task = ring::ring(random, rooms, boxes, errands);
    if random.chance(1, 4) {
        return task.without(random.below(task.action_count()));
    }
    task
}

/// With fewer than 64 moves, or one taken out, some value lacks a return.
fn from_anywhere(random: &mut Random) -> Task {
    let actions = random.within(60, 200);
    let task = match random.below(2) {
        0 => extremes::anywhere(random, actions),
        _ => extremes::anywhere_apart(random, actions),
    };
    if random.chance(1, 4) {
        return task.without(random.below(task.action_count()));
    }
    task
}

/// From a few steps to more than any list holds.
pub fn any_tower(random: &mut Random) -> Task {
    let places = random.within(2, 6);
    let movers = random.within(1, 8);
    let boxes = random.within(0, 4);
    stores::tower(random, movers, places, boxes)
}
