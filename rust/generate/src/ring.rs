//! A carriage on a ring of rooms. Boxes have errands in drawn rooms one after another; the arm is
//! in while the carriage moves and out at an errand; two passages have gates that errands open.

use crate::random::Random;
use crate::stores::{number, Draft};
use reference::{Fact, Task, Variable};

const CARRIAGE: usize = 0;
const ARM: usize = 1;
const GATES: [usize; 2] = [2, 3];
const FIRST_BOX: usize = 4;
const ARM_OUT: usize = 2;

/// `boxes` is at most 60 and `rooms` from 4 to 64.
pub fn ring(random: &mut Random, rooms: usize, boxes: usize, errands: usize) -> Task {
    let mut variables = vec![black(rooms), black(ARM_OUT + 1)];
    variables.extend(GATES.map(|_| red(2, None)));
    variables.extend((0..boxes).map(|_| red(errands + 1, Some(errands as u8))));
    let mut drafts = Vec::new();
    for room in 0..rooms {
        passage(&mut drafts, rooms, room);
    }
    for at in 0..ARM_OUT {
        two_way(&mut drafts, ARM, at, at + 1, &[]);
    }
    for cargo in FIRST_BOX..FIRST_BOX + boxes {
        (0..errands).for_each(|done| drafts.push(errand(random, rooms, cargo, done)));
    }
    number(random, variables, drafts)
}

fn black(values: usize) -> Variable {
    Variable { values: values as u8, black: true, initial: 0, goal: Some(0) }
}

fn red(values: usize, goal: Option<u8>) -> Variable {
    Variable { values: values as u8, black: false, initial: 0, goal }
}

/// The way from a room to the next and back. The two gates lie opposite to one another.
fn passage(drafts: &mut Vec<Draft>, rooms: usize, room: usize) {
    let mut needs = vec![Fact::new(ARM, 0)];
    needs.extend((room == rooms / 4).then_some(Fact::new(GATES[0], 1)));
    needs.extend((room == rooms / 4 * 3).then_some(Fact::new(GATES[1], 1)));
    two_way(drafts, CARRIAGE, room, (room + 1) % rooms, &needs);
}

fn two_way(drafts: &mut Vec<Draft>, mover: usize, d: usize, e: usize, outside: &[Fact]) {
    for (from, to) in [(d, e), (e, d)] {
        let needs = [outside, &[Fact::new(mover, from)]].concat();
        drafts.push((needs, vec![Fact::new(mover, to)]));
    }
}

/// The first errands of the first two boxes open the gates, from the side of the room 0.
fn errand(random: &mut Random, rooms: usize, cargo: usize, done: usize) -> Draft {
    let opens = GATES.get(cargo - FIRST_BOX).filter(|_| done == 0);
    let room = if opens.is_some() { random.below(rooms / 4) } else { random.below(rooms) };
    let needs = vec![Fact::new(CARRIAGE, room), Fact::new(ARM, ARM_OUT), Fact::new(cargo, done)];
    let mut sets = vec![Fact::new(cargo, done + 1)];
    sets.extend(opens.map(|&gate| Fact::new(gate, 1)));
    (needs, sets)
}
