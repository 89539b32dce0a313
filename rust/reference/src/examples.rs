//! The examples of clause 12.

use crate::task::{Fact, Task, Variable};

fn variable(values: u8, black: bool, initial: u8, goal: Option<u8>) -> Variable {
    Variable { values, black, initial, goal }
}

fn facts(pairs: &[(usize, usize)]) -> Vec<Fact> {
    pairs.iter().map(|&(variable, value)| Fact::new(variable, value)).collect()
}

fn push(task: &mut Task, cost: u16, preconditions: &[(usize, usize)], effects: &[(usize, usize)]) {
    task.push(cost, &facts(preconditions), &facts(effects));
}

pub fn two_shelves() -> Task {
    let mover = variable(2, true, 0, Some(0));
    let cargo = variable(3, false, 1, Some(0));
    let mut task = Task::new(vec![mover, cargo]);
    push(&mut task, 4, &[(0, 0)], &[(0, 1)]);
    push(&mut task, 4, &[(0, 1)], &[(0, 0)]);
    push(&mut task, 1, &[(0, 1), (1, 1)], &[(1, 2)]);
    push(&mut task, 1, &[(0, 0), (1, 2)], &[(1, 0)]);
    task
}

/// A drive with a red lamp: forth sets it to 1, back needs it at `lamp`.
pub fn lamp(lamp: usize) -> Task {
    let mover = variable(2, true, 0, None);
    let mut task = Task::new(vec![mover, variable(3, false, 0, None)]);
    push(&mut task, 1, &[(0, 0)], &[(0, 1), (1, 1)]);
    push(&mut task, 1, &[(0, 1), (1, lamp)], &[(0, 0)]);
    task
}

/// One action that sets two black variables.
pub fn two_black_effects() -> Task {
    let mut task = Task::new(vec![variable(2, true, 0, None); 2]);
    push(&mut task, 1, &[], &[(0, 1), (1, 1)]);
    task
}

pub fn goal_met() -> Task {
    let mut task = two_shelves();
    task.variables[1].goal = Some(1);
    task
}

/// Red tray 0 and red boxes 1 and 2.
pub fn tray() -> Task {
    let cargo = variable(2, false, 0, Some(1));
    let mut task = Task::new(vec![variable(2, false, 0, None), cargo, cargo]);
    push(&mut task, 1, &[(0, 0), (1, 0)], &[(0, 1), (1, 1)]);
    push(&mut task, 1, &[(0, 0), (2, 0)], &[(0, 1), (2, 1)]);
    task
}

/// A carriage, variable 1, that moves only while the door, variable 0, is open; a box fetched with
/// the door shut.
pub fn door() -> Task {
    let mover = variable(2, true, 0, Some(0));
    let mut task = Task::new(vec![mover, mover, variable(2, false, 0, Some(1))]);
    push(&mut task, 1, &[(0, 0)], &[(0, 1)]);
    push(&mut task, 1, &[(0, 1)], &[(0, 0)]);
    push(&mut task, 4, &[(0, 1), (1, 0)], &[(1, 1)]);
    push(&mut task, 4, &[(0, 1), (1, 1)], &[(1, 0)]);
    push(&mut task, 2, &[(0, 0), (1, 1), (2, 0)], &[(2, 1)]);
    task
}

/// Driving back lights a lamp, and a way out needs it.
pub fn lit_return() -> Task {
    let (mover, lamp) = (variable(2, true, 0, Some(1)), variable(2, false, 0, None));
    let mut task = Task::new(vec![mover, lamp, variable(3, false, 0, Some(2))]);
    push(&mut task, 1, &[(0, 0), (1, 1)], &[(0, 1)]);
    push(&mut task, 4, &[(0, 0)], &[(0, 1)]);
    push(&mut task, 4, &[(0, 1)], &[(0, 0), (1, 1)]);
    push(&mut task, 2, &[(0, 1), (2, 0)], &[(2, 1)]);
    push(&mut task, 2, &[(0, 0), (2, 1)], &[(2, 2)]);
    task
}

/// A box, variable 1, that is loaded and unloaded, and a lamp, variable 2, which scanning needs off and
/// leaves off.
pub fn newest() -> Task {
    let (mover, cargo) = (variable(2, true, 0, Some(0)), variable(2, false, 0, Some(1)));
    let mut task = Task::new(vec![mover, cargo, variable(2, false, 0, None)]);
    push(&mut task, 4, &[(0, 0)], &[(0, 1), (2, 1)]);
    push(&mut task, 4, &[(0, 1)], &[(0, 0)]);
    push(&mut task, 1, &[(0, 1), (1, 0)], &[(1, 1)]);
    push(&mut task, 1, &[(0, 1), (1, 1)], &[(1, 0)]);
    push(&mut task, 2, &[(1, 1), (2, 0)], &[(2, 0)]);
    task
}

/// Two shelves with a cheaper way out, action 4.
pub fn two_shelves_with_4() -> Task {
    let mut task = two_shelves();
    push(&mut task, 3, &[(0, 0)], &[(0, 1)]);
    task
}

/// A carriage, variable 1, that moves only while the gate, variable 0, is shut, and sets it so again; a
/// box fetched with the gate open.
pub fn gate() -> Task {
    let mover = variable(2, true, 0, Some(0));
    let mut task = Task::new(vec![mover, mover, variable(2, false, 0, Some(1))]);
    push(&mut task, 1, &[(0, 0)], &[(0, 1)]);
    push(&mut task, 1, &[(0, 1)], &[(0, 0)]);
    push(&mut task, 4, &[(0, 1), (1, 0)], &[(0, 1), (1, 1)]);
    push(&mut task, 4, &[(0, 1), (1, 1)], &[(0, 1), (1, 0)]);
    push(&mut task, 2, &[(0, 0), (1, 1), (2, 0)], &[(2, 1)]);
    task
}

/// A carriage, a black variable of so many values that starts at 0 and is to end there, with its
/// moves (cost, from, to), and a box fetched at one of them.
fn errand(values: u8, moves: &[(u16, usize, usize)], at: usize) -> Task {
    let mover = variable(values, true, 0, Some(0));
    let mut task = Task::new(vec![mover, variable(2, false, 0, Some(1))]);
    for &(cost, from, to) in moves {
        push(&mut task, cost, &[(0, from)], &[(0, to)]);
    }
    push(&mut task, 1, &[(0, at), (1, 0)], &[(1, 1)]);
    task
}

/// A cellar with a dear lift and a cheap way over a ramp.
pub fn detour() -> Task {
    let moves = [(5, 2, 0), (1, 0, 1), (1, 1, 2), (1, 2, 1), (1, 1, 0), (5, 0, 2)];
    errand(3, &moves, 2)
}

/// Four rooms in a ring, where driving costs nothing; the short way back has the higher number.
pub fn ring() -> Task {
    let out = [(0, 0, 1), (0, 1, 2), (0, 2, 3)];
    let back = [(0, 3, 2), (0, 2, 1), (0, 1, 0), (0, 3, 0), (0, 0, 3)];
    errand(4, &[&out[..], &back].concat(), 3)
}

/// Two ways back that cost the same in as many moves: one begins with the lower action, the other
/// ends with it. A third one costs the same in more moves.
pub fn diamond() -> Task {
    let out = [(1, 0, 1), (1, 1, 2), (1, 2, 3)];
    let back = [(1, 3, 1), (2, 3, 2), (1, 2, 0), (2, 1, 0)];
    let returns = [(4, 0, 2), (4, 1, 3), (4, 2, 1)];
    errand(4, &[&out[..], &back, &returns].concat(), 3)
}

/// A lift, variable 1, that moves and is loaded only while its switch, variable 0, is on.
pub fn lift() -> Task {
    let (switch, lift) = (variable(2, true, 0, Some(0)), variable(2, true, 0, Some(1)));
    let mut task = Task::new(vec![switch, lift, variable(2, false, 0, Some(1))]);
    push(&mut task, 1, &[], &[(0, 1)]);
    push(&mut task, 1, &[], &[(0, 0)]);
    push(&mut task, 2, &[(0, 1)], &[(1, 1)]);
    push(&mut task, 2, &[(0, 1)], &[(1, 0)]);
    push(&mut task, 3, &[(0, 1), (1, 0)], &[(2, 1)]);
    task
}

/// One action with two effects on one variable, which no record may have.
pub fn repeated_variable() -> Task {
    let mut task = Task::new(vec![variable(2, false, 0, None)]);
    push(&mut task, 1, &[], &[(0, 0), (0, 1)]);
    task
}

/// A record with the given counts of variables and actions, 64 values a variable and `facts`
/// preconditions and effects an action, none black.
pub fn sized(variables: usize, actions: usize, facts: usize) -> Task {
    let mut task = Task::new(vec![variable(64, false, 0, None); variables]);
    for number in 0..actions {
        let list = |shift: usize| -> Vec<Fact> {
            let first = (number * 7 + shift) % (variables - facts + 1).max(1);
            (first..first + facts).map(|v| Fact::new(v, (number + v + shift) % 64)).collect()
        };
        task.push(number as u16, &list(0), &list(1));
    }
    task
}

/// The files of the `examples` folder: name and record.
pub fn files() -> Vec<(&'static str, Vec<u8>)> {
    let tasks = [
        ("two-shelves", two_shelves()),
        ("two-shelves-without-1", two_shelves().without(1)),
        ("two-shelves-without-2", two_shelves().without(2)),
        ("lamp-1", lamp(1)),
        ("lamp-2", lamp(2)),
        ("two-black-effects", two_black_effects()),
        ("goal-met", goal_met()),
        ("tray", tray()),
        ("door", door()),
        ("lit-return", lit_return()),
        ("newest", newest()),
        ("two-shelves-with-4", two_shelves_with_4()),
        ("gate", gate()),
        ("detour", detour()),
        ("ring", ring()),
        ("diamond", diamond()),
        ("lift", lift()),
        ("repeated-variable", repeated_variable()),
        ("variables-64", sized(64, 0, 0)),
        ("variables-65", sized(65, 0, 0)),
        ("actions-1024", sized(2, 1024, 1)),
        ("actions-1025", sized(2, 1025, 1)),
    ];
    let mut files = vec![("no-bytes", Vec::new())];
    files.extend(tasks.iter().map(|(name, task)| (*name, crate::record::write(task))));
    files
}
