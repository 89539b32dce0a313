//! Every class: its name, and what it is at each size.

use crate::calls::{check, forward, judge, newest, plan, read_sheet, relax, repair, write_sheet};
use bench::table::Class;
use generate::{extremes, prices, records, ring, stores, Random};
use reference::entry::MAX_STEPS;
use reference::{examples, Task};

/// How many records a run is timed on.
const RECORDS: usize = 40;

/// `n` is 4 at full size, 2 at half and 1 at a quarter.
pub fn all() -> Vec<Class> {
    [runs(), paintings(), plans(), sheets()].into_iter().flatten().collect()
}

fn runs() -> Vec<Class> {
    vec![
        // The longest record: 256n actions with 15 preconditions and 15 effects.
        Class::new("record check, longest", |r, n| {
            check(&[records::dense_task(r, 64, 256 * n, 15)])
        }),
        // 256n records of one or two movers and a box.
        Class::new("record check, 1,024 tiny", |r, n| check(&many(256 * n, || tiny(r)))),
        // Runs are of 40 records in turn, more than the processor's branch prediction can learn by
        // heart. Each of 256n actions becomes applicable by the one before, and the lowest number is
        // last.
        Class::new("40 forward runs", |r, n| {
            forward(&many(RECORDS, || extremes::chain(r, 256 * n)))
        }),
        // The same with costs that fall as the numbers rise, and with no two costs the same.
        Class::new("40 forward runs, falling costs", |r, n| {
            forward(&many(RECORDS, || extremes::falling_chain(r, 256 * n)))
        }),
        Class::new("40 forward runs, costs differ", |r, n| {
            forward(&many(RECORDS, || extremes::different_chain(r, 256 * n)))
        }),
        // 256n actions of one precondition and one effect, no two costs the same, in four waves; those
        // of a wave apply at the same time.
        Class::new("40 forward runs, in waves", |r, n| {
            forward(&many(RECORDS, || extremes::different_waves(r, 256 * n)))
        }),
        Class::new("40 relaxed plans", |r, n| {
            relax(&many(RECORDS, || extremes::chain(r, 256 * n)))
        }),
        // 8,192n steps that never stop, 15 preconditions and 15 effects, then 1 and 1; then ones that
        // stop for real at step 1, red-black and relaxed never.
        Class::new("judging, 15+15 facts", |r, n| judge(&extremes::wheel(r), 8_192 * n)),
        Class::new("judging, 1+1 facts", |r, n| judge(&extremes::turning(r, 64, 1), 8_192 * n)),
        Class::new("judging, stops at 1", |r, n| judge(&extremes::lamp_wheel(r), 8_192 * n)),
        // The list of 1 and 1 facts again.
        Class::new("newest values, 1+1 facts", |r, n| {
            newest(&extremes::turning(r, 64, 1), 8_192 * n)
        }),
    ]
}

fn paintings() -> Vec<Class> {
    vec![
        // 256n moves of 16 black variables, each with one return among those of its variable.
        Class::new("painting, 16 black", |r, n| plan(&[extremes::returns(r, 256 * n)], 16)),
        // The same where each move needs 13 black gates at some value and sets them to it again.
        Class::new("painting, gates set again", |r, n| plan(&[extremes::gates(r, 256 * n)], 16)),
        // 256n moves of one black variable from anywhere: one return for all, then each its own, which
        // is another one than that of the action before.
        Class::new("painting, anywhere", |r, n| plan(&[extremes::anywhere(r, 256 * n)], 16)),
        Class::new("painting, returns apart", |r, n| {
            plan(&[extremes::anywhere_apart(r, 256 * n)], 16)
        }),
    ]
}

fn plans() -> Vec<Class> {
    vec![
        // Five movers that serve one another and 8n + 1 boxes: about 4,000n steps.
        Class::new("repair, 16,000 steps", |r, n| plan(&[tower(r, n)], MAX_STEPS)),
        // A carriage on a ring of 64 rooms, gates, an arm, 15n boxes with 14 errands each.
        Class::new("repair, ring of rooms", |r, n| {
            plan(&[ring::ring(r, 64, 15 * n, 14)], MAX_STEPS)
        }),
        // A carriage on 8 x 8 rooms with ways of different costs and of the same, 15n boxes with 13
        // errands each.
        Class::new("repair, grid with costs", |r, n| {
            plan(&[prices::grid(r, 15 * n, 13)], MAX_STEPS)
        }),
        // That repaired plan of 4,000n steps as a relaxed plan: nothing is to be inserted.
        Class::new("caller's 16,000 steps", |r, n| repair(&tower(r, n))),
        // 16 movers whose plan would be far longer than any list; room for 8,192n steps.
        Class::new("plan far beyond the room", |r, n| {
            plan(&[stores::tower(r, 16, 16, 4)], 8_192 * n)
        }),
        // 250n drawn stores, one in three without a plan; 250n of twice the size, all with a plan.
        Class::new("1,000 small stores", |r, n| {
            plan(&many(250 * n, || stores::store(r, stores::SMALL)), 64)
        }),
        Class::new("1,000 office stores", |r, n| {
            plan(&many(250 * n, || stores::office_store(r)), 512)
        }),
        // 250n drawn stores of one or two carriages, with few costs, and some moves twice.
        Class::new("1,000 small stores, costs", |r, n| {
            plan(&many(250 * n, || prices::store(r)), 512)
        }),
        // The first store example 25n times.
        Class::new("two shelves, 100 times", |_, n| plan(&many(25 * n, examples::two_shelves), 16)),
    ]
}

fn sheets() -> Vec<Class> {
    vec![
        // 8,192n drawn steps; in edition 2 every second one marked, on average.
        Class::new("sheet written, edition 1", |r, n| write_sheet(r, 1, 8_192 * n)),
        Class::new("sheet read, edition 1", |r, n| read_sheet(r, 1, 8_192 * n)),
        Class::new("sheet written, edition 2", |r, n| write_sheet(r, 2, 8_192 * n)),
        Class::new("sheet read, edition 2", |r, n| read_sheet(r, 2, 8_192 * n)),
    ]
}

fn many(count: usize, task: impl FnMut() -> Task) -> Vec<Task> {
    std::iter::repeat_with(task).take(count).collect()
}

fn tiny(random: &mut Random) -> Task {
    stores::store(random, stores::TINY)
}

fn tower(random: &mut Random, n: usize) -> Task {
    stores::tower(random, 5, 5, 8 * n + 1)
}
