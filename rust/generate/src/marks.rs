//! Marks by rules that come close to 6.10, from a repaired list and its marks.

/// Which steps are marked.
#[derive(Clone, Copy, Debug)]
pub enum Marking {
    /// All steps of an action that is an inserted move anywhere.
    ByAction,
    /// What is left when the relaxed plan is looked for in the list from its end.
    FromTheEnd,
}

/// Rules that are not that of 6.10.
pub const OTHERS: [Marking; 2] = [Marking::ByAction, Marking::FromTheEnd];

/// The list without its marked steps.
pub fn unmarked(plan: &[u16], marks: &[u8]) -> Vec<u16> {
    let kept = plan.iter().zip(marks).filter(|(_, &mark)| mark == 0);
    kept.map(|(&number, _)| number).collect()
}

/// The marks by another rule.
pub fn marked_by(marking: Marking, plan: &[u16], marks: &[u8]) -> Vec<u8> {
    match marking {
        Marking::ByAction => by_action(plan, marks),
        Marking::FromTheEnd => from_the_end(plan, unmarked(plan, marks)),
    }
}

fn by_action(plan: &[u16], marks: &[u8]) -> Vec<u8> {
    let inserted = |number| plan.iter().zip(marks).any(|(&n, &mark)| n == number && mark == 1);
    plan.iter().map(|&number| u8::from(inserted(number))).collect()
}

fn from_the_end(plan: &[u16], mut relaxed: Vec<u16>) -> Vec<u8> {
    let mut marks = vec![1; plan.len()];
    for (mark, number) in marks.iter_mut().zip(plan).rev() {
        if relaxed.last() == Some(number) {
            relaxed.pop();
            *mark = 0;
        }
    }
    marks
}
