//! The repair of a caller's relaxed plan, and the planner.

#[repr(C)]
#[derive(Clone, Copy, Debug, Default, PartialEq, Eq)]
pub struct PlanResult {
    pub code: u64,
    pub steps: u32,
    pub cost: u32,
    /// The steps that run for real, from the front of the plan.
    pub runs: u32,
    /// The path searches of the repair.
    pub searches: u32,
    pub real: bool,
}

extern "C" {
    fn mardiskos_repair(
        record: *const u8,
        len: usize,
        relaxed: *const u16,
        relaxed_entries: usize,
        plan: *mut u16,
        plan_entries: usize,
        work: *mut u16,
        work_entries: usize,
        marks: *mut u8,
        marks_len: usize,
    ) -> PlanResult;
    fn mardiskos_plan(
        record: *const u8,
        len: usize,
        plan: *mut u16,
        plan_entries: usize,
        work: *mut u16,
        work_entries: usize,
        marks: *mut u8,
        marks_len: usize,
    ) -> PlanResult;
}

/// Fills `plan` with the repair of a relaxed plan and `marks` with a byte a step: 1 for an inserted move, else 0, and 0
/// behind the plan. `work` ends as 65,535 throughout.
pub fn repair(
    record: &[u8],
    relaxed: &[u16],
    plan: &mut [u16],
    work: &mut [u16],
    marks: &mut [u8],
) -> PlanResult {
    // SAFETY: pointers and lengths are those of live slices that do not overlap; only `plan`, `work`
    // and `marks` are written.
    unsafe {
        mardiskos_repair(
            record.as_ptr(),
            record.len(),
            relaxed.as_ptr(),
            relaxed.len(),
            plan.as_mut_ptr(),
            plan.len(),
            work.as_mut_ptr(),
            work.len(),
            marks.as_mut_ptr(),
            marks.len(),
        )
    }
}

/// Fills `plan` with a repaired plan for the record, `marks` and `work` as `repair` does.
pub fn plan(record: &[u8], plan: &mut [u16], work: &mut [u16], marks: &mut [u8]) -> PlanResult {
    // SAFETY: as for `repair`.
    unsafe {
        mardiskos_plan(
            record.as_ptr(),
            record.len(),
            plan.as_mut_ptr(),
            plan.len(),
            work.as_mut_ptr(),
            work.len(),
            marks.as_mut_ptr(),
            marks.len(),
        )
    }
}

#[cfg(test)]
mod tests {
    use super::*;

    #[test]
    fn no_bytes() {
        let refused = PlanResult { code: 1, ..PlanResult::default() };
        let (mut list, mut work, mut marks) = ([0; 2], [0; 3], [7; 4]);
        assert_eq!(plan(&[], &mut list, &mut work, &mut marks), refused);
        assert_eq!((list, work, marks), ([65_535; 2], [65_535; 3], [0; 4]));
        assert_eq!(repair(&[], &[], &mut [], &mut work, &mut []), refused);
    }
}
