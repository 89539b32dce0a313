//! Judging, newest values, the forward run and the relaxed plan.

/// For each semantics how many steps run until one does not apply, and whether it is a plan.
#[repr(C)]
#[derive(Clone, Copy, Debug, Default, PartialEq, Eq)]
pub struct Judgement {
    pub code: u64,
    pub relaxed_steps: u32,
    pub red_black_steps: u32,
    pub real_steps: u32,
    pub relaxed_plan: bool,
    pub red_black_plan: bool,
    pub real_plan: bool,
}

/// How many steps run red-black until one does not apply, and how many for real.
#[repr(C)]
#[derive(Clone, Copy, Debug, Default, PartialEq, Eq)]
pub struct NewestValues {
    pub code: u64,
    pub steps: u32,
    pub runs: u32,
}

#[repr(C)]
#[derive(Clone, Copy, Debug, Default, PartialEq, Eq)]
pub struct ForwardRun {
    pub code: u64,
    pub steps: u32,
    /// Facts reached.
    pub reached: u32,
}

#[repr(C)]
#[derive(Clone, Copy, Debug, Default, PartialEq, Eq)]
pub struct RelaxedPlan {
    pub code: u64,
    pub steps: u32,
}

extern "C" {
    fn mardiskos_judge(
        record: *const u8,
        len: usize,
        list: *const u16,
        entries: usize,
    ) -> Judgement;
    fn mardiskos_newest(
        record: *const u8,
        len: usize,
        list: *const u16,
        entries: usize,
        values: *mut u16,
        values_entries: usize,
    ) -> NewestValues;
    fn mardiskos_forward(
        record: *const u8,
        len: usize,
        plan: *mut u16,
        entries: usize,
    ) -> ForwardRun;
    fn mardiskos_relax(
        record: *const u8,
        len: usize,
        plan: *mut u16,
        entries: usize,
    ) -> RelaxedPlan;
}

/// Judges a list of actions under the three semantics.
pub fn judge(record: &[u8], list: &[u16]) -> Judgement {
    // SAFETY: pointers and lengths are those of live slices, which are only read.
    unsafe { mardiskos_judge(record.as_ptr(), record.len(), list.as_ptr(), list.len()) }
}

/// Fills the front of `values` with the newest value of each variable where the red-black run of a list
/// stops, and 65,535 the rest.
pub fn newest(record: &[u8], list: &[u16], values: &mut [u16]) -> NewestValues {
    // SAFETY: pointers and lengths are those of live slices; only `values` is written.
    unsafe {
        mardiskos_newest(
            record.as_ptr(),
            record.len(),
            list.as_ptr(),
            list.len(),
            values.as_mut_ptr(),
            values.len(),
        )
    }
}

/// Fills `plan` with the forward run.
pub fn forward(record: &[u8], plan: &mut [u16]) -> ForwardRun {
    // SAFETY: pointers and lengths are those of live slices; only `plan` is written.
    unsafe { mardiskos_forward(record.as_ptr(), record.len(), plan.as_mut_ptr(), plan.len()) }
}

/// Fills `plan` with the relaxed plan.
pub fn relax(record: &[u8], plan: &mut [u16]) -> RelaxedPlan {
    // SAFETY: as for `forward`.
    unsafe { mardiskos_relax(record.as_ptr(), record.len(), plan.as_mut_ptr(), plan.len()) }
}

#[cfg(test)]
mod tests {
    use super::*;

    #[test]
    fn no_bytes() {
        let mut list = [0; 2];
        assert_eq!(judge(&[], &[]), Judgement { code: 1, ..Judgement::default() });
        assert_eq!(forward(&[], &mut list), ForwardRun { code: 1, ..ForwardRun::default() });
        assert_eq!(list, [65_535; 2]);
        assert_eq!(relax(&[], &mut []), RelaxedPlan { code: 1, steps: 0 });
        let mut values = [0; 3];
        assert_eq!(newest(&[], &[], &mut values), NewestValues { code: 1, steps: 0, runs: 0 });
        assert_eq!(values, [65_535; 3]);
    }
}
