extern "C" {
    fn mardiskos_check(record: *const u8, len: usize) -> u64;
}

/// 0 for an accepted record, else 32 × place + number, the number being 1 to 6.
pub fn check(record: &[u8]) -> u64 {
    // SAFETY: the pointer and the length are those of a live slice, which is only read.
    unsafe { mardiskos_check(record.as_ptr(), record.len()) }
}

#[cfg(test)]
mod tests {
    use super::check;

    #[test]
    fn no_bytes() {
        assert_eq!(check(&[]), 1);
    }

    #[test]
    fn edition() {
        assert_eq!(check(&[0x20]), 2);
    }
}
