//! Packed fields (2.1).

/// Reads fields of a byte slice by unaligned 64-bit loads.
#[derive(Clone, Copy)]
pub struct Bits<'a> {
    bytes: &'a [u8],
}

impl<'a> Bits<'a> {
    pub fn new(bytes: &'a [u8]) -> Self {
        Bits { bytes }
    }

    pub fn len(self) -> usize {
        8 * self.bytes.len()
    }

    pub fn is_empty(self) -> bool {
        self.bytes.is_empty()
    }

    /// At least 57 bits from `at` on, left aligned; bits behind the end are 0.
    #[inline(always)]
    pub fn window(self, at: usize) -> u64 {
        self.word(at / 8) << (at % 8)
    }

    /// The 64 bits from a byte on; bits behind the end are 0.
    #[inline(always)]
    pub fn word(self, first: usize) -> u64 {
        match self.bytes.get(first..first + 8) {
            Some(eight) => u64::from_be_bytes(eight.try_into().unwrap()),
            None => self.tail(first),
        }
    }

    /// The field of `width` bits at `at`, `width` from 1 to 57.
    #[inline(always)]
    pub fn field(self, at: usize, width: usize) -> usize {
        (self.window(at) >> (64 - width)) as usize
    }

    /// Whether zero bits fill the last byte behind `at` and nothing follows.
    pub fn ends_at(self, at: usize) -> bool {
        self.bytes.len() == at.div_ceil(8) && self.window(at) == 0
    }

    #[cold]
    fn tail(self, first: usize) -> u64 {
        let mut eight = [0; 8];
        let rest = self.bytes.get(first..).unwrap_or(&[]);
        eight[..rest.len()].copy_from_slice(rest);
        u64::from_be_bytes(eight)
    }
}

/// Writes fields one behind the other into bytes that have room for them.
pub struct BitWriter<'a> {
    bytes: &'a mut [u8],
    at: usize,
    /// Bits not written yet, left aligned; fewer than 8 between calls.
    pending: u64,
    count: usize,
}

impl<'a> BitWriter<'a> {
    pub fn new(bytes: &'a mut [u8]) -> Self {
        BitWriter { bytes, at: 0, pending: 0, count: 0 }
    }

    /// Appends a field of `width` bits, `width` from 1 to 56; higher bits of `value` are cut.
    #[inline(always)]
    pub fn put(&mut self, value: u64, width: usize) {
        self.pending |= value << (64 - width) >> self.count;
        self.count += width;
        let whole = self.count / 8;
        self.store(whole);
        self.at += whole;
        self.pending <<= 8 * whole;
        self.count %= 8;
    }

    /// Fills the last byte with zero bits; answers the bytes written.
    pub fn finish(mut self) -> usize {
        let more = self.count.div_ceil(8);
        self.store(more);
        self.at + more
    }

    /// Stores the first bytes pending, and more where there is room: the next call overwrites it.
    #[inline(always)]
    fn store(&mut self, whole: usize) {
        let eight = self.pending.to_be_bytes();
        match self.bytes.get_mut(self.at..self.at + 8) {
            Some(room) => room.copy_from_slice(&eight),
            None => self.bytes[self.at..self.at + whole].copy_from_slice(&eight[..whole]),
        }
    }
}

#[cfg(test)]
mod tests {
    use super::*;

    #[test]
    fn fields_come_back() {
        let widths = [4, 7, 11, 6, 1, 6, 1, 6, 16, 32, 12, 3];
        let mut bytes = [0; 14];
        let mut writer = BitWriter::new(&mut bytes);
        for (i, width) in widths.iter().enumerate() {
            writer.put(0x9e37_79b9_7f4a_7c15 >> i, *width);
        }
        assert_eq!(writer.finish(), 14);
        let bits = Bits::new(&bytes);
        let mut at = 0;
        for (i, width) in widths.iter().enumerate() {
            let expected = (0x9e37_79b9_7f4a_7c15u64 >> i) & ((1 << width) - 1);
            assert_eq!(bits.field(at, *width) as u64, expected);
            at += width;
        }
        assert!(bits.ends_at(at));
        assert!(!bits.ends_at(at + 8));
    }
}
