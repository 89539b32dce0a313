//! Records that are no longer as they were written.

use crate::random::Random;

/// Overwrites `width` bits at `at`, where the bytes reach that far.
pub fn set_field(bytes: &mut [u8], at: usize, width: usize, value: u64) {
    for i in 0..width {
        let Some(byte) = bytes.get_mut((at + i) / 8) else { return };
        let mask = 0x80 >> ((at + i) % 8);
        let set = value >> (width - 1 - i) & 1 == 1;
        *byte = if set { *byte | mask } else { *byte & !mask };
    }
}

pub fn flip(bytes: &mut [u8], at: usize) {
    bytes[at / 8] ^= 0x80 >> (at % 8);
}

/// New random contents for one or more of the header's three fields.
pub fn header(random: &mut Random, bytes: &mut [u8]) {
    for (at, width, usual) in [(0, 4, 1), (4, 7, 64), (11, 11, 1024)] {
        let value = match random.below(4) {
            0 => random.bits(),
            1 => (usual + random.below(3) as u64).saturating_sub(1),
            _ => continue,
        };
        set_field(bytes, at, width, value);
    }
}

/// One of: a few flipped bits, a cut, bytes appended, a byte replaced, a stretch overwritten.
pub fn any(random: &mut Random, bytes: &mut Vec<u8>) {
    if bytes.is_empty() {
        return bytes.push(random.bits() as u8);
    }
    match random.below(5) {
        0 => {
            for _ in 0..random.within(1, 3) {
                let at = random.below(8 * bytes.len());
                flip(bytes, at);
            }
        }
        1 => bytes.truncate(random.below(bytes.len())),
        2 => {
            let more = random.within(1, 9);
            let zero = random.chance(1, 2);
            let extra = random.bytes(more);
            bytes.extend(extra.iter().map(|byte| if zero { 0 } else { *byte }));
        }
        3 => *bytes.last_mut().unwrap() = random.bits() as u8,
        _ => {
            let at = random.below(8 * bytes.len());
            set_field(bytes, at, random.within(1, 12), random.bits());
        }
    }
}
