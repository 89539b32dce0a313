//! Plan sheets, written and read (SPECIFICATION, Sheet).
//!
//! Eight steps fill as many bytes as a step has bits, so that each eight starts behind five bits of
//! what was before.

use crate::bits::Bits;
use crate::entry::{MAX_STEPS, NO_ENTRY};
use crate::refusal::Refusal;

const HEAD_BITS: usize = 53;
const HEAD_BYTES: usize = HEAD_BITS / 8;
const OVER: usize = HEAD_BITS % 8;
const MAX_ENTRY: u16 = 1023;
/// The bits of a step in edition 1, and those of a mark and its step in edition 2.
const PLAIN: usize = 10;
const MARKED: usize = 11;

#[derive(Clone, Copy, Debug, PartialEq, Eq)]
pub struct Sheet {
    pub steps: u32,
    pub cost: u32,
    pub edition: u32,
    pub real: bool,
}

/// The edition that is written where this number is given (8.6).
pub fn edition_written(edition: u32) -> u32 {
    if edition == 1 {
        1
    } else {
        2
    }
}

fn width(edition: u32) -> usize {
    if edition == 1 {
        PLAIN
    } else {
        MARKED
    }
}

/// The bytes of a sheet of that edition with so many steps.
pub fn size(edition: u32, steps: usize) -> usize {
    (HEAD_BITS + width(edition) * steps).div_ceil(8)
}

/// Writes a sheet into the bytes lent; answers its bytes.
pub fn write(
    list: &[u16],
    marks: &[u8],
    edition: u32,
    cost: u32,
    real: bool,
    bytes: &mut [u8],
) -> Result<u32, Refusal> {
    let steps = list.len() as u32;
    let sheet = Sheet { steps, cost, edition: edition_written(edition), real };
    let answer = written(sheet, list, marks, bytes);
    bytes[answer.unwrap_or(0)..].fill(0);
    answer.map(|size| size as u32)
}

/// The checks of 8.3; the entries are checked as they are written.
fn written(sheet: Sheet, list: &[u16], marks: &[u8], bytes: &mut [u8]) -> Result<usize, Refusal> {
    if list.len() > MAX_STEPS {
        return Err(Refusal::new(13, MAX_STEPS));
    }
    let (size, lent) = (size(sheet.edition, list.len()), bytes.len());
    let all = match (bytes.get_mut(..size), sheet.edition) {
        (Some(room), 1) => fill::<PLAIN>(sheet, list, &[], room),
        (Some(room), _) => fill::<MARKED>(sheet, list, marks, room),
        (None, _) => list.iter().fold(0, |all, entry| all | entry),
    };
    if all > MAX_ENTRY {
        let entry = list.iter().position(|&entry| entry > MAX_ENTRY).unwrap();
        return Err(Refusal::new(13, entry));
    }
    if size > lent {
        return Err(Refusal::new(11, lent));
    }
    Ok(size)
}

fn head_bits(sheet: Sheet) -> u64 {
    let Sheet { steps, cost, edition, real } = sheet;
    u64::from(edition) << 49 | u64::from(real) << 48 | u64::from(steps) << 32 | u64::from(cost)
}

/// Writes a sheet; answers the bits set in any entry.
fn fill<const WIDTH: usize>(sheet: Sheet, list: &[u16], marks: &[u8], bytes: &mut [u8]) -> u16 {
    let head = head_bits(sheet);
    bytes[..HEAD_BYTES].copy_from_slice(&(head << (64 - HEAD_BITS)).to_be_bytes()[..HEAD_BYTES]);
    let (mut before, mut at, mut all) = (head, HEAD_BYTES, 0);
    let mut eights = list.chunks_exact(8);
    for (i, eight) in (&mut eights).enumerate() {
        let lanes = lanes(eight.try_into().unwrap());
        let fours = with_marks::<WIDTH>(lanes.map(packed::<WIDTH>), marks, 8 * i);
        all |= lanes[0] | lanes[1];
        store::<WIDTH>(&mut bytes[at..], before, fours);
        before = fours[1];
        at += WIDTH;
    }
    // Steps and marks that are not there are as the padding.
    let (rest, done) = (eights.remainder(), list.len() & !7);
    let mut eight = [0; 8];
    eight[..rest.len()].copy_from_slice(rest);
    let marks = &marks[..marks.len().min(list.len())];
    let lanes = lanes(&eight);
    let fours = with_marks::<WIDTH>(lanes.map(packed::<WIDTH>), marks, done);
    all |= lanes[0] | lanes[1];
    store::<WIDTH>(&mut bytes[at..], before, fours);
    [0, 16, 32, 48].iter().fold(0, |used, shift| used | (all >> shift) as u16)
}

/// Eight steps, four in a number, the first one lowest.
#[inline(always)]
fn lanes(eight: &[u16; 8]) -> [u64; 2] {
    // SAFETY: eight entries are sixteen bytes, and any bits are entries or numbers. In one piece, a
    // long sheet takes three quarters of the time that it takes entry by entry.
    unsafe { eight.as_ptr().cast::<[u64; 2]>().read_unaligned() }
}

/// Four steps of 16 bits, the first one lowest, as four fields, the first one highest. Bits above the
/// fields are any.
#[inline(always)]
fn packed<const WIDTH: usize>(lanes: u64) -> u64 {
    const EVEN: u64 = 0xffff_0000_ffff;
    let pairs = (lanes & EVEN) << WIDTH | lanes >> 16 & EVEN;
    pairs << (2 * WIDTH) | pairs >> 32
}

/// The way back, without marks.
#[inline(always)]
fn unpacked<const WIDTH: usize>(fields: u64) -> u64 {
    const EVEN: u64 = 0x3ff_0000_03ff;
    let pairs = fields >> (2 * WIDTH) | fields << 32;
    pairs >> WIDTH & EVEN | (pairs & EVEN) << 16
}

/// The first bits of four fields of edition 2.
const FIRST_BITS: u64 = 1 << 43 | 1 << 32 | 1 << 21 | 1 << 10;

/// Fields with their marks, which are those from `at` on.
#[inline(always)]
fn with_marks<const WIDTH: usize>(fours: [u64; 2], marks: &[u8], at: usize) -> [u64; 2] {
    if WIDTH == PLAIN {
        return fours;
    }
    let eight = set(Bits::new(marks).word(at));
    [fours[0] | spread(eight >> 32), fours[1] | spread(eight & 0xffff_ffff)]
}

/// The top bit of each byte that is not 0.
#[inline(always)]
fn set(bytes: u64) -> u64 {
    const LOW: u64 = 0x7f7f_7f7f_7f7f_7f7f;
    (((bytes & LOW) + LOW) | bytes) & !LOW
}

/// The top bits of four bytes at the first bits of four fields: no two products meet.
#[inline(always)]
fn spread(marks: u64) -> u64 {
    (marks * (1 << 3 | 1 << 6 | 1 << 9 | 1 << 12)) & FIRST_BITS
}

/// The way back, into the lowest bits of four bytes from bit 33 on, the first one lowest. Other bits are any.
#[inline(always)]
fn gathered(fields: u64) -> u64 {
    let marks = (fields & FIRST_BITS) >> 10;
    marks.wrapping_mul(1 | 1 << 19 | 1 << 38 | 1 << 57)
}

/// Stores two fours behind the last bits of what was before, or as much as there is room for. Where
/// there is more room, what follows overwrites the rest.
#[inline(always)]
fn store<const WIDTH: usize>(bytes: &mut [u8], before: u64, fours: [u64; 2]) {
    let second = 4 * WIDTH + OVER;
    let words = [
        before << (64 - OVER) | fours[0] << (64 - second),
        (fours[0] << (4 * WIDTH) | fours[1]) << (64 - 4 * WIDTH - second % 8),
    ];
    match bytes.first_chunk_mut::<16>() {
        Some(room) => place(room, words, second / 8),
        None => {
            let mut room = [0; 16];
            place(&mut room, words, second / 8);
            let count = bytes.len();
            bytes.copy_from_slice(&room[..count]);
        }
    }
}

#[inline(always)]
fn place(room: &mut [u8; 16], words: [u64; 2], second: usize) {
    room[..8].copy_from_slice(&words[0].to_be_bytes());
    room[second..second + 8].copy_from_slice(&words[1].to_be_bytes());
}

/// Reads a sheet into the list and the marks lent.
pub fn read(bytes: &[u8], list: &mut [u16], marks: &mut [u8]) -> Result<Sheet, Refusal> {
    let bits = Bits::new(bytes);
    let answer = head(bits).and_then(|sheet| {
        check_steps(bits, sheet)?;
        let capacity = list.len().min(marks.len()).min(MAX_STEPS);
        if sheet.steps as usize > capacity {
            return Err(Refusal::new(11, capacity));
        }
        Ok(sheet)
    });
    let (steps, edition) = answer.map_or((0, 1), |sheet| (sheet.steps as usize, sheet.edition));
    let (front, rest) = list.split_at_mut(steps);
    let (shown, behind) = marks.split_at_mut(steps);
    rest.fill(NO_ENTRY);
    behind.fill(0);
    match edition {
        1 => copy::<PLAIN>(bits, front, shown),
        _ => copy::<MARKED>(bits, front, shown),
    }
    answer
}

fn field(bits: Bits, at: usize, width: usize) -> Result<usize, Refusal> {
    if at + width > bits.len() {
        return Err(Refusal::new(12, at));
    }
    Ok(bits.field(at, width))
}

fn head(bits: Bits) -> Result<Sheet, Refusal> {
    let edition = field(bits, 0, 4)? as u32;
    if !(1..=2).contains(&edition) {
        return Err(Refusal::new(12, 0));
    }
    let real = field(bits, 4, 1)? == 1;
    let steps = field(bits, 5, 16)?;
    if steps > MAX_STEPS {
        return Err(Refusal::new(12, 5));
    }
    let cost = field(bits, 21, 32)?;
    Ok(Sheet { steps: steps as u32, cost: cost as u32, edition, real })
}

/// 12 at the mark or the step that is cut short, or behind the last step.
fn check_steps(bits: Bits, sheet: Sheet) -> Result<(), Refusal> {
    let (steps, width) = (sheet.steps as usize, width(sheet.edition));
    let held = bits.len() - HEAD_BITS;
    let whole = held / width;
    if whole < steps {
        let mark = (held % width).min(width - PLAIN);
        return Err(Refusal::new(12, HEAD_BITS + width * whole + mark));
    }
    let behind = HEAD_BITS + width * steps;
    if !bits.ends_at(behind) {
        return Err(Refusal::new(12, behind));
    }
    Ok(())
}

/// Copies steps and marks; both have the sheet's length.
fn copy<const WIDTH: usize>(bits: Bits, list: &mut [u16], marks: &mut [u8]) {
    let mut at = HEAD_BYTES;
    let (mut steps, mut shown) = (list.chunks_exact_mut(8), marks.chunks_exact_mut(8));
    for (eight, shown) in (&mut steps).zip(&mut shown) {
        let fours = fours::<WIDTH>(bits, at);
        put(eight.try_into().unwrap(), fours.map(unpacked::<WIDTH>));
        shown.copy_from_slice(&marks_of::<WIDTH>(fours).to_le_bytes());
        at += WIDTH;
    }
    let fours = fours::<WIDTH>(bits, at);
    let (rest, mut eight) = (steps.into_remainder(), [0; 8]);
    put(&mut eight, fours.map(unpacked::<WIDTH>));
    rest.copy_from_slice(&eight[..rest.len()]);
    let marks = marks_of::<WIDTH>(fours).to_le_bytes();
    shown.into_remainder().copy_from_slice(&marks[..rest.len()]);
}

/// Two fours, the first of which starts behind five bits of the byte. Bits above the fields are any, and
/// those behind the end of the sheet 0.
#[inline(always)]
fn fours<const WIDTH: usize>(bits: Bits, at: usize) -> [u64; 2] {
    let second = 4 * WIDTH + OVER;
    let first = bits.word(at) >> (64 - second);
    [first, bits.word(at + second / 8) >> (64 - 4 * WIDTH - second % 8)]
}

/// The marks of two fours, the first one lowest; none in edition 1.
#[inline(always)]
fn marks_of<const WIDTH: usize>(fours: [u64; 2]) -> u64 {
    if WIDTH == PLAIN {
        return 0;
    }
    const ONES: u64 = 0x0101_0101;
    gathered(fours[0]) >> 33 & ONES | gathered(fours[1]) >> 1 & ONES << 32
}

/// The way back of `lanes`.
#[inline(always)]
fn put(eight: &mut [u16; 8], lanes: [u64; 2]) {
    // SAFETY: as for `lanes`.
    unsafe { eight.as_mut_ptr().cast::<[u64; 2]>().write_unaligned(lanes) };
}

/// Four entries in one number stand in memory with the first one lowest.
const _: () = assert!(cfg!(target_endian = "little"));
