//! Refusal 12: what is wrong with a sheet at a bit.

use reference::bits::Bits;
use reference::entry::MAX_STEPS;
use reference::Refusal;

use super::{grouped, in_general, length};
use crate::show::counted;

const HEAD: usize = 53;
const STEP: usize = 10;
const MARK: usize = 1;

/// What a refusal means for the bytes of a sheet.
pub fn in_words(bytes: &[u8], refusal: Refusal) -> String {
    if refusal.number != 12 {
        return in_general(refusal);
    }
    fault(bytes, refusal.place as usize).unwrap_or_else(|| in_general(refusal))
}

fn fault(bytes: &[u8], place: usize) -> Option<String> {
    let bits = Bits::new(bytes);
    let mark = if bits.field(0, 4) == 2 { MARK } else { 0 };
    let (name, width) = field(place, mark)?;
    let has = format!("it has {}", length(bytes));
    let behind = bits.len() >= HEAD && place == HEAD + (mark + STEP) * bits.field(5, 16);
    if behind {
        let right = place.div_ceil(8);
        return Some(match bytes.len() > right {
            true => {
                let whole = counted(right, "byte");
                format!("its steps end before bit {place}, so the sheet has {whole}; {has}")
            }
            false => {
                format!("behind the last step the bits {place} to {} must be 0", 8 * right - 1)
            }
        });
    }
    if place + width > bits.len() {
        return Some(format!("the sheet ends inside or before {name} at bit {place}: {has}"));
    }
    let value = bits.field(place, width);
    match place {
        0 => Some(format!("the edition (bits 0 to 3) is {value}; it must be 1 or 2")),
        5 => Some(format!(
            "the count of steps (bits 5 to 20) is {}; it must be {} at most",
            grouped(value as u128),
            grouped(MAX_STEPS as u128)
        )),
        _ => None,
    }
}

/// The field that starts at a bit of a sheet with so many bits for a mark, and its width.
fn field(place: usize, mark: usize) -> Option<(String, usize)> {
    let fixed = [(0, "the edition", 4), (4, "the verdict", 1), (5, "the count of steps", 16)];
    let head = fixed.into_iter().chain([(21, "the cost", 32)]);
    if let Some((_, name, width)) = head.into_iter().find(|(first, ..)| *first == place) {
        return Some((name.to_owned(), width));
    }
    let behind = place.checked_sub(HEAD)?;
    let (step, at) = (behind / (mark + STEP), behind % (mark + STEP));
    match at {
        _ if at == mark => Some((format!("step {step}"), STEP)),
        0 => Some((format!("the mark of step {step}"), MARK)),
        _ => None,
    }
}
