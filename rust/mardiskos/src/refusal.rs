//! Refusals: a number with its meaning, and a place.

use std::error::Error;
use std::fmt;

/// Why the library refused, with what the place then is; `reason as u8` is the number.
#[derive(Clone, Copy, Debug, PartialEq, Eq, Hash)]
#[repr(u8)]
pub enum Reason {
    /// The record stops early; the bit where the missing field starts.
    RecordCutShort = 1,
    /// The record is of another edition; 0.
    WrongEdition = 2,
    /// Too many variables or actions, or no variable; the bit where the count starts.
    WrongCount = 3,
    /// A value that its variable does not have; the bit where it starts.
    WrongValue = 4,
    /// A variable that does not exist or is out of order; the bit where it starts.
    WrongVariable = 5,
    /// Padding that is not 0, or bytes behind it; the bit where the last field ends.
    WrongEnd = 6,
    /// Black variables that depend on one another in a circle, where setting again a fact that the action needs counts for
    /// nothing; the lowest of them.
    BlackCycle = 7,
    /// An arc without its return; the lowest action with such an arc.
    NoReturn = 8,
    /// A list entry that is no action or does not apply; its position. A missed goal; the list's length.
    WrongEntry = 9,
    /// There is no plan; how many facts can be reached.
    NoPlan = 10,
    /// Too little room; the entries or bytes that there are.
    NoRoom = 11,
    /// No whole sheet; the bit where the faulty field starts, or where the last step ends.
    WrongSheet = 12,
    /// A list that is too long; 32,768. An entry that fits no sheet; its position.
    ListTooLarge = 13,
}

use Reason::*;

/// The reasons by number, from 1.
const REASONS: [Reason; 13] = [
    RecordCutShort,
    WrongEdition,
    WrongCount,
    WrongValue,
    WrongVariable,
    WrongEnd,
    BlackCycle,
    NoReturn,
    WrongEntry,
    NoPlan,
    NoRoom,
    WrongSheet,
    ListTooLarge,
];

impl Reason {
    /// The reason in words.
    pub fn words(self) -> &'static str {
        match self {
            RecordCutShort => "the record stops before all its fields are there",
            WrongEdition => "the record's edition is not 1",
            WrongCount => {
                "the count of variables is not 1 to 64, or there are more than 1,024 actions"
            }
            WrongValue => {
                "a value does not exist in its variable, or a goal value is given where there is no goal"
            }
            WrongVariable => {
                "a fact's variable does not exist, or the variables of a list do not rise"
            }
            WrongEnd => "padding is not 0, or bytes follow the record",
            BlackCycle => "the black causal graph has a cycle",
            NoReturn => "an arc of a black variable lacks its return",
            WrongEntry => "a list entry is no action or does not apply, or a goal is missed",
            NoPlan => "no plan exists",
            NoRoom => "the result is longer than the room lent",
            WrongSheet => {
                "the sheet is cut short, of another edition or over 32,768 steps, or its end is not clean"
            }
            ListTooLarge => "the list is over 32,768 entries, or an entry is too large for a sheet",
        }
    }
}

/// What the library answers instead of a result. [`Reason`] says what the place is.
///
/// ```
/// use mardiskos::Reason;
///
/// let refusal = mardiskos::check(&[0x20]).unwrap_err();
/// assert_eq!((refusal.reason, refusal.number(), refusal.place), (Reason::WrongEdition, 2, 0));
/// assert_eq!(refusal.to_string(), "refused 2 0: the record's edition is not 1");
/// ```
#[derive(Clone, Copy, Debug, PartialEq, Eq, Hash)]
pub struct Refusal {
    /// Why.
    pub reason: Reason,
    /// Where, as the reason says.
    pub place: u64,
}

impl Refusal {
    /// The number, 1 to 13.
    pub fn number(&self) -> u8 {
        self.reason as u8
    }
}

impl fmt::Display for Refusal {
    fn fmt(&self, f: &mut fmt::Formatter) -> fmt::Result {
        write!(f, "refused {} {}: {}", self.number(), self.place, self.reason.words())
    }
}

impl Error for Refusal {}

/// The outcome that a code of the [`lent`](crate::lent) calls tells.
///
/// # Panics
/// If the code is none of the library's: its numbers are 0 to 13.
pub fn outcome(code: u64) -> Result<(), Refusal> {
    match (code % 32) as usize {
        0 => Ok(()),
        number => Err(Refusal { reason: REASONS[number - 1], place: code / 32 }),
    }
}

#[cfg(test)]
mod tests {
    use super::*;

    const HEADER: &str = include_str!("../../../c/mardiskos.h");

    #[test]
    fn numbers() {
        assert_eq!(outcome(0), Ok(()));
        for number in 1..=13 {
            let refusal = outcome(32 * 7 + number).unwrap_err();
            assert_eq!((u64::from(refusal.number()), refusal.place), (number, 7));
        }
    }

    #[test]
    fn words_are_the_header_s() {
        let quoted: Vec<String> =
            REASONS.iter().map(|r| format!("        \"{}\",\n", r.words())).collect();
        assert!(HEADER.contains(&quoted.concat()));
    }

    #[test]
    fn constants_are_the_header_s() {
        for (name, value) in [
            ("MOST_VARIABLES", crate::MAX_VARIABLES),
            ("MOST_ACTIONS", crate::MAX_ACTIONS),
            ("MOST_STEPS", crate::MAX_STEPS),
            ("LONGEST_RECORD", crate::MAX_RECORD),
            ("LONGEST_SHEET", crate::MAX_SHEET),
        ] {
            assert!(HEADER.contains(&format!("#define MARDISKOS_{name} {value}\n")));
        }
        let version = env!("CARGO_PKG_VERSION");
        assert!(HEADER.contains(&format!("#define MARDISKOS_VERSION \"{version}\"\n")));
    }
}
