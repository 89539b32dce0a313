//! Refusals 1 to 6: the field of the record at a bit, what it holds and what is allowed there.

use reference::bits::Bits;
use reference::Refusal;

use super::length;
use crate::show::counted;

/// A field, and what is allowed in it.
struct Field {
    name: String,
    allowed: String,
    first: usize,
    width: usize,
}

/// What a refusal from 1 to 6 means for the bytes of a record.
pub fn in_words(bytes: &[u8], refusal: Refusal) -> String {
    let mut walk = Walk::new(bytes, refusal.place as usize);
    let whole = walk.record().is_some();
    let place = refusal.place;
    match (refusal.number, &walk.found) {
        (1, Some(field)) if walk.cut => format!(
            "the record ends inside or before {} ({}): it has {}",
            field.name,
            bits_of(field),
            length(bytes)
        ),
        (2..=5, Some(field)) if !walk.cut => {
            let value = walk.bits.field(field.first, field.width);
            let (name, allowed) = (&field.name, &field.allowed);
            format!("{name} ({}) is {value}; it must be {allowed}", bits_of(field))
        }
        (6, _) if whole && walk.at == place as usize => behind(bytes, place as usize),
        (number, _) => format!("refusal {number} at bit {place} is not one of this record"),
    }
}

fn bits_of(field: &Field) -> String {
    match field.width {
        1 => format!("bit {}", field.first),
        width => format!("bits {} to {}", field.first, field.first + width - 1),
    }
}

fn behind(bytes: &[u8], end: usize) -> String {
    let right = end.div_ceil(8);
    if bytes.len() > right {
        let whole = counted(right, "byte");
        let fields = format!("the last field ends before bit {end}, so the record has {whole}");
        return format!("{fields}; here are {}", bytes.len());
    }
    format!("behind the last field the bits {end} to {} must be 0", 8 * right - 1)
}

/// Goes through the fields up to the one that starts at a bit, or to the end of the bytes.
struct Walk<'a> {
    bits: Bits<'a>,
    at: usize,
    place: usize,
    found: Option<Field>,
    /// Whether the bytes end before the field does.
    cut: bool,
    /// Counts of values.
    counts: Vec<usize>,
}

impl<'a> Walk<'a> {
    fn new(bytes: &'a [u8], place: usize) -> Self {
        let bits = Bits::new(bytes);
        Walk { bits, at: 0, place, found: None, cut: false, counts: Vec::new() }
    }

    /// The field's value, or nothing where the walk ends.
    fn field(&mut self, width: usize, name: impl FnOnce() -> (String, String)) -> Option<usize> {
        self.cut = self.at + width > self.bits.len();
        if self.at == self.place || self.cut {
            let (name, allowed) = name();
            self.found = Some(Field { name, allowed, first: self.at, width });
            return None;
        }
        self.at += width;
        Some(self.bits.field(self.at - width, width))
    }

    fn record(&mut self) -> Option<()> {
        self.field(4, || named("the edition", "1"))?;
        let variables = self.field(7, || named("the count of variables", "1 to 64"))?;
        let actions = self.field(11, || named("the count of actions", "0 to 1,024"))?;
        (0..variables).try_for_each(|v| self.variable(v))?;
        (0..actions).try_for_each(|a| self.action(a, variables))
    }

    fn variable(&mut self, v: usize) -> Option<()> {
        let of = |what: &str| format!("{what} of variable {v}");
        let count = 1 + self.field(6, || named(&of("the count of values less one"), "any"))?;
        self.counts.push(count);
        self.field(1, || named(&of("the colour"), "any"))?;
        self.field(6, || named(&of("the initial value"), &below(count, v)))?;
        let present = self.field(1, || named(&of("the mark for a goal"), "any"))?;
        let allowed =
            if present == 1 { below(count, v) } else { "0, as there is no goal".to_owned() };
        self.field(6, || named(&of("the goal value"), &allowed)).map(|_| ())
    }

    fn action(&mut self, a: usize, variables: usize) -> Option<()> {
        let of = |what: &str| format!("{what} of action {a}");
        self.field(16, || named(&of("the cost"), "any"))?;
        let needs = self.field(4, || named(&of("the count of preconditions"), "any"))?;
        let sets = self.field(4, || named(&of("the count of effects"), "any"))?;
        self.facts(&of("precondition"), needs, variables)?;
        self.facts(&of("effect"), sets, variables)
    }

    fn facts(&mut self, what: &str, count: usize, variables: usize) -> Option<()> {
        let (kind, of) = what.split_once(' ').unwrap_or((what, ""));
        let mut before = None;
        for fact in 0..count {
            let name = |field: &str| format!("the {field} of {kind} {fact} {of}");
            let allowed = rising(before, variables);
            let v = self.field(6, || named(&name("variable"), &allowed))?;
            before = Some(v);
            let count = self.counts.get(v).copied().unwrap_or(0);
            self.field(6, || named(&name("value"), &below(count, v)))?;
        }
        Some(())
    }
}

fn named(name: &str, allowed: &str) -> (String, String) {
    (name.to_owned(), allowed.to_owned())
}

fn below(count: usize, variable: usize) -> String {
    format!("below {count}, variable {variable}'s count of values")
}

fn rising(before: Option<usize>, variables: usize) -> String {
    let below = format!("below {variables}, the count of variables");
    match before {
        Some(before) => format!("above {before}, the variable of the fact before, and {below}"),
        None => below,
    }
}
