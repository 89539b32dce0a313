//! The path searches of a repair, by the count of 6.9 or by one that comes close to it.

use reference::Fact;
use std::collections::BTreeSet;

/// What counts as a search.
#[derive(Clone, Copy, Debug)]
pub enum Count {
    /// 6.9: each place where an insertion asks for a path.
    Places,
    /// The places where the path has moves.
    WithMoves,
    /// The places where the insertion asks for a fact for the first time.
    NotRemembered,
    /// The black variables of an insertion.
    Variables,
    /// Also the places where nothing is unmet, so that nothing is inserted.
    WithoutInsertion,
}

/// Counts that are not that of 6.9.
pub const OTHERS: [Count; 4] =
    [Count::WithMoves, Count::NotRemembered, Count::Variables, Count::WithoutInsertion];

/// A path from a value to a fact is asked for.
pub struct Place {
    pub from: usize,
    pub to: Fact,
}

/// An action of the relaxed plan, or the goals: whether something black is unmet, which makes an insertion,
/// and the places.
pub struct Stop {
    pub unmet: bool,
    pub places: Vec<Place>,
}

/// All places of a repair.
pub struct Asked {
    black: usize,
    pub stops: Vec<Stop>,
}

impl Asked {
    /// A repair with so many black variables, at its start.
    pub fn new(black: usize) -> Self {
        Asked { black, stops: Vec::new() }
    }

    pub fn searches(&self, count: Count) -> usize {
        self.stops.iter().map(|stop| self.searches_of(stop, count)).sum()
    }

    fn searches_of(&self, stop: &Stop, count: Count) -> usize {
        let places = stop.places.iter();
        match count {
            Count::WithoutInsertion => places.len(),
            _ if !stop.unmet => 0,
            Count::Places => places.len(),
            Count::WithMoves => places.filter(|place| place.from != place.to.value()).count(),
            Count::NotRemembered => places.map(|place| place.to).collect::<BTreeSet<_>>().len(),
            Count::Variables => self.black,
        }
    }
}
