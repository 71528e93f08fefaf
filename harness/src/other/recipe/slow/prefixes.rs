//! 01's prefixes word by word: "its name and then the fewest underscores, two or more, such that no name of an element or
//! submodel declared in the containing definition, nor in the instantiated one, begins with it".
//! And which side's names decide how many these are.

use super::{Reading, Step};
use crate::other::recipe::rules::Rules;
use crate::other::Refusal;
use std::cmp::Ordering;
use std::collections::BTreeSet;
use std::ops::RangeInclusive;

/// Where names are that a prefix is tried on: in the containing definition, or in the instantiated one.
#[derive(Clone, Copy, Debug, PartialEq, Eq, PartialOrd, Ord)]
pub enum Side {
    Outer,
    Inner,
}

impl Side {
    pub const BOTH: [Side; 2] = [Side::Outer, Side::Inner];
}

/// From one underscore on, so that there is what decides two: one side has a name with one underscore behind the
/// submodel's name and none with two, and the other side has no such name.
const NEEDED: RangeInclusive<usize> = 1..=12;

/// The counts of underscores that one side's names need while the other's need fewer, in the prefixes that are written.
pub fn deciding_sides(recipe: &[u8]) -> Result<BTreeSet<(Side, usize)>, Refusal> {
    let rules = Rules::default();
    let reading = Reading::judged(recipe, &rules)?;
    let survivors = reading.survivors().into_iter();
    let steps = survivors.flat_map(|(instance, _)| reading.way(instance));
    let steps: BTreeSet<Step> = steps.collect();
    let decided = steps.into_iter().filter_map(|step| reading.decided(step));
    Ok(decided.collect())
}

impl Reading<'_> {
    pub(super) fn prefixes(&self) -> Vec<Vec<u8>> {
        (0..self.instances.len()).map(|i| self.prefix(i)).collect()
    }

    /// What an instance adds to the names in it and below it; for main nothing.
    fn prefix(&self, instance: usize) -> Vec<u8> {
        let Some(above) = self.instances[instance].above else {
            return Vec::new();
        };
        let tries = &self.rules.underscores;
        let needed = |sides: &[Side]| self.fewest((instance, above), sides, tries.clone());
        self.with_underscores(above.1, (self.rules.written)(&needed))
    }

    /// The first of these tries at a submodel's underscores whose prefix no name of these sides takes, or else the last.
    fn fewest(&self, step: Step, sides: &[Side], mut tries: RangeInclusive<usize>) -> usize {
        let (instance, (above, submodel)) = step;
        let names = |side: &Side| match side {
            Side::Outer => self.names_tried(above),
            Side::Inner => self.names_tried(instance),
        };
        let names: Vec<&[u8]> = sides.iter().flat_map(names).collect();
        let last = *tries.end();
        let is_free = |&count: &usize| {
            let prefix = self.with_underscores(submodel, count);
            !names.iter().any(|name| (self.rules.takes)(name, &prefix))
        };
        tries.find(is_free).unwrap_or(last)
    }

    /// The names of an instance that may begin with a prefix.
    fn names_tried(&self, instance: usize) -> impl Iterator<Item = &[u8]> {
        let is_tried = move |&i: &usize| {
            (self.rules.tried)(self.records[i].kind)
                && (self.rules.gone_names || !self.gone.contains(&(instance, i)))
        };
        let tried = self.held(instance).filter(is_tried);
        tried.map(|i| self.records[i].first)
    }

    fn with_underscores(&self, submodel: usize, count: usize) -> Vec<u8> {
        [self.records[submodel].first, &vec![b'_'; count]].concat()
    }

    /// The side whose names need more underscores than the other's, and how many.
    fn decided(&self, step: Step) -> Option<(Side, usize)> {
        let [outer, inner] = Side::BOTH.map(|side| self.fewest(step, &[side], NEEDED));
        match outer.cmp(&inner) {
            Ordering::Greater => Some((Side::Outer, outer)),
            Ordering::Less => Some((Side::Inner, inner)),
            Ordering::Equal => None,
        }
    }
}
