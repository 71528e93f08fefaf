//! Row 20, and the entries of the companion table.
//! An instance has the factors that its submodel record is given, and an entry shows those of all instances on its path.

use super::definitions::Recipe;
use super::flat::{Flat, Survivor};
use super::marks::Fates;
use super::tree::Tree;
use crate::other::classes::{Class, Link};
use crate::other::Refusal;
use std::iter::successors;

/// The time and the extent factor of an instance's submodel: the ends of their chains.
pub type Ends = [Option<usize>; 2];

/// For each instance its submodel's factors; main has none.
pub fn resolve(recipe: &Recipe, tree: &Tree, fates: &Fates) -> Result<Vec<Ends>, Refusal> {
    let mut lowest: Option<usize> = None;
    let mut ends = Vec::with_capacity(tree.instances.len());
    for instance in &tree.instances {
        let given = instance.above.and_then(|(above, submodel)| {
            let above = &tree.instances[above];
            let submodel = &recipe.definitions[above.definition].submodels[submodel];
            Some((above.first, submodel.factors.as_ref()?))
        });
        let Some((first, factors)) = given else {
            ends.push([None, None]);
            continue;
        };
        let named = factors.named.map(|factor| {
            let end = factor.map(|element| fates.chain_end(first + element));
            match end {
                Link::Blank => Some(None),
                Link::To(end) if is_factor(recipe, tree, fates, end) => Some(Some(end)),
                Link::To(_) | Link::Nowhere => None,
            }
        });
        // 20, at the kind 8 record: "a factor in the tree is undeclared, ends gone or is no class 3".
        if named.iter().any(Option::is_none) {
            lowest = Some(lowest.map_or(factors.place, |place| place.min(factors.place)));
        }
        ends.push(named.map(Option::flatten));
    }
    match lowest {
        Some(place) => Err(Refusal { number: 20, place }),
        None => Ok(ends),
    }
}

fn is_factor(recipe: &Recipe, tree: &Tree, fates: &Fates, end: usize) -> bool {
    !fates.of[end].is_gone && tree.element(recipe, end).class == Class::Parameter
}

/// What fills an entry: the survivor, four time factors and four extent factors.
pub type Entry = [Option<usize>; 9];

impl Flat {
    /// "for every surviving class 4 and 6 in tree order"
    pub fn entries(&self) -> usize {
        self.with_entries().count()
    }

    fn with_entries(&self) -> impl Iterator<Item = &Survivor> {
        let has_entry =
            |survivor: &&Survivor| matches!(survivor.class, Class::Reaction | Class::RateRule);
        self.survivors.iter().filter(has_entry)
    }

    /// "its flat name, four time fields and four extent fields, field i for the submodel at depth i, blank if none"
    pub(super) fn companion(&self) -> impl Iterator<Item = Entry> + '_ {
        self.with_entries().map(|survivor| {
            let mut entry = [None; 9];
            entry[0] = Some(survivor.element);
            let (instance, _) = self.tree.elements[survivor.element];
            let above = |&at: &usize| self.tree.instances[at].above.map(|(above, _)| above);
            for at in successors(Some(instance), above) {
                let depth = self.tree.instances[at].depth;
                if depth > 0 {
                    [entry[depth], entry[4 + depth]] = self.factors[at];
                }
            }
            entry
        })
    }
}
