//! Rows 12 and 13: the survivors' references, their flat names, and the tables.
//! A submodel's underscores come out of one look at the names around it, without tries.

use super::definitions::{Definition, Recipe};
use super::factors::{self, Ends};
use super::marks::Fates;
use super::records::{unpadded, Name};
use super::tree::Tree;
use crate::other::classes::{Class, Link};
use crate::other::{Refusal, ENTRY, FIELD, RECORD};
use std::collections::HashMap;

/// A flat model, ready to be written.
pub struct Flat {
    pub(super) recipe: Recipe,
    pub(super) tree: Tree,
    /// In tree order, so in order of their numbers.
    pub(super) survivors: Vec<Survivor>,
    /// For each instance those of its submodel.
    pub(super) factors: Vec<Ends>,
}

pub(super) struct Survivor {
    pub(super) class: Class,
    pub(super) element: usize,
    parent: Option<usize>,
    /// The end of the chain from its reference.
    reference: Option<usize>,
}

impl Flat {
    pub fn of(recipe: Recipe, tree: Tree, fates: &Fates) -> Result<Self, Refusal> {
        let mut survivors = Vec::with_capacity(tree.elements.len());
        let mut lowest: Option<usize> = None;
        for (number, &(instance, index)) in tree.elements.iter().enumerate() {
            if fates.of[number].is_gone {
                continue;
            }
            let instance = &tree.instances[instance];
            let element = &recipe.definitions[instance.definition].elements[index];
            let end = element
                .reference
                .map(|reference| fates.chain_end(instance.first + reference));
            let end_class = |end| tree.element(&recipe, end).class;
            let ends_at_gone = matches!(end, Link::To(end) if fates.of[end].is_gone);
            // 12, at the element: "a survivor's reference is blank or filled against its class,
            // names no element of its definition, or its chain ends at a gone element or a wrong
            // class".
            if ends_at_gone || !element.class.allows_reference(end.map(end_class)) {
                lowest = Some(lowest.map_or(element.place, |place| place.min(element.place)));
            }
            survivors.push(Survivor {
                class: element.class,
                element: number,
                parent: element.parent.map(|parent| instance.first + parent),
                reference: match end {
                    Link::To(end) => Some(end),
                    Link::Blank | Link::Nowhere => None,
                },
            });
        }
        if let Some(place) = lowest {
            return Err(Refusal { number: 12, place });
        }
        let factors = factors::resolve(&recipe, &tree, fates)?;
        Ok(Flat {
            recipe,
            tree,
            survivors,
            factors,
        })
    }

    /// The number of flat records.
    pub fn count(&self) -> usize {
        self.survivors.len()
    }

    /// "the length of the survivors' longest flat name (0 if none)"
    pub fn longest_name(&self) -> usize {
        let prefixes = self.prefixes();
        let lengths = self.survivors.iter().map(|survivor| {
            let name = &self.tree.element(&self.recipe, survivor.element).name;
            let (instance, _) = self.tree.elements[survivor.element];
            prefixes[instance].len() + unpadded(name).len()
        });
        lengths.max().unwrap_or(0)
    }

    pub fn write(&self, table: &mut [u8]) -> Result<(), Refusal> {
        let records = beginning(table, RECORD * self.count())?;
        self.write_table(records, &self.prefixes());
        Ok(())
    }

    /// "A call beside flattening writes both".
    pub fn write_with_factors(
        &self,
        table: &mut [u8],
        companion: &mut [u8],
    ) -> Result<(), Refusal> {
        let records = beginning(table, RECORD * self.count())?;
        let entries = beginning(companion, ENTRY * self.entries())?;
        let prefixes = self.prefixes();
        self.write_table(records, &prefixes);
        for (entry, named) in entries.chunks_exact_mut(ENTRY).zip(self.companion()) {
            self.write_record(entry, 8, &named, &prefixes);
        }
        Ok(())
    }

    /// "Each survivor gives 205 bytes, in tree order: its class as the kind byte, then three
    /// 68-byte fields, zero padded: flat name, parent's flat name or zeros, flat name of the
    /// element at the end of the chain from its reference or zeros."
    fn write_table(&self, records: &mut [u8], prefixes: &[Vec<u8>]) {
        for (record, survivor) in records.chunks_exact_mut(RECORD).zip(&self.survivors) {
            let named = [Some(survivor.element), survivor.parent, survivor.reference];
            self.write_record(record, survivor.class as u8, &named, prefixes);
        }
    }

    /// A kind byte, and fields with the flat names of these elements.
    fn write_record(
        &self,
        record: &mut [u8],
        kind: u8,
        named: &[Option<usize>],
        prefixes: &[Vec<u8>],
    ) {
        record.fill(0);
        record[0] = kind;
        for (field, number) in record[1..].chunks_exact_mut(FIELD).zip(named) {
            if let Some(number) = *number {
                let prefix = &prefixes[self.tree.elements[number].0];
                let name = unpadded(&self.tree.element(&self.recipe, number).name);
                field[..prefix.len()].copy_from_slice(prefix);
                field[prefix.len()..][..name.len()].copy_from_slice(name);
            }
        }
    }

    /// For each instance what its flat names begin with: "the prefixes from main downward".
    pub(super) fn prefixes(&self) -> Vec<Vec<u8>> {
        let definitions = &self.recipe.definitions;
        let runs: Vec<Runs> = definitions.iter().map(underscores).collect();
        let mut prefixes: Vec<Vec<u8>> = Vec::with_capacity(self.tree.instances.len());
        for instance in &self.tree.instances {
            let Some((above, submodel)) = instance.above else {
                prefixes.push(Vec::new());
                continue;
            };
            let containing = self.tree.instances[above].definition;
            let name = unpadded(&definitions[containing].submodels[submodel].name);
            // "the fewest underscores, two or more, such that no name of an element or submodel
            // declared in the containing definition, nor in the instantiated one, begins with it"
            let longest = |definition: usize| runs[definition].get(name).copied().unwrap_or(0);
            let count = longest(containing).max(longest(instance.definition)) + 1;
            let mut prefix = prefixes[above].clone();
            prefix.extend_from_slice(name);
            prefix.resize(prefix.len() + count.max(2), b'_');
            prefixes.push(prefix);
        }
        prefixes
    }
}

/// The part of an output that is written.
fn beginning(output: &mut [u8], length: usize) -> Result<&mut [u8], Refusal> {
    // 13, at 0: "output shorter than 205 × survivors", "a companion buffer below 613 × entries".
    output.get_mut(..length).ok_or(Refusal {
        number: 13,
        place: 0,
    })
}

/// The longest run of underscores after each beginning of a definition's names, where it is two or
/// more. A submodel's name doesn't end with an underscore, so a run that follows it starts there.
type Runs<'a> = HashMap<&'a [u8], usize>;

fn underscores(definition: &Definition) -> Runs<'_> {
    let mut runs = Runs::new();
    let elements = definition.elements.iter().map(|element| &element.name);
    let submodels = definition.submodels.iter().map(|submodel| &submodel.name);
    for name in elements.chain(submodels) {
        add_runs(name, &mut runs);
    }
    runs
}

fn add_runs<'a>(name: &'a Name, runs: &mut Runs<'a>) {
    let name = unpadded(name);
    let mut start = 0;
    for part in name.split_inclusive(|&b| b != b'_') {
        // A part is a run of underscores, and the other character that ends it.
        let run = part.iter().take_while(|&&b| b == b'_').count();
        if run >= 2 {
            let longest = runs.entry(&name[..start]).or_default();
            *longest = run.max(*longest);
        }
        start += part.len();
    }
}
