//! The walk back: from a flat name to the records that make it.
//! An instance's prefixes are taken off the name, and what is left is looked up in its definition.

use super::flat::Flat;
use super::records::Name;
use super::tree::Instance;
use crate::other::{read_field, Refusal, Route, FIELD, NAME};

impl Flat {
    /// "Given a recipe and a 68-byte name, give the depth, the offsets of the submodel records from main
    /// downward, and the element record's offset."
    pub fn walk_back(&self, name: &[u8]) -> Result<Route, Refusal> {
        // 18, at 0: "the name belongs to no survivor, judged after 12, as is a name slice of another length".
        self.route(name).ok_or(Refusal {
            number: 18,
            place: 0,
        })
    }

    fn route(&self, name: &[u8]) -> Option<Route> {
        let name = read_field::<FIELD>(<&[u8; FIELD]>::try_from(name).ok()?)?;
        let mut instances = self.tree.instances.iter().zip(self.prefixes());
        instances.find_map(|(instance, prefix)| {
            let name = padded(name.strip_prefix(&prefix[..])?)?;
            let element = self.recipe.names.element(instance.definition, name)?;
            let definition = &self.recipe.definitions[instance.definition];
            self.survives(instance.first + element).then(|| Route {
                submodels: self.submodels(instance),
                element: definition.elements[element].place,
            })
        })
    }

    fn survives(&self, element: usize) -> bool {
        let survivors = &self.survivors;
        let found = survivors.binary_search_by_key(&element, |survivor| survivor.element);
        found.is_ok()
    }

    /// The submodel records from main down to an instance.
    fn submodels(&self, instance: &Instance) -> Vec<usize> {
        let Some((above, submodel)) = instance.above else {
            return Vec::new();
        };
        let above = &self.tree.instances[above];
        let mut submodels = self.submodels(above);
        submodels.push(self.recipe.definitions[above.definition].submodels[submodel].place);
        submodels
    }
}

/// A name in a recipe's field, if it is no longer than that.
fn padded(name: &[u8]) -> Option<Name> {
    let mut field = [0; NAME];
    field.get_mut(..name.len())?.copy_from_slice(name);
    Some(field)
}
