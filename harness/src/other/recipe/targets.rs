//! Rows 8 and 10: what ports and marks point at, in every definition, without unfolding any.
//! A definition comes after those that it reaches, so a port's end is known when it is asked for.

use super::definitions::{Pointer, Recipe, Role, To};
use super::records::{Mark, Target};
use super::tree::Tree;
use crate::other::classes::Class;
use crate::other::Refusal;

/// For each pointer of each definition where it leads.
pub struct Targets(Vec<Vec<End>>);

#[derive(Clone, Copy)]
struct End {
    step: Step,
    /// The class of the element at the end of all ports.
    class: Class,
}

#[derive(Clone, Copy)]
enum Step {
    /// To an element of the pointer's own definition.
    Own(usize),
    /// To an element of a submodel.
    Element { submodel: usize, element: usize },
    /// To a port of a submodel, by its index among the pointers there.
    Port { submodel: usize, port: usize },
}

impl Targets {
    pub fn resolve(recipe: &Recipe) -> Result<Self, Refusal> {
        let mut ends: Vec<Vec<Option<End>>> = vec![Vec::new(); recipe.definitions.len()];
        for &definition in &recipe.inner_first {
            let pointers = recipe.definitions[definition].pointers.iter();
            ends[definition] = pointers
                .map(|pointer| end(recipe, definition, pointer, &ends))
                .collect();
        }
        // 8, at the port or mark: "target doesn't exist, in any definition".
        let known = |(held, pointer): (Option<End>, &Pointer)| {
            held.ok_or(Refusal {
                number: 8,
                place: pointer.place,
            })
        };
        let ends = ends.into_iter().zip(&recipe.definitions);
        let ends =
            ends.map(|(ends, held)| ends.into_iter().zip(&held.pointers).map(known).collect());
        Ok(Targets(ends.collect::<Result<_, _>>()?))
    }

    pub fn check_classes(&self, recipe: &Recipe) -> Result<(), Refusal> {
        for (definition, ends) in recipe.definitions.iter().zip(&self.0) {
            for (pointer, end) in definition.pointers.iter().zip(ends) {
                let Role::Mark(Mark::Replacement(owner) | Mark::ReplacedBy(owner)) = pointer.role
                else {
                    continue;
                };
                // 10, at the mark: "owner's and target's class differ, in any definition".
                if definition.elements[owner].class != end.class {
                    return Err(Refusal {
                        number: 10,
                        place: pointer.place,
                    });
                }
            }
        }
        Ok(())
    }

    /// The element of the tree that an instance's pointer points at.
    pub fn in_tree(&self, tree: &Tree, mut instance: usize, mut pointer: usize) -> usize {
        loop {
            match self.0[tree.instances[instance].definition][pointer].step {
                Step::Own(element) => return tree.instances[instance].first + element,
                Step::Element { submodel, element } => {
                    let below = tree.below(instance, submodel);
                    return tree.instances[below].first + element;
                }
                Step::Port { submodel, port } => {
                    instance = tree.below(instance, submodel);
                    pointer = port;
                }
            }
        }
    }
}

/// "A target by element name is that element of the submodel's instance. By port name it is that
/// port's target; a port may lead to a further port in a submodel below."
fn end(
    recipe: &Recipe,
    definition: usize,
    pointer: &Pointer,
    ends: &[Vec<Option<End>>],
) -> Option<End> {
    let held = &recipe.definitions[definition];
    match pointer.to {
        To::Own(element) => Some(End {
            step: Step::Own(element),
            class: held.elements[element].class,
        }),
        To::In { submodel, target } => {
            let model = held.submodels[submodel].model;
            match target {
                Target::Element(name) => {
                    let element = recipe.names.element(model, name)?;
                    Some(End {
                        step: Step::Element { submodel, element },
                        class: recipe.definitions[model].elements[element].class,
                    })
                }
                Target::Port(name) => {
                    let port = recipe.names.port(model, name)?;
                    Some(End {
                        step: Step::Port { submodel, port },
                        class: ends[model][port]?.class,
                    })
                }
            }
        }
    }
}
