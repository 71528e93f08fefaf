//! Rows 9 and 11: what the marks do to the elements of the tree.
//! One look at each port and mark of the tree, however many have one target.

use super::definitions::{Recipe, Role};
use super::records::Mark;
use super::targets::Targets;
use super::tree::{Instance, Tree};
use crate::other::Refusal;

/// What becomes of an element of the tree.
#[derive(Clone, Copy, Default)]
pub struct Fate {
    pub is_gone: bool,
    /// The chain's next element.
    next: Option<usize>,
    /// The depths of marks and ports that have it as their target, a bit for each. All of them are
    /// in instances above it or its own, so that the depth tells the instance.
    marks: u8,
    ports: u8,
    owns_replaced_by: bool,
}

pub struct Fates {
    pub of: Vec<Fate>,
    /// The place and target of each replaced-by of the tree, in order of place.
    replaced_by: Vec<(usize, usize)>,
}

impl Fates {
    /// "Two records conflict when, somewhere in main's tree: two marks have one target; a
    /// replaced-by's owner is the target of a mark or port; two ports of one instance have one
    /// target; or a mark and a port have one target and the mark's instance is the port's or lies
    /// below it."
    ///
    /// Records are taken in order of place, so the first that conflicts with one before it is the
    /// lowest of the later ones.
    pub fn of(recipe: &Recipe, tree: &Tree, targets: &Targets) -> Result<Self, Refusal> {
        let mut fates = Fates {
            of: vec![Fate::default(); tree.elements.len()],
            replaced_by: Vec::new(),
        };
        for (definition, instances) in recipe.definitions.iter().zip(&tree.of) {
            for (i, pointer) in definition.pointers.iter().enumerate() {
                for &instance in instances {
                    let target = targets.in_tree(tree, instance, i);
                    let conflicts = match pointer.role {
                        Role::Port => fates.point(target, tree.instances[instance].depth),
                        Role::Mark(mark) => {
                            let mark = match mark {
                                Mark::Deletion => Mark::Deletion,
                                Mark::Replacement(owner) => {
                                    Mark::Replacement(tree.instances[instance].first + owner)
                                }
                                Mark::ReplacedBy(owner) => {
                                    fates.replaced_by.push((pointer.place, target));
                                    Mark::ReplacedBy(tree.instances[instance].first + owner)
                                }
                            };
                            fates.mark(target, tree.instances[instance].depth, mark)
                        }
                    };
                    // 9, at the later record: "conflict with an earlier record".
                    if conflicts {
                        return Err(Refusal {
                            number: 9,
                            place: pointer.place,
                        });
                    }
                }
            }
        }
        Ok(fates)
    }

    /// Notes a port; true if it conflicts with an earlier record.
    fn point(&mut self, target: usize, depth: usize) -> bool {
        let fate = &mut self.of[target];
        let marks_here_or_below = fate.marks >> depth;
        let ports_here = fate.ports >> depth & 1;
        fate.ports |= 1 << depth;
        marks_here_or_below != 0 || ports_here != 0 || fate.owns_replaced_by
    }

    /// Notes a mark whose owner is an element of the tree; true if it conflicts with an earlier
    /// record.
    fn mark(&mut self, target: usize, depth: usize, mark: Mark<usize>) -> bool {
        let fate = &mut self.of[target];
        let ports_here_or_above = fate.ports & ((2 << depth) - 1);
        let mut conflicts = fate.marks != 0 || ports_here_or_above != 0 || fate.owns_replaced_by;
        fate.marks |= 1 << depth;
        match mark {
            Mark::Deletion => fate.is_gone = true,
            Mark::Replacement(owner) => {
                fate.is_gone = true;
                fate.next = Some(owner);
            }
            Mark::ReplacedBy(owner) => {
                let fate = &mut self.of[owner];
                conflicts |= fate.marks != 0 || fate.ports != 0;
                fate.is_gone = true;
                fate.next = Some(target);
                fate.owns_replaced_by = true;
            }
        }
        conflicts
    }

    /// An element is gone, too, if it is "a child of a gone element". A parent is an earlier element.
    pub fn take_children(&mut self, recipe: &Recipe, tree: &Tree) {
        for (number, &(instance, element)) in tree.elements.iter().enumerate() {
            let Instance {
                definition, first, ..
            } = tree.instances[instance];
            if let Some(parent) = recipe.definitions[definition].elements[element].parent {
                self.of[number].is_gone |= self.of[first + parent].is_gone;
            }
        }
    }

    pub fn check_replaced_by(&self) -> Result<(), Refusal> {
        // 11, at the kind 7: "target is gone, in the tree".
        let gone = |&&(_, target): &&(usize, usize)| self.of[target].is_gone;
        match self.replaced_by.iter().find(gone) {
            Some(&(place, _)) => Err(Refusal { number: 11, place }),
            None => Ok(()),
        }
    }

    /// The end of the chain from an element. Where 9 doesn't apply, every chain ends.
    pub fn chain_end(&self, mut element: usize) -> usize {
        while let Some(next) = self.of[element].next {
            element = next;
        }
        element
    }
}
