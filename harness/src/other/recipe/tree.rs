//! Row 7: main's tree, its instances and elements numbered in tree order.
//! The walk ends at the limits, however much the recipe would unfold to.

use super::definitions::{Element, Recipe};
use crate::other::Refusal;
use std::iter::repeat_n;

const MAX_INSTANCES: usize = 64;
const MAX_DEPTH: usize = 4;
const MAX_ELEMENTS: usize = 1_024;

pub struct Instance {
    pub definition: usize,
    pub depth: usize,
    /// The number of its first element.
    pub first: usize,
    /// Where its submodels' instances begin in the tree's `below`.
    below: usize,
    /// The instance that it is in, and its submodel there; main has none.
    pub above: Option<(usize, usize)>,
}

#[derive(Default)]
pub struct Tree {
    pub instances: Vec<Instance>,
    below: Vec<usize>,
    /// Each element's instance, and its index in the definition.
    pub elements: Vec<(usize, usize)>,
    /// The instances of each definition.
    pub of: Vec<Vec<usize>>,
}

impl Tree {
    pub fn walk(recipe: &Recipe) -> Result<Self, Refusal> {
        let mut tree = Tree {
            of: vec![Vec::new(); recipe.definitions.len()],
            ..Tree::default()
        };
        // 7, at 0: "over 64 instances with main, depth over 4, or over 1,024 elements in the tree".
        match tree.add(recipe, 0, 0, None) {
            Some(_) => Ok(tree),
            None => Err(Refusal {
                number: 7,
                place: 0,
            }),
        }
    }

    /// "Tree order is depth-first: an instance's elements in record order, then each submodel's
    /// whole subtree in record order."
    fn add(
        &mut self,
        recipe: &Recipe,
        definition: usize,
        depth: usize,
        above: Option<(usize, usize)>,
    ) -> Option<usize> {
        let instance = self.instances.len();
        let first = self.elements.len();
        let held = &recipe.definitions[definition];
        let is_over = instance == MAX_INSTANCES
            || depth > MAX_DEPTH
            || first + held.elements.len() > MAX_ELEMENTS;
        if is_over {
            return None;
        }
        let below = self.below.len();
        self.below.extend(repeat_n(0, held.submodels.len()));
        self.elements
            .extend((0..held.elements.len()).map(|element| (instance, element)));
        self.of[definition].push(instance);
        self.instances.push(Instance {
            definition,
            depth,
            first,
            below,
            above,
        });
        for (i, submodel) in held.submodels.iter().enumerate() {
            self.below[below + i] =
                self.add(recipe, submodel.model, depth + 1, Some((instance, i)))?;
        }
        Some(instance)
    }

    /// The record of an element of the tree.
    pub fn element<'a>(&self, recipe: &'a Recipe, number: usize) -> &'a Element {
        let (instance, index) = self.elements[number];
        &recipe.definitions[self.instances[instance].definition].elements[index]
    }

    /// The instance of an instance's submodel.
    pub fn below(&self, instance: usize, submodel: usize) -> usize {
        self.below[self.instances[instance].below + submodel]
    }
}
