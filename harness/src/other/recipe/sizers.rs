//! 02's size word by word: through the names of all elements, by rules that can be bent one at a time.
//! The bent ones, the mutants, are wrong programs that the recipes must tell from 02. And what trees a size is about.

use super::slow::Element;
use crate::bandrolt::Size;
use crate::other::{Refusal, FIELD};
use crate::tables::MAX_RECORDS;

/// The rules of a size; the default ones are 02's.
pub struct Rules {
    is_counted: fn(&Element) -> bool,
    /// Does this element's name count for the longest, with those before it in the tree?
    is_measured: fn(&[Element], &Element) -> bool,
    length: fn(&Element) -> usize,
    /// Is 13 given with so many records?
    needs_room: fn(usize) -> bool,
}

impl Default for Rules {
    fn default() -> Self {
        Rules {
            is_counted: |element| !element.is_gone,
            is_measured: |_, element| !element.is_gone,
            length: |element| element.flat_name.len(),
            needs_room: |_| false,
        }
    }
}

type Bend = fn(&mut Rules);

impl Rules {
    pub fn bent(bend: Bend) -> Self {
        let mut rules = Rules::default();
        bend(&mut rules);
        rules
    }

    /// The size, if these are the elements of the tree, or the recipe's refusal.
    pub fn table_size(&self, tree: &Result<Vec<Element>, Refusal>) -> Size {
        let sized = match tree {
            Err(refusal) => Err(*refusal),
            Ok(elements) => self.counted(elements),
        };
        sized.into()
    }

    fn counted(&self, tree: &[Element]) -> Result<(usize, usize), Refusal> {
        let counted = tree.iter().filter(|element| (self.is_counted)(element));
        let count = counted.count();
        if (self.needs_room)(count) {
            return Err(Refusal {
                number: 13,
                place: 0,
            });
        }
        let all = tree.iter().enumerate();
        let measured = all.filter(|&(i, element)| (self.is_measured)(&tree[..i], element));
        let lengths = measured.map(|(_, element)| (self.length)(element));
        Ok((count, lengths.max().unwrap_or(0)))
    }
}

/// Each mutant's error, and the rule bent to make it.
pub const MUTANTS: &[(&str, Bend)] = &[
    ("gone elements are counted", |r| r.is_counted = |_| true),
    ("gone elements' names are measured", |r| {
        r.is_measured = |_, _| true
    }),
    ("names are measured in main alone", |r| {
        r.is_measured = |_, element| !element.is_gone && element.route.submodels.is_empty()
    }),
    ("names are measured in first instances alone", |r| {
        r.is_measured = |before, element| {
            let mut before = before.iter();
            let is_first = !before.any(|earlier| earlier.route.element == element.route.element);
            !element.is_gone && is_first
        }
    }),
    ("names are measured with their padding", |r| {
        r.length = |_| FIELD
    }),
    ("names are measured without their prefixes", |r| {
        r.length = |element| element.parts.last().map_or(0, String::len)
    }),
    ("prefixes are measured without the names", |r| {
        r.length = |element| {
            let name = element.parts.last().map_or(0, String::len);
            element.flat_name.len() - name
        }
    }),
    ("prefixes are measured with two underscores", |r| {
        r.length = |element| element.parts.join("__").len()
    }),
    ("13 is given for any record", |r| {
        r.needs_room = |count| count > 0
    }),
    ("13 is given for no record", |r| {
        r.needs_room = |count| count == 0
    }),
];

/// What a tree is, now and then, by its elements and its size.
type Case = fn(&[Element], &Size) -> bool;

pub const CASES: &[(&str, Case)] = &[
    ("no survivor", |_, size| size.flat.count == 0),
    ("one survivor", |_, size| size.flat.count == 1),
    ("1,024 survivors", |_, size| {
        size.flat.count == MAX_RECORDS as u64
    }),
    ("a name of 68 bytes", |_, size| size.longest == FIELD as u64),
    ("a gone element has the longest name", |tree, size| {
        let mut tree = tree.iter();
        tree.any(|element| element.flat_name.len() as u64 > size.longest)
    }),
];
