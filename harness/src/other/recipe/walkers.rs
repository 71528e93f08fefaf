//! 02's walk back word by word: through the names of all elements, by rules that can be bent one at a time.
//! The bent ones, the mutants, are wrong walkers that the names walked must tell from 02.

use super::slow::Element;
use crate::bandrolt::Origin;
use crate::other::rules::before_zero;
use crate::other::{Refusal, Route, FIELD};

/// The rules of a walk back; the default ones are 02's.
pub struct Rules {
    /// Is this the element's name?
    is_named: fn(&Element, &[u8]) -> bool,
    gone_are_found: bool,
    /// Is a name that is none refused before a recipe with this number?
    name_goes_before: fn(u64) -> bool,
    /// What becomes of the way to the element.
    bend_route: fn(&mut Route),
}

impl Default for Rules {
    fn default() -> Self {
        Rules {
            is_named: |element, name| name == field(&element.flat_name),
            gone_are_found: false,
            name_goes_before: |_| false,
            bend_route: |_| {},
        }
    }
}

type Bend = fn(&mut Rules);

impl Rules {
    pub fn bent(bend: Bend) -> Self {
        let mut rules = Rules::default();
        bend(&mut rules);
        rules
    }

    /// The answer about a name, if these are the elements of the tree, or the recipe's refusal.
    pub fn walk_back(&self, tree: &Result<Vec<Element>, Refusal>, name: &[u8]) -> Origin {
        let unnamed = Refusal {
            number: 18,
            place: 0,
        };
        let is_found = |element: &&Element| {
            (self.gone_are_found || !element.is_gone) && (self.is_named)(element, name)
        };
        let found = match tree {
            Err(Refusal { number, .. })
                if (self.name_goes_before)(*number) && before_zero(name).is_empty() =>
            {
                Err(unnamed)
            }
            Err(refusal) => Err(*refusal),
            Ok(elements) => elements.iter().find(is_found).ok_or(unnamed),
        };
        let route = found.map(|element| {
            let mut route = element.route.clone();
            (self.bend_route)(&mut route);
            route
        });
        route.into()
    }
}

/// A name, cut or padded.
fn field(name: &[u8]) -> Vec<u8> {
    let mut field = name.to_vec();
    field.resize(FIELD, 0);
    field
}

/// The name that a field holds, if it is one.
fn held(name: &[u8]) -> Option<&[u8]> {
    let held = before_zero(name);
    (name == field(held)).then_some(held)
}

/// Each mutant's error, and the rule bent to make it.
pub const MUTANTS: &[(&str, Bend)] = &[
    ("a name is split at double underscores", |r| {
        r.is_named = |element, name| {
            let held = held(name).map(String::from_utf8_lossy);
            held.is_some_and(|name| name.split("__").eq(&element.parts))
        }
    }),
    ("all prefixes have two underscores", |r| {
        r.is_named = |element, name| name == field(element.parts.join("__").as_bytes())
    }),
    ("gone elements are found", |r| r.gone_are_found = true),
    ("bytes after the padding's first are ignored", |r| {
        r.is_named = |element, name| name.len() == FIELD && before_zero(name) == element.flat_name
    }),
    ("a name that begins right will do", |r| {
        r.is_named =
            |element, name| held(name).is_some_and(|name| name.starts_with(&element.flat_name))
    }),
    ("the beginning of a name will do", |r| {
        r.is_named =
            |element, name| held(name).is_some_and(|name| element.flat_name.starts_with(name))
    }),
    ("a name that is too long is cut", |r| {
        r.is_named = |element, name| name.starts_with(&field(&element.flat_name))
    }),
    ("a name that is too short is padded", |r| {
        r.is_named = |element, name| name.len() <= FIELD && field(name) == field(&element.flat_name)
    }),
    ("the last byte is not compared", |r| {
        r.is_named = |element, name| {
            name.len() == FIELD && name[..FIELD - 1] == field(&element.flat_name)[..FIELD - 1]
        }
    }),
    ("the path is without its last step", |r| {
        r.bend_route = |route| {
            route.submodels.pop();
        }
    }),
    ("the path goes upward", |r| {
        r.bend_route = |route| route.submodels.reverse()
    }),
    ("the element's offset is that of its name", |r| {
        r.bend_route = |route| route.element += 1
    }),
    ("18 goes before the recipe's refusal", |r| {
        r.name_goes_before = |_| true
    }),
    ("18 goes before 20", |r| {
        r.name_goes_before = |number| number == 20
    }),
];
