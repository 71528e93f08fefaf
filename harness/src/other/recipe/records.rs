//! Rows 1 to 3: from the recipe's bytes to its records.
//! What a record's names lead to is not asked yet.

use crate::other::classes::Class;
use crate::other::{read_field, Refusal, MAX_RECIPE, NAME};

/// A name and its padding.
pub type Name = [u8; NAME];

pub struct Record {
    pub place: usize,
    pub body: Body,
}

pub enum Body {
    Model {
        name: Name,
    },
    Element {
        name: Name,
        class: Class,
        parent: Option<Name>,
        reference: Option<Name>,
    },
    Port {
        name: Name,
        submodel: Option<Name>,
        target: Target,
    },
    Submodel {
        name: Name,
        model: Name,
    },
    Mark {
        kind: Mark<Name>,
        submodel: Name,
        target: Target,
    },
    Factors {
        submodel: Name,
        /// The time and the extent factor.
        factors: [Option<Name>; 2],
    },
}

/// A mark's kind, with its owner where it has one.
#[derive(Clone, Copy)]
pub enum Mark<Owner> {
    Deletion,
    Replacement(Owner),
    ReplacedBy(Owner),
}

/// A name in a submodel, and what it is the name of.
#[derive(Clone, Copy)]
pub enum Target {
    Element(Name),
    Port(Name),
}

pub fn read(recipe: &[u8]) -> Result<Vec<Record>, Refusal> {
    // 1, at 0: "empty, or over 16,384 bytes".
    if recipe.is_empty() || recipe.len() > MAX_RECIPE {
        return Err(Refusal {
            number: 1,
            place: 0,
        });
    }
    let mut records = Vec::new();
    let mut unread = None;
    let mut place = 0;
    while let Some((&byte, rest)) = recipe[place..].split_first() {
        // 2, at the record: "kind unknown, body cut short, or first record not kind 1".
        let (fields, read_body) = kind(byte)
            .filter(|_| byte == 1 || place > 0)
            .and_then(|(length, read)| Some((rest.get(..length)?, read)))
            .ok_or(Refusal { number: 2, place })?;
        // 3, at the record: "a field that fails to read as a name, or is blank where no blank is
        // allowed; way or class byte without meaning; a kind 4 whose own name ends with an
        // underscore". It waits, since a 2 that comes later goes before it.
        match read_body(&mut Fields(fields)) {
            Some(body) => records.push(Record { place, body }),
            None => unread = unread.or(Some(Refusal { number: 3, place })),
        }
        place += 1 + fields.len();
    }
    unread.map_or(Ok(records), Err)
}

/// The length of a body, and how it is read.
type Kind = (usize, fn(&mut Fields) -> Option<Body>);

/// 01's table of kinds, and 02's kind 8.
fn kind(byte: u8) -> Option<Kind> {
    Some(match byte {
        1 => (NAME, |fields| {
            Some(Body::Model {
                name: fields.name()?,
            })
        }),
        2 => (3 * NAME + 1, |fields| {
            Some(Body::Element {
                name: fields.name()?,
                class: Class::read(fields.byte()?)?,
                parent: fields.name_or_blank()?,
                reference: fields.name_or_blank()?,
            })
        }),
        3 => (3 * NAME + 1, |fields| {
            Some(Body::Port {
                name: fields.name()?,
                submodel: fields.name_or_blank()?,
                target: fields.target()?,
            })
        }),
        4 => (2 * NAME, |fields| {
            Some(Body::Submodel {
                name: fields.name().filter(|name| !ends_with_underscore(name))?,
                model: fields.name()?,
            })
        }),
        5 => (2 * NAME + 1, |fields| fields.mark(Mark::Deletion)),
        6 => (3 * NAME + 1, |fields| {
            let owner = fields.name()?;
            fields.mark(Mark::Replacement(owner))
        }),
        7 => (3 * NAME + 1, |fields| {
            let owner = fields.name()?;
            fields.mark(Mark::ReplacedBy(owner))
        }),
        8 => (3 * NAME, |fields| {
            Some(Body::Factors {
                submodel: fields.name()?,
                factors: [fields.name_or_blank()?, fields.name_or_blank()?],
            })
        }),
        _ => return None,
    })
}

fn ends_with_underscore(name: &Name) -> bool {
    unpadded(name).ends_with(b"_")
}

/// A name without its padding.
pub fn unpadded(name: &Name) -> &[u8] {
    let length = name.iter().position(|&b| b == 0).unwrap_or(NAME);
    &name[..length]
}

/// What is still to be read of a body.
struct Fields<'a>(&'a [u8]);

impl Fields<'_> {
    fn byte(&mut self) -> Option<u8> {
        let (&byte, rest) = self.0.split_first()?;
        self.0 = rest;
        Some(byte)
    }

    /// The inner `None` is a blank.
    fn name_or_blank(&mut self) -> Option<Option<Name>> {
        let (field, rest) = self.0.split_first_chunk()?;
        self.0 = rest;
        let name = read_field::<NAME>(field)?;
        Some((!name.is_empty()).then_some(*field))
    }

    fn name(&mut self) -> Option<Name> {
        self.name_or_blank()?
    }

    /// "The way byte is 0 (target given by element name) or 1 (by port name)."
    fn target(&mut self) -> Option<Target> {
        match self.byte()? {
            0 => self.name().map(Target::Element),
            1 => self.name().map(Target::Port),
            _ => None,
        }
    }

    /// A mark's kind and owner are known; submodel and target are left.
    fn mark(&mut self, kind: Mark<Name>) -> Option<Body> {
        Some(Body::Mark {
            kind,
            submodel: self.name()?,
            target: self.target()?,
        })
    }
}
