//! Rows 4, 5, 19 and 6: from records to definitions whose records know what their names lead to.
//! Names within a submodel's model are left for row 8.

use super::records::{self, Body, Mark, Name, Record, Target};
use crate::other::classes::{Class, Link};
use crate::other::Refusal;
use std::collections::{HashMap, HashSet};

/// A recipe that rows 1 to 6 and 19 let pass. Definitions and what they hold are known by index.
pub struct Recipe {
    pub definitions: Vec<Definition>,
    /// Each definition after those that it reaches.
    pub inner_first: Vec<usize>,
    pub names: Names,
}

pub struct Definition {
    pub place: usize,
    pub elements: Vec<Element>,
    pub submodels: Vec<Submodel>,
    /// In record order, so in order of place.
    pub pointers: Vec<Pointer>,
}

pub struct Element {
    pub place: usize,
    pub name: Name,
    pub class: Class,
    pub parent: Option<usize>,
    pub reference: Link<usize>,
}

pub struct Submodel {
    pub place: usize,
    pub name: Name,
    pub model: usize,
    pub factors: Option<Factors>,
}

/// What a kind 8 record gives a submodel: elements of the containing definition.
pub struct Factors {
    pub place: usize,
    /// The time and the extent factor.
    pub named: [Link<usize>; 2],
}

/// A port or a mark: what both have is that they point at an element.
pub struct Pointer {
    pub place: usize,
    pub role: Role,
    pub to: To,
}

#[derive(Clone, Copy)]
pub enum Role {
    Port,
    Mark(Mark<usize>),
}

#[derive(Clone, Copy)]
pub enum To {
    /// An element of the pointer's own definition.
    Own(usize),
    In {
        submodel: usize,
        target: Target,
    },
}

/// Which record has which name; all but models by their definition.
#[derive(Default)]
pub struct Names {
    models: HashMap<Name, usize>,
    members: HashMap<(usize, Name), Member>,
    ports: HashMap<(usize, Name), usize>,
}

/// Elements and submodels have one space of names.
#[derive(Clone, Copy)]
enum Member {
    Element(usize),
    Submodel(usize),
}

impl Names {
    pub fn element(&self, definition: usize, name: Name) -> Option<usize> {
        match self.members.get(&(definition, name)) {
            Some(&Member::Element(element)) => Some(element),
            _ => None,
        }
    }

    /// What a field of a definition leads to that may be blank.
    fn link(&self, definition: usize, field: Option<Name>) -> Link<usize> {
        match field {
            None => Link::Blank,
            Some(name) => self
                .element(definition, name)
                .map_or(Link::Nowhere, Link::To),
        }
    }

    fn submodel(&self, definition: usize, name: Name) -> Option<usize> {
        match self.members.get(&(definition, name)) {
            Some(&Member::Submodel(submodel)) => Some(submodel),
            _ => None,
        }
    }

    /// The port's index among its definition's pointers.
    pub fn port(&self, definition: usize, name: Name) -> Option<usize> {
        self.ports.get(&(definition, name)).copied()
    }

    fn of(records: &[Record]) -> Result<Self, Refusal> {
        let mut names = Names {
            members: HashMap::with_capacity(records.len()),
            ..Names::default()
        };
        let mut replaced = HashSet::new();
        let (mut elements, mut submodels, mut pointers) = (0, 0, 0);
        for record in records {
            let definition = names.models.len().saturating_sub(1);
            let is_repeated = match record.body {
                Body::Model { name } => {
                    (elements, submodels, pointers) = (0, 0, 0);
                    let definition = names.models.len();
                    names.models.insert(name, definition).is_some()
                }
                Body::Element { name, .. } => {
                    elements += 1;
                    let member = Member::Element(elements - 1);
                    names.members.insert((definition, name), member).is_some()
                }
                Body::Submodel { name, .. } => {
                    submodels += 1;
                    let member = Member::Submodel(submodels - 1);
                    names.members.insert((definition, name), member).is_some()
                }
                Body::Port { name, .. } => {
                    pointers += 1;
                    let port = pointers - 1;
                    names.ports.insert((definition, name), port).is_some()
                }
                Body::Mark { kind, .. } => {
                    pointers += 1;
                    matches!(kind, Mark::ReplacedBy(owner) if !replaced.insert((definition, owner)))
                }
                Body::Factors { .. } => false,
            };
            // 4, at the later record: "model name used twice; element or submodel name twice in a
            // definition; port name twice in one; a definition's second replaced-by with one
            // owner".
            if is_repeated {
                return Err(Refusal {
                    number: 4,
                    place: record.place,
                });
            }
        }
        Ok(names)
    }
}

/// "Records after a kind 1, up to the next, form its definition."
pub fn read(recipe: &[u8]) -> Result<Recipe, Refusal> {
    let records = records::read(recipe)?;
    let names = Names::of(&records)?;
    let mut definitions: Vec<Definition> = Vec::with_capacity(names.models.len());
    for record in &records {
        // 5, at the record: "submodel's model undefined; parent against the class table or not an
        // earlier element of the definition; submodel field no submodel, or owner no element, of
        // the definition; blank-submodel port with way 1 or unknown element".
        add(record, &names, &mut definitions).ok_or(Refusal {
            number: 5,
            place: record.place,
        })?;
    }
    give_factors(&records, &names, &mut definitions)?;
    let inner_first = inner_first(&definitions)?;
    Ok(Recipe {
        definitions,
        inner_first,
        names,
    })
}

/// Adds a record to the definitions, unless 5 applies to it.
fn add(record: &Record, names: &Names, definitions: &mut Vec<Definition>) -> Option<()> {
    let place = record.place;
    if let Body::Model { .. } = record.body {
        definitions.push(Definition {
            place,
            elements: Vec::new(),
            submodels: Vec::new(),
            pointers: Vec::new(),
        });
        return Some(());
    }
    let this = definitions.len() - 1;
    let definition = &mut definitions[this];
    let element = |name| names.element(this, name);
    let in_submodel = |submodel, target| {
        let submodel = names.submodel(this, submodel)?;
        Some(To::In { submodel, target })
    };
    match record.body {
        // Factors are judged when 5 is out.
        Body::Model { .. } | Body::Factors { .. } => {}
        Body::Element {
            name,
            class,
            parent,
            reference,
        } => {
            let earlier = &definition.elements;
            let (parent, parent_class) = match parent {
                None => (None, Link::Blank),
                Some(name) => {
                    let parent = element(name).filter(|&parent| parent < earlier.len())?;
                    (Some(parent), Link::To(earlier[parent].class))
                }
            };
            if !class.allows_parent(parent_class) {
                return None;
            }
            let reference = names.link(this, reference);
            definition.elements.push(Element {
                place,
                name,
                class,
                parent,
                reference,
            });
        }
        Body::Submodel { name, model } => {
            let model = *names.models.get(&model)?;
            definition.submodels.push(Submodel {
                place,
                name,
                model,
                factors: None,
            });
        }
        Body::Port {
            submodel, target, ..
        } => {
            let to = match (submodel, target) {
                (Some(submodel), target) => in_submodel(submodel, target)?,
                (None, Target::Element(name)) => To::Own(element(name)?),
                (None, Target::Port(_)) => return None,
            };
            let role = Role::Port;
            definition.pointers.push(Pointer { place, role, to });
        }
        Body::Mark {
            kind,
            submodel,
            target,
        } => {
            let role = Role::Mark(match kind {
                Mark::Deletion => Mark::Deletion,
                Mark::Replacement(owner) => Mark::Replacement(element(owner)?),
                Mark::ReplacedBy(owner) => Mark::ReplacedBy(element(owner)?),
            });
            let to = in_submodel(submodel, target)?;
            definition.pointers.push(Pointer { place, role, to });
        }
    }
    Some(())
}

/// Gives each submodel the factors of its kind 8 record.
fn give_factors(
    records: &[Record],
    names: &Names,
    definitions: &mut [Definition],
) -> Result<(), Refusal> {
    let mut models = 0;
    for record in records {
        let place = record.place;
        let (submodel, factors) = match record.body {
            Body::Model { .. } => {
                models += 1;
                continue;
            }
            Body::Factors { submodel, factors } => (submodel, factors),
            _ => continue,
        };
        let this = models - 1;
        // 19, at the (later) kind 8 record: "submodel undeclared (no 5 here) or given factors twice".
        let given = names
            .submodel(this, submodel)
            .map(|submodel| &mut definitions[this].submodels[submodel].factors)
            .filter(|given| given.is_none())
            .ok_or(Refusal { number: 19, place })?;
        let named = factors.map(|factor| names.link(this, factor));
        *given = Some(Factors { place, named });
    }
    Ok(())
}

/// Tarjan's strong components: they come inner first, and a definition reaches itself if it has
/// another one in its component or a submodel of itself.
fn inner_first(definitions: &[Definition]) -> Result<Vec<usize>, Refusal> {
    let mut search = Search {
        definitions,
        number: vec![0; definitions.len()],
        visited: 0,
        open: Vec::new(),
        closed: Vec::with_capacity(definitions.len()),
        cyclic: None,
    };
    for definition in 0..definitions.len() {
        if search.number[definition] == 0 {
            search.visit(definition);
        }
    }
    // 6, at the kind 1: "definition reaches itself, used by main or not".
    match search.cyclic {
        Some(place) => Err(Refusal { number: 6, place }),
        None => Ok(search.closed),
    }
}

struct Search<'a> {
    definitions: &'a [Definition],
    /// When a definition was first visited, from 1; 0 before that, and `CLOSED` when its component
    /// is known.
    number: Vec<usize>,
    visited: usize,
    open: Vec<usize>,
    closed: Vec<usize>,
    /// The lowest place of a definition that reaches itself.
    cyclic: Option<usize>,
}

const CLOSED: usize = usize::MAX;

impl Search<'_> {
    /// Visits what a definition reaches; the lowest number that is still open there comes back.
    fn visit(&mut self, definition: usize) -> usize {
        self.visited += 1;
        let number = self.visited;
        self.number[definition] = number;
        let bottom = self.open.len();
        self.open.push(definition);
        let mut lowest = number;
        let mut is_cyclic = false;
        for submodel in &self.definitions[definition].submodels {
            is_cyclic |= submodel.model == definition;
            lowest = lowest.min(match self.number[submodel.model] {
                0 => self.visit(submodel.model),
                known => known,
            });
        }
        if lowest == number {
            let component = self.open.split_off(bottom);
            is_cyclic |= component.len() > 1;
            for member in component {
                self.number[member] = CLOSED;
                self.closed.push(member);
                if is_cyclic {
                    let place = self.definitions[member].place;
                    self.cyclic = Some(self.cyclic.map_or(place, |lowest| lowest.min(place)));
                }
            }
        }
        lowest
    }
}
