//! What makes a recipe nearly valid, and what makes it no recipe:
//! faults in its records, and faults in its bytes.

use super::draft::{fresh_port, pick, Draft};
use super::factors::{OF_19, OF_20};
use super::{Field, Part, Record, Target, BLANK, KINDS};
use crate::other::{MAX_RECIPE, NAME};
use crate::random::Random;
use crate::tables::field;

/// `None` where a recipe hasn't got what the fault needs.
pub type Fault = fn(&mut Draft, &Random) -> Option<()>;

/// Puts one of these faults into a recipe; it may do no harm.
pub fn damage(draft: &mut Draft, faults: &[Fault], random: &Random) {
    // Some faults need what the recipe hasn't got.
    (0..20).find_map(|_| random.pick(faults)(draft, random));
}

impl Record {
    fn fields(&mut self) -> Vec<&mut Field> {
        let fields = |part| match part {
            Part::Name(name) => vec![name],
            Part::Class(_) => Vec::new(),
            Part::Target(target) => vec![&mut target.submodel, &mut target.name],
        };
        self.parts().into_iter().flat_map(fields).collect()
    }

    fn target(&mut self) -> Option<&mut Target> {
        self.parts().into_iter().find_map(|part| match part {
            Part::Target(target) => Some(target),
            _ => None,
        })
    }
}

/// Any record that a function takes something of.
fn any<'a, T>(
    draft: &'a mut Draft,
    of: impl Fn(&'a mut Record) -> Option<T>,
    random: &Random,
) -> Option<T> {
    let records = draft.0.iter_mut().flatten();
    let mut found: Vec<T> = records.filter_map(of).collect();
    (!found.is_empty()).then(|| found.swap_remove(random.below(found.len())))
}

fn any_field<'a>(draft: &'a mut Draft, random: &Random) -> Option<&'a mut Field> {
    let mut fields = any(draft, |record| Some(record.fields()), random)?;
    (!fields.is_empty()).then(|| fields.swap_remove(random.below(fields.len())))
}

fn any_name(draft: &mut Draft, random: &Random) -> Option<Field> {
    any_field(draft, random).map(|name| *name)
}

/// Any definition, and the name of its model.
fn any_model(draft: &Draft, random: &Random) -> Option<(usize, Field)> {
    let definition = random.below(draft.0.len());
    match draft.0[definition].first() {
        Some(&Record::Model { name }) => Some((definition, name)),
        _ => None,
    }
}

/// Any definition, and the index of any record of it but the first.
fn any_place(draft: &Draft, random: &Random) -> Option<(usize, usize)> {
    let definition = random.below(draft.0.len());
    let others = draft.0[definition].len() - 1;
    (others > 0).then(|| (definition, 1 + random.below(others)))
}

/// A pointer of any definition, with its definition.
fn any_pointer(draft: &Draft, random: &Random) -> Option<(usize, Target)> {
    let pointers = |d: usize| {
        let records = draft.0[d].iter().cloned();
        records.filter_map(move |mut record| Some((d, *record.target()?)))
    };
    let all: Vec<(usize, Target)> = (0..draft.0.len()).flat_map(pointers).collect();
    pick(&all, random)
}

/// The faults that the numbers 8 to 12 are about.
pub const OF_MARKS: &[Fault] = &[
    lose,
    point_again,
    port_both_ways,
    mark_on_two_levels,
    mark_on_two_levels,
    own_target,
    own_target,
    own_other_class,
    own_other_class,
    own_other_class,
    replaced_by_gone,
    replaced_by_one,
    change_reference,
    delete_referred,
];

/// Faults of all kinds.
pub const ANY: &[Fault] = &[
    // 3: a field that begins with a digit, has a wrong character, or one behind its padding.
    |draft, random| {
        any_field(draft, random)?[0] = b'0' + random.below(10) as u8;
        Some(())
    },
    |draft, random| {
        any_field(draft, random)?[random.below(4)] = random.pick(b"/:@[^`{- \x01\x7f\x80\xe9\xff");
        Some(())
    },
    |draft, random| {
        let zero = random.below(NAME - 1);
        let field = any_field(draft, random)?;
        field[zero] = 0;
        field[zero + 1 + random.below(NAME - 1 - zero)] = b'a';
        Some(())
    },
    // 3: a blank; a way or class byte without meaning; an underscore at a submodel's end.
    |draft, random| {
        *any_field(draft, random)? = BLANK;
        Some(())
    },
    |draft, random| {
        any(draft, Record::target, random)?.way = random.pick(&[2, 255, random.byte()]);
        Some(())
    },
    |draft, random| {
        *any_class(draft, random)? = random.pick(&[0, 8, 255, random.byte()]);
        Some(())
    },
    |draft, random| {
        let name = any(draft, name_of_submodel, random)?;
        let end = name.iter().position(|&b| b == 0)?;
        name[end] = b'_';
        Some(())
    },
    // 4, and what comes of it: a name that another record has.
    |draft, random| {
        let name = any_name(draft, random)?;
        *any_field(draft, random)? = name;
        Some(())
    },
    |draft, random| {
        let (definition, index) = any_place(draft, random)?;
        let copy = draft.0[definition][index].clone();
        draft.insert(definition, copy, random);
        Some(())
    },
    // 4: an element with a submodel's name.
    |draft, random| {
        let (definition, index) = any_place(draft, random)?;
        let (submodel, _) = pick(&draft.submodels(definition), random)?;
        match &mut draft.0[definition][index] {
            Record::Element { name, .. } => *name = submodel,
            _ => return None,
        }
        Some(())
    },
    // 4: a second replaced-by.
    |draft, random| {
        let (definition, index) = any_place(draft, random)?;
        let Record::ReplacedBy { owner, .. } = draft.0[definition][index] else {
            return None;
        };
        let target = draft.pointer(definition, random)?.target().copied()?;
        draft.insert(definition, Record::ReplacedBy { owner, target }, random);
        Some(())
    },
    // 5: a reaction behind its children.
    |draft, random| {
        let (definition, index) = any_place(draft, random)?;
        let Record::Element { class: 4, .. } = draft.0[definition][index] else {
            return None;
        };
        let reaction = draft.0[definition].remove(index);
        draft.0[definition].push(reaction);
        Some(())
    },
    // 5: a name that nothing has; a parent that is another element.
    |draft, random| {
        *any_field(draft, random)? = field("nothing");
        Some(())
    },
    |draft, random| {
        let (definition, index) = any_place(draft, random)?;
        let (other, _) = pick(&draft.elements(definition), random)?;
        match &mut draft.0[definition][index] {
            Record::Element { parent, .. } => *parent = other,
            _ => return None,
        }
        Some(())
    },
    // 5: a blank-submodel port by port name.
    |draft, random| {
        let definition = random.below(draft.0.len());
        let (name, _) = pick(&draft.ports(definition), random)?;
        let target = Target::port(BLANK, name);
        let name = fresh_port(random);
        draft.insert(definition, Record::Port { name, target }, random);
        Some(())
    },
    // 5, 8: the other way of naming.
    |draft, random| {
        any(draft, Record::target, random)?.way ^= 1;
        Some(())
    },
    // 6, 7: a submodel of any definition.
    |draft, random| {
        let (_, name) = any_model(draft, random)?;
        let model = any(draft, model_of_submodel, random)?;
        *model = name;
        Some(())
    },
    |draft, random| {
        let (_, model) = any_model(draft, random)?;
        let (definition, _) = any_model(draft, random)?;
        let name = field(&format!("z{}", random.below(9)));
        draft.insert(definition, Record::Submodel { name, model }, random);
        Some(())
    },
    // 8 to 12: one more port or mark.
    add_pointer,
    add_pointer,
    |draft, random| random.pick(OF_MARKS)(draft, random),
    |draft, random| random.pick(OF_MARKS)(draft, random),
    |draft, random| random.pick(OF_MARKS)(draft, random),
    |draft, random| random.pick(OF_MARKS)(draft, random),
    // 19, 20.
    |draft, random| random.pick(random.pick(&[OF_19, OF_20]))(draft, random),
    // 10, 5, 12: another class.
    |draft, random| {
        *any_class(draft, random)? = 1 + random.below(7) as u8;
        Some(())
    },
    // Anything: a record less, two swapped, one in another definition, definitions swapped.
    |draft, random| {
        let (definition, index) = any_place(draft, random)?;
        draft.0[definition].remove(index);
        Some(())
    },
    |draft, random| {
        let (definition, index) = any_place(draft, random)?;
        let other = 1 + random.below(draft.0[definition].len() - 1);
        draft.0[definition].swap(index, other);
        Some(())
    },
    |draft, random| {
        let (definition, index) = any_place(draft, random)?;
        let record = draft.0[definition].remove(index);
        draft.insert(random.below(draft.0.len()), record, random);
        Some(())
    },
    |draft, random| {
        let (a, b) = (random.below(draft.0.len()), random.below(draft.0.len()));
        draft.0.swap(a, b);
        Some(())
    },
];

fn any_class<'a>(draft: &'a mut Draft, random: &Random) -> Option<&'a mut u8> {
    let class = |record: &'a mut Record| match record {
        Record::Element { class, .. } => Some(class),
        _ => None,
    };
    any(draft, class, random)
}

fn name_of_submodel(record: &mut Record) -> Option<&mut Field> {
    match record {
        Record::Submodel { name, .. } => Some(name),
        _ => None,
    }
}

fn model_of_submodel(record: &mut Record) -> Option<&mut Field> {
    match record {
        Record::Submodel { model, .. } => Some(model),
        _ => None,
    }
}

/// A port or mark whose target is missing.
fn lose(draft: &mut Draft, random: &Random) -> Option<()> {
    let name = field(random.pick(&["nothing", "a", "p1"]));
    let target = any(draft, Record::target, random)?;
    if target.submodel == BLANK {
        return None;
    }
    target.name = name;
    Some(())
}

fn add_pointer(draft: &mut Draft, random: &Random) -> Option<()> {
    let definition = random.below(draft.0.len());
    let record = draft.pointer(definition, random)?;
    draft.insert(definition, record, random);
    Some(())
}

/// One more port or mark with the target of another, in the same definition or one above it.
fn point_again(draft: &mut Draft, random: &Random) -> Option<()> {
    let (definition, target) = any_pointer(draft, random)?;
    let end = draft.end(definition, &target)?;
    let ends_there = |d: usize, record: &mut Record| {
        record.target().and_then(|target| draft.end(d, target)) == Some(end)
    };
    let found = (0..40).find_map(|_| {
        let d = random.below(draft.0.len());
        let mut record = draft.pointer(d, random)?;
        ends_there(d, &mut record).then_some((d, record))
    });
    let (definition, record) = found?;
    draft.insert(definition, record, random);
    Some(())
}

/// A replaced-by whose owner is the target of a port or mark.
fn own_target(draft: &mut Draft, random: &Random) -> Option<()> {
    let (definition, target) = any_pointer(draft, random)?;
    let (definition, owner) = draft.end(definition, &target)?;
    let (submodel, model) = pick(&draft.submodels(definition), random)?;
    let below = draft.elements(draft.definition_of(model)?);
    let class = draft.elements(definition).iter().find(|e| e.0 == owner)?.1;
    let fitting: Vec<(Field, u8)> = below.into_iter().filter(|e| e.1 == class).collect();
    let target = Target::element(submodel, pick(&fitting, random)?.0);
    draft.insert(definition, Record::ReplacedBy { owner, target }, random);
    Some(())
}

/// Two ports of one instance with one target, one by name and one by port.
pub fn port_both_ways(draft: &mut Draft, random: &Random) -> Option<()> {
    let definition = random.below(draft.0.len());
    let (submodel, model) = pick(&draft.submodels(definition), random)?;
    let ports = draft.ports(draft.definition_of(model)?);
    let own: Vec<_> = ports
        .iter()
        .filter(|port| port.1.submodel == BLANK)
        .collect();
    let &(port, Target { name, .. }) = pick(&own, random)?;
    for target in [
        Target::element(submodel, name),
        Target::port(submodel, port),
    ] {
        let name = fresh_port(random);
        draft.insert(definition, Record::Port { name, target }, random);
    }
    Some(())
}

/// Two marks with one target in different instances; the upper needs a port in the lower.
pub fn mark_on_two_levels(draft: &mut Draft, random: &Random) -> Option<()> {
    // The later definitions more often, so that the lower mark comes first, too.
    let upper = random.below(draft.0.len()).max(random.below(draft.0.len()));
    let (middle_name, model) = pick(&draft.submodels(upper), random)?;
    let middle = draft.definition_of(model)?;
    let (submodel, model) = pick(&draft.submodels(middle), random)?;
    let (name, _) = pick(&draft.elements(draft.definition_of(model)?), random)?;
    let target = Target::element(submodel, name);
    let name = fresh_port(random);
    draft.insert(middle, Record::Deletion { target }, random);
    draft.insert(middle, Record::Port { name, target }, random);
    let target = Target::port(middle_name, name);
    draft.insert(upper, Record::Deletion { target }, random);
    Some(())
}

/// Two replaced-bys with one target.
fn replaced_by_one(draft: &mut Draft, random: &Random) -> Option<()> {
    let (definition, index) = any_place(draft, random)?;
    let Record::ReplacedBy { owner, target } = draft.0[definition][index] else {
        return None;
    };
    let class = draft.class_of(definition, &target)?;
    let elements = draft.elements(definition).into_iter();
    let others: Vec<(Field, u8)> = elements.filter(|e| e.1 == class && e.0 != owner).collect();
    let (owner, _) = pick(&others, random)?;
    draft.insert(definition, Record::ReplacedBy { owner, target }, random);
    Some(())
}

/// A mark whose owner is of another class than its target.
fn own_other_class(draft: &mut Draft, random: &Random) -> Option<()> {
    let definition = random.below(draft.0.len());
    let target = draft.pointer(definition, random)?.target().copied()?;
    let class = draft.class_of(definition, &target)?;
    let elements = draft.elements(definition).into_iter();
    let others: Vec<(Field, u8)> = elements.filter(|element| element.1 != class).collect();
    let (owner, _) = pick(&others, random)?;
    let record = match random.below(2) {
        _ if target.submodel == BLANK => return None,
        0 => Record::Replacement { owner, target },
        _ => Record::ReplacedBy { owner, target },
    };
    draft.insert(definition, record, random);
    Some(())
}

fn change_reference(draft: &mut Draft, random: &Random) -> Option<()> {
    let (definition, index) = any_place(draft, random)?;
    let (other, _) = pick(&draft.elements(definition), random)?;
    match &mut draft.0[definition][index] {
        Record::Element { reference, .. } => *reference = random.pick(&[BLANK, other]),
        _ => return None,
    }
    Some(())
}

fn delete_referred(draft: &mut Draft, random: &Random) -> Option<()> {
    let definition = random.below(draft.0.len());
    let (submodel, model) = pick(&draft.submodels(definition), random)?;
    let below = draft.definition_of(model)?;
    let referred = |record: &Record| match record {
        Record::Element { reference, .. } if *reference != BLANK => Some(*reference),
        _ => None,
    };
    let referred: Vec<Field> = draft.0[below].iter().filter_map(referred).collect();
    let target = Target::element(submodel, pick(&referred, random)?);
    draft.insert(definition, Record::Deletion { target }, random);
    Some(())
}

/// Deletes a reaction and lets its child replace an element of the definition above.
pub fn replaced_by_gone(draft: &mut Draft, random: &Random) -> Option<()> {
    let definition = random.below(draft.0.len());
    let (submodel, model) = pick(&draft.submodels(definition), random)?;
    let below = draft.definition_of(model)?;
    let child = |record: &Record| match record {
        Record::Element {
            name,
            class,
            parent,
            ..
        } if *parent != BLANK => Some((*name, *class, *parent)),
        _ => None,
    };
    let children: Vec<_> = draft.0[below].iter().filter_map(child).collect();
    let (name, class, parent) = pick(&children, random)?;
    let owners = draft.elements(definition).into_iter();
    let owners: Vec<(Field, u8)> = owners.filter(|owner| owner.1 == class).collect();
    let (owner, _) = pick(&owners, random)?;
    let named = |name| Target::element(submodel, name);
    let target = named(name);
    draft.insert(definition, Record::ReplacedBy { owner, target }, random);
    let target = named(parent);
    draft.insert(definition, Record::Deletion { target }, random);
    Some(())
}

/// Bytes that are no recipe, or nearly none.
pub fn damaged_bytes(mut recipe: Vec<u8>, random: &Random) -> Vec<u8> {
    let length = recipe.len();
    match random.below(12) {
        0 => recipe.clear(),
        1 | 2 => recipe.truncate(random.below(length)),
        3 => recipe[random.below(length)] = random.byte(),
        4 => {
            let unknown = KINDS.len() as u8 + 1;
            recipe[0] = random.pick(&[&[0], &KINDS[1..], &[unknown, 255]].concat());
        }
        5 => recipe.extend(vec![0; 1 + random.below(40)]),
        6 => {
            recipe.push(random.pick(KINDS));
            recipe.extend(vec![b'a'; random.below(12)]);
        }
        7 => {
            recipe.insert(random.below(length), random.byte());
        }
        8 => {
            recipe.remove(random.below(length));
        }
        9 => recipe = (0..random.below(200)).map(|_| random.byte()).collect(),
        10 => recipe = vec![0; random.below(200)],
        _ => {
            recipe = (0..random.below(200))
                .map(|_| random.pick(&[1, 2, 4, 0, b'a']))
                .collect()
        }
    }
    recipe
}

/// A recipe made longer, by elements of its last definition and by definitions that nothing uses.
/// It is left as it is if it has this length already.
pub fn padded(mut recipe: Vec<u8>, length: usize) -> Vec<u8> {
    // Elements have 38 bytes and models 13, which have no common divisor.
    let mut elements = 0;
    while recipe.len() + 38 <= length && !(length - recipe.len()).is_multiple_of(13) {
        elements += 1;
        recipe.extend(Record::parameter(&format!("pad{elements}")).encode());
    }
    let mut models = 0;
    while recipe.len() + 13 <= length {
        models += 1;
        let name = field(&format!("pad{models}"));
        recipe.extend(Record::Model { name }.encode());
    }
    recipe
}

/// A recipe around the greatest length.
pub fn greatest(recipe: Vec<u8>, random: &Random) -> Vec<u8> {
    match random.below(8) {
        0 => padded(recipe, MAX_RECIPE),
        1..=4 => padded(recipe, MAX_RECIPE + 1),
        5 => vec![0; MAX_RECIPE + random.below(2)],
        6 => padded(recipe, MAX_RECIPE + 1 + random.below(1_000)),
        _ => Vec::new(),
    }
}
