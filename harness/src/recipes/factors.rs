//! Kind 8 records for a recipe that is being made: right ones, and those of each way in which 19 and 20 come about.

use super::damage::Fault;
use super::draft::{pick, Draft};
use super::{Field, Record, Target, BLANK};
use crate::other::recipe::judge;
use crate::other::Refusal;
use crate::random::Random;
use crate::tables::field;

impl Draft {
    /// Gives most submodels factors, with which the recipe isn't refused by 19 or 20.
    pub fn give_factors(&mut self, random: &Random) {
        for definition in 0..self.0.len() {
            for (submodel, _) in self.submodels(definition) {
                if random.below(4) > 0 {
                    self.give_right(definition, submodel, random);
                }
            }
        }
    }

    fn give_right(&mut self, definition: usize, submodel: Field, random: &Random) {
        let parameters = self.of_classes(definition, |class| class == 3);
        let factor = || match random.below(4) {
            0 => BLANK,
            _ => pick(&parameters, random).unwrap_or(BLANK),
        };
        let record = factors(submodel, [factor(), factor()]);
        let index = self.insert(definition, record, random);
        let judged = judge(&self.encode()).err();
        if judged.is_some_and(|Refusal { number, .. }| number == 19 || number == 20) {
            self.0[definition].remove(index);
        }
    }

    /// Puts a reaction or a rate rule into any definition.
    pub fn add_rate(&mut self, random: &Random) {
        let definition = random.below(self.0.len());
        let referred = pick(&self.of_classes(definition, |class| class <= 3), random);
        let (class, reference) = match referred {
            Some(referred) if random.below(2) == 0 => (6, referred),
            _ => (4, BLANK),
        };
        self.add_element(definition, class, reference, random);
    }

    /// Puts an element with a fresh name into a definition.
    fn add_element(
        &mut self,
        definition: usize,
        class: u8,
        reference: Field,
        random: &Random,
    ) -> Field {
        let elements = self.elements(definition).into_iter();
        let elements = elements.map(|(name, _)| name);
        let submodels = self.submodels(definition).into_iter();
        let taken: Vec<Field> = elements.chain(submodels.map(|(name, _)| name)).collect();
        let mut names = (0..=taken.len()).map(|i| field(&format!("f{i}")));
        let name = names.find(|name| !taken.contains(name)).unwrap_or(BLANK);
        let element = Record::Element {
            name,
            class,
            parent: BLANK,
            reference,
        };
        self.insert(definition, element, random);
        name
    }

    fn add_parameter(&mut self, definition: usize, random: &Random) -> Field {
        self.add_element(definition, 3, BLANK, random)
    }

    fn of_classes(&self, definition: usize, is_wanted: fn(u8) -> bool) -> Vec<Field> {
        let elements = self.elements(definition).into_iter();
        let wanted = elements.filter(|&(_, class)| is_wanted(class));
        wanted.map(|(name, _)| name).collect()
    }

    /// Gives one of a definition's submodels this factor, in place of any that it has.
    fn give(&mut self, definition: usize, factor: Field, random: &Random) -> Option<()> {
        let (given, _) = pick(&self.submodels(definition), random)?;
        let is_other = |record: &Record| match record {
            Record::Factors { submodel, .. } => *submodel != given,
            _ => true,
        };
        self.0[definition].retain(is_other);
        let named = random.pick(&[[factor, BLANK], [BLANK, factor], [factor, factor]]);
        self.insert(definition, factors(given, named), random);
        Some(())
    }

    /// Any submodel that makes an instance of a definition.
    fn holder(&self, definition: usize, random: &Random) -> Option<Holder> {
        let Some(&Record::Model { name: wanted }) = self.0[definition].first() else {
            return None;
        };
        let of = |d: usize| self.submodels(d).into_iter().map(move |s| (d, s));
        let all = (0..self.0.len()).flat_map(of);
        let holders = all.filter(|(_, (_, model))| *model == wanted);
        let holders: Vec<Holder> = holders.map(|(d, (name, _))| (d, name)).collect();
        pick(&holders, random)
    }
}

fn factors(submodel: Field, [time, extent]: [Field; 2]) -> Record {
    Record::Factors {
        submodel,
        time,
        extent,
    }
}

/// The faults that 19 is about, in any definition or in one that nothing uses.
pub const OF_19: &[Fault] = &[
    // No submodel, an element for one, factors given twice.
    |draft, random| {
        let definition = any_or_unused(draft, random);
        draft.insert(definition, factors(field("nothing"), [BLANK; 2]), random);
        Some(())
    },
    |draft, random| {
        let definition = any_or_unused(draft, random);
        let (element, _) = pick(&draft.elements(definition), random)?;
        draft.insert(definition, factors(element, [BLANK; 2]), random);
        Some(())
    },
    |draft, random| {
        let definition = any_or_unused(draft, random);
        let (submodel, _) = pick(&draft.submodels(definition), random)?;
        let parameters = draft.of_classes(definition, |class| class == 3);
        for _ in 0..2 {
            let named = [(); 2].map(|()| pick(&parameters, random).unwrap_or(BLANK));
            let named = random.pick(&[[BLANK; 2], named]);
            draft.insert(definition, factors(submodel, named), random);
        }
        Some(())
    },
];

/// The faults that 20 is about.
pub const OF_20: &[Fault] = &[
    // No element of the definition, a submodel for one, another class.
    |draft, random| {
        let definition = outer(draft, random)?;
        let others = draft.elements(random.below(draft.0.len()));
        let other = pick(&others, random).map_or(BLANK, |(name, _)| name);
        draft.give(definition, random.pick(&[field("nothing"), other]), random)
    },
    |draft, random| {
        let definition = outer(draft, random)?;
        let (factor, _) = pick(&draft.submodels(definition), random)?;
        draft.give(definition, factor, random)
    },
    |draft, random| {
        let definition = outer(draft, random)?;
        let factor = pick(&draft.of_classes(definition, |class| class != 3), random)?;
        draft.give(definition, factor, random)
    },
    delete_factor,
    delete_factor,
    // More often, since few definitions are deep enough.
    delete_end,
    delete_end,
    delete_end,
    delete_end,
];

fn any_or_unused(draft: &mut Draft, random: &Random) -> usize {
    if random.below(3) > 0 {
        return random.below(draft.0.len());
    }
    let mut unused = draft.0[random.below(draft.0.len())].clone();
    if let Some(Record::Model { name }) = unused.first_mut() {
        *name = field("unused");
    }
    draft.0.push(unused);
    draft.0.len() - 1
}

/// Any definition with submodels.
fn outer(draft: &Draft, random: &Random) -> Option<usize> {
    let all = 0..draft.0.len();
    let outer: Vec<usize> = all.filter(|&d| !draft.submodels(d).is_empty()).collect();
    pick(&outer, random)
}

fn delete_factor(draft: &mut Draft, random: &Random) -> Option<()> {
    let definition = outer(draft, random)?;
    let holder = draft.holder(definition, random)?;
    let factor = add_factor(draft, definition, random)?;
    delete(draft, holder, factor, random);
    Some(())
}

/// Replaces a factor by a parameter that is deleted.
fn delete_end(draft: &mut Draft, random: &Random) -> Option<()> {
    let definition = outer(draft, random)?;
    let lower = draft.holder(definition, random)?;
    let upper = draft.holder(lower.0, random)?;
    let factor = add_factor(draft, definition, random)?;
    let end = replace(draft, lower, factor, random);
    delete(draft, upper, end, random);
    Some(())
}

/// A fresh parameter that is the factor of a submodel of its definition.
fn add_factor(draft: &mut Draft, definition: usize, random: &Random) -> Option<Field> {
    let factor = draft.add_parameter(definition, random);
    draft.give(definition, factor, random)?;
    Some(factor)
}

/// A submodel: the definition that holds it, and its name.
type Holder = (usize, Field);

/// Deletes an element of a submodel.
fn delete(draft: &mut Draft, (holder, submodel): Holder, element: Field, random: &Random) {
    let target = Target::element(submodel, element);
    draft.insert(holder, Record::Deletion { target }, random);
}

/// Replaces a parameter of a submodel by a fresh one, which comes back.
fn replace(
    draft: &mut Draft,
    (holder, submodel): Holder,
    parameter: Field,
    random: &Random,
) -> Field {
    let owner = draft.add_parameter(holder, random);
    let target = Target::element(submodel, parameter);
    draft.insert(holder, Record::Replacement { owner, target }, random);
    owner
}
