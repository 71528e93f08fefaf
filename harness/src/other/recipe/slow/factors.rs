//! 02's factors word by word: rows 19 and 20, the companion, and in which ways a kind 8 record goes wrong.

use super::{Kind, Part, Reading, Spot, AFTER_13, BEFORE_13};
use crate::bandrolt::FactorsAnswer;
use crate::other::recipe::rules::Rules;
use crate::other::{Refusal, ENTRY, FIELD};
use std::collections::BTreeSet;

const FACTORS: [Part; 2] = [Part::Time, Part::Extent];

pub fn flatten_with_factors(
    recipe: &[u8],
    table: &mut [u8],
    companion: &mut [u8],
    rules: &Rules,
) -> FactorsAnswer {
    let counted = Reading::judged(recipe, rules).and_then(|mut reading| {
        reading.check_room(table)?;
        if rules.table_goes_first {
            reading.write(table);
        }
        reading.check_companion(companion)?;
        reading.judge(AFTER_13)?;
        Ok((reading.write(table), reading.write_companion(companion)))
    });
    counted.into()
}

/// How a kind 8 record is at fault, or only looks so. There is no way yet for a factor to have another class
/// through its chain alone: 10 keeps the class along a chain.
#[derive(Clone, Copy, Debug, PartialEq, Eq, PartialOrd, Ord)]
pub enum FactorCase {
    // 19.
    NoSubmodel,
    ElementForSubmodel,
    Second,
    InUnused,
    // 20.
    NoElement,
    SubmodelForFactor,
    Deleted,
    OtherClass,
    GoneThroughChain,
    InSomeInstances,
    // Accepted.
    RightThroughChain,
}

impl FactorCase {
    pub const ALL: [FactorCase; 11] = [
        FactorCase::NoSubmodel,
        FactorCase::ElementForSubmodel,
        FactorCase::Second,
        FactorCase::InUnused,
        FactorCase::NoElement,
        FactorCase::SubmodelForFactor,
        FactorCase::Deleted,
        FactorCase::OtherClass,
        FactorCase::GoneThroughChain,
        FactorCase::InSomeInstances,
        FactorCase::RightThroughChain,
    ];
}

/// The cases of the record that 19 or 20 is about, or of an accepted recipe.
pub fn factor_cases(recipe: &[u8]) -> BTreeSet<FactorCase> {
    let rules = Rules::default();
    let Ok(mut reading) = Reading::new(recipe, &rules) else {
        return BTreeSet::new();
    };
    let judged = reading.judge(BEFORE_13);
    let record = |place: usize| reading.records.iter().position(|r| r.place == place);
    match judged {
        Err(Refusal { number: 19, place }) => {
            record(place).map_or_else(BTreeSet::new, |i| reading.cases_of_19(i))
        }
        Err(Refusal { number: 20, place }) => {
            record(place).map_or_else(BTreeSet::new, |i| reading.cases_of_20(i))
        }
        Ok(()) if reading.is_right_through_chain() => {
            BTreeSet::from([FactorCase::RightThroughChain])
        }
        _ => BTreeSet::new(),
    }
}

impl Reading<'_> {
    // 19.

    pub(super) fn factors_given(&self) -> Vec<usize> {
        let all = 0..self.records.len();
        let mut places = Vec::new();
        for i in all.filter(|&i| self.records[i].kind == Kind::Factors) {
            let earlier = (0..i).find(|&earlier| self.is_given_again(earlier, i));
            let place = self.records[i].place;
            if self.is_judged_by_19(i) && (!self.is_for_submodel(i) || earlier.is_some()) {
                let earlier = earlier.filter(|_| self.rules.earlier_factors);
                places.push(earlier.map_or(place, |earlier| self.records[earlier].place));
            }
        }
        places
    }

    fn is_judged_by_19(&self, i: usize) -> bool {
        let model = self.records[i].model;
        self.rules.unused_for_19 || model == 0 || self.reached(0).contains(&model)
    }

    fn is_for_submodel(&self, i: usize) -> bool {
        let record = &self.records[i];
        let kinds = [Kind::Submodel, Kind::Element].into_iter();
        let mut kinds = kinds.filter(|&kind| (self.rules.given_factors)(kind));
        kinds.any(|kind| {
            let found = self.find(record.model, kind, record.first);
            found.is_some_and(|s| (self.rules.submodel_at)(record.place, self.records[s].place))
        })
    }

    fn is_given_again(&self, earlier: usize, later: usize) -> bool {
        let [a, b] = [earlier, later].map(|i| &self.records[i]);
        let factors = [a, b].map(|record| FACTORS.map(|part| record.name(part)));
        a.kind == Kind::Factors
            && a.model == b.model
            && self.rules.same(a.first, b.first)
            && (self.rules.given_twice)(factors[0], factors[1])
    }

    fn cases_of_19(&self, i: usize) -> BTreeSet<FactorCase> {
        let record = &self.records[i];
        let is = |kind| self.find(record.model, kind, record.first).is_some();
        let is_unused = record.model != 0 && !self.reached(0).contains(&record.model);
        let case = match (is(Kind::Submodel), is(Kind::Element)) {
            (true, _) => FactorCase::Second,
            (_, true) => FactorCase::ElementForSubmodel,
            _ => FactorCase::NoSubmodel,
        };
        let unused = is_unused.then_some(FactorCase::InUnused);
        unused.into_iter().chain([case]).collect()
    }

    // 20.

    /// The kind 8 records of the tree.
    fn all_factors(&self) -> impl Iterator<Item = Spot> + '_ {
        let of = |instance: usize| self.held(instance).map(move |i| (instance, i));
        let all = (0..self.instances.len()).flat_map(of);
        all.filter(|&(_, i)| self.records[i].kind == Kind::Factors)
    }

    pub(super) fn wrong_factors(&self) -> Vec<usize> {
        let is_first = |&(instance, _): &Spot| {
            let model = self.instances[instance].model;
            let mut instances = self.instances.iter();
            instances.position(|other| other.model == model) == Some(instance)
        };
        let is_judged = |spot: &Spot| {
            (self.rules.all_instances_for_20 || is_first(spot))
                && (self.rules.unshown_for_20 || self.is_shown(*spot))
        };
        let place = |i: usize| self.records[i].place;
        let faults = self.all_factors().filter(is_judged);
        let faults = faults.filter(|&spot| self.is_wrong(spot));
        let mut places: Vec<usize> = faults.map(|(_, i)| place(i)).collect();
        if self.rules.first_in_tree_for_20 {
            places.truncate(1);
        }
        if self.rules.unused_for_20 {
            let is_lost = |i: usize, part: Part| {
                !self.records[i].name(part).is_empty() && self.named(i, part).is_none()
            };
            let all = (0..self.records.len()).filter(|&i| !self.is_used(self.records[i].model));
            let lost = all.filter(|&i| FACTORS.iter().any(|&part| is_lost(i, part)));
            places.extend(lost.map(place));
        }
        places
    }

    fn is_wrong(&self, spot: Spot) -> bool {
        let mut factors = FACTORS.iter();
        factors.any(|&part| self.factor(spot, part).is_none())
    }

    /// The end of the chain from a factor, `Some(None)` for a blank, or `None` if 20 applies.
    fn factor(&self, (instance, i): Spot, part: Part) -> Option<Option<Spot>> {
        let blank = self.records[i].name(part).is_empty();
        let Some(named) = self.named(i, part) else {
            return (blank || self.rules.undeclared_factors).then_some(None);
        };
        let end = self.chain_end((instance, named), self.rules.factor_steps);
        let ends_well = (!self.gone.contains(&end) || self.rules.gone_factors)
            && self.rules.factor_classes.contains(&self.class(end.1));
        ends_well.then_some(Some(end))
    }

    /// Is there an entry below a kind 8 record's submodel?
    fn is_shown(&self, (instance, i): Spot) -> bool {
        let record = &self.records[i];
        let submodel = self.find(record.model, Kind::Submodel, record.first);
        let below = submodel.and_then(|submodel| self.below((instance, submodel)));
        self.entered().iter().any(|&(at, _)| {
            let mut way = self.way(at).into_iter();
            way.any(|(on_way, _)| Some(on_way) == below)
        })
    }

    fn cases_of_20(&self, i: usize) -> BTreeSet<FactorCase> {
        let of_record = || self.all_factors().filter(|&(_, factors)| factors == i);
        let mut cases = BTreeSet::new();
        for spot in of_record() {
            cases.extend(FACTORS.iter().filter_map(|&part| self.case(spot, part)));
        }
        if of_record().any(|spot| !self.is_wrong(spot)) {
            cases.insert(FactorCase::InSomeInstances);
        }
        cases
    }

    /// What is wrong with a factor.
    fn case(&self, spot: Spot, part: Part) -> Option<FactorCase> {
        if self.factor(spot, part).is_some() {
            return None;
        }
        let record = &self.records[spot.1];
        let is_submodel = || self.find(record.model, Kind::Submodel, record.name(part));
        let Some(named) = self.named(spot.1, part) else {
            return Some(match is_submodel() {
                Some(_) => FactorCase::SubmodelForFactor,
                None => FactorCase::NoElement,
            });
        };
        let named = (spot.0, named);
        let end = self.chain_end(named, usize::MAX);
        Some(if self.class(end.1) != 3 {
            FactorCase::OtherClass
        } else if end == named {
            FactorCase::Deleted
        } else {
            FactorCase::GoneThroughChain
        })
    }

    /// Is a factor accepted that names a gone element?
    fn is_right_through_chain(&self) -> bool {
        self.all_factors().any(|spot| {
            let mut named = FACTORS.iter().filter_map(|&part| self.named(spot.1, part));
            named.any(|named| self.gone.contains(&(spot.0, named)))
        })
    }

    // The companion.

    /// The elements of the tree that have an entry.
    fn entered(&self) -> Vec<Spot> {
        let is_entered = |spot: &Spot| {
            (self.rules.entered)(self.class(spot.1))
                && (self.rules.gone_entered || !self.gone.contains(spot))
        };
        self.elements.iter().copied().filter(is_entered).collect()
    }

    fn check_companion(&self, companion: &[u8]) -> Result<(), Refusal> {
        let needed = ENTRY * self.entered().len() + self.rules.spare_companion;
        if companion.len() < needed && !self.rules.short_companion {
            return Err(Refusal {
                number: 13,
                place: 0,
            });
        }
        Ok(())
    }

    /// The number of entries comes back.
    fn write_companion(&self, companion: &mut [u8]) -> usize {
        let entered = self.entered();
        let prefixes = self.prefixes();
        for (entry, &spot) in companion.chunks_exact_mut(ENTRY).zip(&entered) {
            entry.fill(0);
            entry[0] = (self.rules.entry_kind)(self.class(spot.1));
            let mut put = |field: usize, name: Vec<u8>| {
                entry[1 + field * FIELD..][..name.len()].copy_from_slice(&name);
            };
            put(0, self.flat_name(spot, &prefixes));
            for (field, named) in self.shown(spot) {
                put(field, self.flat_name(named, &prefixes));
            }
        }
        if self.rules.companion_is_zeroed {
            companion[ENTRY * entered.len()..].fill(0);
        }
        entered.len()
    }

    /// The elements that an entry shows, each with the number of its field.
    fn shown(&self, spot: Spot) -> Vec<(usize, Spot)> {
        let way = self.way(spot.0);
        let mut shown = Vec::new();
        for (i, &(_, (above, submodel))) in way.iter().enumerate() {
            let name = self.records[submodel].first;
            let model = self.instances[above].model;
            let Some(given) = self.find(model, Kind::Factors, name) else {
                continue;
            };
            for (which, part) in FACTORS.into_iter().enumerate() {
                let end = self.factor((above, given), part).flatten();
                let named = self.named(given, part).map(|named| (above, named));
                let end = if self.rules.end_is_shown { end } else { named };
                let field = (self.rules.field_of)(i + 1, way.len(), which);
                shown.extend(end.map(|end| (field, end)));
            }
        }
        shown
    }
}
