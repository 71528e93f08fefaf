//! 01's flattening word by word and slowly, by rules that can be bent one at a time, and the elements that `walkers` find.
//! It shares nothing with the other program but a few lengths.

mod factors;
mod prefixes;

use super::rules::{ReplacedBy, Rules, TreeOrder};
use crate::bandrolt::Answer;
use crate::other::rules::{before_zero, Row};
use crate::other::{Refusal, Route, FIELD, NAME, RECORD};
use std::collections::{BTreeSet, HashSet};
use std::iter::successors;
use std::ops::RangeInclusive;
use Part::*;

pub use factors::{factor_cases, flatten_with_factors, FactorCase};
pub use prefixes::{deciding_sides, Side};

/// What a record is.
#[derive(Clone, Copy, PartialEq)]
pub(super) enum Kind {
    Model,
    Element,
    Port,
    Submodel,
    Deletion,
    Replacement,
    ReplacedBy,
    Factors,
}

/// What a part of a body is.
#[derive(Clone, Copy, PartialEq)]
pub(super) enum Part {
    Name,
    Class,
    Parent,
    Reference,
    Model,
    Owner,
    Submodel,
    Way,
    Target,
    Time,
    Extent,
}

impl Part {
    fn length(self) -> usize {
        match self {
            Class | Way => 1,
            _ => NAME,
        }
    }
}

/// 01's table of kinds with 02's kind 8: the kind byte, what it makes the record, its body in order, and which parts of
/// that may be blank.
const KINDS: &[(u8, Kind, &[Part], &[Part])] = &[
    (1, Kind::Model, &[Name], &[]),
    (
        2,
        Kind::Element,
        &[Name, Class, Parent, Reference],
        &[Parent, Reference],
    ),
    (3, Kind::Port, &[Name, Submodel, Way, Target], &[Submodel]),
    (4, Kind::Submodel, &[Name, Model], &[]),
    (5, Kind::Deletion, &[Submodel, Way, Target], &[]),
    (6, Kind::Replacement, &[Owner, Submodel, Way, Target], &[]),
    (7, Kind::ReplacedBy, &[Owner, Submodel, Way, Target], &[]),
    (8, Kind::Factors, &[Submodel, Time, Extent], &[Time, Extent]),
];

struct Record<'a> {
    place: usize,
    kind: Kind,
    parts: &'static [Part],
    may_be_blank: &'static [Part],
    body: &'a [u8],
    /// The name that its body begins with: its own, or else an owner's or a submodel's.
    first: &'a [u8],
    /// The index of its kind 1.
    model: usize,
}

impl<'a> Record<'a> {
    fn is_pointer(&self) -> bool {
        self.kind == Kind::Port || self.is_mark()
    }

    fn is_mark(&self) -> bool {
        matches!(
            self.kind,
            Kind::Deletion | Kind::Replacement | Kind::ReplacedBy
        )
    }

    /// The parts of the body, each with its bytes.
    fn parts(&self) -> impl Iterator<Item = (Part, &'a [u8])> {
        let mut rest = self.body;
        self.parts.iter().map(move |&part| {
            let (bytes, after) = rest.split_at(part.length());
            rest = after;
            (part, bytes)
        })
    }

    /// The bytes of a part; none if a record of this kind hasn't got it.
    fn part(&self, wanted: Part) -> &'a [u8] {
        let found = self.parts().find(|(part, _)| *part == wanted);
        found.map_or(&[], |(_, bytes)| bytes)
    }

    /// What a port or mark points at, as it is written.
    fn pointed(&self) -> [&'a [u8]; 3] {
        [Submodel, Way, Target].map(|part| self.part(part))
    }

    fn byte(&self, part: Part) -> u8 {
        self.part(part)[0]
    }

    fn name(&self, part: Part) -> &'a [u8] {
        before_zero(self.part(part))
    }
}

/// The submodels that lead to a target, from the pointer's instance on, and its element.
type Path = (Vec<usize>, usize);

/// A record of an instance; both by index.
type Spot = (usize, usize);

/// An instance below main, with its submodel in the one above.
type Step = (usize, Spot);

struct Instance {
    model: usize,
    above: Option<Spot>,
    depth: usize,
}

/// A port or mark of the tree with its target, and with its owner where it has one.
struct Pointer {
    instance: usize,
    record: usize,
    target: Spot,
    owner: Option<Spot>,
}

/// The four kinds of conflict, each with what comes first.
#[derive(Clone, Copy, Debug, PartialEq, Eq, PartialOrd, Ord)]
pub enum Conflict {
    MarksUpperFirst,
    MarksLowerFirst,
    MarksOfOneInstance,
    OwnerFirst,
    OwnerLast,
    PortsByNameFirst,
    PortsByPortFirst,
    PortsOneWay,
    MarkThenPort,
    PortThenMark,
}

impl Conflict {
    /// Those that can decide a place. Two marks where the lower comes first can't: the upper leads
    /// through a port in the lower's definition, which conflicts with the lower at an earlier place.
    pub const DECIDING: [Conflict; 9] = [
        Conflict::MarksUpperFirst,
        Conflict::MarksOfOneInstance,
        Conflict::OwnerFirst,
        Conflict::OwnerLast,
        Conflict::PortsByNameFirst,
        Conflict::PortsByPortFirst,
        Conflict::PortsOneWay,
        Conflict::MarkThenPort,
        Conflict::PortThenMark,
    ];
}

struct Reading<'a> {
    rules: &'a Rules,
    records: Vec<Record<'a>>,
    /// For each submodel the index of its model's kind 1.
    models: Vec<Option<usize>>,
    paths: Vec<Option<Path>>,
    instances: Vec<Instance>,
    pointers: Vec<Pointer>,
    /// The elements of the tree in tree order, and those of them that are gone.
    elements: Vec<Spot>,
    gone: HashSet<Spot>,
}

/// The ranks of the numbers that are judged before 13, and of those that a bent rule judges after it.
const BEFORE_13: RangeInclusive<u64> = 6..=25;
const AFTER_13: RangeInclusive<u64> = 26..=40;

pub fn flatten(recipe: &[u8], table: &mut [u8], rules: &Rules) -> Answer {
    let verdict = Reading::judged(recipe, rules).and_then(|mut reading| {
        reading.check_room(table)?;
        reading.judge(AFTER_13)?;
        Ok(reading.write(table))
    });
    verdict.into()
}

/// The conflicts of a recipe that 01 refuses with 9, each with whether it is one of those that
/// decide the place.
pub fn conflicts(recipe: &[u8]) -> BTreeSet<(Conflict, bool)> {
    let rules = Rules::default();
    let Ok(mut reading) = Reading::new(recipe, &rules) else {
        return BTreeSet::new();
    };
    match reading.judge(BEFORE_13) {
        Err(Refusal { number: 9, place }) => {
            let conflicts = reading.conflicts().into_iter();
            conflicts
                .map(|(_, later, conflict)| (conflict, later == place))
                .collect()
        }
        _ => BTreeSet::new(),
    }
}

/// An element of the tree, with what the walk back goes by and what it gives.
pub struct Element {
    /// The names of its submodels from main downward, and its own.
    pub parts: Vec<String>,
    pub flat_name: Vec<u8>,
    pub is_gone: bool,
    pub route: Route,
}

/// All elements of a recipe's tree, in tree order.
pub fn elements(recipe: &[u8]) -> Result<Vec<Element>, Refusal> {
    let rules = Rules::default();
    let reading = Reading::judged(recipe, &rules)?;
    let prefixes = reading.prefixes();
    let spots = reading.elements.iter();
    Ok(spots
        .map(|&spot| reading.element(spot, &prefixes))
        .collect())
}

impl Rules {
    fn is_name(&self, field: &[u8]) -> bool {
        let name = before_zero(field);
        let is_letter = |b: &u8| matches!(b, b'a'..=b'z' | b'A'..=b'Z' | b'_');
        let goes_on = |b: &u8| is_letter(b) || self.digits && b.is_ascii_digit();
        let is_padded = field[name.len()..].iter().all(|&b| b == 0);
        name.first().is_some_and(is_letter)
            && name.iter().all(goes_on)
            && (is_padded || !self.padding_is_zero)
    }

    fn reads(&self, record: &Record) -> bool {
        let reads = |(part, field): (Part, &[u8])| {
            let ends_well = || {
                (self.may_end_with_underscore)(record.kind, part)
                    || !before_zero(field).ends_with(b"_")
            };
            let is_blank = || record.may_be_blank.contains(&part) && field.iter().all(|&b| b == 0);
            match part {
                Class => (1..=7).contains(&field[0]),
                Way => field[0] <= 1,
                _ => is_blank() || self.is_name(field) && ends_well(),
            }
        };
        let is_filled = |&part: &Part| !record.name(part).is_empty();
        let has_factor = || [Time, Extent].iter().any(is_filled);
        let may_be_blank = record.kind != Kind::Factors || self.blank_factors;
        record.parts().all(reads) && (may_be_blank || has_factor())
    }

    fn same(&self, a: &[u8], b: &[u8]) -> bool {
        let compared = |name: &[u8]| name.len().min(self.compared);
        a[..compared(a)] == b[..compared(b)]
    }
}

impl<'a> Reading<'a> {
    /// Rows 1 and 2.
    fn new(recipe: &'a [u8], rules: &'a Rules) -> Result<Self, Refusal> {
        if recipe.is_empty() || recipe.len() > rules.longest_recipe {
            return Err(Refusal {
                number: 1,
                place: 0,
            });
        }
        let mut records: Vec<Record> = Vec::new();
        let mut place = 0;
        while place < recipe.len() {
            let refusal = Refusal { number: 2, place };
            let kinds = &KINDS[..rules.kinds];
            let known = kinds.iter().find(|known| known.0 == recipe[place]);
            let &(_, kind, parts, may_be_blank) = known.ok_or(refusal)?;
            let length: usize = parts.iter().map(|part| part.length()).sum();
            let is_first = place == 0 && kind != Kind::Model && !rules.any_first_record;
            if is_first || recipe.len() - place <= length {
                return Err(refusal);
            }
            let model = match kind {
                Kind::Model => records.len(),
                _ => records.last().map_or(0, |before| before.model),
            };
            let body = &recipe[place + 1..][..length];
            records.push(Record {
                place,
                kind,
                parts,
                may_be_blank,
                body,
                first: before_zero(&body[..NAME]),
                model,
            });
            place += 1 + length;
        }
        let models = records.iter().map(|record| {
            let name = record.name(Model);
            let is_model = |r: &Record| r.kind == Kind::Model && rules.same(r.first, name);
            let mut models = records.iter().filter(|_| record.kind == Kind::Submodel);
            models.position(is_model)
        });
        let models = models.collect();
        Ok(Reading {
            rules,
            records,
            models,
            paths: Vec::new(),
            instances: Vec::new(),
            pointers: Vec::new(),
            elements: Vec::new(),
            gone: HashSet::new(),
        })
    }

    /// A recipe that the rows before 13 let pass.
    fn judged(recipe: &'a [u8], rules: &'a Rules) -> Result<Self, Refusal> {
        let mut reading = Reading::new(recipe, rules)?;
        reading.judge(BEFORE_13)?;
        Ok(reading)
    }

    fn judge(&mut self, ranks: RangeInclusive<u64>) -> Result<(), Refusal> {
        for rank in ranks {
            let is_judged = |&number: &u64| (self.rules.rank)(number) == rank;
            let numbers: Vec<u64> = (3..=12).chain([19, 20]).filter(is_judged).collect();
            let mut found: Option<Refusal> = None;
            for number in numbers {
                let lowest = self.faults(number).into_iter().min();
                let refusal = lowest.map(|place| Refusal { number, place });
                found = match (found, refusal) {
                    (Some(a), Some(b)) if b.place < a.place => Some(b),
                    (a, b) => a.or(b),
                };
            }
            if let Some(refusal) = found {
                return Err(refusal);
            }
        }
        Ok(())
    }

    /// The places to which a number applies.
    fn faults(&mut self, number: u64) -> Vec<usize> {
        let places = |is_at_fault: &dyn Fn(usize) -> bool| -> Vec<usize> {
            let faults = (0..self.records.len()).filter(|&i| is_at_fault(i));
            faults.map(|i| self.records[i].place).collect()
        };
        match number {
            3 => places(&|i| !self.rules.reads(&self.records[i])),
            4 => places(&|i| (0..i).any(|earlier| self.repeats(earlier, i))),
            5 => places(&|i| !self.links(i)),
            6 => places(&|i| self.records[i].kind == Kind::Model && self.is_cyclic(i)),
            7 => match self.grow() {
                true => Vec::new(),
                false => vec![0],
            },
            8 => places(&|i| self.is_lost(i)),
            9 => {
                let conflicts = self.conflicts().into_iter();
                let earlier_is_reported = self.rules.earlier_is_reported;
                let reported = |(earlier, later, _)| match earlier_is_reported {
                    true => earlier,
                    false => later,
                };
                conflicts.map(reported).collect()
            }
            10 => places(&|i| self.differs(i)),
            11 => {
                let is_gone = |p: &&Pointer| {
                    self.records[p.record].kind == Kind::ReplacedBy
                        && self.gone.contains(&p.target)
                        && !self.rules.gone_targets
                };
                let faults = self.pointers.iter().filter(is_gone);
                faults.map(|p| self.records[p.record].place).collect()
            }
            12 => self.dangling(),
            19 => self.factors_given(),
            _ => self.wrong_factors(),
        }
    }

    /// The record of this kind that has this name in the definition.
    fn find(&self, model: usize, kind: Kind, name: &[u8]) -> Option<usize> {
        let is_wanted = |r: &Record| r.kind == kind && self.rules.same(r.first, name);
        let held = self.records[model..].iter();
        let mut held = held.take_while(|r| r.model == model);
        held.position(is_wanted).map(|i| model + i)
    }

    /// The element that a part of a record names, in its definition; a blank names none.
    fn named(&self, i: usize, part: Part) -> Option<usize> {
        let record = &self.records[i];
        match record.name(part) {
            [] => None,
            name => self.find(record.model, Kind::Element, name),
        }
    }

    fn class(&self, element: usize) -> u8 {
        self.records[element].byte(Class)
    }

    fn row(&self, element: usize) -> Option<&Row> {
        let class = usize::from(self.class(element));
        self.rules.class_table.get(class.checked_sub(1)?)
    }

    // 4.

    fn repeats(&self, earlier: usize, later: usize) -> bool {
        let (a, b) = (&self.records[earlier], &self.records[later]);
        let is_member = |kind| matches!(kind, Kind::Element | Kind::Port | Kind::Submodel);
        let is_space = match (a.kind, b.kind) {
            (Kind::Model, Kind::Model) => true,
            _ if a.model != b.model => false,
            (Kind::ReplacedBy, Kind::ReplacedBy) => !self.rules.second_replaced_by,
            (Kind::Factors, Kind::Factors) => self.rules.second_factors_are_4,
            (a, b) => is_member(a) && is_member(b) && (self.rules.one_space)(a, b),
        };
        is_space && self.rules.same(a.first, b.first)
    }

    // 5.

    fn links(&self, i: usize) -> bool {
        let record = &self.records[i];
        let model = record.model;
        let submodel = record.name(Submodel);
        let is_submodel = || self.find(model, Kind::Submodel, submodel).is_some();
        match record.kind {
            Kind::Model => true,
            Kind::Element => self.has_parent(i),
            Kind::Port if submodel.is_empty() => match record.byte(Way) {
                0 => self.named(i, Target).is_some(),
                _ => {
                    let port = self.find(model, Kind::Port, record.name(Target));
                    self.rules.port_to_own_port && port.is_some()
                }
            },
            Kind::Port | Kind::Deletion => is_submodel(),
            Kind::Submodel => self.models[i]
                .is_some_and(|m| (self.rules.model_at)(record.place, self.records[m].place)),
            Kind::Replacement | Kind::ReplacedBy => {
                let is_placed =
                    |owner: usize| (self.rules.owner_at)(record.place, self.records[owner].place);
                self.named(i, Owner).is_some_and(is_placed) && is_submodel()
            }
            Kind::Factors => !self.rules.lost_factors_are_5 || is_submodel(),
        }
    }

    fn has_parent(&self, i: usize) -> bool {
        let record = &self.records[i];
        let Some(row) = self.row(i) else {
            return false;
        };
        match self.named(i, Parent) {
            None => row.parent.blank && record.name(Parent).is_empty(),
            Some(parent) => {
                (self.rules.parent_at)(record.place, self.records[parent].place)
                    && row.parent.classes.contains(&self.class(parent))
            }
        }
    }

    // 6.

    fn submodels(&self, model: usize) -> impl Iterator<Item = usize> + '_ {
        let held = (model..self.records.len()).take_while(move |&i| self.records[i].model == model);
        held.filter(|&i| self.records[i].kind == Kind::Submodel)
    }

    /// "A definition reaches the definition of each model named in its submodel records, and every
    /// definition reached from there."
    fn reached(&self, model: usize) -> HashSet<usize> {
        let mut reached = HashSet::new();
        let mut open = vec![model];
        while let Some(from) = open.pop() {
            let below = self.submodels(from).filter_map(|s| self.models[s]);
            open.extend(below.filter(|&there| reached.insert(there)));
        }
        reached
    }

    fn is_cyclic(&self, model: usize) -> bool {
        let reached = self.reached(model);
        let reaches_itself = reached.contains(&model);
        if self.rules.ways_to_cycles {
            return reached.iter().any(|&m| self.reached(m).contains(&m));
        }
        reaches_itself
            && (self.rules.unused_cycles || model == 0 || self.reached(0).contains(&model))
    }

    // 7.

    /// Unfolds the tree and sees what the marks do to it; false if it passes a limit.
    fn grow(&mut self) -> bool {
        if !self.unfold(0, None, 0) {
            return false;
        }
        self.paths = (0..self.records.len())
            .map(|i| self.path(i, self.records.len()))
            .collect();
        for instance in 0..self.instances.len() {
            let held = self.held(instance);
            for i in held.filter(|&i| self.records[i].is_pointer()) {
                if let Some(target) = self.in_tree(instance, i) {
                    let owner = self.named(i, Owner).map(|owner| (instance, owner));
                    self.pointers.push(Pointer {
                        instance,
                        record: i,
                        target,
                        owner,
                    });
                }
            }
        }
        self.list_elements(0);
        if self.rules.order_of_tree == TreeOrder::BreadthFirst {
            self.elements
                .sort_by_key(|&(instance, _)| self.instances[instance].depth);
        }
        let elements = self.elements.iter().copied();
        self.gone = elements.filter(|&spot| self.is_gone(spot)).collect();
        let counted = match self.rules.gone_count_for_7 {
            true => self.elements.len(),
            false => self.elements.len() - self.gone.len(),
        };
        counted <= self.rules.max_elements
    }

    fn unfold(&mut self, model: usize, above: Option<Spot>, depth: usize) -> bool {
        let is_over = depth > self.rules.max_depth;
        if is_over || self.instances.len() == self.rules.max_instances {
            return false;
        }
        let instance = self.instances.len();
        self.instances.push(Instance {
            model,
            above,
            depth,
        });
        let submodels: Vec<usize> = self.submodels(model).collect();
        submodels.into_iter().all(|submodel| {
            self.models[submodel]
                .is_some_and(|below| self.unfold(below, Some((instance, submodel)), depth + 1))
        })
    }

    /// The indices of the records of an instance.
    fn held(&self, instance: usize) -> std::ops::Range<usize> {
        let model = self.instances[instance].model;
        let held = self.records[model..].iter();
        model..model + held.take_while(|r| r.model == model).count()
    }

    fn list_elements(&mut self, instance: usize) {
        let held = self.held(instance);
        let turns: &[&[Kind]] = match self.rules.order_of_tree {
            TreeOrder::DepthFirst | TreeOrder::BreadthFirst => {
                &[&[Kind::Element], &[Kind::Submodel]]
            }
            TreeOrder::SubmodelsFirst => &[&[Kind::Submodel], &[Kind::Element]],
            TreeOrder::AsRecorded => &[&[Kind::Element, Kind::Submodel]],
        };
        for kinds in turns {
            for i in held.clone() {
                match self.records[i].kind {
                    kind if !kinds.contains(&kind) => {}
                    Kind::Element => self.elements.push((instance, i)),
                    _ => {
                        if let Some(below) = self.below((instance, i)) {
                            self.list_elements(below);
                        }
                    }
                }
            }
        }
    }

    /// The instance that a submodel of an instance makes.
    fn below(&self, submodel: Spot) -> Option<usize> {
        let mut instances = self.instances.iter();
        instances.position(|instance| instance.above == Some(submodel))
    }

    // 8.

    /// The target of a port or mark in its definition. A bent rule may lead it round.
    fn path(&self, i: usize, most_steps: usize) -> Option<Path> {
        let record = &self.records[i];
        if !record.is_pointer() || most_steps == 0 {
            return None;
        }
        let (mut path, model) = match record.name(Submodel) {
            [] => (Vec::new(), record.model),
            name => {
                let submodel = self.find(record.model, Kind::Submodel, name)?;
                (vec![submodel], self.models[submodel]?)
            }
        };
        let target = record.name(Target);
        match record.byte(Way) {
            0 => Some((path, self.find(model, Kind::Element, target)?)),
            _ => {
                let port = self.find(model, Kind::Port, target)?;
                let (further, element) = self.path(port, most_steps - 1)?;
                path.extend(further);
                Some((path, element))
            }
        }
    }

    fn in_tree(&self, instance: usize, i: usize) -> Option<Spot> {
        let (path, element) = self.paths[i].as_ref()?;
        let mut steps = path.iter();
        let end = steps.try_fold(instance, |at, &submodel| self.below((at, submodel)))?;
        Some((end, *element))
    }

    fn is_used(&self, model: usize) -> bool {
        self.instances.iter().any(|i| i.model == model)
    }

    fn is_lost(&self, i: usize) -> bool {
        let record = &self.records[i];
        let is_judged = self.rules.unused_for_8 || self.is_used(record.model);
        let leads_to_port = || {
            let submodel = self.find(record.model, Kind::Submodel, record.name(Submodel))?;
            self.find(self.models[submodel]?, Kind::Port, record.name(Target))
        };
        // A wrong reading: a record that leads to a port is not at fault.
        let is_excused = || {
            !self.rules.through_broken_ports && record.byte(Way) == 1 && leads_to_port().is_some()
        };
        record.is_pointer() && is_judged && self.paths[i].is_none() && !is_excused()
    }

    // 9.

    /// All conflicts: the earlier and the later record's place, and which kind.
    fn conflicts(&self) -> Vec<(usize, usize, Conflict)> {
        let mut conflicts = Vec::new();
        for a in &self.pointers {
            for b in &self.pointers {
                let places = [a, b].map(|p| self.records[p.record].place);
                if places[0] < places[1] {
                    let found = self.conflict(a, b).into_iter().flatten();
                    conflicts.extend(found.map(|kind| (places[0], places[1], kind)));
                }
            }
        }
        if self.rules.unused_for_9 {
            conflicts.extend(self.unused_conflicts());
        }
        conflicts
    }

    /// The ways in which an earlier and a later record conflict.
    fn conflict(&self, a: &Pointer, b: &Pointer) -> [Option<Conflict>; 4] {
        let (first, second) = (&self.records[a.record], &self.records[b.record]);
        let one_target = match self.rules.by_written_names {
            true => a.instance == b.instance && first.pointed() == second.pointed(),
            false => a.target == b.target,
        };
        let below = self.levels_below(b.instance, a.instance);
        let is_owner = |by: &Pointer, of: &Pointer| {
            self.records[by.record].kind == Kind::ReplacedBy
                && by.owner == Some(of.target)
                && (self.rules.owner_conflicts)(self.records[of.record].kind)
        };
        let mark_and_port = |levels: Option<isize>, conflict| {
            let conflicts = one_target && levels.is_some_and(self.rules.mark_and_port_conflict);
            conflicts.then_some(conflict)
        };

        let marks = first.is_mark()
            && second.is_mark()
            && one_target
            && (self.rules.marks_conflict)(first.kind, second.kind);
        let ports = first.kind == Kind::Port
            && second.kind == Kind::Port
            && one_target
            && (self.rules.ports_conflict)(a.instance == b.instance);
        let mark_and_port = match (first.is_mark(), second.is_mark()) {
            (true, false) => mark_and_port(below.map(|levels| -levels), Conflict::MarkThenPort),
            (false, true) => mark_and_port(below, Conflict::PortThenMark),
            _ => None,
        };
        let owner = if is_owner(a, b) {
            Some(Conflict::OwnerFirst)
        } else {
            is_owner(b, a).then_some(Conflict::OwnerLast)
        };
        let marks = marks.then_some(match below {
            None | Some(0) => Conflict::MarksOfOneInstance,
            Some(levels) if levels > 0 => Conflict::MarksUpperFirst,
            Some(_) => Conflict::MarksLowerFirst,
        });
        let ports = ports.then(|| match (first.byte(Way), second.byte(Way)) {
            (0, 1) => Conflict::PortsByNameFirst,
            (1, 0) => Conflict::PortsByPortFirst,
            _ => Conflict::PortsOneWay,
        });
        [marks, owner, ports, mark_and_port]
    }

    /// How far an instance lies below another, or above it if negative; 0 if it is the other.
    fn levels_below(&self, instance: usize, other: usize) -> Option<isize> {
        let up = |from: usize, to: usize| {
            let above = |&at: &usize| self.instances[at].above.map(|(above, _)| above);
            let mut way = successors(Some(from), above);
            way.position(|at| at == to).map(|levels| levels as isize)
        };
        up(instance, other).or_else(|| up(other, instance).map(|levels| -levels))
    }

    /// A wrong reading: the conflicts of records of one unused definition.
    fn unused_conflicts(&self) -> Vec<(usize, usize, Conflict)> {
        let mut conflicts = Vec::new();
        for (i, first) in self.records.iter().enumerate() {
            for (j, second) in self.records.iter().enumerate().skip(i + 1) {
                let is_unused = first.model == second.model && !self.is_used(first.model);
                if is_unused && self.paths[i].is_some() && self.paths[i] == self.paths[j] {
                    conflicts.push((first.place, second.place, Conflict::MarksOfOneInstance));
                }
            }
        }
        conflicts
    }

    // 10.

    fn differs(&self, i: usize) -> bool {
        let record = &self.records[i];
        let is_judged = record.is_mark()
            && (self.rules.judged_by_10)(record.kind)
            && (self.rules.unused_for_10 || self.is_used(record.model));
        let target = || self.paths[i].as_ref().map(|&(_, element)| element);
        let class = |element: usize| self.class(element);
        is_judged && self.named(i, Owner).map(class) != target().map(class)
    }

    // Gone, and the chain.

    /// The mark that makes an element go by itself.
    fn gone_by(&self, spot: Spot) -> Option<&Pointer> {
        let bent = self.rules.replaced_by;
        self.pointers
            .iter()
            .find(|p| match self.records[p.record].kind {
                Kind::Deletion | Kind::Replacement => p.target == spot,
                Kind::ReplacedBy if bent == ReplacedBy::OwnerGoes => p.owner == Some(spot),
                Kind::ReplacedBy if bent == ReplacedBy::TargetGoes => p.target == spot,
                _ => false,
            })
    }

    fn is_gone(&self, spot: Spot) -> bool {
        let takes = |mark: &Pointer| (self.rules.takes_children)(self.records[mark.record].kind);
        let parent = self.named(spot.1, Parent);
        let parent = parent.and_then(|parent| self.gone_by((spot.0, parent)));
        self.gone_by(spot).is_some() || parent.is_some_and(takes)
    }

    fn chain_end(&self, mut spot: Spot, most_steps: usize) -> Spot {
        // A bent rule may lead a chain round.
        for _ in 0..most_steps.min(self.elements.len()) {
            let next = self.gone_by(spot).and_then(|mark| {
                match (self.records[mark.record].kind, self.rules.replaced_by) {
                    (Kind::ReplacedBy, ReplacedBy::OwnerGoes) => Some(mark.target),
                    _ => mark.owner,
                }
            });
            let Some(next) = next else { break };
            spot = next;
        }
        spot
    }

    // 12.

    fn dangling(&self) -> Vec<usize> {
        let is_at_fault = |&&spot: &&Spot| {
            let is_judged = !self.gone.contains(&spot) || self.rules.gone_for_12;
            is_judged && self.reference(spot).is_none()
        };
        let place = |element: usize| self.records[element].place;
        let in_tree = self.elements.iter().filter(is_at_fault);
        let mut places: Vec<usize> = in_tree.map(|&(_, element)| place(element)).collect();
        if self.rules.unused_for_12 {
            let all = 0..self.records.len();
            let is_unused = |&i: &usize| {
                let record = &self.records[i];
                record.kind == Kind::Element && !self.is_used(record.model) && !self.refers(i)
            };
            places.extend(all.filter(is_unused).map(place));
        }
        places
    }

    /// A wrong reading of 12 for an unused definition, where nothing is gone.
    fn refers(&self, element: usize) -> bool {
        let record = &self.records[element];
        let Some(row) = self.row(element) else {
            return false;
        };
        match self.named(element, Reference) {
            None => row.reference.blank && record.name(Reference).is_empty(),
            Some(end) => row.reference.classes.contains(&self.class(end)),
        }
    }

    /// The end of the chain from an element's reference, `Some(None)` for a blank, or `None` if 12
    /// applies.
    fn reference(&self, spot: Spot) -> Option<Option<Spot>> {
        let record = &self.records[spot.1];
        let row = self.row(spot.1)?;
        if record.name(Reference).is_empty() {
            return row.reference.blank.then_some(None);
        }
        let named = self.named(spot.1, Reference)?;
        let end = self.chain_end((spot.0, named), self.rules.chain_steps);
        let ends_well = (!self.gone.contains(&end) || self.rules.gone_ends)
            && row.reference.classes.contains(&self.class(end.1));
        ends_well.then_some(Some(end))
    }

    // Flat names, 13 and the table.

    /// The instances below main down to this one, each with its submodel in the one above.
    fn way(&self, instance: usize) -> Vec<Step> {
        let step = |at: usize| Some((at, self.instances[at].above?));
        let up = successors(step(instance), |&(_, (above, _))| step(above));
        let mut way: Vec<Step> = up.collect();
        way.reverse();
        way
    }

    fn flat_name(&self, spot: Spot, prefixes: &[Vec<u8>]) -> Vec<u8> {
        let way = self.way(spot.0);
        let is_written = |&number: &usize| {
            let (_, (above, submodel)) = way[number];
            let mut submodels = self.submodels(self.instances[above].model);
            let position = submodels.position(|s| s == submodel).unwrap_or(0);
            (self.rules.prefixed)(number, way.len(), position)
        };
        let numbers = (0..way.len()).filter(is_written);
        let mut name: Vec<u8> = numbers.flat_map(|i| prefixes[way[i].0].clone()).collect();
        name.extend(self.records[spot.1].first);
        name
    }

    fn element(&self, spot: Spot, prefixes: &[Vec<u8>]) -> Element {
        let way = self.way(spot.0).into_iter();
        let submodels: Vec<usize> = way.map(|(_, (_, submodel))| submodel).collect();
        let name = |&i: &usize| String::from_utf8_lossy(self.records[i].first).into_owned();
        let place = |i: usize| self.records[i].place;
        Element {
            parts: submodels.iter().chain([&spot.1]).map(name).collect(),
            flat_name: self.flat_name(spot, prefixes),
            is_gone: self.gone.contains(&spot),
            route: Route {
                submodels: submodels.into_iter().map(place).collect(),
                element: place(spot.1),
            },
        }
    }

    fn survivors(&self) -> Vec<Spot> {
        let elements = self.elements.iter();
        elements
            .filter(|spot| !self.gone.contains(spot))
            .copied()
            .collect()
    }

    fn check_room(&self, table: &[u8]) -> Result<(), Refusal> {
        if table.len() < RECORD * self.survivors().len() + self.rules.spare_room {
            return Err(Refusal {
                number: 13,
                place: 0,
            });
        }
        Ok(())
    }

    /// The number of records comes back.
    fn write(&self, table: &mut [u8]) -> usize {
        let survivors = self.survivors();
        let prefixes = self.prefixes();
        let written = match self.rules.nothing_is_written {
            true => &[],
            false => &survivors[..],
        };
        for (record, &spot) in table.chunks_exact_mut(RECORD).zip(written) {
            record.fill(0);
            record[0] = self.class(spot.1);
            let parent = self.named(spot.1, Parent).map(|parent| (spot.0, parent));
            let named = [Some(spot), parent, self.reference(spot).flatten()];
            for (field, named) in record[1..].chunks_exact_mut(FIELD).zip(named) {
                let name = named.map_or(Vec::new(), |spot| self.flat_name(spot, &prefixes));
                field[..name.len()].copy_from_slice(&name);
            }
        }
        if self.rules.rest_is_zeroed {
            table[RECORD * survivors.len()..].fill(0);
        }
        match self.rules.gone_counted {
            true => self.elements.len(),
            false => survivors.len(),
        }
    }
}
