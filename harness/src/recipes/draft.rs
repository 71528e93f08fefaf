//! A recipe that is being made: skeletons of models, and ports and marks put into them.
//! What is kept while it grows is asked of the other program, so that dense recipes come out valid.

use super::{encode, text, Field, Record, Target, BLANK};
use crate::other::recipe::judge;
use crate::other::rules::{Wanted, CLASS_TABLE};
use crate::random::Random;
use crate::tables::{classes, field};
use std::collections::HashSet;

/// The definitions, main first, each with its kind 1.
#[derive(Clone)]
pub struct Draft(pub Vec<Vec<Record>>);

/// How names are chosen.
#[derive(Clone, Copy)]
pub enum Naming {
    /// One or two letters.
    Short,
    /// Beginnings of each other, with runs of underscores.
    Underscores,
    /// 12 characters, 11 of them in common.
    Long,
}

pub const NAMINGS: [Naming; 3] = [Naming::Short, Naming::Underscores, Naming::Long];

impl Naming {
    fn draw(self, random: &Random) -> String {
        let letter = |letters: &[u8]| char::from(random.pick(letters));
        match self {
            Naming::Short => {
                let tail = random.pick(&["", "", "1", "x"]);
                format!("{}{tail}", letter(b"abcdkmrsvw"))
            }
            Naming::Underscores => {
                let head = random.pick(&["a", "a", "b", "a_b", "_", "ab"]);
                let run = "_".repeat(random.pick(&[0, 0, 1, 2, 2, 3, 4, random.below(8)]));
                format!("{head}{run}{}", random.pick(&["", "", "a", "b", "_x"]))
            }
            Naming::Long => format!("common_stem{}", letter(b"abcdefghijklm0123456789_")),
        }
    }

    /// A name that isn't among those used; it is added to them.
    fn fresh(self, used: &mut HashSet<Field>, is_submodel: bool, random: &Random) -> Field {
        loop {
            let mut name = self.draw(random);
            if used.len() > 8 {
                name = format!("n{}{name}", used.len() + random.below(100));
            }
            name.truncate(BLANK.len());
            let ends_well = !(is_submodel && name.ends_with('_'));
            if ends_well && used.insert(field(&name)) {
                return field(&name);
            }
        }
    }
}

impl Draft {
    /// The recipes written in the harness itself are in order.
    pub fn of_text(recipe: &str) -> Self {
        Draft::of(&super::decode(&text::parse(recipe).expect("a recipe")))
    }

    fn of(records: &[Record]) -> Self {
        let mut definitions: Vec<Vec<Record>> = Vec::new();
        for record in records {
            match (record, definitions.last_mut()) {
                (Record::Model { .. }, _) | (_, None) => definitions.push(vec![record.clone()]),
                (_, Some(definition)) => definition.push(record.clone()),
            }
        }
        Draft(definitions)
    }

    pub fn encode(&self) -> Vec<u8> {
        encode(self.0.iter().flatten())
    }

    pub fn is_accepted(&self) -> bool {
        judge(&self.encode()).is_ok()
    }

    pub fn definition_of(&self, model: Field) -> Option<usize> {
        let is_model =
            |d: &Vec<Record>| matches!(d.first(), Some(Record::Model { name }) if *name == model);
        self.0.iter().position(is_model)
    }

    /// Each element's name and class.
    pub fn elements(&self, definition: usize) -> Vec<(Field, u8)> {
        let element = |record: &Record| match record {
            Record::Element { name, class, .. } => Some((*name, *class)),
            _ => None,
        };
        self.0[definition].iter().filter_map(element).collect()
    }

    /// Each submodel's name and model.
    pub fn submodels(&self, definition: usize) -> Vec<(Field, Field)> {
        let submodel = |record: &Record| match record {
            Record::Submodel { name, model } => Some((*name, *model)),
            _ => None,
        };
        self.0[definition].iter().filter_map(submodel).collect()
    }

    pub fn ports(&self, definition: usize) -> Vec<(Field, Target)> {
        let port = |record: &Record| match record {
            Record::Port { name, target } => Some((*name, *target)),
            _ => None,
        };
        self.0[definition].iter().filter_map(port).collect()
    }

    /// The definition and the name of the element that a target of a definition is.
    pub fn end(&self, definition: usize, target: &Target) -> Option<(usize, Field)> {
        let (mut definition, mut target) = (definition, *target);
        // A damaged recipe may lead it round.
        for _ in 0..self.0.len() {
            if target.submodel != BLANK {
                let submodels = self.submodels(definition);
                let (_, model) = submodels.iter().find(|s| s.0 == target.submodel)?;
                definition = self.definition_of(*model)?;
            }
            if target.way == 0 {
                return Some((definition, target.name));
            }
            let ports = self.ports(definition);
            target = ports.iter().find(|port| port.0 == target.name)?.1;
        }
        None
    }

    pub fn class_of(&self, definition: usize, target: &Target) -> Option<u8> {
        let (definition, name) = self.end(definition, target)?;
        let elements = self.elements(definition);
        let (_, class) = elements.iter().find(|element| element.0 == name)?;
        Some(*class)
    }

    /// Puts a record anywhere in a definition; its index comes back.
    pub fn insert(&mut self, definition: usize, record: Record, random: &Random) -> usize {
        let index = 1 + random.below(self.0[definition].len());
        self.0[definition].insert(index, record);
        index
    }

    /// Puts the definitions after main in any order.
    pub fn shuffle(&mut self, random: &Random) {
        for i in (2..self.0.len()).rev() {
            self.0.swap(i, 1 + random.below(i));
        }
    }

    /// Tries so many ports and marks, and keeps those with which the recipe is still accepted.
    pub fn grow(&mut self, tries: usize, random: &Random) {
        for _ in 0..tries {
            let definition = random.below(self.0.len());
            if let Some(record) = self.pointer(definition, random) {
                let index = self.insert(definition, record, random);
                if !self.is_accepted() {
                    self.0[definition].remove(index);
                }
            }
        }
    }

    /// A port or mark of a definition that leads somewhere, and has an owner of the right class if
    /// there is one.
    pub fn pointer(&self, definition: usize, random: &Random) -> Option<Record> {
        let elements = self.elements(definition);
        // A port may have an element's name.
        let named = pick(&elements, random).filter(|_| random.below(8) == 0);
        let name = named.map_or_else(|| fresh_port(random), |element| element.0);
        let submodels = self.submodels(definition);
        if submodels.is_empty() || random.below(6) == 0 {
            let target = Target::element(BLANK, pick(&elements, random)?.0);
            return Some(Record::Port { name, target });
        }
        let (submodel, model) = random.pick(&submodels);
        let below = self.definition_of(model)?;
        let port = pick(&self.ports(below), random).filter(|_| random.below(3) > 0);
        let target = match port {
            Some((name, _)) => Target::port(submodel, name),
            None => Target::element(submodel, pick(&self.elements(below), random)?.0),
        };
        let class = self.class_of(definition, &target);
        let fitting: Vec<(Field, u8)> = elements
            .iter()
            .copied()
            .filter(|element| Some(element.1) == class)
            .collect();
        let owner = pick(&fitting, random).or_else(|| pick(&elements, random));
        Some(match (random.below(7), owner) {
            (0 | 1, _) => Record::Port { name, target },
            (2 | 3, Some((owner, _))) => Record::Replacement { owner, target },
            (4 | 5, Some((owner, _))) => Record::ReplacedBy { owner, target },
            _ => Record::Deletion { target },
        })
    }
}

pub fn fresh_port(random: &Random) -> Field {
    field(&format!("p{}", random.below(20)))
}

pub fn pick<T: Copy>(items: &[T], random: &Random) -> Option<T> {
    (!items.is_empty()).then(|| random.pick(items))
}

/// A definition's elements of these classes, with parents and references as the class table wants
/// them.
fn elements(
    classes: &[u8],
    naming: Naming,
    used: &mut HashSet<Field>,
    random: &Random,
) -> Vec<Record> {
    let names: Vec<Field> = classes
        .iter()
        .map(|_| naming.fresh(used, false, random))
        .collect();
    let link = |wanted: &Wanted, end: usize| {
        let fits = |&i: &usize| wanted.classes.contains(&classes[i]);
        let found: Vec<usize> = (0..end).filter(fits).collect();
        let is_blank = wanted.blank && random.below(2) == 0;
        pick(&found, random)
            .filter(|_| !is_blank)
            .map_or(BLANK, |i| names[i])
    };
    let element = |(i, &class): (usize, &u8)| {
        let row = &CLASS_TABLE[usize::from(class) - 1];
        Record::Element {
            name: names[i],
            class,
            parent: link(&row.parent, i),
            reference: link(&row.reference, classes.len()),
        }
    };
    classes.iter().enumerate().map(element).collect()
}

/// A definition with these elements, and with submodels of these models among them.
pub fn definition(
    model: &str,
    classes: &[u8],
    submodels: &[String],
    naming: Naming,
    random: &Random,
) -> Vec<Record> {
    let mut used = HashSet::new();
    let mut records = vec![Record::Model { name: field(model) }];
    records.extend(elements(classes, naming, &mut used, random));
    for model in submodels {
        let index = 1 + random.below(records.len());
        let name = naming.fresh(&mut used, true, random);
        let model = field(model);
        records.insert(index, Record::Submodel { name, model });
    }
    records
}

/// Any models without ports and marks; nearly always accepted.
pub fn skeleton(random: &Random) -> Draft {
    let naming = random.pick(&[Naming::Short, Naming::Underscores, random.pick(&NAMINGS)]);
    let mut draft = Draft(Vec::new());
    for _ in 0..8 {
        let count = 1 + random.below(6);
        let tail = random.pick(&["", "", "_"]);
        let model = |d: usize| format!("m{d}{tail}");
        let one = |d: usize| {
            // The next definition is used more often, so that trees become deep.
            let below = |_| model((d + 1 + random.pick(&[0, random.below(6)])).min(count - 1));
            let submodels = random.pick(&[0, 1, 1, 2, 2, 3]);
            let submodels = if d + 1 < count { submodels } else { 0 };
            let submodels: Vec<String> = (0..submodels).map(below).collect();
            let classes = classes(random.below(7), random);
            definition(&model(d), &classes, &submodels, naming, random)
        };
        draft = Draft((0..count).map(one).collect());
        if draft.is_accepted() {
            break;
        }
    }
    draft.shuffle(random);
    draft
}
