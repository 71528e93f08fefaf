//! The comparison of walks back in one recipe: the programs answer the same, and from what the library answers
//! one comes to the name again. And a walk in words, for people.

use crate::bandrolt::{walk_back, Origin};
use crate::other::recipe::slow::{self, Element};
use crate::other::recipe::walkers::Rules;
use crate::other::recipe::{judge, Flat};
use crate::other::rules::before_zero;
use crate::other::{Refusal, FIELD};
use crate::recipes::{decode, text, Field, Record, BLANK};
use std::collections::HashMap;

/// A recipe that is read once, for any number of walks.
pub struct Walks<'a> {
    pub recipe: &'a [u8],
    /// A box has no spare bytes, so valgrind sees what is read beyond it.
    lent: Box<[u8]>,
    other: Result<Flat, Refusal>,
    /// The slow program's elements of the tree.
    pub tree: Result<Vec<Element>, Refusal>,
    /// Each record by its place, with the name of its definition's model.
    records: HashMap<u64, (Field, Record)>,
}

impl<'a> Walks<'a> {
    pub fn of(recipe: &'a [u8]) -> Self {
        Walks {
            recipe,
            lent: recipe.into(),
            other: judge(recipe),
            tree: slow::elements(recipe),
            records: records(recipe),
        }
    }

    /// What the other program answers, and a complaint about the others.
    pub fn walk(&self, name: &[u8]) -> (Origin, Option<String>) {
        let other = match &self.other {
            Ok(flat) => flat.walk_back(name).into(),
            Err(refusal) => Err(*refusal).into(),
        };
        let slow = Rules::default().walk_back(&self.tree, name);
        let lent_name: Box<[u8]> = name.into();
        let library = walk_back(&self.lent, &lent_name);
        let complaint = if slow != other || library != other {
            Some(format!(
                "other {other:?}\nslow {slow:?}\nlibrary {library:?}"
            ))
        } else if *self.lent != *self.recipe || *lent_name != *name {
            Some("the library changes the recipe or the name".into())
        } else if library.number == 0 && !self.leads_to(&library, name) {
            Some(format!("{library:?} doesn't lead to the name"))
        } else {
            None
        };
        (other, complaint)
    }

    /// Do the records at the offsets lead from main down to an element, and do their names spell this one? Nothing is
    /// asked for it but the recipe.
    fn leads_to(&self, origin: &Origin, name: &[u8]) -> bool {
        let (used, unused) = origin.submodel.split_at(origin.depth as usize);
        let mut model = self.records.get(&0).map_or(BLANK, |(main, _)| *main);
        let mut parts = Vec::new();
        for place in used {
            match self.records.get(place) {
                Some((holder, Record::Submodel { name, model: below })) if *holder == model => {
                    parts.push(before_zero(name));
                    model = *below;
                }
                _ => return false,
            }
        }
        match self.records.get(&origin.element) {
            Some((holder, Record::Element { name, .. })) if *holder == model => {
                parts.push(before_zero(name))
            }
            _ => return false,
        }
        let (name, padding) = name.split_at(before_zero(name).len());
        let is_field = name.len() + padding.len() == FIELD && padding.iter().all(|&b| b == 0);
        is_field && unused.iter().all(|&place| place == 0) && spells(&parts, name)
    }
}

fn records(recipe: &[u8]) -> HashMap<u64, (Field, Record)> {
    let mut records = HashMap::new();
    let mut place = 0;
    let mut holder = BLANK;
    for record in decode(recipe) {
        if let Record::Model { name } = record {
            holder = name;
        }
        let length = record.encode().len() as u64;
        records.insert(place, (holder, record));
        place += length;
    }
    records
}

/// Are these the parts of a name, with two or more underscores between them?
fn spells(parts: &[&[u8]], name: &[u8]) -> bool {
    match parts {
        [] => false,
        [last] => name == *last,
        [first, others @ ..] => name.strip_prefix(*first).is_some_and(|rest| {
            // The next part may begin with underscores, too.
            let run = rest.iter().take_while(|&&b| b == b'_').count();
            (2..=run).any(|between| spells(others, &rest[between..]))
        }),
    }
}

/// The library's walk back from a name, in words: `submodel a at 51, species s at 165`, or `refused 18 at 0`.
pub fn in_words(recipe: &[u8], name: &str) -> String {
    // A name that is too long stays as it is.
    let mut field = name.as_bytes().to_vec();
    field.resize(field.len().max(FIELD), 0);
    let origin = walk_back(recipe, &field);
    if origin.number != 0 {
        return format!("refused {} at {}", origin.number, origin.place);
    }
    let submodels = &origin.submodel[..origin.depth as usize];
    let places = submodels.iter().chain([&origin.element]);
    let way: Vec<String> = places.map(|&place| called(recipe, place)).collect();
    way.join(", ")
}

/// What a recipe's text calls a record, and its place: the first two words of the line are its kind and its name.
fn called(recipe: &[u8], place: u64) -> String {
    let text = text::print(&recipe[place as usize..]);
    let words: Vec<&str> = text.split_whitespace().take(2).collect();
    format!("{} at {place}", words.join(" "))
}
