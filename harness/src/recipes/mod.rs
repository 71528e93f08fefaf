//! Recipes as records and as bytes.
//! `text` writes them for people; the other files make them, one by one or from a seed, and names to walk back in them.

pub mod aimed;
pub mod damage;
pub mod draft;
pub mod enumerate;
pub mod factors;
pub mod flat_names;
pub mod generate;
pub mod named;
pub mod proved;
pub mod sized;
pub mod text;

use crate::bandrolt::{Answer, FactorsAnswer};
use crate::other::recipe::flatten;
use crate::other::rules::before_zero;
use crate::other::{ENTRY, FIELD, NAME, RECORD};
use crate::tables::field;
use std::slice::from_mut;

pub type Field = [u8; NAME];

pub const BLANK: Field = [0; NAME];

// What the table of kinds calls its parts.
type Name = Field;
type Class = u8;

#[derive(Clone, Copy, Debug, Default, PartialEq)]
pub struct Target {
    pub submodel: Field,
    pub way: u8,
    pub name: Field,
}

impl Target {
    pub fn element(submodel: Field, name: Field) -> Self {
        Target {
            submodel,
            way: 0,
            name,
        }
    }

    pub fn port(submodel: Field, name: Field) -> Self {
        Target {
            submodel,
            way: 1,
            name,
        }
    }
}

/// A part of a record's body.
pub enum Part<'a> {
    Name(&'a mut Name),
    Class(&'a mut Class),
    Target(&'a mut Target),
}

impl<'a> Part<'a> {
    /// Its bytes, field by field.
    fn bytes(self) -> Vec<&'a mut [u8]> {
        match self {
            Part::Name(name) => vec![name],
            Part::Class(class) => vec![from_mut(class)],
            Part::Target(Target {
                submodel,
                way,
                name,
            }) => vec![submodel, from_mut(way), name],
        }
    }
}

/// Makes the enum of records from a table of kinds; all else goes by `kind` and `parts`.
macro_rules! kinds {
    ($($number:literal $kind:ident { $($part:ident: $type:ident),+ })+) => {
        /// A record of any content, sense or nonsense.
        #[derive(Clone, Debug, PartialEq)]
        pub enum Record {
            $($kind { $($part: $type),+ },)+
            /// Bytes that are no record, such as one that is cut short.
            Bytes(Vec<u8>),
        }

        pub const KINDS: &[u8] = &[$($number),+];

        impl Record {
            /// A record of a kind, with zeros for its body.
            pub fn zeros(kind: u8) -> Option<Self> {
                match kind {
                    $($number => Some(Record::$kind { $($part: Default::default()),+ }),)+
                    _ => None,
                }
            }

            pub fn kind(&self) -> Option<u8> {
                match self {
                    $(Record::$kind { .. } => Some($number),)+
                    Record::Bytes(_) => None,
                }
            }

            /// The parts of the body, in order.
            pub fn parts(&mut self) -> Vec<Part<'_>> {
                match self {
                    $(Record::$kind { $($part),+ } => vec![$(Part::$type($part)),+],)+
                    Record::Bytes(_) => Vec::new(),
                }
            }
        }
    };
}

// 01's table and 02's kind 8: a kind is added here, and a line for it in `text`.
kinds! {
    1 Model { name: Name }
    2 Element { name: Name, class: Class, parent: Name, reference: Name }
    3 Port { name: Name, target: Target }
    4 Submodel { name: Name, model: Name }
    5 Deletion { target: Target }
    6 Replacement { owner: Name, target: Target }
    7 ReplacedBy { owner: Name, target: Target }
    8 Factors { submodel: Name, time: Name, extent: Name }
}

impl Record {
    pub fn parameter(name: &str) -> Self {
        Record::Element {
            name: field(name),
            class: 3,
            parent: BLANK,
            reference: BLANK,
        }
    }

    pub fn encode(&self) -> Vec<u8> {
        if let Record::Bytes(bytes) = self {
            return bytes.clone();
        }
        let mut encoded = Vec::from_iter(self.kind());
        for bytes in self.clone().parts().into_iter().flat_map(Part::bytes) {
            encoded.extend_from_slice(bytes);
        }
        encoded
    }

    /// Decodes one record that is whole; it comes with the bytes after it.
    fn decode(recipe: &[u8]) -> Option<(Record, &[u8])> {
        let (&kind, mut rest) = recipe.split_first()?;
        let mut record = Record::zeros(kind)?;
        for bytes in record.parts().into_iter().flat_map(Part::bytes) {
            let (read, after) = rest.split_at_checked(bytes.len())?;
            bytes.copy_from_slice(read);
            rest = after;
        }
        Some((record, rest))
    }
}

pub fn encode<'a>(records: impl IntoIterator<Item = &'a Record>) -> Vec<u8> {
    records.into_iter().flat_map(Record::encode).collect()
}

/// A recipe's records; what is left after the last whole one comes as bytes.
pub fn decode(recipe: &[u8]) -> Vec<Record> {
    let mut records = Vec::new();
    let mut rest = recipe;
    while let Some((record, after)) = Record::decode(rest) {
        records.push(record);
        rest = after;
    }
    if !rest.is_empty() {
        records.push(Record::Bytes(rest.to_vec()));
    }
    records
}

/// What 01's printing program prints of an answer and the table.
pub fn printed(answer: &Answer, table: &[u8]) -> String {
    if answer.number != 0 {
        return format!("refused {} at {}\n", answer.number, answer.place);
    }
    let line = |record: &[u8]| format!("{} {}\n", record[0], fields(record).join(" "));
    let records = table.chunks_exact(RECORD).take(answer.count as usize);
    format!("flat {}\n", answer.count) + &records.map(line).collect::<String>()
}

/// A companion's entries, each with its time fields and its extent fields, as an example file has them.
pub fn shown_entries(answer: &FactorsAnswer, companion: &[u8]) -> String {
    let line = |entry: &[u8]| {
        let fields = fields(entry);
        let [time, extent] = [1..5, 5..9].map(|fields_of| fields[fields_of].join(" "));
        format!("{} time {time} extent {extent}\n", fields[0])
    };
    let entries = companion.chunks_exact(ENTRY).take(answer.entries as usize);
    entries.map(line).collect()
}

/// The names in a record of a table.
fn fields(record: &[u8]) -> Vec<String> {
    let shown = |field: &[u8]| match before_zero(field) {
        [] => "-".into(),
        name => String::from_utf8_lossy(name).into_owned(),
    };
    record[1..].chunks(FIELD).map(shown).collect()
}

/// What 01's printing program prints of a recipe, with the other program's flattening into so many bytes.
pub fn other_prints(recipe: &[u8], room: usize) -> String {
    let mut table = vec![0; room];
    printed(&flatten(recipe, &mut table), &table)
}
