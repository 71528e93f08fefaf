//! The other program: the table check, flattening, its size and the walk back once more, written from documents 01 and 02 alone.
//! `table` and `recipe` are the program; `rules` and `recipe::rules` are slow ones that can be bent.

mod classes;
pub mod recipe;
pub mod rules;
pub mod table;

use crate::bandrolt::{Answer, FactorsAnswer, Origin, Size, TableAnswer};
use std::array::from_fn;

/// The length of a recipe's name field.
pub const NAME: usize = 12;

/// The length of a flat record's name, parent or reference field.
pub const FIELD: usize = 68;

/// The length of a flat record: its class and three fields.
pub const RECORD: usize = 1 + 3 * FIELD;

/// The length of a companion entry: its kind, a name, four time fields and four extent fields.
pub const ENTRY: usize = 1 + 9 * FIELD;

/// The longest recipe.
pub const MAX_RECIPE: usize = 16_384;

/// A refusal's number, and the offset of the record it is about.
#[derive(Clone, Copy, Debug, PartialEq, Eq)]
pub struct Refusal {
    pub number: u64,
    pub place: usize,
}

impl Refusal {
    fn at_record(number: u64, index: usize) -> Self {
        Refusal {
            number,
            place: index * RECORD,
        }
    }
}

/// The number of records, of a closed table or of a flat model.
pub type Verdict = Result<usize, Refusal>;

impl From<Verdict> for Answer {
    /// "Flattening returns number 0, place 0, the record count and the byte count 205 × count",
    /// "otherwise it returns the number below, the place, both counts 0".
    fn from(verdict: Verdict) -> Self {
        let (number, place, count) = match verdict {
            Ok(count) => (0, 0, count),
            Err(refusal) => (refusal.number, refusal.place, 0),
        };
        Answer {
            number,
            place: place as u64,
            count: count as u64,
            bytes: (RECORD * count) as u64,
        }
    }
}

impl From<Verdict> for TableAnswer {
    /// "Acceptance gives number 0, place 0 and the number of records; a refusal has count 0."
    fn from(verdict: Verdict) -> Self {
        let answer = Answer::from(verdict);
        TableAnswer {
            number: answer.number,
            place: answer.place,
            count: answer.count,
        }
    }
}

impl From<Result<(usize, usize), Refusal>> for FactorsAnswer {
    /// It "also returns the entry count, 0 on a refusal".
    fn from(counted: Result<(usize, usize), Refusal>) -> Self {
        let entries = counted.map_or(0, |(_, entries)| entries as u64);
        let flat = Answer::from(counted.map(|(count, _)| count));
        FactorsAnswer { flat, entries }
    }
}

impl From<Result<(usize, usize), Refusal>> for Size {
    /// "Give survivors, bytes and the length of the survivors' longest flat name", with refusals "flattening's, all but
    /// 13, with the same places and all three numbers 0".
    fn from(sized: Result<(usize, usize), Refusal>) -> Self {
        let longest = sized.map_or(0, |(_, longest)| longest as u64);
        let flat = Answer::from(sized.map(|(count, _)| count));
        Size { flat, longest }
    }
}

/// From main to an element of the tree: the places of the submodel records, and of the element record.
#[derive(Clone)]
pub struct Route {
    pub submodels: Vec<usize>,
    pub element: usize,
}

impl From<Result<Route, Refusal>> for Origin {
    /// "Unused offsets are 0; on a refusal depth and all offsets are."
    fn from(walked: Result<Route, Refusal>) -> Self {
        match walked {
            Ok(Route { submodels, element }) => Origin {
                number: 0,
                place: 0,
                depth: submodels.len() as u64,
                submodel: from_fn(|i| submodels.get(i).map_or(0, |&place| place as u64)),
                element: element as u64,
            },
            Err(Refusal { number, place }) => Origin {
                number,
                place: place as u64,
                ..Origin::default()
            },
        }
    }
}

/// "The first character is a letter or underscore, the others letters, digits or underscores
/// (ASCII)", then zero bytes. A blank field reads as the empty name.
fn read_field<const WIDTH: usize>(field: &[u8]) -> Option<&[u8]> {
    let length = field.iter().position(|&b| b == 0).unwrap_or(WIDTH);
    let (name, padding) = field.split_at(length);
    let starts_well = !name.first().is_some_and(u8::is_ascii_digit);
    let goes_on_well = name.iter().all(|b| b.is_ascii_alphanumeric() || *b == b'_');
    let is_padded = *padding == [0; WIDTH][length..];
    (starts_well && goes_on_well && is_padded).then_some(name)
}
