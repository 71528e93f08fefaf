//! Recipes as text that people read and write, one record a line; both directions, exact for all bytes.
//! The form is below; what it can't say, such as a class byte 9, is a line of bytes.
//!
//! ```text
//! model top
//!   compartment c
//!   species s -> c                         # refers to c
//!   parameter k
//!   reaction r -> c
//!   species-reference q in r -> s          # has the parent r
//!   rate-rule w -> k
//!   local-parameter l in r
//!   submodel a of cell
//!   port p = .c                            # a port onto an element of the definition
//!   port o = a.v                           # onto v in the submodel a
//!   port n = a:i                           # where the port i of the submodel a leads
//!   delete a.v
//!   replace a:i by c                       # c owns the replacement
//!   c replaced by a.v                      # c owns the replaced-by
//!   factors a time f extent g              # a's time factor is f, and its extent factor g
//!   bytes 63 00 ff                         # these bytes, whatever they are
//! ```
//!
//! A blank name is `-`, or nothing beside the dot or colon of a target; a blank parent, reference or
//! factor is left out. After `#` comes a remark, which printing uses for the record's place. Indentation is free.
//! In an example file a line `gives` follows, and then what 01's printing program prints; then there may be a line
//! `companion`, and the entries of the companion.

use super::{decode, encode, Field, Part, Record, Target, BLANK};
use crate::other::rules::before_zero;
use crate::tables::field;
use Piece::*;

const CLASSES: [&str; 7] = [
    "compartment",
    "species",
    "parameter",
    "reaction",
    "species-reference",
    "rate-rule",
    "local-parameter",
];

const NOTHING: &str = "-";

/// A piece of a kind's line.
enum Piece {
    Word(&'static str),
    /// The part of the body with this number.
    At(usize),
    /// A sign and a part, both left out where that is blank.
    Link(&'static str, usize),
}

/// Each kind's line; no line has two forms.
const FORMS: &[(u8, &[Piece])] = &[
    (1, &[Word("model"), At(0)]),
    (2, &[At(1), At(0), Link("in", 2), Link("->", 3)]),
    (3, &[Word("port"), At(0), Word("="), At(1)]),
    (4, &[Word("submodel"), At(0), Word("of"), At(1)]),
    (5, &[Word("delete"), At(0)]),
    (6, &[Word("replace"), At(1), Word("by"), At(0)]),
    (7, &[At(0), Word("replaced"), Word("by"), At(1)]),
    (
        8,
        &[Word("factors"), At(0), Link("time", 1), Link("extent", 2)],
    ),
];

/// A recipe as text, each record with its place.
pub fn print(recipe: &[u8]) -> String {
    let mut place = 0;
    let mut text = String::new();
    for mut record in decode(recipe) {
        let bytes = record.encode();
        let indent = match record {
            Record::Model { .. } => "",
            _ => "  ",
        };
        let line = line(&mut record).unwrap_or_else(|| {
            let bytes = bytes.iter().map(|b| format!(" {b:02x}"));
            bytes.fold("bytes".into(), |line, byte| line + &byte)
        });
        let line = indent.to_owned() + &line;
        text += &format!("{line:<40} # {place}\n");
        place += bytes.len();
    }
    text
}

/// A record's line, if all its fields are names or blanks and its bytes have a meaning.
fn line(record: &mut Record) -> Option<String> {
    let kind = record.kind();
    let (_, form) = FORMS.iter().find(|(number, _)| Some(*number) == kind)?;
    let parts = record.parts().into_iter().map(print_part);
    let parts: Vec<String> = parts.collect::<Option<_>>()?;
    let mut words: Vec<&str> = Vec::new();
    for piece in *form {
        match *piece {
            Word(word) => words.push(word),
            At(part) => words.push(&parts[part]),
            Link(_, part) if parts[part] == NOTHING => {}
            Link(sign, part) => words.extend([sign, &parts[part]]),
        }
    }
    Some(words.join(" "))
}

fn print_part(part: Part) -> Option<String> {
    match part {
        Part::Name(name) => word(name),
        Part::Class(class) => {
            let class = CLASSES.get(usize::from(*class).checked_sub(1)?)?;
            Some(class.to_string())
        }
        Part::Target(target) => pointed(target),
    }
}

fn word(name: &Field) -> Option<String> {
    let name = unblank(name)?;
    Some(if name.is_empty() {
        NOTHING.into()
    } else {
        name
    })
}

fn pointed(target: &Target) -> Option<String> {
    let sign = [".", ":"].get(usize::from(target.way))?;
    Some(unblank(&target.submodel)? + sign + &unblank(&target.name)?)
}

/// The characters of a name, none for a blank.
fn unblank(field: &Field) -> Option<String> {
    let name = before_zero(field);
    let is_padded = field[name.len()..].iter().all(|&b| b == 0);
    let name = std::str::from_utf8(name).ok()?;
    (is_padded && name.chars().all(is_of_name)).then(|| name.to_owned())
}

fn is_of_name(c: char) -> bool {
    c.is_ascii_alphanumeric() || c == '_'
}

/// An example file: the recipe, and what 01's printing program prints of it and its companion, if the file says it.
pub struct Example {
    pub recipe: Vec<u8>,
    pub gives: Option<String>,
    pub companion: Option<String>,
}

pub fn parse_example(text: &str) -> Result<Example, String> {
    let lines: Vec<&str> = text.lines().map(str::trim).collect();
    let (lines, companion) = parted(&lines, "companion");
    let (recipe, gives) = parted(lines, "gives");
    let said = |lines: &[&str]| {
        let lines = lines.iter().filter(|line| !line.is_empty());
        lines.flat_map(|line| [line, "\n"]).collect()
    };
    Ok(Example {
        recipe: parse(&recipe.join("\n"))?,
        gives: gives.map(said),
        companion: companion.map(said),
    })
}

/// The lines before and behind a line.
fn parted<'a, 'b>(lines: &'a [&'b str], at: &str) -> (&'a [&'b str], Option<&'a [&'b str]>) {
    match lines.iter().position(|&line| line == at) {
        Some(i) => (&lines[..i], Some(&lines[i + 1..])),
        None => (lines, None),
    }
}

/// The bytes of a recipe that is given as text.
pub fn parse(text: &str) -> Result<Vec<u8>, String> {
    let mut records = Vec::new();
    for (i, line) in text.lines().enumerate() {
        let line = line.split('#').next().unwrap_or_default();
        let words: Vec<&str> = line.split_whitespace().collect();
        if !words.is_empty() {
            let record = record(&words);
            records.push(record.ok_or_else(|| format!("line {}: {}", i + 1, line.trim()))?);
        }
    }
    Ok(encode(&records))
}

fn record(words: &[&str]) -> Option<Record> {
    let mut forms = FORMS.iter();
    let formed = forms.find_map(|(kind, form)| of_form(*kind, form, words));
    formed.or_else(|| {
        let (_, bytes) = words.split_first().filter(|(&first, _)| first == "bytes")?;
        let bytes = bytes.iter().map(|byte| u8::from_str_radix(byte, 16));
        Some(Record::Bytes(bytes.collect::<Result<_, _>>().ok()?))
    })
}

/// The record of a line that has this form.
fn of_form(kind: u8, form: &[Piece], words: &[&str]) -> Option<Record> {
    let mut record = Record::zeros(kind)?;
    let mut parts = record.parts();
    let mut words = words.iter().copied().peekable();
    for piece in form {
        match *piece {
            Word(word) => {
                words.next_if_eq(&word)?;
            }
            At(part) => parse_part(words.next()?, &mut parts[part])?,
            Link(sign, part) => {
                if words.next_if_eq(&sign).is_some() {
                    parse_part(words.next()?, &mut parts[part])?;
                }
            }
        }
    }
    words.next().is_none().then_some(record)
}

fn parse_part(word: &str, part: &mut Part) -> Option<()> {
    match part {
        Part::Name(name) => **name = parse_name(word)?,
        Part::Class(class) => **class = CLASSES.iter().position(|&class| class == word)? as u8 + 1,
        Part::Target(target) => **target = parse_target(word)?,
    }
    Some(())
}

fn parse_name(word: &str) -> Option<Field> {
    match word {
        NOTHING => Some(BLANK),
        _ => name_or_nothing(word).filter(|field| *field != BLANK),
    }
}

fn name_or_nothing(word: &str) -> Option<Field> {
    let is_name = word.len() <= BLANK.len() && word.chars().all(is_of_name);
    is_name.then(|| field(word))
}

fn parse_target(word: &str) -> Option<Target> {
    let sign = word.find(['.', ':'])?;
    Some(Target {
        submodel: name_or_nothing(&word[..sign])?,
        way: u8::from(word[sign..].starts_with(':')),
        name: name_or_nothing(&word[sign + 1..])?,
    })
}
