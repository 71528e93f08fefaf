//! Tables that follow from a seed: closed ones made from scratch,
//! and the same damaged in one or several ways.

use crate::collisions::name_of_hash_0;
use crate::other::rules::{Wanted, CLASS_TABLE};
use crate::other::{FIELD, RECORD};
use crate::random::Random;
use std::collections::HashSet;
use std::iter::{repeat, repeat_n};

pub const MAX_RECORDS: usize = 1_024;

pub type Field = [u8; FIELD];

const BLANK: Field = [0; FIELD];

#[derive(Clone, Copy)]
pub struct Record {
    pub class: u8,
    pub name: Field,
    pub parent: Field,
    pub reference: Field,
}

impl Record {
    pub fn new(class: u8, name: &str, parent: &str, reference: &str) -> Self {
        Record {
            class,
            name: field(name),
            parent: field(parent),
            reference: field(reference),
        }
    }
}

/// A name and its padding.
pub fn field<const WIDTH: usize>(name: &str) -> [u8; WIDTH] {
    let mut field = [0; WIDTH];
    field[..name.len()].copy_from_slice(name.as_bytes());
    field
}

pub fn encode(records: &[Record]) -> Vec<u8> {
    let mut table = Vec::with_capacity(records.len() * RECORD);
    for record in records {
        table.push(record.class);
        for field in [&record.name, &record.parent, &record.reference] {
            table.extend_from_slice(field);
        }
    }
    table
}

#[derive(Clone, Copy)]
pub enum Names {
    /// Short words after up to three prefixes, like `k`, `a__s` and `cell__mid___v`.
    Typical,
    /// One byte, as long as there are any left.
    OneByte,
    /// Each is the beginning of all that are longer.
    Nested,
    /// 68 bytes, 60 of them in common.
    Common,
    /// 68 bytes, each name greater than the one before it.
    Rising,
    /// 68 bytes, each name less than the one before it.
    Falling,
    /// Any characters, 1 to 68 of them.
    Any,
    /// 68 characters.
    Full,
    /// 68 characters, 56 of them in common, and one hash in the library's index.
    OneHash,
    /// Each of another kind.
    Mixed,
}

const ONE_KIND: [Names; 8] = [
    Names::Typical,
    Names::OneByte,
    Names::Nested,
    Names::Common,
    Names::Rising,
    Names::Falling,
    Names::Any,
    Names::Full,
];

/// Where a record's parent and reference are.
#[derive(Clone, Copy)]
pub enum Links {
    Near,
    Anywhere,
}

const FIRST: &[u8] = b"_abcdefghijklmnopqrstuvwxyzABCDEFGHIJKLMNOPQRSTUVWXYZ";
const OTHERS: &[u8] = b"0123456789_abcdefghijklmnopqrstuvwxyzABCDEFGHIJKLMNOPQRSTUVWXYZ";
const PREFIXES: [&str; 5] = ["a__", "b__", "x1__", "cell__", "mid___"];

fn word(length: usize, random: &Random) -> String {
    let byte = |i| random.pick(if i == 0 { FIRST } else { OTHERS });
    (0..length).map(byte).map(char::from).collect()
}

fn name(names: Names, index: usize, random: &Random) -> String {
    match names {
        Names::Typical => {
            let prefixes = (0..random.below(4)).map(|_| random.pick(&PREFIXES));
            prefixes.collect::<String>() + &word(1 + random.below(4), random)
        }
        Names::OneByte => word(1, random),
        Names::Nested => "n".repeat(1 + random.below(FIELD)),
        Names::Common => "c".repeat(60) + &word(8, random),
        Names::Rising => format!("r{index:067}"),
        Names::Falling => format!("f{:067}", usize::MAX - index),
        Names::Any => word(1 + random.below(FIELD), random),
        Names::Full => word(FIELD, random),
        Names::OneHash => name_of_hash_0(random),
        Names::Mixed => name(random.pick(&ONE_KIND), index, random),
    }
}

fn distinct_names(rows: usize, names: Names, random: &Random) -> Vec<Field> {
    let mut seen = HashSet::new();
    let draw = |index| {
        // Some kinds of names are soon used up.
        let kinds = repeat_n(names, 8).chain(repeat(Names::Full));
        let mut drawn = kinds.map(|names| field(&name(names, index, random)));
        drawn.find(|&name| seen.insert(name))
    };
    (0..rows).filter_map(draw).collect()
}

/// Random classes, but none that finds no parent or reference among the others.
pub fn classes(rows: usize, random: &Random) -> Vec<u8> {
    let mut classes = Vec::with_capacity(rows);
    for _ in 0..rows {
        let class = 1 + random.below(7) as u8;
        let is_orphan = matches!(class, 5 | 7) && !classes.contains(&4);
        classes.push(if is_orphan { 4 } else { class });
    }
    let repairs: [(u8, &[u8], u8); 3] = [(2, &[1], 3), (5, &[2], 7), (6, &[1, 2, 3], 4)];
    for (class, wanted, instead) in repairs {
        if !classes.iter().any(|c| wanted.contains(c)) {
            for c in classes.iter_mut().filter(|c| **c == class) {
                *c = instead;
            }
        }
    }
    classes
}

/// A closed table.
pub fn closed(rows: usize, names: Names, links: Links, random: &Random) -> Vec<Record> {
    let names = distinct_names(rows, names, random);
    let classes = classes(rows, random);
    let of_class: Vec<Vec<usize>> = (0..=7)
        .map(|class| (0..rows).filter(|&i| classes[i] == class).collect())
        .collect();

    // One of the wanted records before `end`, or a blank.
    let link = |i: usize, wanted: &Wanted, end: usize| {
        let before = |class: u8| {
            let all = &of_class[usize::from(class)];
            &all[..all.partition_point(|&j| j < end)]
        };
        let found = wanted.classes.iter().map(|&class| before(class));
        let found: Vec<&[usize]> = found.filter(|all| !all.is_empty()).collect();
        if found.is_empty() || wanted.blank && random.below(2) == 0 {
            return BLANK;
        }
        let found = random.pick(&found);
        names[match links {
            Links::Near => found[found.partition_point(|&j| j < i).min(found.len() - 1)],
            Links::Anywhere => random.pick(found),
        }]
    };
    let record = |i: usize| {
        let row = &CLASS_TABLE[usize::from(classes[i]) - 1];
        Record {
            class: classes[i],
            name: names[i],
            parent: link(i, &row.parent, i),
            reference: link(i, &row.reference, rows),
        }
    };
    (0..rows).map(record).collect()
}

/// The table of one case: closed, damaged, or no table at all.
pub fn case(random: &Random) -> Vec<u8> {
    let rows = match random.below(200) {
        0 => MAX_RECORDS,
        1..=3 => random.below(MAX_RECORDS),
        4..=80 => random.below(40),
        _ => 1 + random.below(8),
    };
    match random.below(40) {
        0..=7 => damaged(rows, 0, random),
        8..=24 => damaged(rows, 1, random),
        25..=32 => damaged(rows, 2 + random.below(4), random),
        33 => {
            let mut table = damaged(rows + 1, 0, random);
            let place = random.below(table.len());
            table[place] = random.byte();
            table
        }
        34..=36 => wrong_length(rows + 1, random),
        37 => {
            let rows = MAX_RECORDS + 1 + random.pick(&[0, 0, random.below(40)]);
            damaged(rows, 0, random)
        }
        38 => vec![0; rows * RECORD],
        _ => (0..rows * RECORD).map(|_| random.byte()).collect(),
    }
}

fn wrong_length(rows: usize, random: &Random) -> Vec<u8> {
    let mut table = damaged(rows, 0, random);
    let length = random.pick(&[table.len() - 1, table.len() + 1, random.below(table.len())]);
    table.resize(length, 0);
    table
}

/// A closed table after this many faults, some of which may do no harm.
fn damaged(rows: usize, faults: usize, random: &Random) -> Vec<u8> {
    let names = random.pick(&[Names::Mixed, random.pick(&ONE_KIND)]);
    let mut records = closed(rows, names, Links::Anywhere, random);
    for _ in 0..faults {
        if !records.is_empty() {
            random.pick(FAULTS)(&mut records, random);
        }
    }
    encode(&records)
}

fn any_of<'a>(records: &'a mut [Record], random: &Random) -> &'a mut Record {
    &mut records[random.below(records.len())]
}

fn any_link<'a>(records: &'a mut [Record], random: &Random) -> &'a mut Field {
    let record = any_of(records, random);
    match random.below(2) {
        0 => &mut record.parent,
        _ => &mut record.reference,
    }
}

fn filled_link<'a>(records: &'a mut [Record], random: &Random) -> Option<&'a mut Field> {
    let links = records
        .iter_mut()
        .flat_map(|r| [&mut r.parent, &mut r.reference]);
    let mut filled: Vec<_> = links.filter(|link| **link != BLANK).collect();
    (!filled.is_empty()).then(|| filled.swap_remove(random.below(filled.len())))
}

fn any_field<'a>(records: &'a mut [Record], random: &Random) -> &'a mut Field {
    match random.below(3) {
        0 => &mut any_of(records, random).name,
        _ => any_link(records, random),
    }
}

type Fault = fn(&mut Vec<Record>, &Random);

const FAULTS: &[Fault] = &[
    // A class byte without meaning, and one of another class.
    |records, random| any_of(records, random).class = random.pick(&[0, 8, 255, random.byte()]),
    |records, random| any_of(records, random).class = 1 + random.below(7) as u8,
    // A field that begins with a digit.
    |records, random| any_field(records, random)[0] = b'0' + random.below(10) as u8,
    // A character just outside the allowed ones, or far from them.
    |records, random| {
        let place = random.below(8);
        any_field(records, random)[place] = random.pick(b"/:@[^`{- \x01\x7f\x80\xe9\xff");
    },
    // A letter after the padding has begun.
    |records, random| {
        let zero = random.below(FIELD - 1);
        let letter = zero + 1 + random.below(FIELD - 1 - zero);
        let field = any_field(records, random);
        field[zero] = 0;
        field[letter] = b'a';
    },
    // A blank name.
    |records, random| any_of(records, random).name = BLANK,
    // A name repeated.
    |records, random| any_of(records, random).name = any_of(records, random).name,
    // A parent or reference that was filled, and is blank or any record.
    |records, random| {
        if let Some(link) = filled_link(records, random) {
            *link = BLANK;
        }
    },
    |records, random| {
        let other = any_of(records, random).name;
        if let Some(link) = filled_link(records, random) {
            *link = other;
        }
    },
    // A parent or reference that is any record, the record itself, or no record.
    |records, random| *any_link(records, random) = any_of(records, random).name,
    |records, random| {
        let record = any_of(records, random);
        *any_link(std::slice::from_mut(record), random) = record.name;
    },
    |records, random| *any_link(records, random) = field(&name(Names::Any, 0, random)),
    // A parent that is later, and in order otherwise.
    |records, random| {
        let later = random.below(records.len());
        let child = (0..later).find(|&i| matches!(records[i].class, 5 | 7));
        if let (Some(child), 4) = (child, records[later].class) {
            records[child].parent = records[later].name;
        }
    },
    // A field that differs from a name in its last character.
    |records, random| {
        let last = |field: &Field| field.iter().rposition(|&b| b != 0);
        let field = any_field(records, random);
        if let Some(last) = last(field) {
            field[last] = random.pick(&[0, b'x', b'_']);
        }
    },
    // A record written twice, one taken out, two swapped.
    |records, random| {
        let copy = *any_of(records, random);
        records.insert(random.below(records.len() + 1), copy);
    },
    |records, random| {
        records.remove(random.below(records.len()));
    },
    |records, random| {
        let (i, j) = (random.below(records.len()), random.below(records.len()));
        records.swap(i, j);
    },
];
