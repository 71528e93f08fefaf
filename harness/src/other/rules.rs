//! 01's table check word by word and slowly, with rules that can be bent one at a time.
//! The bent ones, the mutants, are wrong checks that the generated tables must tell from 01.

use super::{Refusal, Verdict, FIELD, RECORD};

/// What the class table wants of a parent or reference.
#[derive(Clone, Copy)]
pub struct Wanted {
    pub blank: bool,
    pub classes: &'static [u8],
}

#[derive(Clone, Copy)]
pub struct Row {
    pub parent: Wanted,
    pub reference: Wanted,
}

const BLANK: Wanted = blank_or(&[]);

const fn blank_or(classes: &'static [u8]) -> Wanted {
    Wanted {
        blank: true,
        classes,
    }
}

const fn filled(classes: &'static [u8]) -> Wanted {
    Wanted {
        blank: false,
        classes,
    }
}

const fn row(parent: Wanted, reference: Wanted) -> Row {
    Row { parent, reference }
}

/// 01's class table, classes 1 to 7.
pub const CLASS_TABLE: [Row; 7] = [
    row(BLANK, BLANK),
    row(BLANK, filled(&[1])),
    row(BLANK, BLANK),
    row(BLANK, blank_or(&[1])),
    row(filled(&[4]), filled(&[2])),
    row(BLANK, filled(&[1, 2, 3])),
    row(filled(&[4]), BLANK),
];

const ALL_CLASSES: &[u8] = &[1, 2, 3, 4, 5, 6, 7];

/// The rules of a table check; the default ones are 01's.
pub struct Rules {
    max_records: usize,
    whole_records: bool,
    class_table: Vec<Row>,
    /// May a name begin with this byte?
    first: fn(u8) -> bool,
    longest: usize,
    padding_is_zero: bool,
    blank_name: bool,
    /// Is a blank that the class table doesn't want 15, rather than 17?
    blank_by_class: bool,
    /// How many bytes of two names are compared.
    compared: usize,
    /// Is the record with this index the one to report for a repeated name?
    repeated: fn(&[&[u8]], usize) -> bool,
    /// May a record's parent or reference be at the second index, when it is at the first?
    parent_at: fn(usize, usize) -> bool,
    reference_at: fn(usize, usize) -> bool,
    own_parent: bool,
    /// In which order the numbers are judged, and whether anew for each record.
    order: [u64; 3],
    record_by_record: bool,
}

impl Default for Rules {
    fn default() -> Self {
        Rules {
            max_records: 1_024,
            whole_records: true,
            class_table: CLASS_TABLE.to_vec(),
            first: |b| b.is_ascii_alphabetic() || b == b'_',
            longest: FIELD,
            padding_is_zero: true,
            blank_name: false,
            blank_by_class: false,
            compared: FIELD,
            repeated: |names, i| names[..i].contains(&names[i]),
            parent_at: |i, j| j < i,
            reference_at: |_, _| true,
            own_parent: false,
            order: [15, 16, 17],
            record_by_record: false,
        }
    }
}

type Bend = fn(&mut Rules);

/// Each mutant's error, and the rule bent to make it.
pub const MUTANTS: &[(&str, Bend)] = &[
    ("any length may be", |r| r.whole_records = false),
    ("1,025 records may be", |r| r.max_records = 1_025),
    ("1,024 records may not be", |r| r.max_records = 1_023),
    ("class 8 may be", |r| r.class_table.push(row(BLANK, BLANK))),
    ("a name may begin with a digit", |r| {
        r.first = |b| b.is_ascii_alphanumeric() || b == b'_'
    }),
    ("a name may not begin with an underscore", |r| {
        r.first = |b| b.is_ascii_alphabetic()
    }),
    ("a name has at most 67 characters", |r| r.longest = 67),
    ("bytes after the padding's first are ignored", |r| {
        r.padding_is_zero = false
    }),
    ("a name may be blank", |r| r.blank_name = true),
    ("a blank against the class table is 15", |r| {
        r.blank_by_class = true
    }),
    ("names are compared in 64 bytes", |r| r.compared = 64),
    ("the earlier record is reported", |r| {
        r.repeated = |names, i| names[i + 1..].contains(&names[i])
    }),
    ("only neighbours are compared", |r| {
        r.repeated = |names, i| i > 0 && names[i - 1] == names[i]
    }),
    ("a parent may be later", |r| r.parent_at = |_, _| true),
    ("a record may be its own parent", |r| r.own_parent = true),
    ("a parent may be of any class", |r| {
        for row in &mut r.class_table {
            if !row.parent.classes.is_empty() {
                row.parent.classes = ALL_CLASSES;
            }
        }
    }),
    ("a local parameter's parent may be blank", |r| {
        r.class_table[6].parent.blank = true
    }),
    ("a parameter's parent may be filled", |r| {
        r.class_table[2].parent = blank_or(ALL_CLASSES)
    }),
    ("a reference may not be later", |r| {
        r.reference_at = |i, j| j < i
    }),
    ("a reference may be of any class", |r| {
        for row in &mut r.class_table {
            if !row.reference.classes.is_empty() {
                row.reference.classes = ALL_CLASSES;
            }
        }
    }),
    ("a species' reference may be blank", |r| {
        r.class_table[1].reference.blank = true
    }),
    ("a reaction's reference may not be blank", |r| {
        r.class_table[3].reference.blank = false
    }),
    ("a reaction's reference may not be filled", |r| {
        r.class_table[3].reference = BLANK
    }),
    ("a rate rule may refer to a reaction", |r| {
        r.class_table[5].reference = filled(&[1, 2, 3, 4])
    }),
    ("a compartment's reference may be filled", |r| {
        r.class_table[0].reference = blank_or(ALL_CLASSES)
    }),
    ("16 is judged before 15", |r| r.order = [16, 15, 17]),
    ("17 is judged before 16", |r| r.order = [15, 17, 16]),
    ("the lowest place goes before the lowest number", |r| {
        r.record_by_record = true
    }),
];

pub fn check(table: &[u8], rules: &Rules) -> Verdict {
    let is_whole = table.len().is_multiple_of(RECORD) || !rules.whole_records;
    if !is_whole || table.len() / RECORD > rules.max_records {
        return Err(Refusal::at_record(14, 0));
    }
    let records: Vec<&[u8]> = table.chunks_exact(RECORD).collect();
    let names: Vec<&[u8]> = records.iter().map(|r| rules.key(field(r, 0))).collect();

    let applies = |number: u64, i: usize| match number {
        15 => !rules.reads(records[i]),
        16 => (rules.repeated)(&names, i),
        _ => !rules.links(&records, &names, i),
    };
    let first = |numbers: &[u64]| {
        (0..records.len()).find_map(|i| {
            let number = numbers.iter().find(|&&number| applies(number, i))?;
            Some(Refusal::at_record(*number, i))
        })
    };
    let refusal = if rules.record_by_record {
        first(&rules.order)
    } else {
        rules.order.iter().find_map(|&number| first(&[number]))
    };
    refusal.map_or(Ok(records.len()), Err)
}

/// A record's name, parent or reference: its field 0, 1 or 2.
fn field(record: &[u8], number: usize) -> &[u8] {
    &record[1 + number * FIELD..][..FIELD]
}

pub fn before_zero(field: &[u8]) -> &[u8] {
    field.split(|&b| b == 0).next().unwrap_or_default()
}

impl Rules {
    pub fn bent(bend: Bend) -> Self {
        let mut rules = Rules::default();
        bend(&mut rules);
        rules
    }

    /// What two names are compared by.
    fn key<'a>(&self, field: &'a [u8]) -> &'a [u8] {
        let name = before_zero(field);
        &name[..name.len().min(self.compared)]
    }

    fn row(&self, record: &[u8]) -> Option<&Row> {
        self.class_table.get(usize::from(record[0]).checked_sub(1)?)
    }

    fn reads(&self, record: &[u8]) -> bool {
        let Some(row) = self.row(record) else {
            return false;
        };
        let allowed = |wanted: &Wanted| wanted.blank || !self.blank_by_class;
        self.reads_field(field(record, 0), self.blank_name)
            && self.reads_field(field(record, 1), allowed(&row.parent))
            && self.reads_field(field(record, 2), allowed(&row.reference))
    }

    fn reads_field(&self, field: &[u8], blank_allowed: bool) -> bool {
        let name = before_zero(field);
        let is_padded = field[name.len()..].iter().all(|&b| b == 0);
        let is_name = match name {
            [] => blank_allowed,
            [first, others @ ..] => {
                (self.first)(*first)
                    && others
                        .iter()
                        .all(|b| matches!(b, b'a'..=b'z' | b'A'..=b'Z' | b'0'..=b'9' | b'_'))
                    && name.len() <= self.longest
            }
        };
        is_name && (is_padded || !self.padding_is_zero)
    }

    /// Do the parent and reference of the record with index `i` follow the class table?
    fn links(&self, records: &[&[u8]], names: &[&[u8]], i: usize) -> bool {
        let Some(row) = self.row(records[i]) else {
            return false;
        };
        let leads = |number: usize, wanted: &Wanted, place: fn(usize, usize) -> bool| {
            let key = self.key(field(records[i], number));
            let fits = |j: usize| {
                names[j] == key && place(i, j) && wanted.classes.contains(&records[j][0])
            };
            match key {
                [] => wanted.blank,
                _ => (0..records.len()).any(fits),
            }
        };
        let is_own_parent = self.key(field(records[i], 1)) == names[i];
        (leads(1, &row.parent, self.parent_at) || self.own_parent && is_own_parent)
            && leads(2, &row.reference, self.reference_at)
    }
}
