//! The other program: 01's table check as one would write it in Rust, with a hash map for names.
//! It is what the library is compared with, and the benchmark's yardstick.

use super::classes::{Class, Link};
use super::{read_field, Refusal, Verdict, FIELD, RECORD};
use std::collections::HashMap;

const MAX_LENGTH: usize = 209_920;

/// A record's fields without their padding; a blank field is empty.
struct Record<'a> {
    class: Class,
    name: &'a [u8],
    parent: &'a [u8],
    reference: &'a [u8],
}

/// "A table is closed when none of 14 to 17 below applies."
/// "The lowest number that applies is given, then its lowest place."
pub fn check(table: &[u8]) -> Verdict {
    // 14, at 0: "table length not a multiple of 205, or over 209,920".
    if !table.len().is_multiple_of(RECORD) || table.len() > MAX_LENGTH {
        return Err(Refusal::at_record(14, 0));
    }

    // 15, at the record: "kind not 1 to 7; a field is no name of 1 to 68 characters (those of a
    // recipe name), zero padded, nor an allowed blank (parent, reference)".
    let mut records = Vec::with_capacity(table.len() / RECORD);
    for bytes in table.chunks_exact(RECORD) {
        let Some(record) = read_record(bytes) else {
            return Err(Refusal::at_record(15, records.len()));
        };
        records.push(record);
    }

    // 16, at the later record: "flat name twice".
    let mut index_of: HashMap<&[u8], usize> = HashMap::with_capacity(records.len());
    for (i, record) in records.iter().enumerate() {
        if index_of.insert(record.name, i).is_some() {
            return Err(Refusal::at_record(16, i));
        }
    }

    // 17, at the record: "parent against the class table or not an earlier record; reference
    // against the class table or not a record".
    let link = |name: &[u8], end: usize| match index_of.get(name) {
        _ if name.is_empty() => Link::Blank,
        Some(&i) if i < end => Link::To(records[i].class),
        _ => Link::Nowhere,
    };
    for (i, record) in records.iter().enumerate() {
        let parent = link(record.parent, i);
        let reference = link(record.reference, records.len());
        if !(record.class.allows_parent(parent) && record.class.allows_reference(reference)) {
            return Err(Refusal::at_record(17, i));
        }
    }
    Ok(records.len())
}

fn read_record(bytes: &[u8]) -> Option<Record<'_>> {
    let (class, fields) = bytes.split_first()?;
    let mut fields = fields.chunks_exact(FIELD).map(read_field::<FIELD>);
    Some(Record {
        class: Class::read(*class)?,
        name: fields.next()?.filter(|name| !name.is_empty())?,
        parent: fields.next()??,
        reference: fields.next()??,
    })
}
