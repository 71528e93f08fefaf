//! Times the library's table check beside the other program's, on the same tables in one run.
//! It prints microseconds for one table and judges nothing.

use harness::bandrolt::{check_table, TableAnswer};
use harness::other::table;
use harness::random::Random;
use harness::tables::{closed, encode, Links, Names, MAX_RECORDS};
use harness::timing::{print_head, print_series, Pair};

const ROWS: [usize; 4] = [1, 10, 100, MAX_RECORDS];
const TABLES: u64 = 8;

const PROGRAMS: Pair<fn(&[u8]) -> TableAnswer> = [check_table, |table| table::check(table).into()];

struct Family {
    what: &'static str,
    names: Names,
    links: Links,
    all_equal: bool,
}

const fn family(what: &'static str, names: Names, links: Links) -> Family {
    Family {
        what,
        names,
        links,
        all_equal: false,
    }
}

const FAMILIES: [Family; 7] = [
    family("typical, links near", Names::Typical, Links::Near),
    family("typical, links anywhere", Names::Typical, Links::Anywhere),
    family("60 of 68 bytes in common", Names::Common, Links::Anywhere),
    family("68 bytes, rising", Names::Rising, Links::Anywhere),
    family("68 bytes, falling", Names::Falling, Links::Anywhere),
    family("68 bytes of one hash", Names::OneHash, Links::Anywhere),
    Family {
        all_equal: true,
        ..family("68 bytes, all equal", Names::Full, Links::Anywhere)
    },
];

fn main() {
    print_head("tables, names");
    for family in &FAMILIES {
        let tables = |rows| (0..TABLES).map(|seed| make(family, rows, seed)).collect();
        let series = ROWS.map(|rows| (format!("{rows} rows"), tables(rows)));
        print_series(family.what, &mut PROGRAMS.clone(), series);
    }
}

fn make(family: &Family, rows: usize, seed: u64) -> Vec<u8> {
    let mut records = closed(rows, family.names, family.links, &Random::new(seed));
    let mut number = 0;
    if family.all_equal {
        let name = records[0].name;
        records.iter_mut().for_each(|record| record.name = name);
        number = if rows > 1 { 16 } else { 0 };
    }
    let table = encode(&records);
    let [ours, other] = PROGRAMS.map(|check| check(&table));
    assert_eq!(ours, other, "the programs answer the same");
    assert_eq!(ours.number, number, "the table is what its family says");
    table
}
