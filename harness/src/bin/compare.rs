//! Runs the library's table check beside the other program on random tables and on 01's own.
//! `compare [SEED]`: the second set of tables follows from SEED, or else from the clock.

use harness::bandrolt::{check_table, TableAnswer};
use harness::other::rules::{self, Rules, MUTANTS};
use harness::other::{table, RECORD};
use harness::random::Random;
use harness::report::{are_often, save, seed_from_clock, Tally};
use harness::tables::{case, closed, encode, Links, Names, Record, MAX_RECORDS};
use std::collections::BTreeMap;
use std::process::ExitCode;

const FIXED_SEED: u64 = 1;
const CASES_OF_A_SEED: u64 = 20_000;
/// The numbers that tables are answered with; each must come often enough.
const NUMBERS: [u64; 5] = [0, 14, 15, 16, 17];
const LEAST_OF_A_NUMBER: usize = 500;

/// What the tables of one seed have shown.
struct Outcome {
    agrees: bool,
    /// The first case that tells each mutant from the other program.
    told_by: Vec<Option<u64>>,
}

fn main() -> ExitCode {
    let seed = match std::env::args().nth(1).map(|seed| seed.parse()) {
        None => seed_from_clock(),
        Some(Ok(seed)) => seed,
        Some(Err(_)) => {
            eprintln!("usage: compare [SEED], a whole number");
            return ExitCode::from(2);
        }
    };
    let mut tally = Tally::default();

    let named = named_tables();
    println!("{} named tables", named.len());
    for (what, table, expected) in &named {
        let agrees = check_table(table) == *expected && other_answer(table) == *expected;
        tally.add(what, agrees);
    }
    let example = include_bytes!("../../../examples/sample-r.table");
    let is_sample_r = encode(&sample_r()) == example;
    tally.add("examples/sample-r.table is sample R", is_sample_r);

    let mut numbers = BTreeMap::new();
    let outcomes = [FIXED_SEED, seed].map(|seed| {
        println!("{CASES_OF_A_SEED} random tables of seed {seed}");
        let outcome = run(seed, &mut numbers);
        tally.add("the programs agree", outcome.agrees);
        outcome
    });

    println!("numbers answered, with how often: {numbers:?}");
    let is_mixed = are_often(&numbers, NUMBERS, LEAST_OF_A_NUMBER);
    tally.add("each number is answered often enough", is_mixed);

    println!(
        "{} mutants, told by these cases of the seeds",
        MUTANTS.len()
    );
    for (k, (what, _)) in MUTANTS.iter().enumerate() {
        let told_by: Vec<u64> = outcomes.iter().filter_map(|o| o.told_by[k]).collect();
        println!("  {what}: {told_by:?}");
        tally.add(what, told_by.len() == outcomes.len());
    }

    tally.end()
}

fn other_answer(table: &[u8]) -> TableAnswer {
    table::check(table).into()
}

fn run(seed: u64, numbers: &mut BTreeMap<u64, usize>) -> Outcome {
    let document = Rules::default();
    let mutants: Vec<Rules> = MUTANTS.iter().map(|(_, bend)| Rules::bent(*bend)).collect();
    let mut outcome = Outcome {
        agrees: true,
        told_by: vec![None; mutants.len()],
    };
    for number in 0..CASES_OF_A_SEED {
        // The box has no spare bytes, so valgrind sees a read beyond the table.
        let table = case(&Random::of_case(seed, number)).into_boxed_slice();
        let before = table.clone();
        let ours = check_table(&table);
        let is_unchanged = table == before;
        let other = other_answer(&table);
        let slow = rules::check(&table, &document).into();
        if outcome.agrees && !(ours == other && other == slow && is_unchanged) {
            outcome.agrees = false;
            println!("seed {seed}, case {number}: unchanged {is_unchanged}");
            println!("library {ours:?}\nother {other:?}\nslow {slow:?}");
            save(&before, &format!("difference-{seed}.hex"));
        }
        *numbers.entry(other.number).or_default() += 1;
        for (told_by, mutant) in outcome.told_by.iter_mut().zip(&mutants) {
            // A mutant is run until it is told, since the slow program is slow.
            if told_by.is_none() && TableAnswer::from(rules::check(&table, mutant)) != other {
                *told_by = Some(number);
            }
        }
    }
    outcome
}

/// The flat table of 01's sample R.
fn sample_r() -> [Record; 2] {
    [Record::new(1, "c", "", ""), Record::new(2, "a__s", "", "c")]
}

/// 01's own tables and the edges of its sentences, each with its answer.
fn named_tables() -> Vec<(&'static str, Vec<u8>, TableAnswer)> {
    let accepted = |count| TableAnswer {
        number: 0,
        place: 0,
        count,
    };
    let refused = |number, place| TableAnswer {
        number,
        place,
        count: 0,
    };
    let random = &Random::new(FIXED_SEED);
    let table_of = |rows, names| encode(&closed(rows, names, Links::Anywhere, random));
    let full = |rows| table_of(rows, Names::Full);
    let one_hash = table_of(MAX_RECORDS, Names::OneHash);
    let mut one_hash_repeated = one_hash.clone();
    one_hash_repeated.copy_within(..RECORD, (MAX_RECORDS - 1) * RECORD);
    let (last_a, last_b) = ("n".repeat(67) + "a", "n".repeat(67) + "b");

    let [c, s] = sample_r();
    let reaction = Record::new(4, "r", "", "");
    let local = Record::new(7, "k", "r", "");
    let digit = Record::new(3, "9a", "", "");
    vec![
        ("the empty table", vec![], accepted(0)),
        ("sample R", encode(&[c, s]), accepted(2)),
        (
            "sample R with reference d",
            encode(&[c, Record::new(2, "a__s", "", "d")]),
            refused(17, 205),
        ),
        (
            "a reference to a later record",
            encode(&[s, c]),
            accepted(2),
        ),
        (
            "a species without reference",
            encode(&[Record::new(2, "s", "", "")]),
            refused(17, 0),
        ),
        (
            "reactions with and without reference",
            encode(&[c, reaction, Record::new(4, "q", "", "c")]),
            accepted(3),
        ),
        ("an earlier parent", encode(&[reaction, local]), accepted(2)),
        ("a later parent", encode(&[local, reaction]), refused(17, 0)),
        (
            "a name three times",
            encode(&[s, c, c, c]),
            refused(16, 410),
        ),
        ("a first digit", encode(&[digit]), refused(15, 0)),
        (
            "names that differ in byte 68",
            encode(&[
                Record::new(3, &last_a, "", ""),
                Record::new(3, &last_b, "", ""),
            ]),
            accepted(2),
        ),
        ("16 before 17", encode(&[local, c, c]), refused(16, 410)),
        (
            "15 before 16 and 17",
            encode(&[local, c, c, digit]),
            refused(15, 615),
        ),
        ("one byte less", vec![0; RECORD - 1], refused(14, 0)),
        ("one byte more", vec![0; RECORD + 1], refused(14, 0)),
        (
            "zeros of the greatest length",
            vec![0; 209_920],
            refused(15, 0),
        ),
        ("zeros, one byte longer", vec![0; 209_921], refused(14, 0)),
        ("1,024 records", full(MAX_RECORDS), accepted(1_024)),
        ("1,025 records", full(MAX_RECORDS + 1), refused(14, 0)),
        ("1,024 names of one hash", one_hash, accepted(1_024)),
        (
            "the first of them again at the end",
            one_hash_repeated,
            refused(16, 209_715),
        ),
    ]
}
