//! The comparison of one recipe: a check for each exported call that takes recipes.
//! A call is added by an entry in `CHECKS`; the walk back, which takes names, too, has `walks`.

use crate::bandrolt::{
    check_table, flatten, flatten_with_factors, table_size, Answer, FactorsAnswer, Size,
    TableAnswer,
};
use crate::other::recipe::rules::Rules;
use crate::other::recipe::{self, sizers, slow};
use crate::other::rules::before_zero;
use crate::other::{table, Refusal, ENTRY, FIELD, RECORD};
use crate::random::Random;
use crate::recipes::{decode, encode, Record};
use std::collections::HashSet;
use std::fmt::Debug;

/// What is wrong with the programs' answers to a recipe, with outputs of these lengths. What else a
/// call is given is drawn.
type Check = fn(&[u8], &[usize], &Random) -> Option<String>;

const CHECKS: &[(&str, Check)] = &[
    ("flattening", flattening),
    ("flattening with factors", with_factors),
    ("flattening without kind 8", without_factors),
    ("size", size),
];

type Flatten = fn(&[u8], &mut [u8]) -> Answer;

/// The programs that flatten recipes; all must answer and write what the first does.
pub const FLATTENERS: &[(&str, Flatten)] = &[
    ("other", recipe::flatten),
    ("slow", |recipe, table| {
        slow::flatten(recipe, table, &Rules::default())
    }),
    ("library", flatten),
];

type FlattenWithFactors = fn(&[u8], &mut [u8], &mut [u8]) -> FactorsAnswer;

/// The same for flattening with factors.
pub const WITH_FACTORS: &[(&str, FlattenWithFactors)] = &[
    ("other", recipe::flatten_with_factors),
    ("slow", |recipe, table, companion| {
        slow::flatten_with_factors(recipe, table, companion, &Rules::default())
    }),
    ("library", flatten_with_factors),
];

/// The programs that say how large a table will be; all must answer what the first does.
pub const SIZERS: &[(&str, fn(&[u8]) -> Size)] = &[
    ("other", recipe::table_size),
    ("slow", |recipe| {
        sizers::Rules::default().table_size(&slow::elements(recipe))
    }),
    ("library", table_size),
];

/// The programs that check tables; all must find closed what flattening leaves.
pub const TABLE_CHECKS: &[fn(&[u8]) -> TableAnswer] =
    &[|table| table::check(table).into(), check_table];

/// The first complaint of the checks.
pub fn complaint(recipe: &[u8], rooms: &[usize], random: &Random) -> Option<String> {
    CHECKS.iter().find_map(|(call, check)| {
        // Each draws from a copy, so that one more check changes neither the others nor what follows.
        let complaint = check(recipe, rooms, &random.clone())?;
        Some(format!("{call}: {complaint}"))
    })
}

/// Bytes that no flat table has at these places.
pub fn pattern(length: usize) -> Vec<u8> {
    (0..length).map(|i| 0x80 | i as u8).collect()
}

/// What is at fault in what the first program answers and writes into outputs of these lengths, or how another differs
/// from it.
fn disagreement<P, A: PartialEq + Debug, const N: usize>(
    recipe: &[u8],
    rooms: [usize; N],
    programs: &[(&'static str, P)],
    call: impl Fn(&P, &[u8], &mut [Box<[u8]>; N]) -> A,
    fault: impl Fn(&A, &[Box<[u8]>; N]) -> Option<&'static str>,
) -> Option<String> {
    let run = |(name, program): &(&'static str, P)| {
        // Boxes have no spare bytes, so valgrind sees what is read or written beyond them.
        let lent: Box<[u8]> = recipe.into();
        let mut outputs = rooms.map(|room| pattern(room).into_boxed_slice());
        let answer = call(program, &lent, &mut outputs);
        (*name, answer, outputs, lent)
    };
    let mut runs = programs.iter().map(run);
    let (_, answer, outputs, _) = runs.next()?;
    if let Some(fault) = fault(&answer, &outputs) {
        return Some(format!("{answer:?} with {rooms:?} bytes: {fault}"));
    }
    runs.find_map(|(program, their_answer, theirs, lent)| {
        if their_answer != answer {
            Some(format!(
                "{program} answers {their_answer:?} with {rooms:?} bytes, not {answer:?}"
            ))
        } else if theirs != outputs {
            Some(format!("{program} writes other outputs of {rooms:?} bytes"))
        } else {
            (*lent != *recipe).then(|| format!("{program} changes the recipe"))
        }
    })
}

/// The programs answer and write the same, and what they write is closed.
fn flattening(recipe: &[u8], rooms: &[usize], _: &Random) -> Option<String> {
    rooms.iter().find_map(|&room| {
        disagreement(
            recipe,
            [room],
            FLATTENERS,
            |flatten, recipe, [table]| flatten(recipe, table),
            |answer, [table]| fault(answer, table),
        )
    })
}

/// What an answer and its output have to be, whatever the recipe.
fn fault(answer: &Answer, output: &[u8]) -> Option<&'static str> {
    let bytes = answer.bytes as usize;
    let Some((written, rest)) = output.split_at_checked(bytes) else {
        return Some("it has more bytes than the output");
    };
    if bytes != answer.count as usize * RECORD || answer.number != 0 && bytes != 0 {
        return Some("its counts are wrong");
    }
    if *rest != pattern(output.len())[bytes..] {
        return Some("the rest of the output is changed");
    }
    // Demand 3: what flattening leaves is closed.
    let closed = TableAnswer {
        number: 0,
        place: 0,
        count: answer.count,
    };
    let is_closed = TABLE_CHECKS.iter().all(|check| check(written) == closed);
    (!is_closed).then_some("the table is not closed")
}

/// Lengths of a companion: exact, one short, none, and long.
pub fn companion_rooms(recipe: &[u8], random: &Random) -> Vec<usize> {
    let exact = match recipe::judge(recipe) {
        Ok(flat) => ENTRY * flat.entries(),
        Err(_) => return vec![random.pick(&[0, ENTRY - 1, 5 * ENTRY])],
    };
    let long = exact + 1 + random.below(700);
    vec![exact, exact.saturating_sub(1), 0, long]
}

/// The programs answer and write the same with a companion, for each length of the one output with the other exact.
fn with_factors(recipe: &[u8], rooms: &[usize], random: &Random) -> Option<String> {
    let companions = companion_rooms(recipe, random);
    let by_companion = companions.iter().map(|&companion| [rooms[0], companion]);
    let by_table = rooms[1..].iter().map(|&room| [room, companions[0]]);
    by_companion.chain(by_table).find_map(|rooms| {
        disagreement(
            recipe,
            rooms,
            WITH_FACTORS,
            |flatten, recipe, [table, companion]| flatten(recipe, table, companion),
            |answer, [table, companion]| {
                let fault = fault(&answer.flat, table);
                fault.or_else(|| companion_fault(answer, table, companion))
            },
        )
    })
}

/// What a companion has to be beside its table, whatever the recipe.
fn companion_fault(answer: &FactorsAnswer, table: &[u8], companion: &[u8]) -> Option<&'static str> {
    let bytes = answer.entries as usize * ENTRY;
    let Some((written, rest)) = companion.split_at_checked(bytes) else {
        return Some("it has more entries than the companion");
    };
    if *rest != pattern(companion.len())[bytes..] {
        return Some("the rest of the companion is changed");
    }
    let records = || table[..answer.flat.bytes as usize].chunks(RECORD);
    let rates = records().filter(|record| matches!(record[0], 4 | 6));
    if !rates.map(name).eq(written.chunks(ENTRY).map(name)) {
        return Some("its entries are not those of the table's reactions and rate rules");
    }
    let parameters = records().filter(|record| record[0] == 3);
    let parameters: HashSet<&[u8]> = parameters.map(name).collect();
    let is_factor = |field: &[u8]| *field == [0; FIELD] || parameters.contains(field);
    let is_entry = |entry: &[u8]| {
        let mut factors = entry[1 + FIELD..].chunks(FIELD);
        entry[0] == 8 && factors.all(is_factor)
    };
    let are_entries = written.chunks(ENTRY).all(is_entry);
    (!are_entries).then_some("an entry's factor is no parameter of the table")
}

/// The name of a flat record or of an entry.
fn name(record: &[u8]) -> &[u8] {
    &record[1..=FIELD]
}

/// "The main table is as before": an accepted recipe without its kind 8 records has the same.
fn without_factors(recipe: &[u8], rooms: &[usize], _: &Random) -> Option<String> {
    let room = rooms[0];
    let mut table = pattern(room);
    let answer = recipe::flatten(recipe, &mut table);
    let mut records = decode(recipe);
    records.retain(|record| !matches!(record, Record::Factors { .. }));
    let stripped = encode(&records);
    if answer.number != 0 || stripped == recipe {
        return None;
    }
    FLATTENERS.iter().find_map(|(program, flatten)| {
        let mut theirs = pattern(room);
        let is_same = flatten(&stripped, &mut theirs) == answer && theirs == table;
        (!is_same).then(|| format!("{program} gives another table"))
    })
}

/// The programs answer the same, and it is the size of the table that flattening writes.
fn size(recipe: &[u8], _: &[usize], _: &Random) -> Option<String> {
    disagreement(
        recipe,
        [],
        SIZERS,
        |size, recipe, []| size(recipe),
        |size, []| size_fault(recipe, size),
    )
}

/// What is at fault in a size, by what the library flattens into exactly so many bytes, and into one byte less.
fn size_fault(recipe: &[u8], size: &Size) -> Option<&'static str> {
    let flattened = |room: usize| {
        let mut table = pattern(room).into_boxed_slice();
        (flatten(recipe, &mut table), table)
    };
    let bytes = size.flat.bytes as usize;
    let (answer, table) = flattened(bytes);
    if answer != size.flat {
        return Some("flattening into so many bytes answers otherwise");
    }
    let too_short = Refusal {
        number: 13,
        place: 0,
    };
    let refused = |room: usize| (Err(too_short).into(), pattern(room).into_boxed_slice());
    if bytes > 0 && flattened(bytes - 1) != refused(bytes - 1) {
        return Some("flattening into one byte less isn't refused with 13, or writes");
    }
    let names = table.chunks(RECORD).map(|record| before_zero(name(record)));
    let longest = names.map(<[u8]>::len).max().unwrap_or(0);
    (longest as u64 != size.longest).then_some("the table's longest name has another length")
}
