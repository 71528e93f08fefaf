//! Recipes that follow from a seed: valid ones, nearly valid ones, and bytes that are none.
//! `case` is the mix of them that the programs are compared on; `deep` has the longest names, and ways to walk back.

use super::aimed;
use super::damage::{
    damage, damaged_bytes, greatest, mark_on_two_levels, port_both_ways, replaced_by_gone, Fault,
    ANY, OF_MARKS,
};
use super::draft::{skeleton, Draft};
use super::factors::{OF_19, OF_20};
use crate::random::Random;

/// The seeds that ports and marks grow on, more often the more there is to get wrong.
const SEEDS: &[aimed::Seed] = &[
    skeleton,
    skeleton,
    skeleton,
    skeleton,
    aimed::line,
    aimed::line,
    aimed::twins,
    aimed::twins,
    aimed::ported,
    aimed::reactions,
    aimed::reactions,
    aimed::long_chain,
    aimed::prefixes,
    aimed::rates,
];

/// The recipe of one case.
pub fn case(random: &Random) -> Vec<u8> {
    match random.below(120) {
        0..=5 => with_factors(aimed::limits(random), random).encode(),
        6..=9 => with_factors(aimed::cyclic(random), random).encode(),
        10..=11 => with_factors(aimed::doubling(random), random).encode(),
        12..=15 => greatest(grown(random).encode(), random),
        16..=20 => damaged_bytes(grown(random).encode(), random),
        21..=24 => grown(random).encode(),
        25..=26 => deep(random),
        27..=31 => grown_from(aimed::prefixes, random).encode(),
        32..=34 => {
            let faults: &[Fault] = &[mark_on_two_levels, mark_on_two_levels, port_both_ways];
            faulty(with_factors(aimed::line(random), random), 1, faults, random)
        }
        35..=44 => unchecked(random).encode(),
        45..=64 => faulty(grown(random), 1, ANY, random),
        65..=69 => faulty(grown(random), 2 + random.below(3), ANY, random),
        70..=93 => faulty(grown(random), 1, OF_MARKS, random),
        94..=99 => {
            let draft = with_factors(aimed::reactions(random), random);
            faulty(draft, 1, &[replaced_by_gone], random)
        }
        100..=102 => faulty(grown(random), 1, OF_19, random),
        103..=111 => {
            // With definitions that have several instances, and deep ones.
            let seeds: &[aimed::Seed] = &[grown, aimed::twins, aimed::rates, aimed::long_chain];
            let draft = random.pick(seeds)(random);
            faulty(draft, 1 + random.below(2), OF_20, random)
        }
        _ => {
            let mut draft = aimed::rates(random);
            draft.grow(random.below(4), random);
            draft.encode()
        }
    }
}

/// A recipe with a deep tree, accepted nearly always.
pub fn deep(random: &Random) -> Vec<u8> {
    let mut draft = aimed::deep(random);
    draft.grow(random.below(8), random);
    with_factors(draft, random).encode()
}

/// Accepted, nearly always.
fn grown(random: &Random) -> Draft {
    grown_from(random.pick(SEEDS), random)
}

fn grown_from(seed: aimed::Seed, random: &Random) -> Draft {
    let mut draft = seed(random);
    draft.grow(random.below(16), random);
    if random.below(3) == 0 {
        draft.add_rate(random);
    }
    with_factors(draft, random)
}

/// With factors, in two of three: some recipes have no submodel to give them to.
fn with_factors(mut draft: Draft, random: &Random) -> Draft {
    if random.below(3) > 0 {
        draft.give_factors(random);
    }
    draft
}

/// With ports and marks that lead somewhere, and nothing else asked of them.
fn unchecked(random: &Random) -> Draft {
    let mut draft = random.pick(SEEDS)(random);
    for _ in 0..1 + random.below(6) {
        let definition = random.below(draft.0.len());
        if let Some(record) = draft.pointer(definition, random) {
            draft.insert(definition, record, random);
        }
    }
    with_factors(draft, random)
}

fn faulty(mut draft: Draft, count: usize, faults: &[Fault], random: &Random) -> Vec<u8> {
    for _ in 0..count {
        damage(&mut draft, faults, random);
    }
    draft.encode()
}
