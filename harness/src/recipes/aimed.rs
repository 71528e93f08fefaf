//! Recipes that aim at one part of 01 each, where a wrong program would go wrong.
//! They are seeds: `generate` lets ports and marks grow on most of them, and damages some.

use super::draft::{definition, Draft, Naming, NAMINGS};
use super::{Record, Target};
use crate::other::NAME;
use crate::random::Random;
use crate::tables::{classes, field};
use std::collections::HashSet;
use std::fmt::Write;

pub type Seed = fn(&Random) -> Draft;

/// Each definition has a submodel of the next; ports lead down to the last, some levels missing.
pub fn line(random: &Random) -> Draft {
    let depth = random.pick(&[1, 2, 3, 3, 4, 4, 4]);
    let mut recipe = String::new();
    for level in 0..=depth {
        let is_last = level == depth;
        let below = if is_last { ".v" } else { "a:p" };
        let mut records = vec!["compartment v".into(), "species s -> v".into()];
        if !is_last {
            records.push(format!("submodel a of m{}", level + 1));
        }
        if random.below(5) > 0 {
            records.push(format!("port p = {below}"));
        }
        if random.below(4) == 0 {
            records.push("compartment w".into());
        }
        add_definition(&mut recipe, level, records, random);
    }
    shuffled(&recipe, random)
}

/// Several instances of one definition, which has several of another.
pub fn twins(random: &Random) -> Draft {
    let mut recipe = String::new();
    for level in 0..3 {
        let mut records = vec![
            "compartment v".into(),
            "species s -> v".into(),
            "species t -> v".into(),
            "reaction r".into(),
        ];
        if level < 2 {
            for name in ["a", "b", "c", "d"].iter().take(2 + random.below(3)) {
                records.push(format!("submodel {name} of m{}", level + 1));
            }
            if random.below(2) == 0 {
                records.push(format!("port {} = a.v", random.pick(&["p", "q"])));
            }
        } else if random.below(2) == 0 {
            records.push("port p = .v".into());
        }
        add_definition(&mut recipe, level, records, random);
    }
    shuffled(&recipe, random)
}

/// Ports on all elements through two levels, by name or by port.
pub fn ported(random: &Random) -> Draft {
    let (mids, lows) = (1 + random.below(4), 1 + random.below(3));
    let elements = 1 + random.below(5);
    let mut records: [Vec<String>; 3] = Default::default();
    records[0].extend((0..mids).map(|i| format!("submodel a{i} of m1")));
    records[1].extend((0..lows).map(|i| format!("submodel b{i} of m2")));
    for i in 0..elements {
        records[0].push(format!("compartment e{i}"));
        records[2].push(format!("compartment v{i}\nspecies s{i} -> v{i}"));
        records[2].push(format!("port p{i} = .v{i}"));
        for low in 0..lows {
            let target = random.pick(&[":p", ".v"]);
            records[1].push(format!("port p{low}{i} = b{low}{target}{i}"));
        }
        for mid in 0..mids {
            let target = format!("a{mid}:p{}{i}", random.below(lows));
            records[0].push(match random.below(3) {
                0 => format!("port p{mid}{i} = {target}"),
                1 => format!("replace {target} by e{i}"),
                _ => continue,
            });
        }
    }
    let mut recipe = String::new();
    for (level, records) in records.into_iter().enumerate() {
        add_definition(&mut recipe, level, records, random);
    }
    shuffled(&recipe, random)
}

/// Reactions with children, above and below.
pub fn reactions(random: &Random) -> Draft {
    let levels = 2 + random.below(2);
    let mut recipe = String::new();
    for level in 0..levels {
        // A child comes after its reaction, so this stays together.
        let mut records = vec![
            "compartment v".into(),
            "species s -> v".into(),
            "reaction r\nspecies-reference q in r -> s\nlocal-parameter l in r".into(),
        ];
        if random.below(2) == 0 {
            records.push("reaction u -> v\nlocal-parameter k in u".into());
        }
        if level + 1 < levels {
            records.push(format!("submodel a of m{}", level + 1));
            if random.below(3) == 0 {
                records.push(format!("submodel b of m{}", level + 1));
            }
        }
        if random.below(2) == 0 {
            let element = random.pick(&["q", "l", "r"]);
            records.push(format!("port p = .{element}"));
        }
        add_definition(&mut recipe, level, records, random);
    }
    shuffled(&recipe, random)
}

/// A replacement on each level, so that a chain goes from the last definition up to main, and a
/// replaced-by in main that leads it down again.
pub fn long_chain(random: &Random) -> Draft {
    let depth = random.pick(&[2, 3, 4, 4, 4, 4]);
    let by_port = random.below(2) == 0;
    let mut recipe = String::new();
    for level in 0..=depth {
        let mut records = vec!["compartment v".into(), "species s -> v".into()];
        if by_port && level > 0 {
            records.push("port p = .v".into());
        }
        if level < depth {
            records.push(format!("submodel a of m{}", level + 1));
            let target = if by_port { "a:p" } else { "a.v" };
            records.push(format!("replace {target} by v"));
        }
        if level == 0 && random.below(4) > 0 {
            records.push("submodel b of other".into());
            records.push("v replaced by b.w".into());
        }
        add_definition(&mut recipe, level, records, random);
    }
    recipe += "model other\ncompartment w\nspecies s -> w\n";
    shuffled(&recipe, random)
}

/// Reactions and rate rules on each level, and factors, some of them replaced one level up.
pub fn rates(random: &Random) -> Draft {
    let depth = random.pick(&[1, 2, 3, 4, 4, 4]);
    let mut recipe = String::new();
    for level in 0..=depth {
        let mut records = vec!["parameter f".into(), "parameter g".into()];
        let rate = random.pick(&[
            "reaction r",
            "rate-rule w -> g",
            "reaction r\nrate-rule w -> f",
        ]);
        if level == depth || random.below(2) == 0 {
            records.push(rate.into());
        }
        if level < depth {
            let submodels = if random.below(4) == 0 {
                &["a", "b"][..]
            } else {
                &["a"]
            };
            for name in submodels {
                records.push(format!("submodel {name} of m{}", level + 1));
                records.push(match random.below(8) {
                    0 => format!("factors {name}"),
                    1 => format!("factors {name} time f"),
                    2 => format!("factors {name} extent g"),
                    3 => continue,
                    _ => format!("factors {name} time f extent g"),
                });
                for factor in ["f", "g"] {
                    if random.below(3) == 0 {
                        records.push(format!("replace {name}.{factor} by {factor}"));
                    }
                }
            }
        }
        add_definition(&mut recipe, level, records, random);
    }
    shuffled(&recipe, random)
}

/// Submodels with names of all lengths, and around them, below them or both, names that begin with theirs and a run of
/// underscores.
pub fn prefixes(random: &Random) -> Draft {
    let mut levels: [Vec<String>; 3] = Default::default();
    let mut submodels: Vec<String> = Vec::new();
    let mut taken = HashSet::new();
    let mut declare = |level: usize, name: String, is_submodel: bool| {
        let class = random.pick(&["compartment", "parameter", "reaction"]);
        let record = match is_submodel {
            true => format!("submodel {name} of m{}", level + 1),
            false => format!("{class} {name}"),
        };
        if taken.insert((level, name)) {
            levels[level].push(record);
        }
    };
    for level in 0..2 {
        for _ in 0..1 + random.below(3) {
            // The run comes first: of the names, few leave room for a long one.
            let run = random.below(NAME);
            let submodel = word(1 + random.below(NAME - run), random);
            declare(level, submodel.clone(), true);
            let sides = random.pick(&[[level, level + 1], [level + 1, level]]);
            let runs = [run, random.below(run + 1)];
            for (side, run) in sides.into_iter().zip(runs).take(1 + random.below(2)) {
                let name = lengthened(&submodel, run, random);
                let is_submodel = side < 2 && !name.ends_with('_') && random.below(3) == 0;
                declare(side, name, is_submodel);
            }
            submodels.push(submodel);
        }
    }
    let mut recipe = String::new();
    for (level, mut records) in levels.into_iter().enumerate() {
        // So that each prefix is written.
        records.push("compartment e".into());
        if random.below(4) == 0 {
            // Its name doesn't count.
            let submodel = &submodels[random.below(submodels.len())];
            let run = random.below(NAME + 1 - submodel.len());
            records.push(format!("port {} = .e", lengthened(submodel, run, random)));
        }
        add_definition(&mut recipe, level, records, random);
    }
    shuffled(&recipe, random)
}

/// Letters, and underscores among them, but not at the ends; many words begin alike.
fn word(length: usize, random: &Random) -> String {
    let is_end = |i: usize| i == 0 || i + 1 == length;
    let letters = |i: usize| if is_end(i) { b"abcd" } else { b"aab_" };
    let letters = (0..length).map(letters);
    letters.map(|of| char::from(random.pick(of))).collect()
}

/// A name, a run of underscores, and what there is room for or less.
fn lengthened(name: &str, run: usize, random: &Random) -> String {
    let room = NAME - name.len() - run;
    let tail = word(random.below(room + 1), random);
    format!("{name}{}{tail}", "_".repeat(run))
}

/// Three or four levels of submodels, with any names.
pub fn deep(random: &Random) -> Draft {
    let naming = random.pick(&NAMINGS);
    let depth = 3 + random.below(2);
    let one = |level: usize| {
        let submodels = if level < depth {
            1 + random.below(2)
        } else {
            0
        };
        let submodels = vec![format!("m{}", level + 1); submodels];
        let classes = classes(random.below(4), random);
        definition(&format!("m{level}"), &classes, &submodels, naming, random)
    };
    let mut draft = Draft((0..=depth).map(one).collect());
    draft.shuffle(random);
    draft
}

/// Trees that hit a limit or pass it by one.
pub fn limits(random: &Random) -> Draft {
    // The number of submodels on each level; all but the last row make 64 instances.
    const WIDTHS: &[&[usize]] = &[
        &[63],
        &[7, 8],
        &[9, 6],
        &[3, 4, 4],
        &[9, 2, 2],
        &[3, 4, 2, 1],
        &[9, 2, 1, 1],
        &[1, 1, 1, 1],
    ];
    let widths = random.pick(WIDTHS);
    let is_line = widths.iter().all(|&width| width == 1);
    let per_instance = random.pick(&[0, 1, 2, 15, 16]);
    let instances = if is_line { 5 } else { 64 };
    let mut definitions = Vec::new();
    for level in 0..=widths.len() {
        let width = widths.get(level).copied().unwrap_or(0);
        let submodels = vec![format!("m{}", level + 1); width];
        let count = match (level, per_instance) {
            // Main's elements make up the rest.
            (0, 15 | 16) => 1_024 - per_instance * (instances - 1),
            _ => per_instance,
        };
        // Within what a recipe can hold.
        let classes = classes(count.min(250), random);
        definitions.push(definition(
            &format!("m{level}"),
            &classes,
            &submodels,
            Naming::Short,
            random,
        ));
    }
    let mut draft = Draft(definitions);
    if is_line && random.below(2) == 0 {
        let last = draft.0.len() - 1;
        draft
            .0
            .push(definition("m5", &[1], &[], Naming::Short, random));
        let model = field("m5");
        let name = field("deeper");
        draft.insert(last, Record::Submodel { name, model }, random);
    }
    match random.below(5) {
        // One instance more, or one element more or less.
        0 | 4 => {
            let name = field("one_more");
            let model = field(&format!("m{}", widths.len()));
            draft.insert(0, Record::Submodel { name, model }, random);
        }
        1 => {
            draft.insert(0, Record::parameter("one_more"), random);
        }
        2 => {
            draft.0[0].retain(|record| !matches!(record, Record::Element { class: 3, .. }));
        }
        _ => {}
    }
    if random.below(2) == 0 {
        // Gone elements count for 7, too.
        if let Some(&(name, _)) = draft.elements(1).first() {
            let target = Target::element(draft.submodels(0)[0].0, name);
            draft.insert(0, Record::Deletion { target }, random);
        }
    }
    draft.shuffle(random);
    draft
}

/// Definitions that reach themselves, by themselves or round others, used by main or not.
pub fn cyclic(random: &Random) -> Draft {
    let count = 1 + random.below(6);
    let one = |d: usize| {
        let below = |_| format!("m{}", random.below(count));
        let submodels: Vec<String> = (0..random.below(3)).map(below).collect();
        let naming = random.pick(&NAMINGS);
        definition(&format!("m{d}"), &[1, 3], &submodels, naming, random)
    };
    Draft((0..count).map(one).collect())
}

/// A chain of definitions, each with several submodels of the next, and ports down to the last.
/// Where main doesn't use it, it is no matter how much it would unfold to.
pub fn doubling(random: &Random) -> Draft {
    let width = 1 + random.below(3);
    let levels = 2 + random.pick(&[random.below(8), random.below(40)]);
    chain(width, levels, random.below(2) == 0, random)
}

/// Such a chain: each level but the last has so many submodels.
pub fn chain(width: usize, levels: usize, is_used: bool, random: &Random) -> Draft {
    let mut recipe = String::from("model top\n");
    if is_used {
        recipe += "submodel a of m0\n";
    }
    for level in 0..levels {
        let mut records = Vec::new();
        if level + 1 == levels {
            records.push("compartment v".into());
            records.push("port p = .v".into());
        } else {
            for name in ["a", "b", "c"].iter().take(width) {
                records.push(format!("submodel {name} of m{}", level + 1));
            }
            records.push("port p = a:p".into());
        }
        add_definition(&mut recipe, level, records, random);
    }
    shuffled(&recipe, random)
}

/// Adds a definition whose records come in any order.
fn add_definition(recipe: &mut String, level: usize, mut records: Vec<String>, random: &Random) {
    for i in (1..records.len()).rev() {
        records.swap(i, random.below(i + 1));
    }
    let _ = writeln!(recipe, "model m{level}\n{}", records.join("\n"));
}

fn shuffled(recipe: &str, random: &Random) -> Draft {
    let mut draft = Draft::of_text(recipe);
    draft.shuffle(random);
    draft
}
