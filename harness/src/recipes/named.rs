//! 01's "Recipes to try", the edges of its sentences, and the example files,
//! each with what 01's printing program prints of it, and some with the entries of their companion.

use super::aimed::chain;
use super::damage::padded;
use super::sized::{four_levels, given_factors, reactions_alone};
use super::text::{parse, parse_example, Example};
use crate::other::{MAX_RECIPE, RECORD};
use crate::random::Random;
use crate::tables::MAX_RECORDS;

/// The output that 01's printing program lends.
pub const ROOM: usize = 65_395;

pub struct Named {
    pub what: String,
    pub recipe: Vec<u8>,
    pub room: usize,
    pub prints: String,
    pub companion: Option<String>,
}

impl Named {
    fn with_companion(self, entries: &str) -> Self {
        let lines = entries.lines().flat_map(|line| [line.trim(), "\n"]);
        let companion = Some(lines.collect());
        Named { companion, ..self }
    }
}

/// The files of examples/, with what they say that they give.
pub fn examples() -> Vec<Named> {
    macro_rules! files {
        ($($name:literal),+ $(,)?) => {
            [$(($name, include_str!(concat!("../../../examples/", $name, ".recipe")))),+]
        };
    }
    let files = files![
        "sample-r",
        "two-levels",
        "inner-names",
        "replaced-rate-rule",
        "lost-reactant",
        "missing-port",
        "outer-names",
        "chain-through-replaced-by",
        "port-onto-gone",
        "figure-8",
        "hours-and-seconds",
        "twelve-underscores",
    ];
    let named = |(what, text): (&str, &str)| {
        let example = parse_example(text).expect("an example file");
        Named {
            what: format!("examples/{what}.recipe"),
            recipe: example.recipe,
            room: ROOM,
            prints: example.gives.expect("what the example gives"),
            companion: example.companion,
        }
    };
    files.into_iter().map(named).collect()
}

const TWO_LEVELS: &str = include_str!("../../../examples/two-levels.recipe");

const SAMPLE_R: &str = "
    model top
      compartment c
      submodel a of cell
      replace a.v by c
    model cell
      compartment v
      species s -> v
";

const R_PRINTED: &str = "flat 2\n1 c - -\n2 a__s - c\n";

fn named(what: &str, recipe: &str, prints: &str) -> Named {
    Named {
        what: what.into(),
        recipe: parse(recipe).expect("a recipe"),
        room: ROOM,
        prints: prints.trim_start().to_owned() + "\n",
        companion: None,
    }
}

/// Sample R with one line changed to others.
fn changed(what: &str, line: &str, to: &str, prints: &str) -> Named {
    named(what, &SAMPLE_R.replacen(line, to, 1), prints)
}

/// So many definitions, each with a submodel of the next.
fn line(definitions: usize) -> String {
    let definition = |i: usize| match i + 1 {
        next if next < definitions => format!("model m{i}\nsubmodel a of m{next}\n"),
        _ => format!("model m{i}\n"),
    };
    (0..definitions).map(definition).collect()
}

/// 01's own, in its order; the last of them, "17 at 205", is about a table.
pub fn to_try() -> Vec<Named> {
    let deletion = "delete a.v";
    let replacement = "replace a.v by c";
    let r = named("R", SAMPLE_R, R_PRINTED.trim_end());
    let with_room = |what: &str, room: usize, prints: &str| Named {
        what: what.into(),
        recipe: r.recipe.clone(),
        room,
        prints: prints.into(),
        companion: None,
    };
    let with_409 = with_room("R with 409 output bytes", 409, "refused 13 at 0\n");
    let with_410 = with_room("R with 410 output bytes", 410, R_PRINTED);
    vec![
        named("empty input", "", "refused 1 at 0"),
        named("only model top", "model top", "flat 0"),
        r,
        with_409,
        with_410,
        changed(
            "R with parameter a__s at the end of top",
            replacement,
            "replace a.v by c\nparameter a__s",
            "flat 3\n1 c - -\n3 a__s - -\n2 a___s - c",
        ),
        changed(
            "R with parameter a__s at the beginning of top",
            "compartment c",
            "parameter a__s\ncompartment c",
            "flat 3\n3 a__s - -\n1 c - -\n2 a___s - c",
        ),
        changed(
            "R with c of class 3",
            "compartment c",
            "parameter c",
            "refused 10 at 76",
        ),
        changed(
            "R with a deletion of v for the replacement",
            replacement,
            deletion,
            "refused 12 at 153",
        ),
        changed(
            "that deletion twice",
            replacement,
            "delete a.v\ndelete a.v",
            "refused 9 at 102",
        ),
        changed(
            "submodel a_ for a",
            "submodel a of",
            "submodel a_ of",
            "refused 3 at 51",
        ),
        named(
            "submodel a_ for a, in the replacement, too",
            &SAMPLE_R.replace("a of", "a_ of").replace("a.v", "a_.v"),
            "refused 3 at 51",
        ),
        named(
            "model m holding submodel x of m",
            "model m\nsubmodel x of m",
            "refused 6 at 0",
        ),
        named("five definitions in a line", &line(5), "flat 0"),
        named("six definitions in a line", &line(6), "refused 7 at 0"),
        named(
            "deleting a reaction and, by name, its species reference",
            "model top
               submodel a of cell
               delete a.r
               delete a.q
             model cell
               compartment v
               species s -> v
               reaction r
               species-reference q in r -> s",
            "flat 2\n1 a__v - -\n2 a__s - a__v",
        ),
    ]
}

/// A recipe with so many flat records, nearly all with three names of 68 characters, and what is printed of it.
fn longest_lines(count: usize) -> (Vec<u8>, String) {
    let prefixes = "submodel_one__".repeat(4);
    let mut recipe: String = (0..4)
        .map(|i| format!("model m{i}\nsubmodel submodel_one of m{}\n", i + 1))
        .collect();
    recipe += "model m4\ncompartment compartment1\nspecies the_species1 -> compartment1\nreaction the_reaction\n";
    let mut prints = format!(
        "flat {count}
1 {prefixes}compartment1 - -
2 {prefixes}the_species1 - {prefixes}compartment1
4 {prefixes}the_reaction - -
"
    );
    for i in 3..count {
        let name = format!("reference{i:03}");
        recipe += &format!("species-reference {name} in the_reaction -> the_species1\n");
        prints += &format!("5 {prefixes}{name} {prefixes}the_reaction {prefixes}the_species1\n");
    }
    (parse(&recipe).expect("a recipe"), prints)
}

/// Where 02's sentences on factors could be read in another way.
pub fn factor_edges() -> Vec<Named> {
    vec![
        named("kind 8 as the first record", "factors a", "refused 2 at 0"),
        named(
            "kind 8 cut short",
            "model t\nbytes 08 61 00 00 00 00 00 00 00 00 00 00 00
             bytes 00 00 00 00 00 00 00 00 00 00 00 00 00 00 00 00 00 00 00 00 00 00 00",
            "refused 2 at 13",
        ),
        named(
            "factors of a blank",
            "model t\nfactors -",
            "refused 3 at 13",
        ),
        named(
            "factors of a name with an underscore at its end",
            "model t\nfactors a_",
            "refused 19 at 13",
        ),
        named(
            "both factors blank, before the submodel",
            "model t\nfactors a\nsubmodel a of m\nmodel m\nreaction r",
            "flat 1\n4 a__r - -",
        )
        .with_companion("a__r time - - - - extent - - - -"),
        named(
            "factors of an element",
            "model t\nparameter a\nfactors a",
            "refused 19 at 51",
        ),
        named(
            "blank factors given twice",
            "model t\nsubmodel a of m\nfactors a\nfactors a\nmodel m",
            "refused 19 at 75",
        ),
        named(
            "factors of no submodel, in an unused definition",
            "model t\nmodel u\nfactors a",
            "refused 19 at 26",
        ),
        named(
            "19 goes before 6",
            "model t\nsubmodel a of t\nfactors b",
            "refused 19 at 38",
        ),
        named(
            "5 goes before 19",
            "model t\nfactors b\nsubmodel a of m",
            "refused 5 at 50",
        ),
        named(
            "12 goes before 20",
            "model t\nsubmodel a of m\nfactors a time x\nspecies s\nmodel m",
            "refused 12 at 75",
        ),
        named(
            "a factor that is not there, in an unused definition",
            "model t\nmodel u\nsubmodel a of m\nfactors a time x\nmodel m",
            "flat 0",
        )
        .with_companion(""),
        named(
            "a factor that is not there, and no entry would show it",
            "model t\nsubmodel a of m\nfactors a extent x\nmodel m",
            "refused 20 at 38",
        ),
        named(
            "a submodel's name for a factor",
            "model t\nsubmodel a of m\nfactors a time a\nmodel m",
            "refused 20 at 38",
        ),
        named(
            "an element of the inner definition for a factor",
            "model t\nsubmodel a of m\nfactors a time g\nmodel m\nparameter g",
            "refused 20 at 38",
        ),
        named(
            "a reaction for a factor",
            "model t\nreaction r\nsubmodel a of m\nfactors a extent r\nmodel m",
            "refused 20 at 76",
        ),
        named(
            "a factor that is deleted in one of two instances",
            "model t\nsubmodel a of m\nsubmodel b of m\ndelete b.g
             model m\nparameter g\nsubmodel c of n\nfactors c time g\nmodel n\nreaction r",
            "refused 20 at 165",
        ),
        named(
            "a factor replaced by one that is deleted",
            "model t\nsubmodel a of m\ndelete a.f
             model m\nparameter f\nsubmodel b of n\nreplace b.g by f
             model n\nparameter g\nsubmodel c of o\nfactors c extent g\nmodel o",
            "refused 20 at 254",
        ),
        named(
            "a factor on the first of four levels and one on the last",
            "model m0\nparameter f\nrate-rule w -> f\nsubmodel a of m1\nfactors a time f
             model m1\nsubmodel b of m2\nmodel m2\nsubmodel c of m3
             model m3\nparameter g\nsubmodel d of m4\nfactors d extent g
             model m4\nreaction r",
            "flat 4\n3 f - -\n6 w - f\n3 a__b__c__g - -\n4 a__b__c__d__r - -",
        )
        .with_companion(
            "w time - - - - extent - - - -
             a__b__c__d__r time f - - - extent - - - a__b__c__g",
        ),
        named(
            "440 kind 8 records for one submodel",
            &format!("model t\nsubmodel a of t\n{}", "factors a\n".repeat(440)),
            "refused 19 at 75",
        ),
        named(
            "263 submodels with factors, not used",
            &given_factors(263, "s", ""),
            "flat 0",
        ),
        most_factors(),
        most_entries(),
    ]
}

/// Factors on four levels, and 1,020 reactions below them.
fn most_factors() -> Named {
    let prefixes = ["", "a__", "a__a__", "a__a__a__"];
    let parameters = prefixes.map(|prefix| format!("{prefix}f"));
    let ends = parameters.join(" ");
    let mut prints = String::from("flat 1024");
    for parameter in &parameters {
        prints += &format!("\n3 {parameter} - -");
    }
    let mut companion = String::new();
    for (leaf, reaction) in (0..60 * 17).map(|i| (i / 17, i % 17)) {
        let name = format!("a__a__a__a{leaf}__r{reaction}");
        prints += &format!("\n4 {name} - -");
        companion += &format!("{name} time {ends} extent {ends}\n");
    }
    let most = named("factors on four levels", &four_levels(60), &prints);
    with_all_room(most).with_companion(&companion)
}

/// 1,024 entries, which is all that a companion can have.
fn most_entries() -> Named {
    let mut prints = String::from("flat 1024");
    let mut companion = String::new();
    for (instance, reaction) in (0..64 * 16).map(|i| (i / 16, i % 16)) {
        let prefix = match instance {
            0 => String::new(),
            _ => format!("a{instance}__"),
        };
        prints += &format!("\n4 {prefix}r{reaction} - -");
        companion += &format!("{prefix}r{reaction} time - - - - extent - - - -\n");
    }
    let most = named("1,024 entries", &reactions_alone(64), &prints);
    with_all_room(most).with_companion(&companion)
}

/// With an output that suffices for every recipe.
fn with_all_room(named: Named) -> Named {
    let room = MAX_RECORDS * RECORD;
    Named { room, ..named }
}

/// Where 01's sentences could be read in another way, and where a program might be led astray.
pub fn edges() -> Vec<Named> {
    let mut edges = vec![
        named(
            "2 goes before an earlier 3",
            "model top\nbytes 02 63 00 00 00 00 00 00 00 00 00 00 00 09
             bytes 00 00 00 00 00 00 00 00 00 00 00 00 00 00 00 00 00 00 00 00 00 00 00 00
             bytes 63",
            "refused 2 at 51",
        ),
        named("first record not kind 1", "compartment c", "refused 2 at 0"),
        named("zeros at the end", "model top\nbytes 00", "refused 2 at 13"),
        named(
            "a blank-submodel port by port name",
            "model top\ncompartment c\nport p = .c\nport q = :p",
            "refused 5 at 89",
        ),
        named(
            "an element and a submodel of one name",
            "model top\ncompartment a\nsubmodel a of cell\nmodel cell",
            "refused 4 at 51",
        ),
        named(
            "a port and an element of one name",
            "model top\ncompartment a\nport a = .a",
            "flat 1\n1 a - -",
        ),
        named(
            "two replaced-bys of an owner that isn't there",
            "model top\nsubmodel a of cell\nx replaced by a.v\nx replaced by a.v
             model cell\ncompartment v",
            "refused 4 at 76",
        ),
        named(
            "a definition that leads to a cycle",
            "model top\nsubmodel a of x\nmodel x\nsubmodel b of x",
            "refused 6 at 38",
        ),
        named(
            "a mark through a port that leads nowhere",
            "model top\nsubmodel a of cell\ndelete a:p
             model cell\nsubmodel b of low\nport p = b.nothing\nmodel low",
            "refused 8 at 38",
        ),
        named(
            "a submodel's name as a target",
            "model top\nsubmodel a of cell\ndelete a.b\nmodel cell\nsubmodel b of low\nmodel low",
            "refused 8 at 38",
        ),
        named(
            "a port onto a replaced-by's owner in its own definition",
            "model top\ncompartment c\nport p = .c\nsubmodel a of cell\nc replaced by a.v
             model cell\ncompartment v",
            "refused 9 at 114",
        ),
        named(
            "two replaced-bys with one target",
            "model top\ncompartment c\ncompartment d\nsubmodel a of cell
             c replaced by a.v\nd replaced by a.v\nmodel cell\ncompartment v",
            "refused 9 at 152",
        ),
        named(
            "a mark above a port",
            "model top\nsubmodel a of cell\ndelete a:p\nmodel cell\ncompartment v\nport p = .v",
            "flat 0",
        ),
        named(
            "the same by name, over the port",
            "model top\nsubmodel a of cell\ndelete a.v\nmodel cell\ncompartment v\nport p = .v",
            "flat 0",
        ),
        named(
            "a conflict and another class in an unused definition",
            "model top\nmodel cell\ncompartment v
             model unused\nparameter k\nsubmodel a of cell\nport p = a.v\nport q = a.v",
            "flat 0",
        ),
        named(
            "another class in an unused definition",
            "model top\nmodel cell\ncompartment v
             model unused\nparameter k\nsubmodel a of cell\nreplace a.v by k",
            "refused 10 at 140",
        ),
        named(
            "a senseless reference of an unused definition and of a gone element",
            "model top\nsubmodel a of cell\ndelete a.s\nmodel cell\nspecies s -> t
             model unused\nspecies s -> t",
            "flat 0",
        ),
        named(
            "a chain of five steps",
            "model top\ncompartment c\nsubmodel a of m1\nreplace a.v by c
             submodel z of other\nc replaced by z.w
             model m1\ncompartment v\nsubmodel a of m2\nreplace a.v by v
             model m2\ncompartment v\nsubmodel a of m3\nreplace a.v by v
             model m3\ncompartment v\nsubmodel a of m4\nreplace a.v by v
             model m4\ncompartment v\nspecies s -> v
             model other\ncompartment w",
            "flat 2\n2 a__a__a__a__s - z__w\n1 z__w - -",
        ),
        named(
            "12 underscores because of an inner name",
            "model top\nsubmodel a of cell\nmodel cell\nparameter a___________",
            "flat 1\n3 a____________a___________ - -",
        ),
        named(
            "11 underscores, though an inner name asks for 3",
            "model top\nsubmodel a of cell\nparameter a__________x\nmodel cell\nparameter a__x",
            "flat 2\n3 a__________x - -\n3 a___________a__x - -",
        ),
        named(
            "12 underscores on two levels",
            "model top\nsubmodel a of mid\nparameter a___________
             model mid\nsubmodel b of low\nparameter b___________
             model low\ncompartment v",
            "flat 3\n3 a___________ - -\n3 a____________b___________ - -
1 a____________b____________v - -",
        ),
        named(
            "a submodel's name begins with another's prefix",
            "model top\nsubmodel a of cell\nsubmodel a__b of cell\nmodel cell\ncompartment v",
            "flat 2\n1 a___v - -\n1 a__b__v - -",
        ),
    ];
    let random = &Random::new(1);
    let mut add = |what: &str, recipe: Vec<u8>, prints: &str| {
        edges.push(Named {
            what: what.into(),
            recipe,
            room: ROOM,
            prints: prints.into(),
            companion: None,
        });
    };
    // The changes of docs/PICTURE.md.
    for (line, to, prints) in [
        (
            "replace unit:volume by hall",
            "delete unit:volume",
            "refused 12 at 495\n",
        ),
        (
            "replace unit:volume by hall",
            "replace unit.k by hall",
            "refused 10 at 215\n",
        ),
        (
            "broth replaced by tank.feed",
            "broth replaced by tank.feed\ndelete tank.feed",
            "refused 9 at 215\n",
        ),
        (
            "compartment hall",
            "compartment hall\nparameter tank__x",
            "flat 7\n1 hall - -\n3 tank__x - -\n6 growth - tank___feed\n1 tank___v - -
2 tank___feed - tank___v\n3 unit__k - -\n2 unit__vessel__biomass - hall\n",
        ),
    ] {
        let text = TWO_LEVELS.replacen(line, to, 1);
        let Example { recipe, .. } = parse_example(&text).expect("an example file");
        add(&format!("two levels with {to}"), recipe, prints);
    }
    let top = parse("model top").expect("a recipe");
    let used = chain(2, 160, true, random).encode();
    add("a doubling chain of 160", used, "refused 7 at 0\n");
    let unused = chain(2, 160, false, random).encode();
    add("the same, not used by main", unused, "flat 0\n");
    let doubling: String = (0..200)
        .map(|i| {
            format!(
                "model m{i}\nsubmodel a of m{0}\nsubmodel b of m{0}\n",
                i + 1
            )
        })
        .collect();
    let doubling = parse(&(doubling + "model m200")).expect("a recipe");
    add("a doubling chain of 200", doubling, "refused 7 at 0\n");
    let unused = parse(&format!("model top\n{}", line(120))).expect("a recipe");
    add("120 unused definitions in a line", unused, "flat 0\n");
    let ports = chain(1, 210, false, random).encode();
    add("ports through 210 levels, not used", ports, "flat 0\n");
    let padded = |length: usize| padded(top.clone(), length);
    let pads: String = (1..=9).map(|i| format!("3 pad{i} - -\n")).collect();
    let flat = format!("flat 9\n{pads}");
    add("16,384 bytes", padded(MAX_RECIPE), &flat);
    add("16,385 bytes", padded(MAX_RECIPE + 1), "refused 1 at 0\n");
    add("20,000 bytes", padded(20_000), "refused 1 at 0\n");
    add("16,384 zeros", vec![0; MAX_RECIPE], "refused 2 at 0\n");
    let (most, prints) = longest_lines(ROOM / RECORD);
    add("as many records as the output holds", most, &prints);
    let (too_many, _) = longest_lines(ROOM / RECORD + 1);
    add("one record more", too_many, "refused 13 at 0\n");
    edges
}
