//! Times the library's flattening with factors beside the other program's, and beside its flattening of the same recipe.
//! It prints microseconds for one recipe and judges nothing.

use harness::bandrolt::{flatten, flatten_with_factors};
use harness::other::{recipe, ENTRY, RECORD};
use harness::recipes::sized::{four_levels, given_factors, plant, reactions_alone};
use harness::recipes::text::parse;
use harness::tables::MAX_RECORDS;
use harness::timing::{print_head_with_flattening, print_row_with_flattening, Program};

/// What a recipe has to be answered with: its number, and its entries.
type Expected = (u64, u64);

fn main() {
    print_head_with_flattening("flattening with factors");
    let row = |what: &str, size: usize, recipe: String, expected: Expected| {
        print_row(&format!("{what}, {size}"), &recipe, expected);
    };
    row("a plant without factors", 64, plant(64), (0, 65));
    for leaves in [15, 30, 60] {
        let entries = 17 * leaves as u64;
        row(
            "four levels, leaves",
            leaves,
            four_levels(leaves),
            (0, entries),
        );
    }
    for instances in [10, 28, 64] {
        let entries = 16 * instances as u64;
        let recipe = reactions_alone(instances);
        row("no factors, instances", instances, recipe, (0, entries));
    }
    for count in [65, 131, 263] {
        row("kind 8", count, given_factors(count, "s", ""), (0, 0));
        let common = given_factors(count, "common_st", "");
        row("kind 8, 9 in common", count, common, (0, 0));
    }
    for count in [65, 131, 262] {
        let last = format!("factors s{:03}\n", count - 1);
        row(
            "the last repeats",
            count,
            given_factors(count, "s", &last),
            (19, 0),
        );
        let last_but_one = given_factors(count - 1, "s", "factors s000\nfactors s001\n");
        row("the last but one repeats", count, last_but_one, (19, 0));
    }
    for count in [110, 220, 440] {
        let all = "factors a\n".repeat(count);
        let recipe = format!("model top\nsubmodel a of m\nmodel m\n{all}");
        row("kind 8 for no submodel", count, recipe, (19, 0));
        let recipe = format!("model top\nsubmodel a of m\n{all}model m\n");
        row("kind 8 for one submodel", count, recipe, (19, 0));
    }
}

fn print_row(what: &str, recipe: &str, expected: Expected) {
    let recipe = &parse(recipe).expect("a recipe");
    let table = || vec![0; MAX_RECORDS * RECORD];
    let companion = || vec![0; MAX_RECORDS * ENTRY];
    let ours = flatten_with_factors(recipe, &mut table(), &mut companion());
    let other = recipe::flatten_with_factors(recipe, &mut table(), &mut companion());
    assert_eq!(ours, other, "the programs answer the same");
    assert_eq!((ours.flat.number, ours.entries), expected, "{what}");
    let [mut table, mut others_table, mut alone] = [(); 3].map(|()| table());
    let [mut entries, mut others_entries] = [(); 2].map(|()| companion());
    let mut programs: [Program; 3] = [
        Box::new(|recipe| flatten_with_factors(recipe, &mut table, &mut entries).entries),
        Box::new(|recipe| {
            recipe::flatten_with_factors(recipe, &mut others_table, &mut others_entries).entries
        }),
        Box::new(|recipe| flatten(recipe, &mut alone).number),
    ];
    print_row_with_flattening(what, &mut programs, recipe);
}
