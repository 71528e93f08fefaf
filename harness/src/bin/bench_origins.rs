//! Times the library's walk back beside the other program's, and beside the library's flattening of the same recipe.
//! It prints microseconds for one walk and judges nothing.

use harness::bandrolt::{flatten, walk_back};
use harness::other::{recipe, FIELD, RECORD};
use harness::recipes::sized::{long_names, one_definition, plant, tree};
use harness::recipes::text::parse;
use harness::tables::MAX_RECORDS;
use harness::timing::{print_head_with_flattening, print_row_with_flattening, Program};

const ROOM: usize = MAX_RECORDS * RECORD;

fn main() {
    print_head_with_flattening("walking back");
    print_rows("a plant, 64 instances", &plant(64));
    print_rows("16 elements each, 64 instances", &tree(64, "e"));
    print_rows("one definition, 400 elements", &one_definition(400));
    print_rows("60 of 68 bytes in common, 400 elements", &long_names(400));
}

/// A row for the first name of a recipe's table, for the last, and for one that is nearly the last.
fn print_rows(what: &str, recipe: &str) {
    let recipe = parse(recipe).expect("a recipe");
    let mut table = vec![0; ROOM];
    let answer = flatten(&recipe, &mut table);
    let name = |record: usize| table[record * RECORD + 1..][..FIELD].to_vec();
    let last = name(answer.count as usize - 1);
    let mut absent = last.clone();
    let end = absent.iter().rposition(|&b| b != 0).expect("a name");
    absent[end] = b'_';
    print_row(&format!("{what}, first"), &recipe, &name(0), 0);
    print_row(&format!("{what}, last"), &recipe, &last, 0);
    print_row(&format!("{what}, absent"), &recipe, &absent, 18);
}

fn print_row(what: &str, recipe: &[u8], name: &[u8], number: u64) {
    let ours = walk_back(recipe, name);
    let other = recipe::walk_back(recipe, name);
    assert_eq!(ours, other, "the programs answer the same");
    assert_eq!(ours.number, number, "{what}");
    let mut table = vec![0; ROOM];
    let mut programs: [Program; 3] = [
        Box::new(|recipe| walk_back(recipe, name).number),
        Box::new(|recipe| recipe::walk_back(recipe, name).number),
        Box::new(|recipe| flatten(recipe, &mut table).number),
    ];
    print_row_with_flattening(what, &mut programs, recipe);
}
