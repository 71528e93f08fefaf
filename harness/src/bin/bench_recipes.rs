//! Times the library's flattening of recipes beside the other program's, on recipes that grow; then the size of their tables,
//! beside the library's flattening, too. It prints microseconds for one recipe, and which sizes take longer than they may.

use harness::bandrolt::{flatten, table_size, Answer};
use harness::other::{recipe, RECORD};
use harness::recipes::sized::{one_definition, plant, tree};
use harness::recipes::text::{parse, parse_example};
use harness::tables::MAX_RECORDS;
use harness::timing::{
    print_head, print_head_with_flattening, print_row_with_flattening, print_series, Pair, Program,
};

/// The most of flattening's time that a size may take: of any recipe, and of one with so many records.
const MOST: f64 = 1.0;
const MANY: u64 = 100;
const MOST_OF_MANY: f64 = 0.9;

type Flatten = fn(&[u8], &mut [u8]) -> Answer;

/// A recipe that grows with a size, and the number that is answered.
struct Family {
    what: &'static str,
    unit: &'static str,
    sizes: &'static [usize],
    recipe: fn(usize) -> String,
    number: u64,
}

const KILOBYTES: &[usize] = &[1, 4, 16];
const INSTANCES: &[usize] = &[10, 28, 64];

const fn family(
    what: &'static str,
    unit: &'static str,
    sizes: &'static [usize],
    recipe: fn(usize) -> String,
) -> Family {
    Family {
        what,
        unit,
        sizes,
        recipe,
        number: 0,
    }
}

impl Family {
    const fn refused(self, number: u64) -> Self {
        Family { number, ..self }
    }

    /// Its recipes, each with what its size is called.
    fn series(&self) -> impl Iterator<Item = (String, Vec<u8>)> + '_ {
        self.sizes.iter().map(|&size| {
            let example = parse_example(&(self.recipe)(size)).expect("a recipe");
            (format!("{size} {}", self.unit), example.recipe)
        })
    }
}

const FAMILIES: [Family; 15] = [
    family("sample R", "elements", &[3], |_| {
        include_str!("../../../examples/sample-r.recipe").into()
    }),
    family("a plant", "instances", &[5, 17, 64], plant),
    family("16 elements each", "instances", INSTANCES, |instances| {
        tree(instances, "e")
    }),
    family("11 in common", "instances", INSTANCES, |instances| {
        tree(instances, "common_stem")
    }),
    family(
        "one definition",
        "elements",
        &[100, 200, 400],
        one_definition,
    ),
    family("8 in common", "KB", KILOBYTES, |kb| {
        filled(kb, common, nothing)
    }),
    family("empty models", "KB", KILOBYTES, |kb| {
        filled(kb, numbered, nothing)
    }),
    family("inner first", "KB", KILOBYTES, |kb| {
        filled(kb, inner, nothing)
    }),
    // Main is the outermost, and the tree too deep.
    family("outer first", "KB", KILOBYTES, |kb| {
        filled(kb, outer, numbered)
    })
    .refused(7),
    family("one cycle", "KB", KILOBYTES, |kb| {
        filled(kb, outer, closing)
    })
    .refused(6),
    family(
        "ports and marks",
        "in the tree",
        &[730, 1_460, 2_920],
        pointers,
    ),
    family(
        "ports that conflict",
        "in the tree",
        &[5_040, 10_080, 20_475],
        ports,
    )
    .refused(9),
    family("ports onto ports", "deep", &[50, 100, 200], deep_ports),
    family("five steps", "chains", &[8, 16, 32], chains),
    family("12 underscores", "prefixes", &[6, 13, 26], underscores),
];

fn main() {
    print_head("flattening");
    let programs: Pair<Flatten> = [flatten, recipe::flatten];
    let mut programs = programs.map(|flatten| {
        let mut table = vec![0; MAX_RECORDS * RECORD];
        move |recipe: &[u8]| flatten(recipe, &mut table)
    });
    for family in &FAMILIES {
        let mut series = Vec::new();
        for (size, recipe) in family.series() {
            let [ours, other] = programs.each_mut().map(|program| program(&recipe));
            assert_eq!(ours, other, "the programs answer the same");
            assert_eq!(ours.number, family.number, "{}", family.what);
            series.push((size, vec![recipe]));
        }
        print_series(family.what, &mut programs, series);
    }
    print_sizes();
}

fn print_sizes() {
    print_head_with_flattening("size");
    let mut table = vec![0; MAX_RECORDS * RECORD];
    let mut programs: [Program; 3] = [
        Box::new(|recipe| table_size(recipe).flat.number),
        Box::new(|recipe| recipe::table_size(recipe).flat.number),
        Box::new(|recipe| flatten(recipe, &mut table).number),
    ];
    let mut longer = Vec::new();
    for family in &FAMILIES {
        for (size, recipe) in family.series() {
            let [ours, other] = [table_size, recipe::table_size].map(|size| size(&recipe));
            assert_eq!(ours, other, "the programs answer the same");
            let count = ours.flat.count;
            let what = format!("{}, {size}, {count} records", family.what);
            let share = print_row_with_flattening(&what, &mut programs, &recipe);
            let most = if count >= MANY { MOST_OF_MANY } else { MOST };
            // As it is printed, in two digits.
            if share >= most + 0.005 {
                longer.push(format!("{what}: {share:.2}"));
            }
        }
    }
    println!("sizes that take more than {MOST} of flattening, or than {MOST_OF_MANY} from {MANY} records on: {longer:#?}");
}

/// As many definitions as so many kilobytes hold, and an end.
fn filled(kilobytes: usize, definition: fn(usize) -> String, last: fn(usize) -> String) -> String {
    let length = |recipe: &str| parse(recipe).expect("a recipe").len();
    let mut recipe = String::new();
    let mut left = 1_024 * kilobytes;
    for i in 0.. {
        let (more, last) = (definition(i), last(i));
        if length(&more) + length(&last) > left {
            recipe += &last;
            break;
        }
        left -= length(&more);
        recipe += &more;
    }
    recipe
}

fn nothing(_: usize) -> String {
    String::new()
}

fn numbered(i: usize) -> String {
    format!("model m{i}\n")
}

fn outer(i: usize) -> String {
    format!("model m{i}\nsubmodel x of m{}\n", i + 1)
}

fn closing(i: usize) -> String {
    format!("model m{i}\nsubmodel x of m0\n")
}

fn inner(i: usize) -> String {
    match i {
        0 => numbered(0),
        _ => format!("model m{i}\nsubmodel x of m{}\n", i - 1),
    }
}

/// One definition of compartments whose names differ in their last characters alone.
fn common(i: usize) -> String {
    let first = if i == 0 { "model m\n" } else { "" };
    format!("{first}compartment abcdefgh{i:04}\n")
}

/// Ports and marks that are accepted: 48 leaves, whose elements have a port on three levels, and deletions
/// over them. So many are in the tree, for 1/146 of that many elements in a leaf.
fn pointers(in_tree: usize) -> String {
    let elements = in_tree / 146;
    let mut recipe = String::from("model top\nsubmodel a of m1\nsubmodel b of m1\n");
    recipe += "model m1\nsubmodel a of m2\nsubmodel b of m2\n";
    for i in 0..elements {
        recipe += &format!("delete a:p0_0_{i}\n");
    }
    recipe += "model m2\nsubmodel a0 of m3\nsubmodel a1 of m3\n";
    for (a, b, i) in (0..2 * 6 * elements).map(|k| (k % 2, k / 2 % 6, k / 12)) {
        recipe += &format!("port p{a}_{b}_{i} = a{a}:p{b}_{i}\n");
    }
    recipe += "model m3\n";
    for b in 0..6 {
        recipe += &format!("submodel a{b} of m4\n");
        for i in 0..elements {
            recipe += &format!("port p{b}_{i} = a{b}:p{i}\n");
        }
    }
    recipe += "model m4\n";
    for i in 0..elements {
        recipe += &format!("parameter e{i}\nport p{i} = .e{i}\n");
    }
    recipe
}

/// 63 instances with so many ports together, far more than elements: two of them conflict.
fn ports(in_tree: usize) -> String {
    let submodels: String = (0..63).map(|i| format!("submodel a{i} of low\n")).collect();
    let elements: String = (0..16).map(|i| format!("parameter e{i}\n")).collect();
    let ports: String = (0..in_tree / 63)
        .map(|i| format!("port p{i} = .e{}\n", i % 16))
        .collect();
    format!("model top\n{submodels}model low\n{elements}{ports}")
}

/// Each port leads to the port of the next definition; main uses none of them.
fn deep_ports(levels: usize) -> String {
    let ports: String = (1..levels)
        .map(|i| format!("model m{i}\nsubmodel a of m{}\nport p = a:p\n", i + 1))
        .collect();
    format!("model top\n{ports}model m{levels}\ncompartment v\nport p = .v\n")
}

/// Species whose references take five steps, up through all levels and down to another submodel.
fn chains(count: usize) -> String {
    let each = |record: fn(usize) -> String| -> String { (0..count).map(record).collect() };
    let elements = each(|i| format!("compartment v{i}\n"));
    let replacements = each(|i| format!("replace a.v{i} by v{i}\n"));
    let by = each(|i| format!("v{i} replaced by z.v{i}\n"));
    let species = each(|i| format!("species s{i} -> v{i}\n"));
    let mut recipe = format!("model top\n{elements}submodel a of m1\n{replacements}");
    recipe += &format!("submodel z of other\n{by}");
    for level in 1..4 {
        let submodel = format!("submodel a of m{}\n", level + 1);
        recipe += &format!("model m{level}\n{elements}{submodel}{replacements}");
    }
    recipe + &format!("model m4\n{elements}{species}model other\n{elements}")
}

/// Submodels whose prefixes take 12 underscores, with each shorter run in a name beside them.
fn underscores(count: usize) -> String {
    let mut recipe = String::from("model top\n");
    for letter in ('a'..='z').take(count) {
        recipe += &format!("submodel {letter} of low\n");
        for run in 2..=11 {
            recipe += &format!("parameter {letter}{}\n", "_".repeat(run));
        }
    }
    recipe += "model low\n";
    recipe
        + &(0..15)
            .map(|i| format!("parameter e{i}\n"))
            .collect::<String>()
}
