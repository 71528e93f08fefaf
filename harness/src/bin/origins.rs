//! Runs the programs that walk back beside each other, on what is proved of the definitions, on 01's recipes, on
//! generated and on enumerated ones: on the names of their elements, on damaged names and on those of other recipes.
//! `origins [SEED]`, where the second random set follows from SEED or else from the clock; `origins few`, for valgrind.

use harness::other::recipe::slow;
use harness::other::recipe::walkers::{Rules, MUTANTS};
use harness::other::rules::before_zero;
use harness::other::FIELD;
use harness::random::Random;
use harness::recipes::enumerate::each_recipe;
use harness::recipes::flat_names::{damaged, of_elements};
use harness::recipes::generate::{case, deep};
use harness::recipes::named::{edges, examples, factor_edges, to_try, Named};
use harness::recipes::proved::{self, WalkSample};
use harness::recipes::text;
use harness::report::{are_often, asked, save, Asked, Tally};
use harness::walks::{in_words, Walks};
use std::collections::BTreeMap;
use std::ops::RangeInclusive;
use std::process::ExitCode;
use std::time::Instant;

const FIXED_SEED: u64 = 1;
const CASES_OF_A_SEED: u64 = 15_000;
const FEW_CASES: u64 = 40;
/// How many survivors of a recipe are asked for, and how many gone elements.
const MOST_NAMES: usize = 20;
/// How many walks there must be, and how often each answer must come.
const LEAST_WALKS: usize = 200_000;
const REFUSALS: [u64; 14] = [1, 2, 3, 4, 5, 6, 7, 8, 9, 10, 11, 12, 19, 20];
const LEAST_OF_A_REFUSAL: usize = 500;
const NO_SURVIVOR: u64 = 18;
const LEAST_OF_NO_SURVIVOR: usize = 20_000;
const DEPTHS: RangeInclusive<u64> = 0..=4;
const LEAST_OF_A_DEPTH: usize = 2_000;

/// What docs/PICTURE.md says of names in its recipes.
const PICTURED: [(&str, &str, &str); 4] = [
    ("sample-r", "a__s", "submodel a at 51, species s at 165"),
    ("sample-r", "c", "compartment c at 13"),
    ("sample-r", "a__v", "refused 18 at 0"),
    (
        "two-levels",
        "unit__vessel__biomass",
        "submodel unit at 152, submodel vessel at 393, species biomass at 507",
    ),
];

fn main() -> ExitCode {
    match asked("origins") {
        Ok(Asked::Few) => check_few(),
        Ok(Asked::All(seed)) => check(seed),
        Err(status) => status,
    }
}

/// What the walks have shown.
#[derive(Default)]
struct Outcome {
    recipes: usize,
    walks: usize,
    /// Walks on which the programs differ, or which the library answers badly.
    differing: usize,
    /// How often each number was answered, and each depth with number 0.
    numbers: BTreeMap<u64, usize>,
    depths: BTreeMap<u64, usize>,
    /// The first walk that tells each mutant from 02.
    told_by: Vec<Option<usize>>,
    /// A name of the last recipe, for the next.
    foreign: Vec<u8>,
}

/// Random recipes, few enough for a run under valgrind.
fn check_few() -> ExitCode {
    let mut tally = Tally::default();
    check_random(FIXED_SEED, FEW_CASES, &mut Outcome::new(), &mut tally);
    tally.end()
}

fn check(seed: u64) -> ExitCode {
    let mut tally = Tally::default();
    let mut outcome = Outcome::new();
    check_proved(&mut tally);
    check_named(&mut outcome, &mut tally);
    check_pictured(&mut tally);
    for seed in [FIXED_SEED, seed] {
        check_random(seed, CASES_OF_A_SEED, &mut outcome, &mut tally);
    }
    let random = Random::new(FIXED_SEED);
    check_set("enumerated recipes", &mut outcome, &mut tally, |outcome| {
        each_recipe(|recipe| outcome.add(recipe, MOST_NAMES, &random));
    });
    check_counts(&outcome, &mut tally);

    println!("{} mutants, told by these walks", MUTANTS.len());
    for ((what, _), told_by) in MUTANTS.iter().zip(&outcome.told_by) {
        let walk = told_by.map_or("none".into(), |walk| walk.to_string());
        println!("  {what}: {walk}");
        tally.add(what, told_by.is_some());
    }
    tally.end()
}

/// The programs answer what is proved of the definitions.
fn check_proved(tally: &mut Tally) {
    let samples = proved::walks();
    println!("{} walks proved of the definitions", samples.len());
    for sample in &samples {
        let (answer, complaint) = Walks::of(&sample.recipe).walk(&sample.name);
        let agree = answer == sample.origin && complaint.is_none();
        if !agree {
            println!("{:?} is proved of {}", sample.origin, shown(&sample.name));
            println!("{}", text::print(&sample.recipe));
        }
        tally.add("the programs answer as is proved of a walk", agree);
    }
    tally.add("there are walks that are proved", !samples.is_empty());
    print_untold(&samples);
}

/// The mutants that the proved walks don't tell: a definition with one's error might be proved of them.
fn print_untold(samples: &[WalkSample]) {
    let agrees = |sample: &&WalkSample, rules: &Rules| {
        rules.walk_back(&slow::elements(&sample.recipe), &sample.name) == sample.origin
    };
    // On which 02's own rules disagree, any would.
    let samples = samples.iter().filter(|s| agrees(s, &Rules::default()));
    let samples: Vec<&WalkSample> = samples.collect();
    let is_told = |rules: &Rules| samples.iter().any(|sample| !agrees(sample, rules));
    let not_told = MUTANTS
        .iter()
        .filter(|(_, bend)| !is_told(&Rules::bent(*bend)));
    let not_told: Vec<&str> = not_told.map(|(what, _)| *what).collect();
    println!("  mutants that are not told by these walks: {not_told:?}");
}

/// 01's recipes, with the names of all their elements.
fn check_named(outcome: &mut Outcome, tally: &mut Tally) {
    let named = [to_try(), edges(), factor_edges(), examples()];
    let named: Vec<Named> = named.into_iter().flatten().collect();
    println!("{} of 01's recipes, edges and examples", named.len());
    for named in &named {
        let before = outcome.differing;
        outcome.add(&named.recipe, usize::MAX, &Random::new(FIXED_SEED));
        tally.add(&named.what, outcome.differing == before);
    }
}

fn check_pictured(tally: &mut Tally) {
    let examples = examples();
    for (file, name, words) in PICTURED {
        let is_wanted = |example: &&Named| example.what == format!("examples/{file}.recipe");
        let example = examples.iter().find(is_wanted);
        let holds = example.is_some_and(|example| in_words(&example.recipe, name) == words);
        tally.add(&format!("{name} in {file}: {words}"), holds);
    }
}

fn check_random(seed: u64, cases: u64, outcome: &mut Outcome, tally: &mut Tally) {
    let what = format!("random recipes of seed {seed}");
    check_set(&what, outcome, tally, |outcome| {
        for number in 0..cases {
            let random = Random::of_case(seed, number);
            let recipe = match random.below(10) {
                0 => deep(&random),
                _ => case(&random),
            };
            outcome.add(&recipe, MOST_NAMES, &random);
        }
    });
}

/// The programs agree on a set of recipes.
fn check_set(what: &str, outcome: &mut Outcome, tally: &mut Tally, add: impl FnOnce(&mut Outcome)) {
    let start = Instant::now();
    let before = (outcome.recipes, outcome.walks, outcome.differing);
    add(outcome);
    let recipes = outcome.recipes - before.0;
    let walks = outcome.walks - before.1;
    let seconds = start.elapsed().as_secs_f64();
    println!("{recipes} {what}, {walks} walks, {seconds:.1} s");
    tally.add("the programs agree on them", outcome.differing == before.2);
}

fn check_counts(outcome: &Outcome, tally: &mut Tally) {
    let Outcome {
        walks,
        numbers,
        depths,
        ..
    } = outcome;
    println!("{walks} walks");
    println!("  numbers answered, with how often: {numbers:?}");
    println!("  depths of those with number 0: {depths:?}");
    tally.add("there are walks enough", *walks >= LEAST_WALKS);
    let is_mixed = are_often(numbers, REFUSALS, LEAST_OF_A_REFUSAL);
    tally.add("each refusal is answered often enough", is_mixed);
    let is_mixed = are_often(numbers, [NO_SURVIVOR], LEAST_OF_NO_SURVIVOR);
    tally.add("18 is answered often enough", is_mixed);
    let is_mixed = are_often(depths, DEPTHS, LEAST_OF_A_DEPTH);
    tally.add("each depth is answered often enough", is_mixed);
}

/// A name as far as it can be read.
fn shown(name: &[u8]) -> String {
    String::from_utf8_lossy(before_zero(name)).into_owned()
}

impl Outcome {
    fn new() -> Self {
        Outcome {
            told_by: vec![None; MUTANTS.len()],
            foreign: vec![0; FIELD],
            ..Outcome::default()
        }
    }

    /// Walks back the names of a recipe's elements, at most so many of the survivors and of the gone ones, one of the
    /// recipe before, and damaged ones.
    fn add(&mut self, recipe: &[u8], most: usize, random: &Random) {
        let walks = Walks::of(recipe);
        let elements = walks.tree.as_deref().unwrap_or_default();
        let mut names = of_elements(elements, most, random);
        names.push(self.foreign.clone());
        self.foreign = names[random.below(names.len())].clone();
        names.extend(damaged(&names, random));
        for name in &names {
            self.walk(&walks, name);
        }
        self.recipes += 1;
    }

    fn walk(&mut self, walks: &Walks, name: &[u8]) {
        let (answer, complaint) = walks.walk(name);
        if let Some(complaint) = complaint {
            self.differing += 1;
            if self.differing == 1 {
                println!("walk {}, of {}: {complaint}", self.walks, shown(name));
                println!("{}", text::print(walks.recipe));
                save(walks.recipe, "walked-recipe.hex");
                save(name, "walked-name.hex");
            }
        }
        *self.numbers.entry(answer.number).or_default() += 1;
        if answer.number == 0 {
            *self.depths.entry(answer.depth).or_default() += 1;
        }
        for (told_by, (_, bend)) in self.told_by.iter_mut().zip(MUTANTS) {
            let is_told = || Rules::bent(*bend).walk_back(&walks.tree, name) != answer;
            if told_by.is_none() && is_told() {
                *told_by = Some(self.walks);
            }
        }
        self.walks += 1;
    }
}
