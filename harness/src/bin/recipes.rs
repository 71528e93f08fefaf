//! Runs the programs that flatten beside each other, on 01's recipes, on those that are proved of the definitions, on
//! generated and on enumerated ones.
//! `recipes [SEED]`, where the second random set follows from SEED or else from the clock; `recipes few`, for valgrind.

use harness::bandrolt::{Answer, FactorsAnswer};
use harness::checks::{
    companion_rooms, complaint, pattern, FLATTENERS, SIZERS, TABLE_CHECKS, WITH_FACTORS,
};
use harness::other::recipe::rules::{Rules, MUTANTS};
use harness::other::recipe::sizers;
use harness::other::recipe::slow::{
    self, conflicts, deciding_sides, factor_cases, Conflict, FactorCase, Side,
};
use harness::other::{recipe, ENTRY, FIELD, RECORD};
use harness::random::Random;
use harness::recipes::enumerate::each_recipe;
use harness::recipes::generate::case;
use harness::recipes::named::{edges, examples, factor_edges, to_try, Named};
use harness::recipes::proved::{self, CompanionSample, Sample, SizeSample, TableSample};
use harness::recipes::{decode, printed, shown_entries, text, Record};
use harness::report::{are_often, asked, save, Asked, Tally};
use harness::tables::MAX_RECORDS;
use std::collections::{BTreeMap, BTreeSet};
use std::ops::RangeInclusive;
use std::process::ExitCode;
use std::time::Instant;

const FIXED_SEED: u64 = 1;
const CASES_OF_A_SEED: u64 = 50_000;
const FEW_CASES: u64 = 300;
/// The numbers that recipes are answered with; each must come often enough.
const NUMBERS: RangeInclusive<u64> = 0..=13;
const NUMBERS_OF_FACTORS: [u64; 2] = [19, 20];
/// And those of tables.
const ALL_NUMBERS: RangeInclusive<u64> = 0..=17;
const LEAST_OF_A_NUMBER: usize = 1_250;
const LEAST_OF_A_CONFLICT: usize = 250;
const LEAST_OF_A_FACTOR_CASE: usize = 250;
/// In how many recipes of a seed there must be kind 8 records.
const LEAST_WITH_KIND_8: usize = CASES_OF_A_SEED as usize / 2;
/// How many accepted recipes must have entries, and a factor at each depth.
const LEAST_WITH_ENTRIES: usize = 10_000;
const DEPTHS: RangeInclusive<usize> = 1..=4;
const LEAST_OF_A_DEPTH: usize = 1_000;
/// The counts of underscores in a prefix; each side's names must decide each often enough.
const COUNTS: RangeInclusive<usize> = 2..=12;
const LEAST_OF_A_COUNT: usize = 200;
/// How often the sizes of a seed's recipes must be of each case; their refusals are those of flattening but 13.
const LEAST_OF_A_SIZE: usize = 40;
/// How many mutants the proved recipes must tell.
const LEAST_TOLD_BY_PROVED: usize = 120;

fn main() -> ExitCode {
    match asked("recipes") {
        Ok(Asked::Few) => check_few(),
        Ok(Asked::All(seed)) => check(seed),
        Err(status) => status,
    }
}

/// What the recipes of one set have shown.
struct Outcome {
    recipes: usize,
    /// Recipes on which the programs differ, or which one of them answers badly.
    differing: usize,
    /// How often each number was answered.
    numbers: BTreeMap<u64, usize>,
    /// In how many recipes each kind of conflict decided the place, or was beside one that did.
    conflicts: BTreeMap<(Conflict, bool), usize>,
    /// In how many recipes there were kind 8 records, each case of these, entries, and a factor at each depth.
    with_kind_8: usize,
    factor_cases: BTreeMap<FactorCase, usize>,
    with_entries: usize,
    depths: BTreeMap<usize, usize>,
    /// In how many accepted recipes a side's names decide each count of underscores.
    underscores: BTreeMap<(Side, usize), usize>,
    /// In how many accepted recipes the size is of each case, and the first recipe that tells each of its mutants from 02.
    sizes: BTreeMap<&'static str, usize>,
    sizers_told_by: Vec<Option<usize>>,
    /// The mutants that are tried, and for each the first recipe that tells it from 01.
    told_by: BTreeMap<usize, Option<usize>>,
}

/// 01's recipes and random ones, few enough for a run under valgrind.
fn check_few() -> ExitCode {
    let mut tally = Tally::default();
    check_named(&mut tally);
    check_random(FIXED_SEED, FEW_CASES, &[], &mut tally);
    tally.end()
}

fn check_named(tally: &mut Tally) {
    for (set, named) in [
        ("01's recipes to try", to_try()),
        ("edges", edges()),
        ("edges of factors", factor_edges()),
        ("examples", examples()),
    ] {
        println!("{} {set}", named.len());
        for named in &named {
            tally.add(&named.what, prints_as_said(named));
            if let Some(companion) = &named.companion {
                tally.add(&named.what, has_companion(named, companion));
            }
        }
    }
}

/// The programs answer what is proved of the definitions.
fn check_proved(samples: &[Sample], tally: &mut Tally) {
    println!("{} recipes proved of the definitions", samples.len());
    for sample in samples {
        let agree = FLATTENERS.iter().all(|(program, flatten)| {
            let agrees = answers_as_proved(sample, flatten);
            if !agrees {
                println!("{program} answers otherwise:");
                println!("{}", text::print(&sample.recipe));
            }
            agrees
        });
        tally.add("the programs answer as is proved of a recipe", agree);
    }
    let tables = proved::tables();
    println!("{} tables proved of them", tables.len());
    for TableSample { table, verdict } in &tables {
        let answer = (*verdict).into();
        let agree = TABLE_CHECKS.iter().all(|check| check(table) == answer);
        tally.add("the programs answer as is proved of a table", agree);
    }
    let companions = proved::companions();
    println!("{} companions proved of them", companions.len());
    for sample in &companions {
        let agree = WITH_FACTORS
            .iter()
            .all(|(_, flatten)| writes_as_proved(sample, flatten));
        tally.add("the programs answer as is proved of a companion", agree);
    }
    check_proved_sizes(tally);
    let verdicts = samples.iter().map(|sample| sample.verdict);
    let verdicts = verdicts.chain(tables.iter().map(|sample| sample.verdict));
    let numbers = verdicts.map(|v| Answer::from(v).number);
    let of_companions = companions.iter().map(|sample| sample.answer.flat.number);
    let numbers: BTreeSet<u64> = numbers.chain(of_companions).collect();
    let is_whole = numbers
        .into_iter()
        .eq(ALL_NUMBERS.chain(NUMBERS_OF_FACTORS));
    tally.add("each number is proved of a recipe or table", is_whole);
}

/// The same for sizes, and how many of their mutants these tell.
fn check_proved_sizes(tally: &mut Tally) {
    let sizes = proved::sizes();
    println!("{} sizes proved of them", sizes.len());
    for SizeSample { recipe, size } in &sizes {
        let agree = SIZERS.iter().all(|(_, sizer)| sizer(recipe) == *size);
        tally.add("the programs answer as is proved of a size", agree);
    }
    let is_told = |rules: &sizers::Rules| {
        let mut sizes = sizes.iter();
        sizes.any(|sample| rules.table_size(&slow::elements(&sample.recipe)) != sample.size)
    };
    let mutants = sizers::MUTANTS.iter();
    let not_told = mutants.filter(|(_, bend)| !is_told(&sizers::Rules::bent(*bend)));
    let not_told: Vec<&str> = not_told.map(|(what, _)| *what).collect();
    println!("  mutants of sizes that are not told by these: {not_told:?}");
}

/// The same for flattening with factors.
fn writes_as_proved(
    sample: &CompanionSample,
    flatten: impl Fn(&[u8], &mut [u8], &mut [u8]) -> FactorsAnswer,
) -> bool {
    let mut proved = sample.rooms.map(pattern);
    for (output, written) in proved.iter_mut().zip(&sample.written) {
        output[..written.len()].copy_from_slice(written);
    }
    let found = flattened(sample.rooms, |table, companion| {
        flatten(&sample.recipe, table, companion)
    });
    found == (sample.answer, proved)
}

/// The proved recipes tell the mutants: a definition with a mutant's error would not be proved of them.
fn check_told_by_proved(samples: &[Sample], mutants: &[Rules], tally: &mut Tally) {
    let agrees = |sample: &Sample, rules: &Rules| {
        answers_as_proved(sample, |recipe, table| slow::flatten(recipe, table, rules))
    };
    let writes = |sample: &CompanionSample, rules: &Rules| {
        writes_as_proved(sample, |recipe, table, companion| {
            slow::flatten_with_factors(recipe, table, companion, rules)
        })
    };
    // On which 01's own rules disagree, any would.
    let right = Rules::default();
    let samples: Vec<&Sample> = samples.iter().filter(|s| agrees(s, &right)).collect();
    let companions = proved::companions();
    let companions: Vec<&CompanionSample> =
        companions.iter().filter(|s| writes(s, &right)).collect();
    let is_told = |rules: &Rules| {
        samples.iter().any(|sample| !agrees(sample, rules))
            || companions.iter().any(|sample| !writes(sample, rules))
    };
    let mutants = MUTANTS.iter().zip(mutants);
    let not_told = mutants.filter(|(_, rules)| !is_told(rules));
    let not_told: Vec<&str> = not_told.map(|((what, _), _)| *what).collect();
    let all = MUTANTS.len();
    let told = all - not_told.len();
    println!("  {told} of {all} mutants are told by these recipes; not told: {not_told:?}");
    let what = format!(
        "at least {LEAST_TOLD_BY_PROVED} of the {all} wrong rule sets are told apart by recipes that are proved of the definitions"
    );
    tally.add(&what, told >= LEAST_TOLD_BY_PROVED);
}

/// Does a program answer what is proved, and write that table and nothing else?
fn answers_as_proved(sample: &Sample, flatten: impl Fn(&[u8], &mut [u8]) -> Answer) -> bool {
    let mut output = pattern(sample.room);
    let answer = flatten(&sample.recipe, &mut output);
    let mut proved = pattern(sample.room);
    proved[..sample.table.len()].copy_from_slice(&sample.table);
    answer == sample.verdict.into() && output == proved
}

fn check_random(seed: u64, cases: u64, mutants: &[Rules], tally: &mut Tally) -> Outcome {
    let mut outcome = Outcome::trying(0..mutants.len());
    let start = Instant::now();
    for number in 0..cases {
        let random = Random::of_case(seed, number);
        outcome.add(&case(&random), &random, mutants);
    }
    outcome.print(&format!("random recipes of seed {seed}"), start);
    tally.add("the programs agree on them", outcome.differing == 0);
    outcome
}

fn check(seed: u64) -> ExitCode {
    let mut tally = Tally::default();
    let mutants: Vec<Rules> = MUTANTS.iter().map(|(_, bend)| Rules::bent(*bend)).collect();
    check_named(&mut tally);
    let samples = proved::recipes();
    check_proved(&samples, &mut tally);
    check_told_by_proved(&samples, &mutants, &mut tally);

    let mut outcomes = Vec::new();
    for seed in [FIXED_SEED, seed] {
        let outcome = check_random(seed, CASES_OF_A_SEED, &mutants, &mut tally);
        let numbers = NUMBERS.chain(NUMBERS_OF_FACTORS);
        let is_mixed = are_often(&outcome.numbers, numbers, LEAST_OF_A_NUMBER);
        tally.add("each number is answered often enough", is_mixed);
        let deciding = Conflict::DECIDING
            .into_iter()
            .map(|conflict| (conflict, true));
        let wanted = deciding.chain([(Conflict::MarksLowerFirst, false)]);
        let is_mixed = are_often(&outcome.conflicts, wanted, LEAST_OF_A_CONFLICT);
        tally.add("each conflict is there often enough", is_mixed);
        check_factors(&outcome, &mut tally);
        let counts = |side| COUNTS.map(move |count| (side, count));
        let wanted = Side::BOTH.into_iter().flat_map(counts);
        let is_mixed = are_often(&outcome.underscores, wanted, LEAST_OF_A_COUNT);
        tally.add("each side decides each count often enough", is_mixed);
        let cases = sizers::CASES.iter().map(|(case, _)| *case);
        let is_mixed = are_often(&outcome.sizes, cases, LEAST_OF_A_SIZE);
        tally.add("each case of sizes is there often enough", is_mixed);
        outcomes.push(outcome);
    }

    // The enumeration is long, so only mutants that aren't told yet are tried on it.
    let is_told = |k: &usize| outcomes.iter().all(|outcome| outcome.told_by[k].is_some());
    let mut outcome = Outcome::trying((0..mutants.len()).filter(|k| !is_told(k)));
    let start = Instant::now();
    let random = Random::new(FIXED_SEED);
    each_recipe(|recipe| outcome.add(recipe, &random, &mutants));
    outcome.print("enumerated recipes", start);
    tally.add("the programs agree on them", outcome.differing == 0);
    outcomes.push(outcome);

    println!(
        "{} mutants, told by these recipes of the random sets and the enumeration",
        MUTANTS.len()
    );
    for (k, (what, _)) in MUTANTS.iter().enumerate() {
        let tried = outcomes.iter().filter_map(|o| o.told_by.get(&k));
        let told_by: Vec<usize> = tried.filter_map(|told_by| *told_by).collect();
        println!("  {what}: {told_by:?}");
        tally.add(what, !told_by.is_empty());
    }
    println!("{} mutants of sizes, told by them", sizers::MUTANTS.len());
    for (k, (what, _)) in sizers::MUTANTS.iter().enumerate() {
        let told_by = outcomes.iter().filter_map(|o| o.sizers_told_by[k]);
        let told_by: Vec<usize> = told_by.collect();
        println!("  {what}: {told_by:?}");
        tally.add(what, !told_by.is_empty());
    }
    tally.end()
}

/// There was enough of what factors are about.
fn check_factors(outcome: &Outcome, tally: &mut Tally) {
    let are_there = outcome.with_kind_8 >= LEAST_WITH_KIND_8;
    tally.add("there are kind 8 records in every second recipe", are_there);
    let cases = &outcome.factor_cases;
    let is_mixed = are_often(cases, FactorCase::ALL, LEAST_OF_A_FACTOR_CASE);
    tally.add("each case of factors is there often enough", is_mixed);
    let are_there = outcome.with_entries >= LEAST_WITH_ENTRIES;
    tally.add("accepted recipes have entries often enough", are_there);
    let is_mixed = are_often(&outcome.depths, DEPTHS, LEAST_OF_A_DEPTH);
    tally.add("there is a factor at each depth often enough", is_mixed);
}

fn prints_as_said(named: &Named) -> bool {
    let Named {
        recipe,
        room,
        prints,
        ..
    } = named;
    FLATTENERS.iter().all(|(program, flatten)| {
        let mut output = pattern(*room);
        let answer = flatten(recipe, &mut output);
        let shown = printed(&answer, &output);
        if shown != *prints {
            println!("{program} prints of {}:\n{shown}", named.what);
        }
        shown == *prints
    }) && complaint(recipe, &[*room], &Random::new(FIXED_SEED)).is_none()
}

fn has_companion(named: &Named, companion: &str) -> bool {
    WITH_FACTORS.iter().all(|(program, flatten)| {
        let rooms = [named.room, MAX_RECORDS * ENTRY];
        let (answer, [_, output]) = flattened(rooms, |table, companion| {
            flatten(&named.recipe, table, companion)
        });
        let shown = shown_entries(&answer, &output);
        if shown != companion {
            println!("{program} has for {} the companion\n{shown}", named.what);
        }
        shown == companion
    })
}

impl Outcome {
    fn trying(mutants: impl Iterator<Item = usize>) -> Self {
        Outcome {
            recipes: 0,
            differing: 0,
            numbers: BTreeMap::new(),
            conflicts: BTreeMap::new(),
            with_kind_8: 0,
            factor_cases: BTreeMap::new(),
            with_entries: 0,
            depths: BTreeMap::new(),
            underscores: BTreeMap::new(),
            sizes: BTreeMap::new(),
            sizers_told_by: vec![None; sizers::MUTANTS.len()],
            told_by: mutants.map(|k| (k, None)).collect(),
        }
    }

    fn add(&mut self, recipe: &[u8], random: &Random, mutants: &[Rules]) {
        // Output lengths exact, one short, and long.
        let rooms = match recipe::judge(recipe) {
            Ok(flat) => {
                let exact = RECORD * flat.count();
                vec![
                    exact,
                    exact.saturating_sub(1),
                    exact + 1 + random.below(300),
                ]
            }
            Err(_) => vec![random.pick(&[0, RECORD - 1, 5 * RECORD])],
        };
        if let Some(complaint) = complaint(recipe, &rooms, random) {
            self.differing += 1;
            if self.differing == 1 {
                println!("recipe {}: {complaint}", self.recipes);
                println!("{}", text::print(recipe));
                save(recipe, "difference.hex");
            }
        }
        let is_round = text::parse(&text::print(recipe)).as_deref() == Ok(recipe);
        if !is_round {
            self.differing += 1;
            println!("recipe {}: its text gives other bytes", self.recipes);
        }

        // One of the lengths stands for the recipe in what is counted.
        let room = random.pick(&rooms);
        let mut output = pattern(room);
        let answer = recipe::flatten(recipe, &mut output);
        *self.numbers.entry(answer.number).or_default() += 1;
        if answer.number == 9 {
            for conflict in conflicts(recipe) {
                *self.conflicts.entry(conflict).or_default() += 1;
            }
        }
        // With 13 it is the room alone that doesn't suffice.
        if matches!(answer.number, 0 | 13) {
            for decided in deciding_sides(recipe).into_iter().flatten() {
                *self.underscores.entry(decided).or_default() += 1;
            }
        }
        self.count_factors(recipe);
        self.add_size(recipe);
        let rooms = [room, random.pick(&companion_rooms(recipe, random))];
        let right = flattened(rooms, |table, companion| {
            recipe::flatten_with_factors(recipe, table, companion)
        });
        for (&k, told_by) in &mut self.told_by {
            // A mutant is run until it is told, since the slow program is slow.
            let is_told = || {
                let theirs = flattened(rooms, |table, companion| {
                    slow::flatten_with_factors(recipe, table, companion, &mutants[k])
                });
                theirs != right
            };
            if told_by.is_none() && is_told() {
                *told_by = Some(self.recipes);
            }
        }
        self.recipes += 1;
    }

    fn count_factors(&mut self, recipe: &[u8]) {
        let is_kind_8 = |record: &Record| matches!(record, Record::Factors { .. });
        if decode(recipe).iter().any(is_kind_8) {
            self.with_kind_8 += 1;
            for case in factor_cases(recipe) {
                *self.factor_cases.entry(case).or_default() += 1;
            }
        }
        let Ok(flat) = recipe::judge(recipe) else {
            return;
        };
        let rooms = [RECORD * flat.count(), ENTRY * flat.entries()];
        let (_, [_, companion]) = flattened(rooms, |table, companion| {
            recipe::flatten_with_factors(recipe, table, companion)
        });
        self.with_entries += usize::from(!companion.is_empty());
        let is_filled = |entry: &[u8], field: usize| entry[1 + field * FIELD] != 0;
        for depth in DEPTHS {
            let has_factor = |entry: &[u8]| is_filled(entry, depth) || is_filled(entry, 4 + depth);
            if companion.chunks(ENTRY).any(has_factor) {
                *self.depths.entry(depth).or_default() += 1;
            }
        }
    }

    fn add_size(&mut self, recipe: &[u8]) {
        let size = recipe::table_size(recipe);
        let tree = slow::elements(recipe);
        if let Ok(elements) = &tree {
            let cases = sizers::CASES.iter();
            for (case, _) in cases.filter(|(_, is_case)| is_case(elements, &size)) {
                *self.sizes.entry(case).or_default() += 1;
            }
        }
        for (told_by, (_, bend)) in self.sizers_told_by.iter_mut().zip(sizers::MUTANTS) {
            let is_told = || sizers::Rules::bent(*bend).table_size(&tree) != size;
            if told_by.is_none() && is_told() {
                *told_by = Some(self.recipes);
            }
        }
    }

    /// The count of underscores that a side's names decide least often, in words.
    fn rarest(&self, side: Side) -> String {
        let often = |count: usize| self.underscores.get(&(side, count)).copied().unwrap_or(0);
        let rarest = COUNTS.map(|count| (often(count), count)).min();
        rarest.map_or_else(String::new, |(often, count)| {
            format!("{count}, {often} times")
        })
    }

    fn print(&self, what: &str, start: Instant) {
        let seconds = start.elapsed().as_secs_f64();
        println!("{} {what}, {seconds:.1} s", self.recipes);
        println!("  numbers answered, with how often: {:?}", self.numbers);
        for ((conflict, decides), count) in &self.conflicts {
            let decides = if *decides {
                "decides"
            } else {
                "is there, too,"
            };
            println!("  {conflict:?} {decides} {count} times");
        }
        let Outcome {
            with_kind_8,
            factor_cases,
            with_entries,
            depths,
            sizes,
            ..
        } = self;
        println!("  kind 8 in {with_kind_8}: {factor_cases:?}");
        println!("  entries in {with_entries}, with factors at the depths {depths:?}");
        println!("  sizes: {sizes:?}");
        let [outer, inner] = Side::BOTH.map(|side| self.rarest(side));
        println!("  rarest count of underscores, decided by outer names: {outer}; by inner names: {inner}");
    }
}

/// What a call that flattens with factors answers, and what it writes into outputs of these lengths.
fn flattened(
    rooms: [usize; 2],
    flatten: impl Fn(&mut [u8], &mut [u8]) -> FactorsAnswer,
) -> (FactorsAnswer, [Vec<u8>; 2]) {
    let [mut table, mut companion] = rooms.map(pattern);
    let answer = flatten(&mut table, &mut companion);
    (answer, [table, companion])
}
