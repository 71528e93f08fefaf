//! Times programs beside each other on the same inputs, in one run, and prints a row for each size of them.
//! They take turns, so that what else the machine does falls on all.

use std::hint::black_box;
use std::time::Instant;

const ROUNDS: usize = 21;
const BATCH_SECONDS: f64 = 0.002;

/// Ours and the other program, in this order.
pub type Pair<P> = [P; 2];

/// The head of the rows that follow.
pub fn print_head(what: &str) {
    println!(
        "{what:<50}{:>12}{:>12}{:>8}{:>8}",
        "ours, us", "other, us", "ratio", "growth"
    );
}

/// A row for each size: microseconds for one input of each program, ours divided by the other's, and ours
/// divided by ours of the size before.
pub fn print_series<A>(
    what: &str,
    programs: &mut Pair<impl FnMut(&[u8]) -> A>,
    series: impl IntoIterator<Item = (String, Vec<Vec<u8>>)>,
) {
    let mut before: Option<f64> = None;
    for (size, inputs) in series {
        let [ours, other] = times(programs, &inputs);
        let growth = before.map_or_else(String::new, |before| format!("{:.1}", ours / before));
        println!(
            "{:<50}{ours:>12.3}{other:>12.3}{:>8.2}{growth:>8}",
            format!("{what}, {size}"),
            ours / other
        );
        before = Some(ours);
    }
}

/// What is timed on a recipe; the number that it answers comes back.
pub type Program<'a> = Box<dyn FnMut(&[u8]) -> u64 + 'a>;

/// The head of rows with our flattening of the same recipe beside.
pub fn print_head_with_flattening(what: &str) {
    println!(
        "{what:<50}{:>12}{:>12}{:>8}{:>16}{:>8}",
        "ours, us", "other, us", "ratio", "flattening, us", "ratio"
    );
}

/// Such a row; the programs are ours, the other and our flattening. Ours divided by our flattening comes back.
pub fn print_row_with_flattening(what: &str, programs: &mut [Program; 3], recipe: &[u8]) -> f64 {
    let [ours, other, flattening] = times(programs, &[recipe.to_vec()]);
    let share = ours / flattening;
    println!(
        "{what:<50}{ours:>12.3}{other:>12.3}{:>8.2}{flattening:>16.3}{share:>8.2}",
        ours / other
    );
    share
}

/// Each program's microseconds for one input, in its best round.
pub fn times<A, const N: usize>(
    programs: &mut [impl FnMut(&[u8]) -> A; N],
    inputs: &[Vec<u8>],
) -> [f64; N] {
    let mut repeats = 1;
    while batch(&mut programs[1], inputs, repeats) < BATCH_SECONDS {
        repeats *= 2;
    }
    let mut best = [f64::INFINITY; N];
    for _ in 0..ROUNDS {
        for (best, program) in best.iter_mut().zip(&mut *programs) {
            *best = best.min(batch(program, inputs, repeats));
        }
    }
    best.map(|seconds| seconds * 1e6 / (repeats * inputs.len()) as f64)
}

fn batch<A>(program: &mut impl FnMut(&[u8]) -> A, inputs: &[Vec<u8>], repeats: usize) -> f64 {
    let start = Instant::now();
    for _ in 0..repeats {
        for input in inputs {
            black_box(program(black_box(input)));
        }
    }
    start.elapsed().as_secs_f64()
}
