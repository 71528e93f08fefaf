//! Where a flat name comes from, in words: `origin FILE NAME` has the library walk the name back in the bytes of a recipe,
//! and prints `a__s: submodel a at 51, species s at 165`, or `a__v: refused 18 at 0`.

use harness::walks::in_words;
use std::process::ExitCode;

fn main() -> ExitCode {
    let arguments: Vec<String> = std::env::args().skip(1).collect();
    let [file, name] = &arguments[..] else {
        eprintln!("usage: origin FILE NAME");
        return ExitCode::from(2);
    };
    match std::fs::read(file) {
        Ok(recipe) => {
            println!("{name}: {}", in_words(&recipe, name));
            ExitCode::SUCCESS
        }
        Err(error) => {
            eprintln!("{file}: {error}");
            ExitCode::from(2)
        }
    }
}
