//! What the programs that check have in common: what they are asked, the tally at their end, what is counted on the
//! way, the seed of the clock, and a file for what differs.

use std::collections::BTreeMap;
use std::process::ExitCode;
use std::time::{SystemTime, UNIX_EPOCH};

/// How much a program is to check: few cases, for valgrind, or all, with the second random set of this seed.
pub enum Asked {
    Few,
    All(u64),
}

/// What the arguments `[SEED]` or `few` ask for. Other arguments are answered with the status that comes back.
pub fn asked(program: &str) -> Result<Asked, ExitCode> {
    let arguments: Vec<String> = std::env::args().skip(1).collect();
    let arguments: Vec<&str> = arguments.iter().map(String::as_str).collect();
    let asked = match arguments[..] {
        [] => Some(Asked::All(seed_from_clock())),
        ["few"] => Some(Asked::Few),
        [seed] => seed.parse().ok().map(Asked::All),
        _ => None,
    };
    asked.ok_or_else(|| {
        eprintln!("usage: {program} [SEED] | {program} few");
        ExitCode::from(2)
    })
}

#[derive(Default)]
pub struct Tally {
    passed: usize,
    failed: usize,
}

impl Tally {
    pub fn add(&mut self, what: &str, holds: bool) {
        if holds {
            self.passed += 1;
        } else {
            self.failed += 1;
            println!("FAILED: {what}");
        }
    }

    /// Prints the last line; the program's status comes back.
    pub fn end(&self) -> ExitCode {
        println!("{} passed, {} failed", self.passed, self.failed);
        ExitCode::from(u8::from(self.failed > 0))
    }
}

/// Is each of these counted so often? What is not in the counts is not.
pub fn are_often<T: Ord>(
    counts: &BTreeMap<T, usize>,
    wanted: impl IntoIterator<Item = T>,
    least: usize,
) -> bool {
    let mut wanted = wanted.into_iter();
    wanted.all(|thing| counts.get(&thing) >= Some(&least))
}

pub fn seed_from_clock() -> u64 {
    let now = SystemTime::now().duration_since(UNIX_EPOCH);
    now.map_or(0, |now| now.as_micros() as u64)
}

/// Saves bytes in hexadecimal beside the program; `xxd -r -p` makes them bytes again.
pub fn save(bytes: &[u8], file_name: &str) {
    let hex = |line: &[u8]| line.iter().map(|b| format!("{b:02x}")).collect::<String>() + "\n";
    let dump: String = bytes.chunks(32).map(hex).collect();
    let saved = std::env::current_exe().and_then(|program| {
        let file = program.with_file_name(file_name);
        std::fs::write(&file, dump).map(|()| file)
    });
    match saved {
        Ok(file) => println!("it is in {}", file.display()),
        Err(error) => println!("it could not be saved: {error}"),
    }
}
