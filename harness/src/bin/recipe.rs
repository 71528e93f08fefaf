//! One recipe, between text and bytes. It calls nothing of the library, so it is there before anything is proved.
//! `recipe encode FILE` writes the bytes of a recipe in text, `recipe show FILE` the text of bytes, and
//! `recipe print FILE` what 01's printing program prints of bytes, by the other program.

use harness::recipes::named::ROOM;
use harness::recipes::{other_prints, text};
use std::io::Write;
use std::process::ExitCode;

const USAGE: &str = "usage: recipe encode|show|print FILE";

fn main() -> ExitCode {
    let arguments: Vec<String> = std::env::args().skip(1).collect();
    let arguments: Vec<&str> = arguments.iter().map(String::as_str).collect();
    let made = match arguments[..] {
        ["encode", file] => encode(file),
        ["show", file] => read(file).map(|recipe| text::print(&recipe).into_bytes()),
        ["print", file] => read(file).map(|recipe| other_prints(&recipe, ROOM).into_bytes()),
        _ => Err(USAGE.into()),
    };
    let written = made.and_then(|bytes| {
        let written = std::io::stdout().write_all(&bytes);
        written.map_err(|error| error.to_string())
    });
    match written {
        Ok(()) => ExitCode::SUCCESS,
        Err(error) => {
            eprintln!("{error}");
            ExitCode::from(2)
        }
    }
}

fn read(file: &str) -> Result<Vec<u8>, String> {
    std::fs::read(file).map_err(|error| format!("{file}: {error}"))
}

fn encode(file: &str) -> Result<Vec<u8>, String> {
    let text = String::from_utf8_lossy(&read(file)?).into_owned();
    let example = text::parse_example(&text).map_err(|error| format!("{file}: {error}"))?;
    Ok(example.recipe)
}
