//! Runs the printing program on 01's recipes, the edges and the examples, and compares what it prints, byte for
//! byte, with what the other program's flattening gives; then breaks its input and its output in each way that can be
//! had here, and looks that it says so. `program FILE`, where FILE is the printing program.

use harness::recipes::named::{edges, examples, factor_edges, to_try, Named, ROOM};
use harness::recipes::other_prints;
use harness::report::Tally;
use std::fs::File;
use std::io::{self, ErrorKind, Write};
use std::os::fd::OwnedFd;
use std::os::unix::net::UnixStream;
use std::process::{Child, Command, ExitCode, Output, Stdio};
use std::thread::sleep;
use std::time::Duration;

/// Parts of a recipe that come one after the other, as through a slow pipe.
const PART: usize = 1_000;
const BETWEEN_PARTS: Duration = Duration::from_millis(2);

const NO_INPUT: &str = "bandrolt: standard input: ";
const NO_OUTPUT: &str = "bandrolt: standard output: ";

fn main() -> ExitCode {
    let Some(program) = std::env::args().nth(1) else {
        eprintln!("usage: program FILE");
        return ExitCode::from(2);
    };
    // The program lends an output of one length.
    let is_run = |named: &Named| named.room == ROOM;
    let recipes: Vec<Named> = [to_try(), edges(), factor_edges(), examples()]
        .into_iter()
        .flatten()
        .filter(is_run)
        .collect();

    let mut tally = Tally::default();
    for named in &recipes {
        print_recipe(&program, named, &mut tally);
    }
    for number in (1..=13).chain([19, 20]) {
        let begins = format!("refused {number} at ");
        let is_met = recipes
            .iter()
            .any(|named| named.prints.starts_with(&begins));
        tally.add(&format!("a recipe is refused with {number}"), is_met);
    }
    let sample = sample_r(&recipes);
    slow_and_long_inputs(&program, sample, &mut tally);
    broken_inputs(&program, sample, &mut tally);
    broken_outputs(&program, sample, &mut tally);
    tally.end()
}

fn sample_r(recipes: &[Named]) -> &Named {
    let is_sample = |named: &&Named| named.what == "examples/sample-r.recipe";
    recipes.iter().find(is_sample).expect("sample R")
}

/// A recipe as a whole and, where it is long, in parts.
fn print_recipe(program: &str, named: &Named, tally: &mut Tally) {
    let expected = other_prints(&named.recipe, ROOM);
    let whole = fed(program, &[&named.recipe]);
    tally.add(&named.what, prints(whole, &expected));
    if named.recipe.len() > PART {
        let parts: Vec<&[u8]> = named.recipe.chunks(PART).collect();
        let what = format!("{}, in parts", named.what);
        tally.add(&what, prints(fed(program, &parts), &expected));
    }
}

fn slow_and_long_inputs(program: &str, sample: &Named, tally: &mut Tally) {
    let bytes: Vec<&[u8]> = sample.recipe.chunks(1).collect();
    let slow = fed(program, &bytes);
    tally.add("byte by byte", prints(slow, &sample.prints));

    let over = "refused 1 at 0\n";
    let mut long = sample.recipe.clone();
    long.resize(1_000_000, 0);
    let long = fed(program, &[&long]);
    tally.add("1,000,000 bytes", prints(long, over));

    let endless = File::open("/dev/zero").and_then(|zeros| with_input(program, zeros));
    tally.add("an input without end", prints(endless, over));

    let all_there = waiting(&sample.recipe).and_then(|(sends, takes)| {
        drop(sends);
        with_input(program, OwnedFd::from(takes))
    });
    let what = "an input that doesn't wait, all there";
    tally.add(what, prints(all_there, &sample.prints));
}

/// A read that fails is no end of the input: nothing is printed.
fn broken_inputs(program: &str, sample: &Named, tally: &mut Tally) {
    let directory = File::open("/").and_then(|root| with_input(program, root));
    tally.add("a directory", tells(directory, NO_INPUT));

    let closed = closing(program, "<&-").output();
    tally.add("a closed input", tells(closed, NO_INPUT));

    // One record is there, and the others will come.
    let parted = waiting(&sample.recipe[..13]).and_then(|(mut sends, takes)| {
        let output = with_input(program, OwnedFd::from(takes))?;
        // Nobody takes the rest any more.
        let _ = sends.write_all(&sample.recipe[13..]);
        Ok(output)
    });
    let what = "an input that doesn't wait for its rest";
    tally.add(what, tells(parted, NO_INPUT));
}

fn broken_outputs(program: &str, sample: &Named, tally: &mut Tally) {
    let run = |mut command: Command| send(command.spawn()?, &[&sample.recipe]);
    let to = |output: Stdio| {
        let mut command = piped(program, &[]);
        command.stdout(output);
        run(command)
    };
    let full = File::options().write(true).open("/dev/full");
    let full = full.and_then(|device| to(device.into()));
    tally.add("a full device", tells(full, NO_OUTPUT));

    let closed = run(closing(program, ">&-"));
    tally.add("a closed output", tells(closed, NO_OUTPUT));

    let stuck = stuffed().and_then(|(unread, full)| {
        let output = to(OwnedFd::from(full).into());
        drop(unread);
        output
    });
    let what = "an output that doesn't wait for its reader";
    tally.add(what, tells(stuck, NO_OUTPUT));

    // The system ends a program that writes to a pipe without a reader.
    let unread = piped(program, &[]).spawn().and_then(|mut child| {
        drop(child.stdout.take());
        send(child, &[&sample.recipe])
    });
    let is_ended = unread.is_ok_and(|output| !output.status.success());
    tally.add("an output whose reader has gone", is_ended);
}

/// It printed this, said nothing else, and ended well.
fn prints(output: io::Result<Output>, expected: &str) -> bool {
    let Some(output) = there(output) else {
        return false;
    };
    let holds =
        output.stdout == expected.as_bytes() && output.stderr.is_empty() && output.status.success();
    if !holds {
        let printed = String::from_utf8_lossy(&output.stdout);
        let said = String::from_utf8_lossy(&output.stderr);
        let status = output.status;
        println!("it prints\n{printed}and says\n{said}and should print\n{expected}{status}");
    }
    holds
}

/// It printed nothing, said what failed in one line, and ended by itself with the status of a failure.
fn tells(output: io::Result<Output>, what: &str) -> bool {
    let Some(output) = there(output) else {
        return false;
    };
    let said = String::from_utf8_lossy(&output.stderr);
    let is_line = said.starts_with(what) && said.lines().count() == 1 && said.ends_with('\n');
    let holds = output.stdout.is_empty() && is_line && output.status.code() == Some(1);
    if !holds {
        let printed = String::from_utf8_lossy(&output.stdout);
        let status = output.status;
        println!("it prints\n{printed}and says\n{said}and should say {what}..\n{status}");
    }
    holds
}

fn there(output: io::Result<Output>) -> Option<Output> {
    output
        .map_err(|error| println!("it could not be run: {error}"))
        .ok()
}

/// What the program gives when its input comes through a pipe, in these parts.
fn fed(program: &str, parts: &[&[u8]]) -> io::Result<Output> {
    send(piped(program, &[]).spawn()?, parts)
}

fn piped(program: &str, args: &[&str]) -> Command {
    let mut command = Command::new(program);
    command
        .args(args)
        .stdin(Stdio::piped())
        .stdout(Stdio::piped())
        .stderr(Stdio::piped());
    command
}

/// The program with a descriptor closed, as the shell writes it.
fn closing(program: &str, which: &str) -> Command {
    piped("sh", &["-c", &format!("exec \"$0\" {which}"), program])
}

fn send(mut child: Child, parts: &[&[u8]]) -> io::Result<Output> {
    // The pipe holds a whole recipe, so the program need not read while this writes.
    if let Some(mut input) = child.stdin.take() {
        for (i, part) in parts.iter().enumerate() {
            if i > 0 {
                sleep(BETWEEN_PARTS);
            }
            match input.write_all(part) {
                // What is beyond 16,385 bytes may stay unread.
                Err(error) if error.kind() == ErrorKind::BrokenPipe => break,
                written => written?,
            }
        }
    }
    child.wait_with_output()
}

fn with_input(program: &str, input: impl Into<Stdio>) -> io::Result<Output> {
    Command::new(program).stdin(input).output()
}

/// A socket that gives these bytes and then doesn't wait, and the other end, which could send more.
fn waiting(bytes: &[u8]) -> io::Result<(UnixStream, UnixStream)> {
    let (mut sends, takes) = UnixStream::pair()?;
    takes.set_nonblocking(true)?;
    sends.write_all(bytes)?;
    Ok((sends, takes))
}

/// A socket that has no room for a byte more and doesn't wait for it, and the other end, which reads nothing.
fn stuffed() -> io::Result<(UnixStream, UnixStream)> {
    let (unread, mut full) = UnixStream::pair()?;
    full.set_nonblocking(true)?;
    loop {
        match full.write(&[0]) {
            Err(error) if error.kind() == ErrorKind::WouldBlock => return Ok((unread, full)),
            written => written?,
        };
    }
}
