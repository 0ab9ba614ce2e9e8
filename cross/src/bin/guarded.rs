//! Runs cases of all eight calls with every lent slice between guard pages, and compares the outcomes with the solver. A library
//! that touches anything beside a slice, or writes to one that it may only read, is ended by a signal.
//!
//!     guarded [--seed S] [--count C]
//!     guarded --overrun | --underrun | --overwrite
//!
//! The options of the second line do what no call may: read one byte after a slice, read one before it, write to one that is lent
//! to be read. Each has to end by a signal.

use cross::differ::{
    families,
    guarded::GuardedLibrary,
    pages::{Edge, Pages},
    session::Session,
    side::Side,
};
use cross::solver::Solver;
use std::{env, process::ExitCode};

fn main() -> ExitCode {
    let arguments: Vec<String> = env::args().skip(1).collect();
    let arguments: Vec<&str> = arguments.iter().map(String::as_str).collect();
    match arguments[..] {
        ["--overrun"] => overrun(),
        ["--underrun"] => underrun(),
        ["--overwrite"] => overwrite(),
        _ => match numbers(&arguments) {
            Some((seed, count)) => run(seed, count),
            None => failed("[--seed S] [--count C] | --overrun | --underrun | --overwrite"),
        },
    }
}

fn failed(message: &str) -> ExitCode {
    eprintln!("guarded: {message}");
    ExitCode::from(2)
}

/// Seed and count.
fn numbers(arguments: &[&str]) -> Option<(u64, usize)> {
    let (mut seed, mut count) = (1, 200);
    for option in arguments.chunks(2) {
        match option {
            ["--seed", value] => seed = value.parse().ok()?,
            ["--count", value] => count = value.parse().ok()?,
            _ => return None,
        }
    }
    Some((seed, count))
}

fn run(seed: u64, count: usize) -> ExitCode {
    let library = GuardedLibrary::default();
    for family in families::all(Vec::new(), Vec::new(), Vec::new()) {
        let mut session = Session::new(Solver::default(), &[Side::Calls(&library)], family.random(seed), count);
        if let Err(found) = family.run(&mut session) {
            println!("{}: {}\n{}", family.name, found.what, found.case);
            return ExitCode::FAILURE;
        }
    }
    println!("guarded: {} calls, none beside its slices", library.calls());
    ExitCode::SUCCESS
}

fn overrun() -> ExitCode {
    let mut pages = Pages::new();
    let text = pages.lend_to_read(b"(atoms 0)\n(open)\n", Edge::Upper);
    let byte = unsafe { text.as_ptr().add(text.len()).read_volatile() };
    failed(&format!("byte {byte} was read after a slice"))
}

fn underrun() -> ExitCode {
    let mut pages = Pages::new();
    let text = pages.lend_to_read(b"(atoms 0)\n(open)\n", Edge::Lower);
    let byte = unsafe { text.as_ptr().wrapping_sub(1).read_volatile() };
    failed(&format!("byte {byte} was read before a slice"))
}

fn overwrite() -> ExitCode {
    let mut pages = Pages::new();
    let text = pages.lend_to_read(b"(atoms 0)\n(open)\n", Edge::Upper);
    unsafe { text.as_ptr().cast_mut().write_volatile(0) };
    failed("a slice that was lent to be read was written")
}
