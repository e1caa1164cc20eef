//! `rival FILE [ROUNDS [brief]]`: what nom_bench measures, by nom 8 as its users write it. It prints the same lines; with
//! a third word it leaves out the items of readers, which take long where instructions are counted.
//!
//! Parsers are composed of the functions of the modules `complete`, with nom's default error, and run by `parse`; only the
//! first case and the items of readers are of the modules `streaming`, and `check` is of the parsers at the top of nom's
//! modules, by `process`, since a function always builds. What nom-language and nom_locate have stands in `language` and
//! `located`. Lists are written by cookie-factory.

mod basics;
mod cases;
mod factory;
mod faults;
mod formats;
mod growing;
mod json;
mod language;
mod located;
mod owns;
mod packets;
mod settings;
mod short;
mod sources;
mod streams;
mod sums;
mod texts;
mod trees;
mod wires;
mod writes;

pub use crate::cases::{Case, Contents, Made, Round};
use nom::error::Error;
use nom::{Input, Parser};
use std::process::ExitCode;
use std::{env, fs, io, str};

/// How many items a list has, of a parser that gives one; none where it has none.
#[inline(always)]
pub fn list<I: Input, T>(
    mut parser: impl Parser<I, Output = Vec<T>, Error = Error<I>>,
    input: I,
) -> Option<Round> {
    let length = input.input_len();
    let (rest, items) = parser.parse(input).ok()?;
    if items.is_empty() {
        return None;
    }
    Some(Round {
        made: Made::Items(items.len()),
        bytes: length - rest.input_len(),
    })
}

fn run() -> io::Result<()> {
    let mut words = env::args().skip(1);
    let Some(file) = words.next() else {
        return Ok(());
    };
    let rounds = words.next().and_then(|word| word.parse().ok()).unwrap_or(7);
    let bytes = fs::read(file)?;
    let contents = Contents {
        bytes: &bytes,
        text: str::from_utf8(&bytes).unwrap_or(""),
    };
    let cases = [
        &basics::CASES[..],
        &settings::CASES,
        &located::CASES,
        &sums::CASES,
        &texts::CASES,
        &wires::CASES,
        &sources::CASES,
        &packets::CASES,
        &short::CASES,
        &owns::CASES,
        &formats::CASES,
        &trees::CASES,
        &faults::CASES,
    ];
    for case in cases.into_iter().flatten() {
        cases::bench(case, contents, rounds);
    }
    writes::bench(&factory::WRITERS, &bytes, rounds);
    if words.next().is_none() {
        streams::bench(&bytes, rounds);
    }
    Ok(())
}

fn main() -> ExitCode {
    match run() {
        Ok(()) => ExitCode::SUCCESS,
        Err(_) => {
            println!("file fault");
            ExitCode::from(3)
        }
    }
}
