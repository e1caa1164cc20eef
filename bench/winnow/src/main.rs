//! `winnow_bench FILE [ROUNDS [brief]]`: cases that nom_bench measures, by winnow as its users write them. It prints the same
//! lines. Its cases are those of the four modules.
//!
//! Parsers are functions over `&mut &str` and `&mut &[u8]` with winnow's default error, and `json` is a `dispatch!`.

#[path = "../../rival/src/cases.rs"]
mod cases;
mod formats;
mod packets;
mod sources;
mod texts;

pub use crate::cases::{Case, Contents, Made, Round};
use std::process::ExitCode;
use std::{env, fs, io, str};
use winnow::combinator::repeat;
use winnow::error::ContextError;
use winnow::stream::{Stream, StreamIsPartial};
use winnow::{PResult, Parser};

/// How many items a list has, of a parser that is repeated; none where it has none.
#[inline(always)]
pub fn list<I: Stream + StreamIsPartial, T>(
    item: impl Parser<I, T, ContextError>,
    mut input: I,
) -> Option<Round> {
    counted(repeat(0.., item), &mut input)
}

/// How many items a list has, of a parser that gives one; none where it has none.
#[inline(always)]
pub fn counted<I: Stream, T>(
    mut parser: impl Parser<I, Vec<T>, ContextError>,
    input: &mut I,
) -> Option<Round> {
    let length = input.eof_offset();
    let items: PResult<Vec<T>> = parser.parse_next(input);
    let items = items.ok()?;
    if items.is_empty() {
        return None;
    }
    Some(Round {
        made: Made::Items(items.len()),
        bytes: length - input.eof_offset(),
    })
}

/// A number that comes before another.
fn joined(high: i64, low: i64) -> i64 {
    high.wrapping_mul(1_000_003).wrapping_add(low)
}

/// The sum of the parts of each item, one joined to the other; none where it has no item.
#[inline(always)]
pub fn total<'i, const N: usize>(
    item: impl Parser<&'i str, [i64; N], ContextError>,
    text: &'i str,
) -> Option<Round> {
    let mut rest = text;
    let sum: PResult<i64> = repeat(0.., item)
        .fold(
            || 0,
            |sum, parts: [i64; N]| parts.into_iter().fold(sum, joined),
        )
        .parse_next(&mut rest);
    let value = sum.ok()?;
    if rest.len() == text.len() {
        return None;
    }
    Some(Round {
        made: Made::Value(value),
        bytes: text.len() - rest.len(),
    })
}

fn run() -> io::Result<()> {
    let mut words = env::args().skip(1);
    let Some(file) = words.next() else {
        return Ok(());
    };
    let rounds = words.next().and_then(|word| word.parse().ok()).unwrap_or(7);
    let bytes = fs::read(file)?;
    let contents = Contents {
        bytes: &bytes,
        text: str::from_utf8(&bytes).unwrap_or(""),
    };
    let cases = [
        &packets::CASES[..],
        &texts::CASES,
        &sources::CASES,
        &formats::CASES,
    ];
    for case in cases.into_iter().flatten() {
        cases::bench(case, contents, rounds);
    }
    Ok(())
}

fn main() -> ExitCode {
    match run() {
        Ok(()) => ExitCode::SUCCESS,
        Err(_) => {
            println!("file fault");
            ExitCode::from(3)
        }
    }
}
