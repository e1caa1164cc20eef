//! Cases, and the lines that tell of them.

use std::hint::black_box;
use std::time::Instant;

/// What a parser made.
#[derive(Clone, Copy)]
pub enum Made {
    /// One slice.
    Slice,
    /// A list with that many items: 0 where none is built.
    Items(usize),
    /// The value of an expression.
    Value(i64),
}

/// What a round told.
#[derive(Clone, Copy)]
pub struct Round {
    pub made: Made,
    /// The bytes that were consumed.
    pub bytes: usize,
}

/// A file: its bytes, and the text that they are; an empty text where they are none.
#[derive(Clone, Copy)]
pub struct Contents<'a> {
    pub bytes: &'a [u8],
    pub text: &'a str,
}

/// A case: a parser, and the words of its line.
pub struct Case {
    pub name: &'static str,
    /// What a list holds.
    pub items: &'static str,
    /// What a file has not, that isn't accepted.
    pub lacking: &'static str,
    /// One round.
    pub run: fn(Contents) -> Option<Round>,
}

impl Case {
    pub const fn new(
        name: &'static str,
        items: &'static str,
        lacking: &'static str,
        run: fn(Contents) -> Option<Round>,
    ) -> Case {
        Case {
            name,
            items,
            lacking,
            run,
        }
    }
}

/// The rounds of one case, and the line that tells of them.
pub fn bench(case: &Case, contents: Contents, rounds: u32) {
    let mut best = u128::MAX;
    let mut told = None;
    for _ in 0..rounds {
        let start = Instant::now();
        told = black_box((case.run)(black_box(contents)));
        best = best.min(start.elapsed().as_nanos());
    }
    let name = case.name;
    let Some(Round { made, bytes }) = told else {
        println!("{name}: {}", case.lacking);
        return;
    };
    let speed = (bytes as u128 * 1000).checked_div(best).unwrap_or(0);
    match made {
        Made::Items(count) => println!(
            "{name}: {count} {}, {bytes} bytes, {speed} MB/s",
            case.items
        ),
        Made::Value(value) => println!("{name}: value {value}, {bytes} bytes, {speed} MB/s"),
        Made::Slice => println!("{name}: {bytes} bytes, {speed} MB/s"),
    }
}
