//! Items a second: of a reader that gives that many bytes a read, by the loop that users of nom write, and of the whole at
//! once.
//!
//! The loop parses what it holds until a parser answers `Incomplete`, drops what the items took, and reads more. An item
//! that comes in many reads is parsed anew after each, so the time grows with the square of its length: a way is given up
//! where a round parses too many bytes again, and its line tells so in place of a speed.

use nom::branch::alt;
use nom::bytes::streaming::{is_not, tag};
use nom::combinator::{all_consuming, map};
use nom::multi::{length_data, length_value};
use nom::number::streaming::{be_u16, be_u32, be_u8};
use nom::sequence::{preceded, terminated};
use nom::{IResult, Parser};
use std::hint::black_box;
use std::io::Read;
use std::time::Instant;

/// How many bytes a round may parse again.
const PATIENCE: usize = 200_000_000;

/// Gives that many bytes a read at the most.
struct Pieces<'a> {
    left: &'a [u8],
    step: usize,
}

impl Read for Pieces<'_> {
    fn read(&mut self, room: &mut [u8]) -> std::io::Result<usize> {
        let count = self.step.min(room.len()).min(self.left.len());
        room[..count].copy_from_slice(&self.left[..count]);
        self.left = &self.left[count..];
        Ok(count)
    }
}

/// A message of nom_messages.
enum Message<'a> {
    Ping(u32),
    Text(&'a [u8]),
    Close,
}

impl Message<'_> {
    /// A number that rests on all of a message.
    fn weight(&self) -> u64 {
        match self {
            Message::Ping(number) => u64::from(*number),
            Message::Text(text) => text.len() as u64,
            Message::Close => 1,
        }
    }
}

/// How many items were found, and the sum of their weights.
#[derive(Clone, Copy, Default)]
struct Found {
    items: u64,
    sum: u64,
}

impl Found {
    fn add(&mut self, weight: u64) {
        self.items += 1;
        self.sum = self.sum.wrapping_add(weight);
    }
}

fn message(input: &[u8]) -> IResult<&[u8], Message<'_>> {
    let body = alt((
        map(preceded(tag(&b"\x01"[..]), be_u32), Message::Ping),
        map(
            preceded(tag(&b"\x02"[..]), length_data(be_u8)),
            Message::Text,
        ),
        map(tag(&b"\x03"[..]), |_| Message::Close),
    ));
    length_value(be_u16, all_consuming(body)).parse(input)
}

fn message_weight(input: &[u8]) -> IResult<&[u8], u64> {
    map(message, |message| message.weight()).parse(input)
}

fn record_weight(input: &[u8]) -> IResult<&[u8], u64> {
    let record = preceded(tag("R"), length_data(be_u8));
    map(record, |record: &[u8]| record.len() as u64).parse(input)
}

fn line_weight(input: &[u8]) -> IResult<&[u8], u64> {
    let line = terminated(is_not("\n"), tag("\n"));
    map(line, |line: &[u8]| line.len() as u64).parse(input)
}

/// The items of the whole, each parsed where the one before ended.
#[inline(always)]
fn whole(item: impl Fn(&[u8]) -> IResult<&[u8], u64>, bytes: &[u8]) -> Found {
    let mut found = Found::default();
    let mut rest = bytes;
    while let Ok((next, weight)) = item(rest) {
        found.add(weight);
        rest = next;
    }
    found
}

/// The items of a reader; none where too many bytes would be parsed again.
#[inline(always)]
fn streamed(item: impl Fn(&[u8]) -> IResult<&[u8], u64>, mut source: Pieces) -> Option<Found> {
    let mut found = Found::default();
    let mut held = Vec::new();
    let mut room = vec![0; source.step];
    let mut again = 0;
    while again < PATIENCE {
        let mut rest = &held[..];
        loop {
            match item(rest) {
                Ok((next, weight)) => {
                    found.add(weight);
                    rest = next;
                }
                Err(nom::Err::Incomplete(_)) => break,
                Err(_) => return Some(found),
            }
        }
        again += rest.len();
        let used = held.len() - rest.len();
        held.drain(..used);
        match source.read(&mut room) {
            Ok(count) if count > 0 => held.extend_from_slice(&room[..count]),
            _ => return Some(found),
        }
    }
    None
}

/// The ways of one grammar: its name, over the whole, and over a reader.
struct Items {
    name: &'static str,
    whole: fn(&[u8]) -> Found,
    streamed: fn(Pieces) -> Option<Found>,
}

#[inline(never)]
fn whole_messages(bytes: &[u8]) -> Found {
    whole(message_weight, bytes)
}

#[inline(never)]
fn streamed_messages(source: Pieces) -> Option<Found> {
    streamed(message_weight, source)
}

#[inline(never)]
fn whole_records(bytes: &[u8]) -> Found {
    whole(record_weight, bytes)
}

#[inline(never)]
fn streamed_records(source: Pieces) -> Option<Found> {
    streamed(record_weight, source)
}

#[inline(never)]
fn whole_lines(bytes: &[u8]) -> Found {
    whole(line_weight, bytes)
}

#[inline(never)]
fn streamed_lines(source: Pieces) -> Option<Found> {
    streamed(line_weight, source)
}

const ITEMS: [Items; 3] = [
    Items {
        name: "messages",
        whole: whole_messages,
        streamed: streamed_messages,
    },
    Items {
        name: "records",
        whole: whole_records,
        streamed: streamed_records,
    },
    Items {
        name: "lines",
        whole: whole_lines,
        streamed: streamed_lines,
    },
];

/// The rounds of one way, and the line that tells of them. It reads that many bytes at a time; 0 is the whole.
fn bench_reads(items: &Items, bytes: &[u8], step: usize, rounds: u32) {
    let way = match step {
        0 => "of the whole".to_string(),
        _ => format!("by reads of {step}"),
    };
    let name = items.name;
    let mut best = u128::MAX;
    let mut found = Found::default();
    for _ in 0..rounds {
        let start = Instant::now();
        let told = match step {
            0 => Some((items.whole)(black_box(bytes))),
            _ => (items.streamed)(black_box(Pieces { left: bytes, step })),
        };
        let Some(told) = told else {
            println!("{name} {way}: given up");
            return;
        };
        found = black_box(told);
        best = best.min(start.elapsed().as_nanos());
    }
    let Found { items, sum } = found;
    let speed = (u128::from(items) * 1_000_000_000)
        .checked_div(best)
        .unwrap_or(0);
    println!("{name} {way}: {items} items, sum {sum}, {speed} items/s");
}

/// The lines of all grammars.
pub fn bench(bytes: &[u8], rounds: u32) {
    for items in &ITEMS {
        for step in [0, 1, 64, 4096, 65536] {
            bench_reads(items, bytes, step, rounds);
        }
    }
}
