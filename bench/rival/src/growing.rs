//! Records in an input that grows: each beginning is parsed from its start, until one is decided.

use crate::{Made, Round};
use nom::bytes::streaming::tag;
use nom::multi::{length_data, many0};
use nom::number::streaming::be_u8;
use nom::sequence::{preceded, terminated};
use nom::{IResult, Parser};

/// How many bytes of the end of a file grow.
const GROWING: usize = 100_001;

/// How many bytes it grows by.
const STEP: usize = 4_096;

fn records(input: &[u8]) -> IResult<&[u8], Vec<&[u8]>> {
    let record = preceded(tag("R"), length_data(be_u8));
    terminated(many0(record), tag(".")).parse(input)
}

/// What an answer on a beginning, or on the whole, tells.
fn told(beginning: &[u8], answer: IResult<&[u8], Vec<&[u8]>>) -> Option<Round> {
    let (rest, items) = answer.ok()?;
    Some(Round {
        made: Made::Items(items.len()),
        bytes: beginning.len() - rest.len(),
    })
}

#[inline(never)]
pub fn by_growing(bytes: &[u8]) -> Option<Round> {
    let whole = &bytes[bytes.len().saturating_sub(GROWING)..];
    let mut cut = STEP;
    while cut <= whole.len() {
        let beginning = &whole[..cut];
        match records(beginning) {
            Err(nom::Err::Incomplete(_)) => cut += STEP,
            answer => return told(beginning, answer),
        }
    }
    told(whole, records(whole))
}
