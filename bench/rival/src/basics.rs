//! Records in three ways, and runs, a search, numbers, a fold, words, tuples and bit fields.

use crate::{list, Case, Made, Round};
use nom::bits::bits;
use nom::branch::alt;
use nom::bytes::complete::{tag, take_until, take_while1};
use nom::character::complete::{alphanumeric1, char, u32};
use nom::error::Error;
use nom::multi::{fold_many0, length_data, many0, separated_list0};
use nom::number::complete::{be_u32, be_u8};
use nom::sequence::{preceded, terminated};
use nom::{Check, IResult, OutputM, Parser, Streaming};

/// What was consumed, with the items of a list.
#[inline(always)]
fn records(bytes: &[u8], answer: IResult<&[u8], Vec<&[u8]>>) -> Option<Round> {
    let (rest, items) = answer.ok()?;
    Some(Round {
        made: Made::Items(items.len()),
        bytes: bytes.len() - rest.len(),
    })
}

#[inline(never)]
fn by_streaming(bytes: &[u8]) -> Option<Round> {
    use nom::bytes::streaming::tag;
    use nom::number::streaming::be_u8;
    let record = preceded(tag("R"), length_data(be_u8));
    records(bytes, terminated(many0(record), tag(".")).parse(bytes))
}

#[inline(never)]
fn by_complete(bytes: &[u8]) -> Option<Round> {
    let record = preceded(tag("R"), length_data(be_u8));
    records(bytes, terminated(many0(record), tag(".")).parse(bytes))
}

#[inline(never)]
fn by_check(bytes: &[u8]) -> Option<Round> {
    use nom::bytes::tag;
    use nom::number::be_u8;
    let record = preceded(tag("R"), length_data(be_u8()));
    let mut records = terminated(many0(record), tag::<_, _, Error<&[u8]>>("."));
    let (rest, ()) = records
        .process::<OutputM<Check, Check, Streaming>>(bytes)
        .ok()?;
    Some(Round {
        made: Made::Items(0),
        bytes: bytes.len() - rest.len(),
    })
}

/// What a parser of one slice consumes.
#[inline(always)]
fn slice<'a>(
    mut parser: impl Parser<&'a [u8], Output = &'a [u8], Error = Error<&'a [u8]>>,
    bytes: &'a [u8],
) -> Option<Round> {
    let (rest, _) = parser.parse(bytes).ok()?;
    Some(Round {
        made: Made::Slice,
        bytes: bytes.len() - rest.len(),
    })
}

#[inline(never)]
fn by_take_while1(bytes: &[u8]) -> Option<Round> {
    slice(take_while1(|byte| byte != b';'), bytes)
}

#[inline(never)]
fn by_take_until(bytes: &[u8]) -> Option<Round> {
    slice(take_until(";;"), bytes)
}

#[inline(never)]
fn by_alphanumeric1(bytes: &[u8]) -> Option<Round> {
    slice(alphanumeric1, bytes)
}

#[inline(never)]
fn by_numbers(bytes: &[u8]) -> Option<Round> {
    list(many0(terminated(u32, char(','))), bytes)
}

#[inline(never)]
fn by_separated(bytes: &[u8]) -> Option<Round> {
    list(separated_list0(char(','), u32), bytes)
}

#[inline(never)]
fn by_fold(bytes: &[u8]) -> Option<Round> {
    if bytes.is_empty() {
        return None;
    }
    let mut sum = fold_many0(
        be_u8,
        || 0,
        |sum: i64, byte| sum.wrapping_add(i64::from(byte)),
    );
    let answer: IResult<&[u8], i64> = sum.parse(bytes);
    let (rest, sum) = answer.ok()?;
    Some(Round {
        made: Made::Value(sum),
        bytes: bytes.len() - rest.len(),
    })
}

#[inline(never)]
fn by_words(bytes: &[u8]) -> Option<Round> {
    let word = alt((
        tag("GET "),
        tag("PUT "),
        tag("POST "),
        tag("HEAD "),
        tag("PATCH "),
        tag("TRACE "),
        tag("DELETE "),
        tag("OPTIONS "),
    ));
    list(many0(word), bytes)
}

#[inline(never)]
fn by_tuples(bytes: &[u8]) -> Option<Round> {
    list(many0((char('<'), be_u8, be_u8, char('>'))), bytes)
}

#[inline(never)]
fn by_binary(bytes: &[u8]) -> Option<Round> {
    list(many0(be_u32), bytes)
}

/// A pair of fields, of 4 and of 12 bits.
fn fields(input: &[u8]) -> IResult<&[u8], (u8, u16)> {
    use nom::bits::complete::take;
    bits::<_, _, Error<(&[u8], usize)>, _, _>((take(4usize), take(12usize))).parse(input)
}

#[inline(never)]
fn by_fields(bytes: &[u8]) -> Option<Round> {
    list(many0(fields), bytes)
}

pub const CASES: [Case; 13] = [
    Case::new("parse", "records", "no records", |it| {
        by_streaming(it.bytes)
    }),
    Case::new("parse_complete", "records", "no records", |it| {
        by_complete(it.bytes)
    }),
    Case::new("check", "records", "no records", |it| by_check(it.bytes)),
    Case::new("take_while1", "", "no run", |it| by_take_while1(it.bytes)),
    Case::new("take_until", "", "no needle", |it| by_take_until(it.bytes)),
    Case::new("alphanumeric1", "", "no word", |it| {
        by_alphanumeric1(it.bytes)
    }),
    Case::new("u32", "numbers", "no numbers", |it| by_numbers(it.bytes)),
    Case::new("separated_list0", "numbers", "no numbers", |it| {
        by_separated(it.bytes)
    }),
    Case::new("fold_many0", "", "no bytes", |it| by_fold(it.bytes)),
    Case::new("alt", "words", "no words", |it| by_words(it.bytes)),
    Case::new("tuple", "tuples", "no tuples", |it| by_tuples(it.bytes)),
    Case::new("be_u32", "numbers", "no numbers", |it| by_binary(it.bytes)),
    Case::new("bits", "pairs of fields", "no fields", |it| {
        by_fields(it.bytes)
    }),
];
