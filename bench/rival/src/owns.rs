//! Functions of one's own as parts, over bytes, texts and bits; lists and tuples of numbers; names of DNS; and what isn't
//! a `;`.

use crate::{list, Case, Made, Round};
use nom::bits::bits;
use nom::bits::complete::take;
use nom::bytes::complete::tag;
use nom::character::complete::{alpha1, anychar, char, u32};
use nom::combinator::{complete, not};
use nom::error::Error;
use nom::multi::{count, length_count, length_data, many0, many0_count, many_till};
use nom::number::complete::{be_u16, be_u32, be_u64, be_u8};
use nom::sequence::{preceded, separated_pair, terminated};
use nom::{IResult, Parser};

fn entry(input: &[u8]) -> IResult<&[u8], (&[u8], u32)> {
    separated_pair(alpha1, char('='), u32).parse(input)
}

fn text_entry(input: &str) -> IResult<&str, (&str, u32)> {
    separated_pair(alpha1, char('='), u32).parse(input)
}

fn fields(input: (&[u8], usize)) -> IResult<(&[u8], usize), (u8, u16)> {
    let (rest, small) = take(4usize)(input)?;
    let (rest, large) = take(12usize)(rest)?;
    Ok((rest, (small, large)))
}

#[inline(never)]
fn by_own_bytes(bytes: &[u8]) -> Option<Round> {
    list(many0(terminated(entry, char(';'))), bytes)
}

#[inline(never)]
fn by_own_text(text: &str) -> Option<Round> {
    list(many0(terminated(text_entry, char(';'))), text)
}

#[inline(never)]
fn by_own_bits(bytes: &[u8]) -> Option<Round> {
    list(
        many0(bits::<_, _, Error<(&[u8], usize)>, _, _>(fields)),
        bytes,
    )
}

#[inline(never)]
fn by_count_wide(bytes: &[u8]) -> Option<Round> {
    list(many0(count(be_u32, 16)), bytes)
}

#[inline(never)]
fn by_length_count_wide(bytes: &[u8]) -> Option<Round> {
    list(many0(length_count(be_u8, be_u32)), bytes)
}

#[inline(never)]
fn by_eight(bytes: &[u8]) -> Option<Round> {
    let eight = (be_u8, be_u16, be_u32, be_u64, be_u8, be_u16, be_u32, be_u64);
    list(many0(eight), bytes)
}

/// Names of DNS: labels after their lengths, up to an empty one.
#[inline(never)]
fn by_names(bytes: &[u8]) -> Option<Round> {
    // (`length_data` would ask for more at the end, since `parse` is the way of streams)
    let label = complete(length_data(be_u8));
    list(many0(many_till(label, tag(&b"\0"[..]))), bytes)
}

/// Characters up to a `;`.
#[inline(never)]
fn by_not(bytes: &[u8]) -> Option<Round> {
    let mut others = many0_count(preceded(not(char::<_, Error<&[u8]>>(';')), anychar));
    let (rest, count) = others.parse(bytes).ok()?;
    if count == 0 {
        return None;
    }
    Some(Round {
        made: Made::Items(count),
        bytes: bytes.len() - rest.len(),
    })
}

pub const CASES: [Case; 8] = [
    Case::new("func", "entries", "no entries", |it| by_own_bytes(it.bytes)),
    Case::new("func over a text", "entries", "no entries", |it| {
        by_own_text(it.text)
    }),
    Case::new("func of bits", "pairs of fields", "no fields", |it| {
        by_own_bits(it.bytes)
    }),
    Case::new("count of be_u32", "lists", "no lists", |it| {
        by_count_wide(it.bytes)
    }),
    Case::new("length_count of be_u32", "lists", "no lists", |it| {
        by_length_count_wide(it.bytes)
    }),
    Case::new("eight numbers", "tuples", "no tuples", |it| {
        by_eight(it.bytes)
    }),
    Case::new("dns", "names", "no names", |it| by_names(it.bytes)),
    Case::new("not", "characters", "no characters", |it| by_not(it.bytes)),
];
