//! What stands in packets: records of TLS, headers, flags, and numbers that are counted.

use crate::{list, Case, Round};
use nom::bits::bits;
use nom::branch::alt;
use nom::bytes::complete::tag;
use nom::combinator::{all_consuming, complete, map};
use nom::error::Error;
use nom::multi::{count, length_count, length_data, length_value, many0, many1};
use nom::number::complete::{be_u16, be_u24, be_u32, be_u64, be_u8};
use nom::sequence::{pair, preceded};
use nom::{IResult, Parser};

/// A record of TLS.
#[allow(dead_code)]
enum Record<'a> {
    /// Messages of a handshake, each with its type.
    Handshake(Vec<(u8, &'a [u8])>),
    /// Any other, or one that is sealed, with its type.
    Opaque(u8, &'a [u8]),
}

#[inline(never)]
fn by_tls(bytes: &[u8]) -> Option<Round> {
    let message = pair(be_u8, length_data(be_u24));
    let messages = length_value(be_u16, all_consuming(many1(message)));
    let head = pair(tag(&b"\x16"[..]), be_u16);
    let handshake = map(preceded(head, messages), Record::Handshake);
    // (`length_data` would ask for more at the end, since `parse` is the way of streams)
    let opaque = map(
        (be_u8, be_u16, complete(length_data(be_u16))),
        |(kind, _version, body)| Record::Opaque(kind, body),
    );
    list(many0(alt((handshake, opaque))), bytes)
}

#[inline(never)]
fn by_headers(bytes: &[u8]) -> Option<Round> {
    list(many0((be_u8, be_u16, be_u32, be_u16, be_u8, be_u64)), bytes)
}

type Flags = (bool, bool, bool, bool, bool, bool, bool, bool);

/// The eight flags of a byte.
fn flags(input: &[u8]) -> IResult<&[u8], Flags> {
    use nom::bits::complete::bool;
    let each = (bool, bool, bool, bool, bool, bool, bool, bool);
    bits::<_, _, Error<(&[u8], usize)>, _, _>(each).parse(input)
}

#[inline(never)]
fn by_flags(bytes: &[u8]) -> Option<Round> {
    list(many0(flags), bytes)
}

#[inline(never)]
fn by_count(bytes: &[u8]) -> Option<Round> {
    list(many0(count(be_u16, 16)), bytes)
}

#[inline(never)]
fn by_length_count(bytes: &[u8]) -> Option<Round> {
    list(many0(length_count(be_u8, be_u16)), bytes)
}

pub const CASES: [Case; 5] = [
    Case::new("tls", "records", "no records", |it| by_tls(it.bytes)),
    Case::new("headers", "headers", "no headers", |it| {
        by_headers(it.bytes)
    }),
    Case::new("flags", "bytes of flags", "no flags", |it| {
        by_flags(it.bytes)
    }),
    Case::new("count", "lists", "no lists", |it| by_count(it.bytes)),
    Case::new("length_count", "lists", "no lists", |it| {
        by_length_count(it.bytes)
    }),
];
