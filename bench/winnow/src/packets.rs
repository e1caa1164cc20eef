//! What stands in bytes: numbers, bit fields, words, counted lists, heads of HTTP, and records of TLS.

use crate::{counted, list, Case, Round};
use winnow::ascii::{alpha1, dec_uint, line_ending};
use winnow::binary::bits;
use winnow::binary::{
    be_u16, be_u24, be_u32, be_u64, be_u8, length_and_then, length_repeat, length_take,
};
use winnow::combinator::{
    alt, delimited, eof, preceded, repeat, separated, separated_pair, terminated,
};
use winnow::error::ContextError;
use winnow::prelude::*;
use winnow::stream::AsChar;
use winnow::token::{take_till, take_while};

#[inline(never)]
fn by_numbers(bytes: &[u8]) -> Option<Round> {
    list(terminated(dec_uint::<_, u32, _>, b','), bytes)
}

#[inline(never)]
fn by_separated(mut bytes: &[u8]) -> Option<Round> {
    counted(separated(0.., dec_uint::<_, u32, _>, b','), &mut bytes)
}

#[inline(never)]
fn by_words(bytes: &[u8]) -> Option<Round> {
    let word = alt((
        "GET ", "PUT ", "POST ", "HEAD ", "PATCH ", "TRACE ", "DELETE ", "OPTIONS ",
    ));
    list(word, bytes)
}

#[inline(never)]
fn by_tuples(bytes: &[u8]) -> Option<Round> {
    list((b'<', be_u8, be_u8, b'>'), bytes)
}

#[inline(never)]
fn by_binary(bytes: &[u8]) -> Option<Round> {
    list(be_u32, bytes)
}

/// A pair of fields, of 4 and of 12 bits.
fn fields(input: &mut &[u8]) -> PResult<(u8, u16)> {
    bits::bits::<_, _, ContextError, _, _>((bits::take(4usize), bits::take(12usize)))
        .parse_next(input)
}

#[inline(never)]
fn by_fields(bytes: &[u8]) -> Option<Round> {
    list(fields, bytes)
}

#[inline(never)]
fn by_length_count(bytes: &[u8]) -> Option<Round> {
    let counted = length_repeat::<_, _, Vec<u16>, _, _, _, _>(be_u8, be_u16);
    list(counted, bytes)
}

/// Whether a byte may stand in the name of a header.
fn is_name(byte: u8) -> bool {
    matches!(
        byte,
        b'!' | b'#'..=b'\'' | b'*' | b'+' | b'-' | b'.' | b'0'..=b'9' | b'A'..=b'Z' | b'^'..=b'z' | b'|' | b'~'
    )
}

/// The method, the target and the version of a request.
type Request<'i> = (&'i [u8], &'i [u8], &'i [u8]);

fn request<'i>(input: &mut &'i [u8]) -> PResult<Request<'i>> {
    let target = delimited(b' ', take_till(1.., (b' ', b'\r', b'\n')), " HTTP/");
    let version = take_while(1.., (b'0'..=b'9', b'.'));
    (alpha1, target, terminated(version, line_ending)).parse_next(input)
}

fn header<'i>(input: &mut &'i [u8]) -> PResult<(&'i [u8], &'i [u8])> {
    let sides = separated_pair(
        take_while(1.., is_name),
        ": ",
        take_till(1.., (b'\r', b'\n')),
    );
    terminated(sides, line_ending).parse_next(input)
}

/// A request line, header lines and an empty line.
fn head<'i>(input: &mut &'i [u8]) -> PResult<(Request<'i>, Vec<(&'i [u8], &'i [u8])>)> {
    (request, terminated(repeat(1.., header), line_ending)).parse_next(input)
}

#[inline(never)]
fn by_heads(bytes: &[u8]) -> Option<Round> {
    list(head, bytes)
}

/// A record of TLS.
#[allow(dead_code)]
enum Record<'i> {
    /// Messages of a handshake, each with its type.
    Handshake(Vec<(u8, &'i [u8])>),
    /// Any other, or one that is sealed, with its type.
    Opaque(u8, &'i [u8]),
}

fn messages<'i>(input: &mut &'i [u8]) -> PResult<Vec<(u8, &'i [u8])>> {
    terminated(repeat(1.., (be_u8, length_take(be_u24))), eof).parse_next(input)
}

fn record<'i>(input: &mut &'i [u8]) -> PResult<Record<'i>> {
    let head = (b'\x16', be_u16);
    let handshake = preceded(head, length_and_then(be_u16, messages)).map(Record::Handshake);
    let opaque = (be_u8, be_u16, length_take(be_u16))
        .map(|(kind, _version, body)| Record::Opaque(kind, body));
    alt((handshake, opaque)).parse_next(input)
}

#[inline(never)]
fn by_tls(bytes: &[u8]) -> Option<Round> {
    list(record, bytes)
}

#[inline(never)]
fn by_headers(bytes: &[u8]) -> Option<Round> {
    list((be_u8, be_u16, be_u32, be_u16, be_u8, be_u64), bytes)
}

#[inline(never)]
fn by_eight(bytes: &[u8]) -> Option<Round> {
    let eight = (be_u8, be_u16, be_u32, be_u64, be_u8, be_u16, be_u32, be_u64);
    list(eight, bytes)
}

type Flags = (bool, bool, bool, bool, bool, bool, bool, bool);

/// The eight flags of a byte.
fn flags(input: &mut &[u8]) -> PResult<Flags> {
    use bits::bool;
    bits::bits::<_, _, ContextError, _, _>((bool, bool, bool, bool, bool, bool, bool, bool))
        .parse_next(input)
}

#[inline(never)]
fn by_flags(bytes: &[u8]) -> Option<Round> {
    list(flags, bytes)
}

#[inline(never)]
fn by_count(bytes: &[u8]) -> Option<Round> {
    list(repeat::<_, _, Vec<u16>, _, _>(16, be_u16), bytes)
}

#[inline(never)]
fn by_count_wide(bytes: &[u8]) -> Option<Round> {
    list(repeat::<_, _, Vec<u32>, _, _>(16, be_u32), bytes)
}

#[inline(never)]
fn by_length_count_wide(bytes: &[u8]) -> Option<Round> {
    let counted = length_repeat::<_, _, Vec<u32>, _, _, _, _>(be_u8, be_u32);
    list(counted, bytes)
}

#[inline(never)]
fn by_hex_pairs(bytes: &[u8]) -> Option<Round> {
    list(take_while(2, AsChar::is_hex_digit), bytes)
}

#[inline(never)]
fn by_values(bytes: &[u8]) -> Option<Round> {
    let marks = preceded(b'N', repeat::<_, _, usize, _, _>(0.., b'x'));
    list(length_and_then(be_u8, marks), bytes)
}

pub const CASES: [Case; 17] = [
    Case::new("u32", "numbers", "no numbers", |it| by_numbers(it.bytes)),
    Case::new("separated_list0", "numbers", "no numbers", |it| {
        by_separated(it.bytes)
    }),
    Case::new("alt", "words", "no words", |it| by_words(it.bytes)),
    Case::new("tuple", "tuples", "no tuples", |it| by_tuples(it.bytes)),
    Case::new("be_u32", "numbers", "no numbers", |it| by_binary(it.bytes)),
    Case::new("bits", "pairs of fields", "no fields", |it| {
        by_fields(it.bytes)
    }),
    Case::new("length_count", "lists", "no lists", |it| {
        by_length_count(it.bytes)
    }),
    Case::new("http", "heads", "no heads", |it| by_heads(it.bytes)),
    Case::new("headers", "headers", "no headers", |it| {
        by_headers(it.bytes)
    }),
    Case::new("eight numbers", "tuples", "no tuples", |it| {
        by_eight(it.bytes)
    }),
    Case::new("flags", "bytes of flags", "no flags", |it| {
        by_flags(it.bytes)
    }),
    Case::new("count", "lists", "no lists", |it| by_count(it.bytes)),
    Case::new("count of be_u32", "lists", "no lists", |it| {
        by_count_wide(it.bytes)
    }),
    Case::new("length_count of be_u32", "lists", "no lists", |it| {
        by_length_count_wide(it.bytes)
    }),
    Case::new(
        "take_while_m_n",
        "pairs of digits",
        "no pairs of digits",
        |it| by_hex_pairs(it.bytes),
    ),
    Case::new("length_value", "values", "no values", |it| {
        by_values(it.bytes)
    }),
    Case::new("tls", "records", "no records", |it| by_tls(it.bytes)),
];
