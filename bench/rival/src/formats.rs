//! Small formats, by functions of one's own: rows with quotes, cookies, versions, chunked bodies, and pairs of a log.

use crate::texts::is_rows;
use crate::{list, Case, Round};
use nom::branch::alt;
use nom::bytes::complete::{escaped, is_not, tag, take_while, take_while1};
use nom::character::complete::{char, line_ending, one_of, u64};
use nom::combinator::{complete, map, opt, recognize, value};
use nom::multi::{fold_many0, length_data, many0, many_till, separated_list1};
use nom::number::complete::hex_u32;
use nom::sequence::{delimited, preceded, separated_pair, terminated};
use nom::{IResult, Parser};

/// A field of a row: one between quotes is without them.
#[allow(dead_code)]
enum Field<'a> {
    Plain(&'a str),
    Quoted(String),
}

/// A text between quotes, in which `""` stands for a quote.
fn quoted(input: &str) -> IResult<&str, String> {
    let part = alt((is_not("\""), value("\"", tag("\"\""))));
    let inside = fold_many0(part, String::new, |mut text, more| {
        text.push_str(more);
        text
    });
    delimited(char('"'), inside, char('"')).parse(input)
}

/// A field, which may be empty.
fn field(input: &str) -> IResult<&str, Field<'_>> {
    let plain = take_while(|c| c != ',' && c != '\n');
    alt((map(quoted, Field::Quoted), map(plain, Field::Plain))).parse(input)
}

#[inline(never)]
fn by_quoted_rows(text: &str) -> Option<Round> {
    if !is_rows(text) {
        return None;
    }
    let row = separated_list1(char(','), field);
    list(many0(terminated(row, char('\n'))), text)
}

/// Whether a character may stand in the name of a cookie.
fn is_name(c: char) -> bool {
    c.is_ascii_alphanumeric() || matches!(c, '-' | '_' | '.' | '!' | '#'..='\'' | '*' | '+')
}

/// Whether a character may stand in the value of a cookie.
fn is_value(c: char) -> bool {
    matches!(c, '!' | '#'..='+' | '-'..=':' | '<'..='[' | ']'..='~')
}

/// A cookie, as `id=a3fWa`.
fn cookie(input: &str) -> IResult<&str, (&str, &str)> {
    separated_pair(take_while1(is_name), char('='), take_while(is_value)).parse(input)
}

#[inline(never)]
fn by_cookies(text: &str) -> Option<Round> {
    let cookies = separated_list1(tag("; "), cookie);
    list(many0(terminated(cookies, line_ending)), text)
}

/// A version, as `1.2.3-alpha.1+build`.
#[allow(dead_code)]
struct Version<'a> {
    numbers: (u64, u64, u64),
    before: Option<Vec<&'a str>>,
    build: Option<Vec<&'a str>>,
}

/// Words of letters, digits and `-`, with dots between them.
fn labels(input: &str) -> IResult<&str, Vec<&str>> {
    let label = take_while1(|c: char| c.is_ascii_alphanumeric() || c == '-');
    separated_list1(char('.'), label).parse(input)
}

fn version(input: &str) -> IResult<&str, Version<'_>> {
    let (input, numbers) =
        (u64, preceded(char('.'), u64), preceded(char('.'), u64)).parse(input)?;
    let (input, before) = opt(preceded(char('-'), labels)).parse(input)?;
    let (input, build) = opt(preceded(char('+'), labels)).parse(input)?;
    let version = Version {
        numbers,
        before,
        build,
    };
    Ok((input, version))
}

#[inline(never)]
fn by_versions(text: &str) -> Option<Round> {
    list(many0(terminated(version, char('\n'))), text)
}

/// A chunk of a body: its length in base 16, and its data.
fn chunk(input: &[u8]) -> IResult<&[u8], &[u8]> {
    // (`length_data` would ask for more at the end, since `parse` is the way of streams)
    let data = complete(length_data(terminated(hex_u32, tag("\r\n"))));
    terminated(data, tag("\r\n")).parse(input)
}

/// Bodies of HTTP, each in chunks up to an empty one.
#[inline(never)]
fn by_chunks(bytes: &[u8]) -> Option<Round> {
    list(many0(many_till(chunk, tag("0\r\n\r\n"))), bytes)
}

/// A name and its value, as `level=info` and `msg="to \"be\""`.
fn logged(input: &str) -> IResult<&str, (&str, &str)> {
    let inside = opt(escaped(is_not("\"\\"), '\\', one_of("\"\\n")));
    let quoted = delimited(char('"'), recognize(inside), char('"'));
    let bare = take_while(|c| c > ' ' && c != '"' && c != '=');
    let name = take_while1(|c| c > ' ' && c != '"' && c != '=');
    separated_pair(name, char('='), alt((quoted, bare))).parse(input)
}

#[inline(never)]
fn by_logged(text: &str) -> Option<Round> {
    let line = separated_list1(char(' '), logged);
    list(many0(terminated(line, char('\n'))), text)
}

pub const CASES: [Case; 5] = [
    Case::new("csv with quotes", "rows", "no rows", |it| {
        by_quoted_rows(it.text)
    }),
    Case::new("cookies", "lines", "no cookies", |it| by_cookies(it.text)),
    Case::new("semver", "versions", "no versions", |it| {
        by_versions(it.text)
    }),
    Case::new("chunked", "bodies", "no bodies", |it| by_chunks(it.bytes)),
    Case::new("logfmt", "lines", "no pairs", |it| by_logged(it.text)),
];
