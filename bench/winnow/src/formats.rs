//! Small formats: rows with quotes, cookies and versions.

use crate::texts::is_rows;
use crate::{list, Case, Round};
use winnow::ascii::{dec_uint, line_ending};
use winnow::combinator::{
    alt, delimited, opt, preceded, repeat, separated, separated_pair, seq, terminated,
};
use winnow::prelude::*;
use winnow::token::{take_till, take_while};

/// A field of a row: one between quotes is without them.
#[allow(dead_code)]
enum Field<'i> {
    Plain(&'i str),
    Quoted(String),
}

/// A text between quotes, in which `""` stands for a quote.
fn quoted(input: &mut &str) -> PResult<String> {
    let part = alt((take_till(1.., '"'), "\"\"".value("\"")));
    let inside = repeat(0.., part).fold(String::new, |mut text, more| {
        text.push_str(more);
        text
    });
    delimited('"', inside, '"').parse_next(input)
}

/// A field, which may be empty.
fn field<'i>(input: &mut &'i str) -> PResult<Field<'i>> {
    let plain = take_till(0.., (',', '\n'));
    alt((quoted.map(Field::Quoted), plain.map(Field::Plain))).parse_next(input)
}

fn row<'i>(input: &mut &'i str) -> PResult<Vec<Field<'i>>> {
    terminated(separated(1.., field, ','), '\n').parse_next(input)
}

#[inline(never)]
fn by_quoted_rows(text: &str) -> Option<Round> {
    if !is_rows(text) {
        return None;
    }
    list(row, text)
}

/// Whether a character may stand in the name of a cookie.
fn is_name(c: char) -> bool {
    c.is_ascii_alphanumeric() || matches!(c, '-' | '_' | '.' | '!' | '#'..='\'' | '*' | '+')
}

/// Whether a character may stand in the value of a cookie.
fn is_value(c: char) -> bool {
    matches!(c, '!' | '#'..='+' | '-'..=':' | '<'..='[' | ']'..='~')
}

/// A cookie, as `id=a3fWa`.
fn cookie<'i>(input: &mut &'i str) -> PResult<(&'i str, &'i str)> {
    separated_pair(take_while(1.., is_name), '=', take_while(0.., is_value)).parse_next(input)
}

fn cookies<'i>(input: &mut &'i str) -> PResult<Vec<(&'i str, &'i str)>> {
    terminated(separated(1.., cookie, "; "), line_ending).parse_next(input)
}

#[inline(never)]
fn by_cookies(text: &str) -> Option<Round> {
    list(cookies, text)
}

/// A version, as `1.2.3-alpha.1+build`.
#[allow(dead_code)]
struct Version<'i> {
    numbers: (u64, u64, u64),
    before: Option<Vec<&'i str>>,
    build: Option<Vec<&'i str>>,
}

/// Words of letters, digits and `-`, with dots between them.
fn labels<'i>(input: &mut &'i str) -> PResult<Vec<&'i str>> {
    let label = take_while(1.., |c: char| c.is_ascii_alphanumeric() || c == '-');
    separated(1.., label, '.').parse_next(input)
}

fn version<'i>(input: &mut &'i str) -> PResult<Version<'i>> {
    seq! {Version {
        numbers: (dec_uint, preceded('.', dec_uint), preceded('.', dec_uint)),
        before: opt(preceded('-', labels)),
        build: opt(preceded('+', labels)),
    }}
    .parse_next(input)
}

#[inline(never)]
fn by_versions(text: &str) -> Option<Round> {
    list(terminated(version, '\n'), text)
}

pub const CASES: [Case; 3] = [
    Case::new("csv with quotes", "rows", "no rows", |it| {
        by_quoted_rows(it.text)
    }),
    Case::new("cookies", "lines", "no cookies", |it| by_cookies(it.text)),
    Case::new("semver", "versions", "no versions", |it| {
        by_versions(it.text)
    }),
];
