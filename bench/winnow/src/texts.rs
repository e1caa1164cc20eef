//! What stands in texts: rows, settings, dates and JSON.

use crate::{list, total, Case, Made, Round};
use winnow::ascii::{digit1, line_ending, multispace0};
use winnow::combinator::{
    alt, delimited, dispatch, fail, opt, peek, preceded, repeat, separated, separated_pair,
    terminated,
};
use winnow::error::ContextError;
use winnow::prelude::*;
use winnow::token::{any, one_of, take_till, take_while};

/// How far the first line of rows is looked for.
const HEAD: usize = 256;

/// Whether a text begins with a line that has a comma.
pub fn is_rows(text: &str) -> bool {
    let bytes = text.as_bytes();
    let head = &bytes[..bytes.len().min(HEAD)];
    head.contains(&b',') && head.contains(&b'\n')
}

fn row<'i>(input: &mut &'i str) -> PResult<Vec<&'i str>> {
    let fields = separated(1.., take_till(1.., (',', '\n')), ',');
    terminated(fields, '\n').parse_next(input)
}

#[inline(never)]
fn by_rows(text: &str) -> Option<Round> {
    if !is_rows(text) {
        return None;
    }
    list(row, text)
}

/// A line `[name]`.
fn title<'i>(input: &mut &'i str) -> PResult<&'i str> {
    let name = delimited('[', take_till(1.., (']', '\r', '\n')), ']');
    terminated(name, line_ending).parse_next(input)
}

/// A line `name = value`.
fn setting<'i>(input: &mut &'i str) -> PResult<(&'i str, &'i str)> {
    let sides = separated_pair(
        take_till(1.., (' ', '[', '=', '\r', '\n')),
        " = ",
        take_till(1.., ('\r', '\n')),
    );
    terminated(sides, line_ending).parse_next(input)
}

#[inline(never)]
fn by_settings(text: &str) -> Option<Round> {
    let settings = repeat::<_, _, Vec<(&str, &str)>, _, _>(0.., setting);
    list((title, settings), text)
}

fn two_digits(input: &mut &str) -> PResult<u8> {
    take_while(2, '0'..='9')
        .try_map(str::parse)
        .parse_next(input)
}

fn four_digits(input: &mut &str) -> PResult<u16> {
    take_while(4, '0'..='9')
        .try_map(str::parse)
        .parse_next(input)
}

fn moment(input: &mut &str) -> PResult<[i64; 6]> {
    let six = (
        four_digits,
        preceded('-', two_digits),
        preceded('-', two_digits),
        preceded('T', two_digits),
        preceded(':', two_digits),
        preceded(':', two_digits),
    );
    terminated(six, ('Z', '\n'))
        .map(|(a, b, c, d, e, f)| [a as i64, b as i64, c as i64, d as i64, e as i64, f as i64])
        .parse_next(input)
}

#[inline(never)]
fn by_dates(text: &str) -> Option<Round> {
    total(moment, text)
}

/// A value of JSON, in which numbers and strings are slices of the text.
#[allow(dead_code)]
#[derive(Clone)]
enum Json<'i> {
    Null,
    Bool(bool),
    Number(&'i str),
    String(&'i str),
    Array(Vec<Json<'i>>),
    Object(Vec<(&'i str, Json<'i>)>),
}

fn number<'i>(input: &mut &'i str) -> PResult<&'i str> {
    let whole = alt(("0", digit1));
    let fraction = opt(('.', digit1));
    let exponent = opt((one_of(['e', 'E']), opt(one_of(['+', '-'])), digit1));
    (opt('-'), whole, fraction, exponent)
        .take()
        .parse_next(input)
}

/// A string, with its escapes as they are, without its quotes.
fn string<'i>(input: &mut &'i str) -> PResult<&'i str> {
    let plain = take_while(1.., |c| c >= ' ' && c != '"' && c != '\\');
    let code = preceded('u', take_while(4, |c: char| c.is_ascii_hexdigit()));
    let short = one_of(['"', '\\', '/', 'b', 'f', 'n', 'r', 't']).take();
    let part = alt((plain, preceded('\\', alt((short, code)))));
    let inside = repeat::<_, _, (), _, _>(0.., part).take();
    delimited('"', inside, '"').parse_next(input)
}

/// A character, and white space after it.
fn token<'i>(wanted: char) -> impl Parser<&'i str, char, ContextError> {
    terminated(wanted, multispace0)
}

fn array<'i>(input: &mut &'i str) -> PResult<Vec<Json<'i>>> {
    delimited(token('['), separated(0.., json, token(',')), ']').parse_next(input)
}

fn object<'i>(input: &mut &'i str) -> PResult<Vec<(&'i str, Json<'i>)>> {
    let member = separated_pair(terminated(string, multispace0), token(':'), json);
    delimited(token('{'), separated(0.., member, token(',')), '}').parse_next(input)
}

/// A value, and white space after it.
fn json<'i>(input: &mut &'i str) -> PResult<Json<'i>> {
    let value = dispatch! {peek(any);
        'n' => "null".value(Json::Null),
        't' => "true".value(Json::Bool(true)),
        'f' => "false".value(Json::Bool(false)),
        '-' | '0'..='9' => number.map(Json::Number),
        '"' => string.map(Json::String),
        '[' => array.map(Json::Array),
        '{' => object.map(Json::Object),
        _ => fail,
    };
    terminated(value, multispace0).parse_next(input)
}

/// How many values stand in one, right inside.
fn inner(json: &Json) -> usize {
    match json {
        Json::Array(values) => values.len(),
        Json::Object(members) => members.len(),
        _ => 0,
    }
}

#[inline(never)]
fn by_json(text: &str) -> Option<Round> {
    let json = preceded(multispace0, json).parse(text).ok()?;
    Some(Round {
        made: Made::Items(inner(&json)),
        bytes: text.len(),
    })
}

pub const CASES: [Case; 4] = [
    Case::new("csv", "rows", "no rows", |it| by_rows(it.text)),
    Case::new("ini", "sections", "no sections", |it| by_settings(it.text)),
    Case::new("dates", "values", "no dates", |it| by_dates(it.text)),
    Case::new("json", "values", "no values", |it| by_json(it.text)),
];
