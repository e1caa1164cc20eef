//! JSON texts to trees, in which numbers and strings are slices of the text.

use nom::branch::alt;
use nom::bytes::complete::{escaped, tag, take_while1, take_while_m_n};
use nom::character::complete::{char, digit1, multispace0, one_of};
use nom::combinator::{all_consuming, map, opt, recognize};
use nom::multi::separated_list0;
use nom::sequence::{delimited, pair, preceded, separated_pair, terminated};
use nom::{IResult, Parser};

/// A value.
#[allow(dead_code)]
pub enum Json<'a> {
    Null,
    Bool(bool),
    Number(&'a str),
    String(&'a str),
    Array(Vec<Json<'a>>),
    Object(Vec<(&'a str, Json<'a>)>),
}

/// A character, and white space after it.
fn token<'a>(
    wanted: char,
) -> impl Parser<&'a str, Output = char, Error = nom::error::Error<&'a str>> {
    terminated(char(wanted), multispace0)
}

fn number(input: &str) -> IResult<&str, &str> {
    let whole = alt((tag("0"), digit1));
    let fraction = opt(pair(char('.'), digit1));
    let exponent = opt((one_of("eE"), opt(one_of("+-")), digit1));
    recognize((opt(char('-')), whole, fraction, exponent)).parse(input)
}

/// A string, with its escapes as they are, without its quotes.
fn string(input: &str) -> IResult<&str, &str> {
    let plain = take_while1(|c| c >= ' ' && c != '"' && c != '\\');
    let code = preceded(
        char('u'),
        take_while_m_n(4, 4, |c: char| c.is_ascii_hexdigit()),
    );
    let escape = alt((recognize(one_of("\"\\/bfnrt")), code));
    let inside = recognize(opt(escaped(plain, '\\', escape)));
    delimited(char('"'), inside, char('"')).parse(input)
}

fn array(input: &str) -> IResult<&str, Vec<Json<'_>>> {
    delimited(token('['), separated_list0(token(','), json), char(']')).parse(input)
}

fn object(input: &str) -> IResult<&str, Vec<(&str, Json<'_>)>> {
    let name = terminated(string, multispace0);
    let member = separated_pair(name, token(':'), json);
    delimited(token('{'), separated_list0(token(','), member), char('}')).parse(input)
}

/// A value, and white space after it.
fn json(input: &str) -> IResult<&str, Json<'_>> {
    let any = alt((
        map(tag("null"), |_| Json::Null),
        map(tag("true"), |_| Json::Bool(true)),
        map(tag("false"), |_| Json::Bool(false)),
        map(number, Json::Number),
        map(string, Json::String),
        map(array, Json::Array),
        map(object, Json::Object),
    ));
    terminated(any, multispace0).parse(input)
}

/// A whole text.
pub fn json_text(input: &str) -> IResult<&str, Json<'_>> {
    all_consuming(preceded(multispace0, json)).parse(input)
}
