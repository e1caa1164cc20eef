//! What stands in sources and logs: lines of a log, tokens, quoted lists, branches that refuse, and identifiers.

use crate::{list, Case, Round};
use nom::branch::alt;
use nom::bytes::complete::{escaped, is_not, tag};
use nom::character::complete::{
    alpha1, alphanumeric1, char, digit1, hex_digit1, line_ending, multispace1, not_line_ending,
    one_of, u16, u8,
};
use nom::combinator::{map, recognize, value};
use nom::multi::{many0, many0_count, separated_list1};
use nom::sequence::{delimited, pair, preceded, terminated};
use nom::{IResult, Parser};

/// How much a line of a log matters.
#[derive(Clone, Copy)]
enum Level {
    Error,
    Warning,
    Info,
    Debug,
}

/// A line of a log.
#[derive(Clone, Copy)]
#[allow(dead_code)]
struct Entry<'a> {
    date: (u16, u8, u8),
    level: Level,
    origin: &'a str,
    message: &'a str,
}

/// A token of a source.
#[derive(Clone, Copy)]
#[allow(dead_code)]
enum Token<'a> {
    Name(&'a str),
    Number(&'a str),
    Text(&'a str),
    Operator(&'a str),
    Space,
}

#[inline(never)]
fn by_log(text: &str) -> Option<Round> {
    let date = (terminated(u16, char('-')), terminated(u8, char('-')), u8);
    let level = alt((
        value(Level::Error, tag("ERROR")),
        value(Level::Warning, tag("WARN")),
        value(Level::Info, tag("INFO")),
        value(Level::Debug, tag("DEBUG")),
    ));
    let parts = (
        terminated(date, char(' ')),
        terminated(level, char(' ')),
        terminated(alphanumeric1, tag(": ")),
        terminated(not_line_ending, line_ending),
    );
    let entry = map(parts, |(date, level, origin, message)| Entry {
        date,
        level,
        origin,
        message,
    });
    list(many0(entry), text)
}

/// A letter or a `_`, and letters, digits and `_` after it.
fn identifier(input: &str) -> IResult<&str, &str> {
    let first = alt((alpha1, tag("_")));
    let others = many0_count(alt((alphanumeric1, tag("_"))));
    recognize(pair(first, others)).parse(input)
}

#[inline(never)]
fn by_tokens(text: &str) -> Option<Round> {
    let string = delimited(char('"'), is_not("\""), char('"'));
    let operator = alt((
        tag("=="),
        tag("!="),
        tag("<="),
        tag(">="),
        recognize(one_of("+-*/=<>(){},;")),
    ));
    let token = alt((
        map(identifier, Token::Name),
        map(digit1, Token::Number),
        map(string, Token::Text),
        map(operator, Token::Operator),
        value(Token::Space, multispace1),
    ));
    list(many0(token), text)
}

#[inline(never)]
fn by_quoted(text: &str) -> Option<Round> {
    let inside = escaped(is_not("\"\\"), '\\', one_of("\"\\n"));
    let string = delimited(char('"'), inside, char('"'));
    let row = separated_list1(char(','), string);
    list(many0(terminated(row, char('\n'))), text)
}

/// Five branches refuse: three at once, and two after a word.
#[inline(never)]
fn by_refusals(text: &str) -> Option<Round> {
    let statement = alt((
        delimited(char('('), alpha1, char(')')),
        preceded(tag("0x"), hex_digit1),
        terminated(digit1, char('%')),
        terminated(alpha1, char('(')),
        terminated(alpha1, tag(" = ")),
        terminated(alpha1, char(';')),
    ));
    list(many0(statement), text)
}

#[inline(never)]
fn by_identifiers(text: &str) -> Option<Round> {
    let first = alt((alpha1, tag("_")));
    let others = many0_count(alt((alphanumeric1, tag("_"))));
    let name = recognize(pair(first, others));
    list(many0(terminated(name, char(' '))), text)
}

pub const CASES: [Case; 5] = [
    Case::new("log", "entries", "no entries", |it| by_log(it.text)),
    Case::new("tokens", "tokens", "no tokens", |it| by_tokens(it.text)),
    Case::new("quoted", "rows", "no rows", |it| by_quoted(it.text)),
    Case::new("refusals", "statements", "no statements", |it| {
        by_refusals(it.text)
    }),
    Case::new("identifiers", "names", "no names", |it| {
        by_identifiers(it.text)
    }),
];
