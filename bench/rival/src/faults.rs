//! Errors for people: of statements in six branches. The grammar is generic over its error. It runs by `VerboseError`; and
//! by `Error` first, and by `VerboseError` on refused input alone.

use crate::language::VerboseError;
use crate::{Case, Made, Round};
use nom::branch::alt;
use nom::bytes::complete::tag;
use nom::character::complete::{alpha1, char, digit1, hex_digit1};
use nom::combinator::eof;
use nom::error::{context, ContextError, Error, ParseError};
use nom::multi::many_till;
use nom::sequence::{delimited, preceded, terminated};
use nom::{IResult, Parser};

/// An error that takes names.
trait Fault<'a>: ParseError<&'a str> + ContextError<&'a str> {}

impl<'a, E: ParseError<&'a str> + ContextError<&'a str>> Fault<'a> for E {}

/// A statement: the word in it.
fn statement<'a, E: Fault<'a>>(input: &'a str) -> IResult<&'a str, &'a str, E> {
    alt((
        context("a group", delimited(char('('), alpha1, char(')'))),
        context("a number", preceded(tag("0x"), hex_digit1)),
        context("a share", terminated(digit1, char('%'))),
        context("a call", terminated(alpha1, char('('))),
        context("an assignment", terminated(alpha1, tag(" = "))),
        context("a command", terminated(alpha1, char(';'))),
    ))
    .parse(input)
}

/// The words of all statements.
fn statements<'a, E: Fault<'a>>(input: &'a str) -> IResult<&'a str, Vec<&'a str>, E> {
    let (rest, (words, _)) = many_till(statement, eof).parse(input)?;
    Ok((rest, words))
}

/// What is told of a whole text of statements; nothing of an empty one.
fn told(words: Vec<&str>, text: &str) -> Option<Round> {
    if words.is_empty() {
        return None;
    }
    Some(Round {
        made: Made::Items(words.len()),
        bytes: text.len(),
    })
}

#[inline(never)]
fn by_reports(text: &str) -> Option<Round> {
    let (_, words) = statements::<VerboseError<&str>>(text).ok()?;
    told(words, text)
}

#[inline(never)]
fn by_late_reports(text: &str) -> Option<Round> {
    let (_, words) = match statements::<Error<&str>>(text) {
        Ok(accepted) => accepted,
        Err(_) => statements::<VerboseError<&str>>(text).ok()?,
    };
    told(words, text)
}

pub const CASES: [Case; 2] = [
    Case::new("errors", "statements", "no statements", |it| {
        by_reports(it.text)
    }),
    Case::new("errors at refusals", "statements", "no statements", |it| {
        by_late_reports(it.text)
    }),
];
