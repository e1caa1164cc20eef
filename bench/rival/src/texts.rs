//! What stands in texts: rows, settings, quoted strings, words of a language, and JSON.

use crate::json::{json_text, Json};
use crate::{list, Case, Made, Round};
use nom::branch::alt;
use nom::bytes::complete::{escaped, escaped_transform, is_not, tag};
use nom::character::complete::{char, line_ending, one_of};
use nom::combinator::value;
use nom::multi::{many0, separated_list1};
use nom::sequence::{delimited, pair, separated_pair, terminated};

/// How far the first line of rows is looked for.
const HEAD: usize = 256;

/// Whether a text begins with a line that has a comma.
pub fn is_rows(text: &str) -> bool {
    let bytes = text.as_bytes();
    let head = &bytes[..bytes.len().min(HEAD)];
    head.contains(&b',') && head.contains(&b'\n')
}

#[inline(never)]
fn by_rows(text: &str) -> Option<Round> {
    if !is_rows(text) {
        return None;
    }
    let row = separated_list1(char(','), is_not(",\n"));
    list(many0(terminated(row, char('\n'))), text)
}

#[inline(never)]
fn by_settings(text: &str) -> Option<Round> {
    let head = terminated(delimited(tag("["), is_not("]\r\n"), tag("]")), line_ending);
    let sides = separated_pair(is_not(" [=\r\n"), tag(" = "), is_not("\r\n"));
    let setting = terminated(sides, line_ending);
    list(many0(pair(head, many0(setting))), text)
}

#[inline(never)]
fn by_escaped(text: &str) -> Option<Round> {
    let inside = escaped(is_not("\"\\"), '\\', one_of("\"\\n"));
    let string = delimited(char('"'), inside, char('"'));
    list(many0(terminated(string, char('\n'))), text)
}

#[inline(never)]
fn by_transform(text: &str) -> Option<Round> {
    let meant = alt((
        value("\"", tag("\"")),
        value("\\", tag("\\")),
        value("\n", tag("n")),
    ));
    let inside = escaped_transform(is_not("\"\\"), '\\', meant);
    let string = delimited(char('"'), inside, char('"'));
    list(many0(terminated(string, char('\n'))), text)
}

#[inline(never)]
fn by_keywords(text: &str) -> Option<Round> {
    let word = alt((
        tag("let"),
        tag("fn"),
        tag("if"),
        tag("else"),
        tag("while"),
        tag("for"),
        tag("return"),
        tag("match"),
    ));
    list(many0(terminated(word, char(' '))), text)
}

/// How many values stand in one, right inside.
fn inner(json: &Json) -> usize {
    match json {
        Json::Array(values) => values.len(),
        Json::Object(members) => members.len(),
        _ => 0,
    }
}

#[inline(never)]
fn by_json(text: &str) -> Option<Round> {
    let (rest, json) = json_text(text).ok()?;
    Some(Round {
        made: Made::Items(inner(&json)),
        bytes: text.len() - rest.len(),
    })
}

pub const CASES: [Case; 6] = [
    Case::new("csv", "rows", "no rows", |it| by_rows(it.text)),
    Case::new("ini", "sections", "no sections", |it| by_settings(it.text)),
    Case::new("escaped", "strings", "no strings", |it| by_escaped(it.text)),
    Case::new("escaped_transform", "strings", "no strings", |it| {
        by_transform(it.text)
    }),
    Case::new("keywords", "words", "no words", |it| by_keywords(it.text)),
    Case::new("json", "values", "no values", |it| by_json(it.text)),
];
