//! Settings in sections, as nom_settings reads them.

use crate::{Case, Made, Round};
use nom::bytes::complete::{is_not, take_while};
use nom::character::complete::{char, line_ending};
use nom::combinator::{all_consuming, cut};
use nom::multi::many0;
use nom::sequence::{pair, preceded, terminated};
use nom::{Compare, IResult, Input, Parser};

/// A section: its name, and its settings in their order, each a name and a value.
type Section<I> = (I, Vec<(I, I)>);

/// A text, or one that knows its line.
pub trait Text: Input<Item = char> + Compare<&'static str> {}

impl<I: Input<Item = char> + Compare<&'static str>> Text for I {}

/// A line `[name]`.
fn header<I: Text>(input: I) -> IResult<I, I> {
    let title = terminated(is_not("]\r\n"), pair(char(']'), line_ending));
    preceded(char('['), cut(title)).parse(input)
}

/// A line `name=value`.
fn setting<I: Text>(input: I) -> IResult<I, (I, I)> {
    let value = terminated(take_while(|c| c != '\r' && c != '\n'), line_ending);
    pair(is_not("[=\r\n"), cut(preceded(char('='), value))).parse(input)
}

/// The sections of a whole text.
pub fn settings<I: Text>(input: I) -> IResult<I, Vec<Section<I>>> {
    all_consuming(many0(pair(header, many0(setting)))).parse(input)
}

#[inline(never)]
fn by_text(text: &str) -> Option<Round> {
    let (_, sections) = settings(text).ok()?;
    if sections.is_empty() {
        return None;
    }
    Some(Round {
        made: Made::Items(sections.len()),
        bytes: text.len(),
    })
}

pub const CASES: [Case; 1] = [Case::new("settings", "sections", "no sections", |it| {
    by_text(it.text)
})];
