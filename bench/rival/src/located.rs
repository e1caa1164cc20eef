//! Inputs that know their line, as those of nom_locate, and assignments by functions over them.

use crate::settings::settings;
use crate::{Case, Made, Round};
use memchr::{memrchr, Memchr};
use nom::character::complete::{alpha1, char, multispace0, space0, u32};
use nom::multi::many0;
use nom::sequence::{delimited, terminated};
use nom::{AsBytes, Compare, CompareResult, IResult, Input, Needed, Offset, Parser};
use std::slice;

/// A part of a text, with the bytes before it and its line.
#[derive(Clone, Copy)]
struct LocatedSpan<T> {
    offset: usize,
    line: u32,
    fragment: T,
}

impl<T> LocatedSpan<T> {
    fn new(fragment: T) -> LocatedSpan<T> {
        LocatedSpan {
            offset: 0,
            line: 1,
            fragment,
        }
    }
}

impl<T: AsBytes> LocatedSpan<T> {
    /// The column in bytes, from 1 on: a search back to the start of the line.
    fn get_column(&self) -> usize {
        let here = self.fragment.as_bytes().as_ptr();
        // SAFETY: a span is made of the whole by `new`, and otherwise cut from another, so `offset` bytes lie before it.
        let before = unsafe { slice::from_raw_parts(here.sub(self.offset), self.offset) };
        match memrchr(b'\n', before) {
            None => self.offset + 1,
            Some(place) => self.offset - place,
        }
    }
}

impl<T: AsBytes + Input + Offset> LocatedSpan<T> {
    /// The span of another part of the fragment, which begins in it.
    fn slice_by(&self, fragment: T) -> Self {
        let length = self.fragment.offset(&fragment);
        if length == 0 {
            return LocatedSpan {
                offset: self.offset,
                line: self.line,
                fragment,
            };
        }
        let consumed = self.fragment.take(length);
        let lines = Memchr::new(b'\n', consumed.as_bytes()).count() as u32;
        LocatedSpan {
            offset: self.offset + length,
            line: self.line + lines,
            fragment,
        }
    }
}

impl<T: AsBytes + Input + Offset> Input for LocatedSpan<T> {
    type Item = T::Item;
    type Iter = T::Iter;
    type IterIndices = T::IterIndices;

    fn input_len(&self) -> usize {
        self.fragment.input_len()
    }

    fn take(&self, index: usize) -> Self {
        self.slice_by(self.fragment.take(index))
    }

    fn take_from(&self, index: usize) -> Self {
        self.slice_by(self.fragment.take_from(index))
    }

    fn take_split(&self, index: usize) -> (Self, Self) {
        let (rest, front) = self.fragment.take_split(index);
        (self.slice_by(rest), self.slice_by(front))
    }

    fn position<P: Fn(Self::Item) -> bool>(&self, predicate: P) -> Option<usize> {
        self.fragment.position(predicate)
    }

    fn iter_elements(&self) -> Self::Iter {
        self.fragment.iter_elements()
    }

    fn iter_indices(&self) -> Self::IterIndices {
        self.fragment.iter_indices()
    }

    fn slice_index(&self, count: usize) -> Result<usize, Needed> {
        self.fragment.slice_index(count)
    }
}

impl<T: Compare<U>, U> Compare<U> for LocatedSpan<T> {
    fn compare(&self, other: U) -> CompareResult {
        self.fragment.compare(other)
    }

    fn compare_no_case(&self, other: U) -> CompareResult {
        self.fragment.compare_no_case(other)
    }
}

type Source<'a> = LocatedSpan<&'a str>;

#[inline(never)]
fn by_located(text: &str) -> Option<Round> {
    let (_, sections) = settings(LocatedSpan::new(text)).ok()?;
    if sections.is_empty() {
        return None;
    }
    Some(Round {
        made: Made::Items(sections.len()),
        bytes: text.len(),
    })
}

/// A name that knows its place, and its number.
#[derive(Clone, Copy)]
struct Assigned<'a> {
    name: Source<'a>,
    number: u32,
}

/// An assignment and white space after it, as `width = 12;`.
fn assigned(input: Source<'_>) -> IResult<Source<'_>, Assigned<'_>> {
    let (input, name) = alpha1(input)?;
    let (input, _) = delimited(space0, char('='), space0).parse(input)?;
    let (input, number) = u32(input)?;
    let (rest, _) = terminated(char(';'), multispace0).parse(input)?;
    Ok((rest, Assigned { name, number }))
}

/// The lines, the columns and the numbers of assignments, added up.
#[inline(never)]
fn by_places(text: &str) -> Option<Round> {
    let (rest, list) = many0(assigned).parse(LocatedSpan::new(text)).ok()?;
    if list.is_empty() {
        return None;
    }
    let sum = list.iter().fold(0usize, |sum, it| {
        let place = (it.name.line as usize).wrapping_add(it.name.get_column());
        sum.wrapping_add(place).wrapping_add(it.number as usize)
    });
    Some(Round {
        made: Made::Items(sum),
        bytes: rest.offset,
    })
}

pub const CASES: [Case; 2] = [
    Case::new("settings, located", "sections", "no sections", |it| {
        by_located(it.text)
    }),
    Case::new("places", "in all", "no places", |it| by_places(it.text)),
];
