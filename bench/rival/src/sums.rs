//! Sums of products of decimal numbers, as `12*3-4*5+6`, to their value modulo 2^64.

use crate::language::{binary_op, precedence, Assoc, Operation, Unary};
use crate::{Case, Made, Round};
use nom::branch::alt;
use nom::character::complete::{char, one_of, u32};
use nom::combinator::{fail, map};
use nom::multi::fold_many0;
use nom::sequence::{pair, preceded};
use nom::{IResult, Parser};

fn number(input: &[u8]) -> IResult<&[u8], i64> {
    map(u32, i64::from).parse(input)
}

/// A number, and what it is multiplied by.
fn product(input: &[u8]) -> IResult<&[u8], i64> {
    let (input, first) = number(input)?;
    fold_many0(
        preceded(char('*'), number),
        move || first,
        i64::wrapping_mul,
    )
    .parse(input)
}

/// A product, and what is added to it and subtracted.
fn sum(input: &[u8]) -> IResult<&[u8], i64> {
    let (input, first) = product(input)?;
    fold_many0(
        pair(one_of("+-"), product),
        move || first,
        |value, (operator, other)| match operator {
            '+' => value.wrapping_add(other),
            _ => value.wrapping_sub(other),
        },
    )
    .parse(input)
}

#[inline(never)]
fn by_folds(bytes: &[u8]) -> Option<Round> {
    let (rest, value) = sum(bytes).ok()?;
    Some(Round {
        made: Made::Value(value),
        bytes: bytes.len() - rest.len(),
    })
}

fn applied(operation: Operation<(), (), char, i64>) -> Result<i64, ()> {
    Ok(match operation {
        Operation::Prefix(_, x) | Operation::Postfix(x, _) => x,
        Operation::Binary(x, '*', y) => x.wrapping_mul(y),
        Operation::Binary(x, '+', y) => x.wrapping_add(y),
        Operation::Binary(x, _, y) => x.wrapping_sub(y),
    })
}

/// The same by operators with precedences.
fn expression(input: &[u8]) -> IResult<&[u8], i64> {
    let prefix = fail::<_, Unary<()>, _>();
    let postfix = fail::<_, Unary<()>, _>();
    let binary = alt((
        binary_op(1, Assoc::Left, char('*')),
        binary_op(2, Assoc::Left, one_of("+-")),
    ));
    precedence(prefix, postfix, binary, number, applied)(input)
}

#[inline(never)]
fn by_precedence(bytes: &[u8]) -> Option<Round> {
    let (rest, value) = expression(bytes).ok()?;
    Some(Round {
        made: Made::Value(value),
        bytes: bytes.len() - rest.len(),
    })
}

pub const CASES: [Case; 2] = [
    Case::new("precedence", "", "no expression", |it| {
        by_precedence(it.bytes)
    }),
    Case::new("precedence by folds", "", "no expression", |it| {
        by_folds(it.bytes)
    }),
];
