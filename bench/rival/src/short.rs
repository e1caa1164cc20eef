//! Short numbers in a count of digits: colours, hardware addresses, dates and addresses of IPv6, over texts.

use crate::{Case, Made, Round};
use nom::bytes::complete::take_while_m_n;
use nom::character::complete::char;
use nom::combinator::map_res;
use nom::error::Error;
use nom::multi::fold_many0;
use nom::sequence::{delimited, preceded, terminated};
use nom::{AsChar, IResult, Parser};

/// The sum that a parser gives; none where it takes nothing.
#[inline(always)]
fn total<'a>(
    mut parser: impl Parser<&'a str, Output = i64, Error = Error<&'a str>>,
    text: &'a str,
) -> Option<Round> {
    let (rest, value) = parser.parse(text).ok()?;
    if rest.len() == text.len() {
        return None;
    }
    Some(Round {
        made: Made::Value(value),
        bytes: text.len() - rest.len(),
    })
}

/// A number that comes before another.
fn joined(high: i64, low: i64) -> i64 {
    high.wrapping_mul(1_000_003).wrapping_add(low)
}

// As the page of nom shows it: the digits, and what the standard library makes of them.
fn hex_u8(input: &str) -> IResult<&str, u8> {
    map_res(take_while_m_n(2, 2, AsChar::is_hex_digit), |digits| {
        u8::from_str_radix(digits, 16)
    })
    .parse(input)
}

fn hex_u16(input: &str) -> IResult<&str, u16> {
    map_res(take_while_m_n(1, 4, AsChar::is_hex_digit), |digits| {
        u16::from_str_radix(digits, 16)
    })
    .parse(input)
}

fn two_digits(input: &str) -> IResult<&str, u8> {
    map_res(take_while_m_n(2, 2, AsChar::is_dec_digit), str::parse).parse(input)
}

fn four_digits(input: &str) -> IResult<&str, u16> {
    map_res(take_while_m_n(4, 4, AsChar::is_dec_digit), str::parse).parse(input)
}

#[inline(never)]
fn by_colors(text: &str) -> Option<Round> {
    let color = delimited(char('#'), (hex_u8, hex_u8, hex_u8), char('\n'));
    let colors = fold_many0(
        color,
        || 0i64,
        |sum, (red, green, blue)| {
            joined(joined(joined(sum, red as i64), green as i64), blue as i64)
        },
    );
    total(colors, text)
}

#[inline(never)]
fn by_macs(text: &str) -> Option<Round> {
    let six = (
        hex_u8,
        preceded(char(':'), hex_u8),
        preceded(char(':'), hex_u8),
        preceded(char(':'), hex_u8),
        preceded(char(':'), hex_u8),
        preceded(char(':'), hex_u8),
    );
    let macs = fold_many0(
        terminated(six, char('\n')),
        || 0i64,
        |sum, (a, b, c, d, e, f)| {
            let upper = joined(joined(joined(sum, a as i64), b as i64), c as i64);
            joined(joined(joined(upper, d as i64), e as i64), f as i64)
        },
    );
    total(macs, text)
}

#[inline(never)]
fn by_dates(text: &str) -> Option<Round> {
    let six = (
        four_digits,
        preceded(char('-'), two_digits),
        preceded(char('-'), two_digits),
        preceded(char('T'), two_digits),
        preceded(char(':'), two_digits),
        preceded(char(':'), two_digits),
    );
    let dates = fold_many0(
        terminated(six, (char('Z'), char('\n'))),
        || 0i64,
        |sum, (a, b, c, d, e, f)| {
            let day = joined(joined(joined(sum, a as i64), b as i64), c as i64);
            joined(joined(joined(day, d as i64), e as i64), f as i64)
        },
    );
    total(dates, text)
}

#[inline(never)]
fn by_ipv6(text: &str) -> Option<Round> {
    let eight = (
        hex_u16,
        preceded(char(':'), hex_u16),
        preceded(char(':'), hex_u16),
        preceded(char(':'), hex_u16),
        preceded(char(':'), hex_u16),
        preceded(char(':'), hex_u16),
        preceded(char(':'), hex_u16),
        preceded(char(':'), hex_u16),
    );
    let addresses = fold_many0(
        terminated(eight, char('\n')),
        || 0i64,
        |sum, (a, b, c, d, e, f, g, h)| {
            let upper = joined(
                joined(joined(joined(sum, a as i64), b as i64), c as i64),
                d as i64,
            );
            joined(
                joined(joined(joined(upper, e as i64), f as i64), g as i64),
                h as i64,
            )
        },
    );
    total(addresses, text)
}

pub const CASES: [Case; 4] = [
    Case::new("colors", "values", "no colors", |it| by_colors(it.text)),
    Case::new("macs", "values", "no macs", |it| by_macs(it.text)),
    Case::new("dates", "values", "no dates", |it| by_dates(it.text)),
    Case::new("ipv6", "values", "no addresses", |it| by_ipv6(it.text)),
];
