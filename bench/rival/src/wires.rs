//! What stands in bytes: numbers, digits, lines, permutations, values after a length, and heads of HTTP.

use crate::growing::by_growing;
use crate::{list, Case, Round};
use nom::branch::permutation;
use nom::bytes::complete::{is_not, tag, take_while1, take_while_m_n};
use nom::character::complete::{alpha1, anychar, char, line_ending};
use nom::multi::{length_value, many0, many0_count, many1, many_till};
use nom::number::complete::{be_u8, hex_u32, recognize_float};
use nom::sequence::{delimited, pair, preceded, separated_pair, terminated};
use nom::AsChar;

/// How far the end of the first line is looked for.
const HEAD: usize = 256;

#[inline(never)]
fn by_floats(bytes: &[u8]) -> Option<Round> {
    list(many0(terminated(recognize_float, char(','))), bytes)
}

#[inline(never)]
fn by_hex_numbers(bytes: &[u8]) -> Option<Round> {
    list(many0(terminated(hex_u32, char(','))), bytes)
}

#[inline(never)]
fn by_hex_pairs(bytes: &[u8]) -> Option<Round> {
    list(many0(take_while_m_n(2, 2, AsChar::is_hex_digit)), bytes)
}

#[inline(never)]
fn by_permutation(bytes: &[u8]) -> Option<Round> {
    list(many0(permutation((char('a'), char('b'), char('c')))), bytes)
}

#[inline(never)]
fn by_values(bytes: &[u8]) -> Option<Round> {
    let marks = preceded(tag("N"), many0_count(char('x')));
    list(many0(length_value(be_u8, marks)), bytes)
}

/// Whether a line ends with `\r\n`, not far from the start.
fn is_lines(bytes: &[u8]) -> bool {
    bytes[..bytes.len().min(HEAD)].contains(&b'\r')
}

#[inline(never)]
fn by_lines(bytes: &[u8]) -> Option<Round> {
    if !is_lines(bytes) {
        return None;
    }
    list(many0(many_till(anychar, tag("\r\n"))), bytes)
}

/// Whether a byte may stand in the name of a header.
fn is_name(byte: u8) -> bool {
    matches!(
        byte,
        b'!' | b'#'..=b'\'' | b'*' | b'+' | b'-' | b'.' | b'0'..=b'9' | b'A'..=b'Z' | b'^'..=b'z' | b'|' | b'~'
    )
}

/// A request line, header lines and an empty line, one head after another.
#[inline(never)]
fn by_heads(bytes: &[u8]) -> Option<Round> {
    let target = delimited(char(' '), is_not(" \r\n"), tag(" HTTP/"));
    let version = take_while1(|byte: u8| byte.is_ascii_digit() || byte == b'.');
    let request = (alpha1, target, terminated(version, line_ending));
    let sides = separated_pair(take_while1(is_name), tag(": "), is_not("\r\n"));
    let header = terminated(sides, line_ending);
    let head = pair(request, terminated(many1(header), line_ending));
    list(many0(head), bytes)
}

pub const CASES: [Case; 8] = [
    Case::new("recognize_float", "fractions", "no fractions", |it| {
        by_floats(it.bytes)
    }),
    Case::new("hex_u32", "hex numbers", "no hex numbers", |it| {
        by_hex_numbers(it.bytes)
    }),
    Case::new(
        "take_while_m_n",
        "pairs of digits",
        "no pairs of digits",
        |it| by_hex_pairs(it.bytes),
    ),
    Case::new("permutation", "permutations", "no permutations", |it| {
        by_permutation(it.bytes)
    }),
    Case::new("length_value", "values", "no values", |it| {
        by_values(it.bytes)
    }),
    Case::new("many_till", "lines", "no lines", |it| by_lines(it.bytes)),
    Case::new("http", "heads", "no heads", |it| by_heads(it.bytes)),
    Case::new("parse_growing", "records", "no records", |it| {
        by_growing(it.bytes)
    }),
];
