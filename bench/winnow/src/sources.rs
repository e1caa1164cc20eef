//! What stands in sources and logs: settings, keywords, strings, short numbers, lines of a log, tokens and identifiers.

use crate::{list, total, Case, Made, Round};
use winnow::ascii::{
    alpha1, alphanumeric1, dec_uint, digit1, hex_digit1, line_ending, multispace1, take_escaped,
    till_line_ending,
};
use winnow::combinator::{
    alt, cut_err, delimited, empty, preceded, repeat, separated, separated_pair, seq, terminated,
};
use winnow::prelude::*;
use winnow::stream::AsChar;
use winnow::token::{one_of, take_till, take_while};

/// A section: its name, and its settings, each a name and a value.
type Section<'i> = (&'i str, Vec<(&'i str, &'i str)>);

/// A line `[name]`.
fn header<'i>(input: &mut &'i str) -> PResult<&'i str> {
    let title = terminated(take_till(1.., (']', '\r', '\n')), (']', line_ending));
    preceded('[', cut_err(title)).parse_next(input)
}

/// A line `name=value`.
fn setting<'i>(input: &mut &'i str) -> PResult<(&'i str, &'i str)> {
    let value = terminated(take_till(0.., ('\r', '\n')), line_ending);
    let name = take_till(1.., ('[', '=', '\r', '\n'));
    (name, cut_err(preceded('=', value))).parse_next(input)
}

fn settings<'i>(input: &mut &'i str) -> PResult<Vec<Section<'i>>> {
    repeat(0.., (header, repeat(0.., setting))).parse_next(input)
}

#[inline(never)]
fn by_text(text: &str) -> Option<Round> {
    let sections = settings.parse(text).ok()?;
    if sections.is_empty() {
        return None;
    }
    Some(Round {
        made: Made::Items(sections.len()),
        bytes: text.len(),
    })
}

#[inline(never)]
fn by_keywords(text: &str) -> Option<Round> {
    let word = alt(("let", "fn", "if", "else", "while", "for", "return", "match"));
    list(terminated(word, ' '), text)
}

/// A string between quotes, with its escapes as they are.
fn string<'i>(input: &mut &'i str) -> PResult<&'i str> {
    let plain = take_till(1.., ('"', '\\'));
    let inside = take_escaped(plain, '\\', one_of(['"', '\\', 'n']));
    delimited('"', inside, '"').parse_next(input)
}

#[inline(never)]
fn by_escaped(text: &str) -> Option<Round> {
    list(terminated(string, '\n'), text)
}

fn strings<'i>(input: &mut &'i str) -> PResult<Vec<&'i str>> {
    terminated(separated(1.., string, ','), '\n').parse_next(input)
}

#[inline(never)]
fn by_quoted(text: &str) -> Option<Round> {
    list(strings, text)
}

fn hex_u8(input: &mut &str) -> PResult<u8> {
    take_while(2, AsChar::is_hex_digit)
        .try_map(|digits| u8::from_str_radix(digits, 16))
        .parse_next(input)
}

fn hex_u16(input: &mut &str) -> PResult<u16> {
    take_while(1..=4, AsChar::is_hex_digit)
        .try_map(|digits| u16::from_str_radix(digits, 16))
        .parse_next(input)
}

fn color(input: &mut &str) -> PResult<[i64; 3]> {
    let three = (hex_u8, hex_u8, hex_u8).map(|(red, green, blue)| [red, green, blue]);
    delimited('#', three, '\n')
        .map(|parts| parts.map(i64::from))
        .parse_next(input)
}

#[inline(never)]
fn by_colors(text: &str) -> Option<Round> {
    total(color, text)
}

fn mac(input: &mut &str) -> PResult<[i64; 6]> {
    let next = || preceded(':', hex_u8);
    let six = (hex_u8, next(), next(), next(), next(), next());
    terminated(six, '\n')
        .map(|(a, b, c, d, e, f)| [a, b, c, d, e, f].map(i64::from))
        .parse_next(input)
}

#[inline(never)]
fn by_macs(text: &str) -> Option<Round> {
    total(mac, text)
}

fn address(input: &mut &str) -> PResult<[i64; 8]> {
    let next = || preceded(':', hex_u16);
    let eight = (
        hex_u16,
        next(),
        next(),
        next(),
        next(),
        next(),
        next(),
        next(),
    );
    terminated(eight, '\n')
        .map(|(a, b, c, d, e, f, g, h)| [a, b, c, d, e, f, g, h].map(i64::from))
        .parse_next(input)
}

#[inline(never)]
fn by_ipv6(text: &str) -> Option<Round> {
    total(address, text)
}

/// How much a line of a log matters.
#[derive(Clone, Copy)]
enum Level {
    Error,
    Warning,
    Info,
    Debug,
}

/// A line of a log.
#[allow(dead_code)]
struct Entry<'i> {
    date: (u16, u8, u8),
    level: Level,
    origin: &'i str,
    message: &'i str,
}

fn level(input: &mut &str) -> PResult<Level> {
    alt((
        "ERROR".value(Level::Error),
        "WARN".value(Level::Warning),
        "INFO".value(Level::Info),
        "DEBUG".value(Level::Debug),
    ))
    .parse_next(input)
}

/// A number of one digit or two, which may begin with a zero.
fn short(input: &mut &str) -> PResult<u8> {
    digit1.parse_to().parse_next(input)
}

fn entry<'i>(input: &mut &'i str) -> PResult<Entry<'i>> {
    seq! {Entry {
        date: (terminated(dec_uint, '-'), terminated(short, '-'), short),
        _: ' ',
        level: level,
        _: ' ',
        origin: alphanumeric1,
        _: ": ",
        message: till_line_ending,
        _: line_ending,
    }}
    .parse_next(input)
}

#[inline(never)]
fn by_log(text: &str) -> Option<Round> {
    list(entry, text)
}

/// A token of a source.
#[derive(Clone, Copy)]
#[allow(dead_code)]
enum Token<'i> {
    Name(&'i str),
    Number(&'i str),
    Text(&'i str),
    Operator(&'i str),
    Space,
}

/// A letter or a `_`, and letters, digits and `_` after it.
fn identifier<'i>(input: &mut &'i str) -> PResult<&'i str> {
    let first = one_of(|c: char| c.is_ascii_alphabetic() || c == '_');
    let others = take_while(0.., |c: char| c.is_ascii_alphanumeric() || c == '_');
    (first, others).take().parse_next(input)
}

fn operator<'i>(input: &mut &'i str) -> PResult<&'i str> {
    let short = one_of([
        '+', '-', '*', '/', '=', '<', '>', '(', ')', '{', '}', ',', ';',
    ]);
    alt(("==", "!=", "<=", ">=", short.take())).parse_next(input)
}

fn token<'i>(input: &mut &'i str) -> PResult<Token<'i>> {
    alt((
        identifier.map(Token::Name),
        digit1.map(Token::Number),
        delimited('"', take_till(1.., '"'), '"').map(Token::Text),
        operator.map(Token::Operator),
        multispace1.value(Token::Space),
    ))
    .parse_next(input)
}

#[inline(never)]
fn by_tokens(text: &str) -> Option<Round> {
    list(token, text)
}

/// Five branches refuse: three at once, and two after a word.
fn statement<'i>(input: &mut &'i str) -> PResult<&'i str> {
    alt((
        delimited('(', alpha1, ')'),
        preceded("0x", hex_digit1),
        terminated(digit1, '%'),
        terminated(alpha1, '('),
        terminated(alpha1, " = "),
        terminated(alpha1, ';'),
    ))
    .parse_next(input)
}

#[inline(never)]
fn by_refusals(text: &str) -> Option<Round> {
    list(statement, text)
}

#[inline(never)]
fn by_identifiers(text: &str) -> Option<Round> {
    list(terminated(identifier, ' '), text)
}

/// A name and its value, as `level=info` and `msg="to \"be\""`.
fn logged<'i>(input: &mut &'i str) -> PResult<(&'i str, &'i str)> {
    let plain = take_till(1.., ('"', '\\'));
    let inside = alt((
        take_escaped(plain, '\\', one_of(['"', '\\', 'n'])).void(),
        empty,
    ));
    let quoted = delimited('"', inside.take(), '"');
    let bare = take_while(0.., |c| c > ' ' && c != '"' && c != '=');
    let name = take_while(1.., |c| c > ' ' && c != '"' && c != '=');
    separated_pair(name, '=', alt((quoted, bare))).parse_next(input)
}

fn logged_line<'i>(input: &mut &'i str) -> PResult<Vec<(&'i str, &'i str)>> {
    terminated(separated(1.., logged, ' '), '\n').parse_next(input)
}

#[inline(never)]
fn by_logged(text: &str) -> Option<Round> {
    list(logged_line, text)
}

pub const CASES: [Case; 12] = [
    Case::new("settings", "sections", "no sections", |it| by_text(it.text)),
    Case::new("keywords", "words", "no words", |it| by_keywords(it.text)),
    Case::new("escaped", "strings", "no strings", |it| by_escaped(it.text)),
    Case::new("quoted", "rows", "no rows", |it| by_quoted(it.text)),
    Case::new("colors", "values", "no colors", |it| by_colors(it.text)),
    Case::new("macs", "values", "no macs", |it| by_macs(it.text)),
    Case::new("ipv6", "values", "no addresses", |it| by_ipv6(it.text)),
    Case::new("log", "entries", "no entries", |it| by_log(it.text)),
    Case::new("tokens", "tokens", "no tokens", |it| by_tokens(it.text)),
    Case::new("refusals", "statements", "no statements", |it| {
        by_refusals(it.text)
    }),
    Case::new("identifiers", "names", "no names", |it| {
        by_identifiers(it.text)
    }),
    Case::new("logfmt", "lines", "no pairs", |it| by_logged(it.text)),
];
