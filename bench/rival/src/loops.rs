//! What some of the cases of nom_bench parse, by a loop by hand for each.

use crate::cases::{Case, Made, Round};

/// How far the first line is looked for.
const HEAD: usize = 256;

/// That many items, and what they leave; nothing where there are none.
fn told(count: usize, whole: &[u8], rest: &[u8]) -> Option<Round> {
    if count == 0 {
        return None;
    }
    Some(Round {
        made: Made::Items(count),
        bytes: whole.len() - rest.len(),
    })
}

/// Records of an `R`, a length and as many bytes, and a `.` after them.
#[inline(never)]
fn by_complete(bytes: &[u8]) -> Option<Round> {
    let mut list: Vec<&[u8]> = Vec::new();
    let mut rest = bytes;
    while let [b'R', length, after @ ..] = rest {
        let Some((data, next)) = after.split_at_checked(*length as usize) else {
            break;
        };
        list.push(data);
        rest = next;
    }
    let [b'.', rest @ ..] = rest else {
        return None;
    };
    Some(Round {
        made: Made::Items(list.len()),
        bytes: bytes.len() - rest.len(),
    })
}

#[inline(never)]
fn by_binary(bytes: &[u8]) -> Option<Round> {
    let mut list: Vec<u32> = Vec::new();
    let mut rest = bytes;
    while let [a, b, c, d, next @ ..] = rest {
        list.push(u32::from_be_bytes([*a, *b, *c, *d]));
        rest = next;
    }
    told(list.len(), bytes, rest)
}

/// A decimal number of 32 bits at the start, and what follows it.
#[inline(always)]
fn number(bytes: &[u8]) -> Option<(u32, &[u8])> {
    let mut value = 0u32;
    let mut rest = bytes;
    while let [digit @ b'0'..=b'9', next @ ..] = rest {
        value = value.checked_mul(10)?.checked_add((digit - b'0') as u32)?;
        rest = next;
    }
    (rest.len() < bytes.len()).then_some((value, rest))
}

#[inline(never)]
fn by_numbers(bytes: &[u8]) -> Option<Round> {
    let mut list: Vec<u32> = Vec::new();
    let mut rest = bytes;
    while let Some((value, [b',', next @ ..])) = number(rest) {
        list.push(value);
        rest = next;
    }
    told(list.len(), bytes, rest)
}

/// A record of TLS.
#[allow(dead_code)]
enum Record<'a> {
    /// Messages of a handshake, each with its type.
    Handshake(Vec<(u8, &'a [u8])>),
    /// Any other, or one that is sealed, with its type.
    Opaque(u8, &'a [u8]),
}

/// The messages that fill the body of a handshake; nothing where something else stands there.
#[inline(always)]
fn messages(body: &[u8]) -> Option<Vec<(u8, &[u8])>> {
    let mut list = Vec::new();
    let mut rest = body;
    while let [kind, a, b, c, after @ ..] = rest {
        let length = u32::from_be_bytes([0, *a, *b, *c]) as usize;
        let (data, next) = after.split_at_checked(length)?;
        list.push((*kind, data));
        rest = next;
    }
    (rest.is_empty() && !list.is_empty()).then_some(list)
}

#[inline(never)]
fn by_tls(bytes: &[u8]) -> Option<Round> {
    let mut list: Vec<Record> = Vec::new();
    let mut rest = bytes;
    while let [kind, _, _, a, b, after @ ..] = rest {
        let length = u16::from_be_bytes([*a, *b]) as usize;
        let Some((body, next)) = after.split_at_checked(length) else {
            break;
        };
        let handshake = if *kind == 0x16 { messages(body) } else { None };
        list.push(match handshake {
            Some(messages) => Record::Handshake(messages),
            None => Record::Opaque(*kind, body),
        });
        rest = next;
    }
    told(list.len(), bytes, rest)
}

/// Rows of fields, none of them empty, with a comma between two.
#[inline(never)]
fn by_rows(text: &str) -> Option<Round> {
    let head = &text.as_bytes()[..text.len().min(HEAD)];
    if !head.contains(&b',') || !head.contains(&b'\n') {
        return None;
    }
    let mut list: Vec<Vec<&str>> = Vec::new();
    let mut rest = text;
    while let Some((row, next)) = rest.split_once('\n') {
        let mut fields = Vec::new();
        for field in row.split(',') {
            fields.push(field);
        }
        if fields.iter().any(|field| field.is_empty()) {
            break;
        }
        list.push(fields);
        rest = next;
    }
    told(list.len(), text.as_bytes(), rest.as_bytes())
}

/// Lines up to a `\r\n`, each as its characters.
#[inline(never)]
fn by_lines(bytes: &[u8]) -> Option<Round> {
    if !bytes[..bytes.len().min(HEAD)].contains(&b'\r') {
        return None;
    }
    let mut list: Vec<Vec<char>> = Vec::new();
    let mut rest = bytes;
    while let Some(end) = rest.windows(2).position(|two| two == b"\r\n") {
        list.push(rest[..end].iter().map(|byte| *byte as char).collect());
        rest = &rest[end + 2..];
    }
    told(list.len(), bytes, rest)
}

pub const CASES: [Case; 6] = [
    Case::new("parse_complete", "records", "no records", |it| {
        by_complete(it.bytes)
    }),
    Case::new("be_u32", "numbers", "no numbers", |it| by_binary(it.bytes)),
    Case::new("u32", "numbers", "no numbers", |it| by_numbers(it.bytes)),
    Case::new("tls", "records", "no records", |it| by_tls(it.bytes)),
    Case::new("csv", "rows", "no rows", |it| by_rows(it.text)),
    Case::new("many_till", "lines", "no lines", |it| by_lines(it.bytes)),
];
