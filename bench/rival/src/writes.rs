//! Lists that are read by nom, and written into a list of bytes that has room for them: what is measured, and its lines.
//! The time is that of the writing alone.

use nom::bytes::complete::tag;
use nom::multi::{length_data, many0};
use nom::number::complete::{be_u16, be_u32, be_u8};
use nom::sequence::preceded;
use nom::{IResult, Parser};
use std::hint::black_box;
use std::time::Instant;

/// A record of TLS: its kind, its version, and its fragment.
pub type Fragment<'a> = (u8, u16, &'a [u8]);

/// How the lists are written. Each answers whether it was.
pub struct Writers {
    pub records: fn(&[&[u8]], &mut Vec<u8>) -> bool,
    pub numbers: fn(&[u32], &mut Vec<u8>) -> bool,
    pub tls: fn(&[Fragment], &mut Vec<u8>) -> bool,
}

/// The rounds of one list, and the line that tells of them.
fn bench_list<'a, T>(
    name: &str,
    items: &str,
    bytes: &'a [u8],
    read: fn(&'a [u8]) -> IResult<&'a [u8], Vec<T>>,
    write: fn(&[T], &mut Vec<u8>) -> bool,
    rounds: u32,
) {
    let Ok((rest, list)) = read(bytes) else {
        println!("{name}: not read");
        return;
    };
    if list.is_empty() {
        println!("{name}: no {items}");
        return;
    }
    let used = bytes.len() - rest.len();
    let mut out = Vec::with_capacity(used);
    let mut best = u128::MAX;
    let mut written = false;
    for _ in 0..rounds {
        out.clear();
        let start = Instant::now();
        written = black_box(write(black_box(&list), black_box(&mut out)));
        best = best.min(start.elapsed().as_nanos());
    }
    if !written || out != bytes[..used] {
        println!("{name}: not written");
        return;
    }
    let count = list.len();
    let speed = (used as u128 * 1000).checked_div(best).unwrap_or(0);
    println!("{name}: {count} {items}, {used} bytes, {speed} MB/s");
}

fn read_records(bytes: &[u8]) -> IResult<&[u8], Vec<&[u8]>> {
    many0(preceded(tag("R"), length_data(be_u8))).parse_complete(bytes)
}

fn read_numbers(bytes: &[u8]) -> IResult<&[u8], Vec<u32>> {
    many0(be_u32).parse_complete(bytes)
}

fn read_tls(bytes: &[u8]) -> IResult<&[u8], Vec<Fragment<'_>>> {
    many0((be_u8, be_u16, length_data(be_u16))).parse_complete(bytes)
}

/// The lines of all lists.
pub fn bench(writers: &Writers, bytes: &[u8], rounds: u32) {
    let Writers {
        records,
        numbers,
        tls,
    } = *writers;
    bench_list(
        "write records",
        "records",
        bytes,
        read_records,
        records,
        rounds,
    );
    bench_list(
        "write be_u32",
        "numbers",
        bytes,
        read_numbers,
        numbers,
        rounds,
    );
    bench_list("write tls", "records", bytes, read_tls, tls, rounds);
}
