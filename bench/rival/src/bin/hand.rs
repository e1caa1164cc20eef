//! `hand FILE [ROUNDS]`: some of the lists that nom_bench parses, and those that it writes, by a loop by hand for each. It prints
//! the same lines. A length that doesn't fit is found, as nom_bench finds it.

#[path = "../cases.rs"]
mod cases;
#[path = "../loops.rs"]
mod loops;
#[path = "../writes.rs"]
mod writes;

use crate::cases::Contents;
use crate::writes::{Fragment, Writers};
use std::process::ExitCode;
use std::{env, fs, str};

#[inline(never)]
fn by_write_records(list: &[&[u8]], out: &mut Vec<u8>) -> bool {
    for data in list {
        let Ok(length) = u8::try_from(data.len()) else {
            return false;
        };
        out.extend_from_slice(b"R");
        out.extend_from_slice(&[length]);
        out.extend_from_slice(data);
    }
    true
}

#[inline(never)]
fn by_write_numbers(list: &[u32], out: &mut Vec<u8>) -> bool {
    for number in list {
        out.extend_from_slice(&number.to_be_bytes());
    }
    true
}

#[inline(never)]
fn by_write_tls(list: &[Fragment], out: &mut Vec<u8>) -> bool {
    for (kind, version, data) in list {
        let Ok(length) = u16::try_from(data.len()) else {
            return false;
        };
        out.extend_from_slice(&[*kind]);
        out.extend_from_slice(&version.to_be_bytes());
        out.extend_from_slice(&length.to_be_bytes());
        out.extend_from_slice(data);
    }
    true
}

const WRITERS: Writers = Writers {
    records: by_write_records,
    numbers: by_write_numbers,
    tls: by_write_tls,
};

fn main() -> ExitCode {
    let mut words = env::args().skip(1);
    let Some(file) = words.next() else {
        return ExitCode::SUCCESS;
    };
    let rounds = words.next().and_then(|word| word.parse().ok()).unwrap_or(7);
    let Ok(bytes) = fs::read(file) else {
        println!("file fault");
        return ExitCode::from(3);
    };
    let contents = Contents {
        bytes: &bytes,
        text: str::from_utf8(&bytes).unwrap_or(""),
    };
    for case in &loops::CASES {
        cases::bench(case, contents, rounds);
    }
    writes::bench(&WRITERS, &bytes, rounds);
    ExitCode::SUCCESS
}
