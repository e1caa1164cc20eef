//! Lists that are written by cookie-factory, as its users write it.

use crate::writes::{Fragment, Writers};
use cookie_factory::bytes::{be_u16, be_u32, be_u8};
use cookie_factory::combinator::{slice, string};
use cookie_factory::gen_simple;
use cookie_factory::multi::all;
use cookie_factory::sequence::tuple;

#[inline(never)]
fn by_write_records(list: &[&[u8]], out: &mut Vec<u8>) -> bool {
    let records = list
        .iter()
        .map(|data| tuple((string("R"), be_u8(data.len() as u8), slice(*data))));
    gen_simple(all(records), out).is_ok()
}

#[inline(never)]
fn by_write_numbers(list: &[u32], out: &mut Vec<u8>) -> bool {
    gen_simple(all(list.iter().map(|number| be_u32(*number))), out).is_ok()
}

#[inline(never)]
fn by_write_tls(list: &[Fragment], out: &mut Vec<u8>) -> bool {
    let records = list.iter().map(|&(kind, version, data)| {
        let length = be_u16(data.len() as u16);
        tuple((be_u8(kind), be_u16(version), length, slice(data)))
    });
    gen_simple(all(records), out).is_ok()
}

pub const WRITERS: Writers = Writers {
    records: by_write_records,
    numbers: by_write_numbers,
    tls: by_write_tls,
};
