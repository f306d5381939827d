//! Meta pages and the hash.

use oracle::probe::meta_page::{self, Fields};

use super::tape::{Call, Record, Tape};
use crate::parts::meta::{fields, numbers, page};
use crate::rng::Rng;

pub fn record(rng: &mut Rng, tape: &mut Tape) {
    for _ in 0..60 {
        let length = rng.below(60);
        fnv1a(tape, &rng.bytes(length));
        let mut page = page(rng);
        page.truncate(112);
        let written = write(tape, &page, &fields(rng));
        read(tape, &written);
        let mut changed = written;
        changed[32 + rng.below(72)] ^= 1 << rng.below(8);
        read(tape, &changed);
    }
}

fn fnv1a(tape: &mut Tape, bytes: &[u8]) {
    let fields = [meta_page::fnv1a(bytes)];
    tape.add(&Record { call: Call::Fnv1a, block: bytes, fields: &fields, ..Record::default() });
}

/// Writes over the page, with zeros for the padding, which the crate leaves. On another type it panics; 01 has 3.
fn write(tape: &mut Tape, page: &[u8], f: &Fields) -> Vec<u8> {
    let all = numbers(f, 0);
    let written = meta_page::write(page, f).map(|(mut block, hash)| {
        block[44..48].fill(0);
        (block, hash)
    });
    let number = if written.is_some() { 0 } else { 3 };
    let (output, hash) = written.unwrap_or((page.to_vec(), 0));
    tape.add(&Record {
        call: Call::MetaWrite,
        number,
        arguments: &all[..9],
        room: page.len(),
        block: page,
        fields: &[hash],
        output: &output,
        ..Record::default()
    });
    output
}

/// Reads the page; where the crate calls the meta not valid 01 has 13, and where it panics 3.
fn read(tape: &mut Tape, page: &[u8]) {
    let (number, fields) = match meta_page::read(page) {
        Some((f, hash, true)) => (0, numbers(&f, hash)),
        Some((_, _, false)) => (13, [0; 10]),
        None => (3, [0; 10]),
    };
    tape.add(&Record { call: Call::MetaRead, number, block: page, fields: &fields, ..Record::default() });
}
