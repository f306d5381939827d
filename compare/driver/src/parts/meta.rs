//! The meta of a page and its hash, beside the crate's.

use oracle::probe::meta_page::{self, Fields};
use subject::{ask, MetaFields};

use super::Run;
use crate::rng::Rng;

/// 01's offsets of the ten fields in the meta, and its size.
const LAYOUT: [usize; 11] = [0, 4, 8, 16, 24, 32, 40, 48, 56, 64, 72];

/// Published FNV-1a hashes, 64-bit.
const VECTORS: [(&[u8], u64); 5] = [
    (b"", 0xCBF2_9CE4_8422_2325),
    (b"a", 0xAF63_DC4C_8601_EC8C),
    (b"b", 0xAF63_DF4C_8601_F1A5),
    (b"foobar", 0x8594_4171_F739_67E8),
    (b"chongo was here!\n", 0x4681_0940_EFF5_F915),
];

pub fn run(run: &mut Run) {
    run.tally.same(meta_page::layout(), LAYOUT, || "layout of the meta".into());
    let bucket = [7_u64.to_le_bytes(), 9_u64.to_le_bytes()].concat();
    run.tally.same(meta_page::bucket_value(7, 9), bucket, || "layout of a bucket's value".into());
    for (bytes, hash) in VECTORS {
        fnv1a(run, bytes, hash);
    }
    for _ in 0..run.rounds {
        let length = run.rng.below(200);
        let bytes = run.rng.bytes(length);
        fnv1a(run, &bytes, meta_page::fnv1a(&bytes));
        let page = page(&mut run.rng);
        let fields = fields(&mut run.rng);
        let written = write(run, &page, &fields);
        read(run, &written);
        let mut changed = written;
        let at = run.rng.below(72);
        changed[32 + at] ^= 1 << run.rng.below(8);
        read(run, &changed);
        read(run, &page);
    }
}

fn fnv1a(run: &mut Run, bytes: &[u8], hash: u64) {
    let got = ask::<1>(|answer| run.subject.fnv1a(bytes, answer));
    run.tally.same((got.number, got.fields[0]), (0, hash), || format!("fnv1a of {bytes:?}"));
}

/// Any bytes with the type of a meta page, at times another.
pub fn page(rng: &mut Rng) -> Vec<u8> {
    let length = rng.pick(&[104, 112, 1_024]);
    let mut page = rng.bytes(length);
    page[8] = if rng.one_in(8) { rng.below(6) as u8 } else { 3 };
    page
}

/// Any fields, many at limits.
pub fn fields(rng: &mut Rng) -> Fields {
    let mut number = || rng.pick(&[0, 1, u64::MAX, 1 << 32]) ^ (rng.next() >> rng.below(64));
    Fields {
        meta_page: number() as u32,
        magic: number() as u32,
        version: number() as u32,
        pagesize: number(),
        root_page: number(),
        next_int: number(),
        num_pages: number(),
        freelist_page: number(),
        tx_id: number(),
    }
}

/// Writes on both sides; the crate leaves the padding as it was.
fn write(run: &mut Run, page: &[u8], f: &Fields) -> Vec<u8> {
    let lent = MetaFields {
        meta_page: f.meta_page,
        magic: f.magic,
        version: f.version,
        pagesize: f.pagesize,
        root_page: f.root_page,
        next_int: f.next_int,
        num_pages: f.num_pages,
        freelist_page: f.freelist_page,
        tx_id: f.tx_id,
    };
    let mut written = page.to_vec();
    let got = ask::<1>(|answer| run.subject.meta_write(&mut written, &lent, answer));
    let expected = match meta_page::write(page, f) {
        Some((mut block, hash)) => {
            block[44..48].fill(0);
            ((0, [hash]), block)
        }
        None => ((3, [0]), page.to_vec()),
    };
    run.tally.same((got.number, got.fields), expected.0, || format!("writing {f:?}"));
    run.tally.check(written == expected.1, || format!("writing {f:?}: other bytes"));
    written
}

fn read(run: &mut Run, page: &[u8]) {
    let got = ask::<10>(|answer| run.subject.meta_read(page, answer));
    let expected = match meta_page::read(page) {
        Some((f, hash, true)) => (0, numbers(&f, hash)),
        Some((_, _, false)) => (13, [0; 10]),
        None => (3, [0; 10]),
    };
    run.tally.same((got.number, got.fields), expected, || format!("reading {page:?}"));
}

/// The fields as the answer buffer gives them.
pub fn numbers(f: &Fields, hash: u64) -> [u64; 10] {
    let [meta_page, magic, version] = [f.meta_page, f.magic, f.version].map(u64::from);
    [meta_page, magic, version, f.pagesize, f.root_page, f.next_int, f.num_pages, f.freelist_page, f.tx_id, hash]
}
