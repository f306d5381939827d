//! Bytes from a disk that may fail: read in pieces, and page by page where a piece cannot be read.

use std::collections::BTreeSet;
use std::fs::File;
use std::io::{self, ErrorKind};
use std::os::unix::fs::FileExt;

const PIECE: u64 = 1_048_576;

/// Something with bytes at places.
pub trait Media: Send + Sync {
    /// Fills these bytes from a place on.
    fn read(&self, at: u64, bytes: &mut [u8]) -> io::Result<()>;
}

impl Media for File {
    fn read(&self, at: u64, bytes: &mut [u8]) -> io::Result<()> {
        self.read_exact_at(bytes, at)
    }
}

/// A stretch that could not be read, and why.
#[derive(Clone, Debug, PartialEq, Eq)]
pub struct Hole {
    pub start: u64,
    pub end: u64,
    pub why: String,
}

/// Told how many bytes more were gone through.
pub type Told<'a> = dyn Fn(u64) + 'a;

/// Fills these bytes from a place on, and answers the holes, which are zeros: a piece that cannot be read is tried unit
/// by unit. A file that ends too early is the one error.
pub fn fill(media: &dyn Media, at: u64, bytes: &mut [u8], unit: u64, told: &Told) -> io::Result<Vec<Hole>> {
    let mut holes = Vec::new();
    let end = at + bytes.len() as u64;
    for (start, next) in cuts(at, end, unit * (PIECE / unit).max(1)) {
        let piece = &mut bytes[(start - at) as usize..(next - at) as usize];
        match media.read(start, piece) {
            Ok(()) => told(next - start),
            Err(error) if error.kind() == ErrorKind::UnexpectedEof => return Err(error),
            Err(_) => fill_units(media, start, piece, unit, told, &mut holes)?,
        }
    }
    Ok(holes)
}

/// Fills a piece unit by unit, and adds those that cannot be read to the holes.
fn fill_units(
    media: &dyn Media,
    at: u64,
    piece: &mut [u8],
    unit: u64,
    told: &Told,
    holes: &mut Vec<Hole>,
) -> io::Result<()> {
    for (start, end) in cuts(at, at + piece.len() as u64, unit) {
        let bytes = &mut piece[(start - at) as usize..(end - at) as usize];
        match media.read(start, bytes) {
            Ok(()) => {}
            Err(error) if error.kind() == ErrorKind::UnexpectedEof => return Err(error),
            Err(error) => {
                bytes.fill(0);
                add(holes, Hole { start, end, why: error.to_string() });
            }
        }
        told(end - start);
    }
    Ok(())
}

/// Adds a hole, to the last one where they touch and have the same cause.
fn add(holes: &mut Vec<Hole>, hole: Hole) {
    match holes.last_mut() {
        Some(last) if last.end == hole.start && last.why == hole.why => last.end = hole.end,
        _ => holes.push(hole),
    }
}

/// The stretch from a start to an end, cut at each multiple of a step.
fn cuts(start: u64, end: u64, step: u64) -> impl Iterator<Item = (u64, u64)> {
    let mut at = start;
    std::iter::from_fn(move || {
        let next = end.min((at / step + 1) * step);
        let cut = (at < end).then_some((at, next));
        at = next;
        cut
    })
}

/// The pages of this size that holes touch.
pub fn pages<'a>(holes: impl IntoIterator<Item = &'a Hole>, page_size: u64) -> BTreeSet<u64> {
    holes.into_iter().flat_map(|hole| hole.start / page_size..hole.end.div_ceil(page_size)).collect()
}

/// Pages as a person lists them: 3, 17 to 20.
pub fn listed(pages: &BTreeSet<u64>) -> String {
    let listed: Vec<String> = runs(pages)
        .into_iter()
        .map(|[first, last]| if first == last { first.to_string() } else { format!("{first} to {last}") })
        .collect();
    listed.join(", ")
}

/// The first and last page of each run of pages.
pub fn runs(pages: &BTreeSet<u64>) -> Vec<[u64; 2]> {
    let mut runs: Vec<[u64; 2]> = Vec::new();
    for page in pages {
        match runs.last_mut() {
            Some([_, last]) if *last + 1 == *page => *last = *page,
            _ => runs.push([*page, *page]),
        }
    }
    runs
}

#[cfg(test)]
pub mod tests {
    use super::*;

    /// Bytes of which some cannot be read, each stretch from a start to an end.
    pub struct Failing {
        pub bytes: Vec<u8>,
        pub bad: Vec<(u64, u64)>,
    }

    impl Media for Failing {
        fn read(&self, at: u64, bytes: &mut [u8]) -> io::Result<()> {
            let end = at + bytes.len() as u64;
            if self.bad.iter().any(|(from, to)| at < *to && *from < end) {
                bytes.fill(0xEE);
                return Err(io::Error::from_raw_os_error(5));
            }
            let Some(held) = self.bytes.get(at as usize..end as usize) else {
                return Err(ErrorKind::UnexpectedEof.into());
            };
            bytes.copy_from_slice(held);
            Ok(())
        }
    }

    fn numbered(length: usize) -> Vec<u8> {
        (0..length).map(|i| 1 + (i % 251) as u8).collect()
    }

    #[test]
    fn a_bad_sector_costs_one_page() {
        let bytes = numbered(3_000_000);
        let bad = vec![(2_000_000, 2_000_512)];
        let media = Failing { bytes: bytes.clone(), bad };
        let mut read = vec![0; bytes.len()];
        let holes = fill(&media, 0, &mut read, 4_096, &|_| {}).unwrap();
        let page = 2_000_000 / 4_096;
        let (start, end) = (page * 4_096, (page + 1) * 4_096);
        assert_eq!(holes, [Hole { start, end, why: "Input/output error (os error 5)".to_string() }]);
        let (start, end) = (start as usize, end as usize);
        assert!(read[start..end].iter().all(|byte| *byte == 0));
        assert_eq!((&read[..start], &read[end..]), (&bytes[..start], &bytes[end..]));
    }

    #[test]
    fn every_byte_is_gone_through_once() {
        let bad = (1_500_000, 1_500_001);
        let media = Failing { bytes: numbered(2_500_000), bad: vec![bad] };
        let gone = std::cell::Cell::new(0);
        let mut read = vec![0; 2_400_000];
        let holes = fill(&media, 100_000, &mut read, 1_032, &|bytes| gone.set(gone.get() + bytes)).unwrap();
        assert_eq!((gone.get(), holes.len()), (2_400_000, 1));
        let (start, end) = (holes[0].start as usize, holes[0].end as usize);
        assert_eq!((end - start, start % 1_032), (1_032, 0));
        assert_eq!(read[..start - 100_000], media.bytes[100_000..start]);
        assert_eq!(read[end - 100_000..], media.bytes[end..]);
    }

    #[test]
    fn an_early_end_is_an_error() {
        let media = Failing { bytes: numbered(5_000), bad: vec![(0, 1)] };
        let error = fill(&media, 0, &mut [0; 6_000], 1_024, &|_| {}).unwrap_err();
        assert_eq!(error.kind(), ErrorKind::UnexpectedEof);
    }

    #[test]
    fn holes_touch_pages() {
        let hole = |start, end| Hole { start, end, why: String::new() };
        let touched = pages(&[hole(512, 1_024), hole(3_000, 3_100), hole(5_120, 8_192)], 1_024);
        assert_eq!(touched, BTreeSet::from([0, 2, 3, 5, 6, 7]));
        assert_eq!(listed(&touched), "0, 2 to 3, 5 to 7");
    }
}
