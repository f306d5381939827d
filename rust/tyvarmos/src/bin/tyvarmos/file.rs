//! A file on disk: its first bytes, all that an image takes, or the pages on the way to a key.

use std::collections::BTreeSet;
use std::fs::{self, File};
use std::io::{Seek, SeekFrom};
use std::os::unix::fs::FileTypeExt;
use std::path::{Path, PathBuf};

use tyvarmos::{Image, Number, Tree};

use crate::layout;
use crate::media::{self, Hole, Media, Told};
use crate::stop::Stop;

/// Two pages of the greatest size: as much as the meta pages can take.
const HEAD: u64 = 131_072;
/// The least page, which is what is tried alone while the page size is not known.
const LEAST_PAGE: u64 = 1_024;
const OVERFLOW_AT: u64 = 24;

/// An open file.
pub struct Source {
    pub path: PathBuf,
    media: Box<dyn Media>,
    pub length: u64,
    /// The first bytes, and which of them could not be read.
    pub head: Vec<u8>,
    pub holes: Vec<Hole>,
}

/// How long the file or disk at a path is, 0 where that is not known.
pub fn length(path: &Path) -> u64 {
    match fs::metadata(path) {
        Ok(metadata) if metadata.file_type().is_block_device() => {
            File::open(path).and_then(|mut disk| disk.seek(SeekFrom::End(0))).unwrap_or(0)
        }
        Ok(metadata) => metadata.len(),
        Err(_) => 0,
    }
}

/// The bytes of an image, and the pages of it that could not be read, which are zeros.
#[derive(Default)]
pub struct Read {
    pub bytes: Vec<u8>,
    pub unread: BTreeSet<u64>,
    /// Where exactly they could not be read, and why.
    pub holes: Vec<Hole>,
}

impl Source {
    /// The file at this path with its first bytes read.
    pub fn open(path: &Path) -> Result<Source, Stop> {
        let failed = |error| Stop::unreadable(path, &error);
        let kind = fs::metadata(path).map_err(failed)?.file_type();
        if kind.is_dir() {
            return Err(Stop::unreadable(path, &"is a directory, not a file"));
        }
        if !kind.is_file() && !kind.is_block_device() {
            return Err(Stop::unreadable(path, &"is neither a file nor a disk"));
        }
        let mut file = File::open(path).map_err(failed)?;
        let length = file.seek(SeekFrom::End(0)).map_err(failed)?;
        Source::new(path, Box::new(file), length)
    }

    /// So many bytes with the first of them read, as far as they can be.
    pub fn new(path: &Path, media: Box<dyn Media>, length: u64) -> Result<Source, Stop> {
        let mut source = Source { path: path.to_path_buf(), media, length, head: Vec::new(), holes: Vec::new() };
        let mut head = source.room(HEAD.min(length))?;
        source.holes = source.fill(0, &mut head, LEAST_PAGE, &|_| {})?;
        source.head = head;
        Ok(source)
    }

    /// The bytes of the image of a tree, or the first bytes where its sizes are refused. Told as `media::fill` tells.
    pub fn image(&self, tree: &Tree, told: &Told) -> Result<Read, Stop> {
        if tree.geometry(self.length).is_err() {
            return Ok(Read { bytes: self.head.clone(), ..Read::default() });
        }
        let mut bytes = self.room(tree.page_size * tree.page_count)?;
        let known = bytes.len().min(self.head.len());
        bytes[..known].copy_from_slice(&self.head[..known]);
        told(known as u64);
        let mut holes = self.holes.clone();
        holes.extend(self.fill(known as u64, &mut bytes[known..], tree.page_size, told)?);
        let mut unread = media::pages(&holes, tree.page_size);
        unread.retain(|page| *page < tree.page_count);
        for page in &unread {
            let size = tree.page_size as usize;
            bytes[*page as usize * size..][..size].fill(0);
        }
        Ok(Read { bytes, unread, holes })
    }

    /// So many zeros, or a stop where memory does not have them.
    fn room(&self, length: u64) -> Result<Vec<u8>, Stop> {
        let length = length as usize;
        let probe = Vec::<u8>::new().try_reserve_exact(length);
        probe.map_err(|error| Stop::unreadable(&self.path, &error))?;
        Ok(vec![0; length])
    }

    /// Fills these bytes from a place in the file, as `media::fill` does.
    fn fill(&self, at: u64, bytes: &mut [u8], unit: u64, told: &Told) -> Result<Vec<Hole>, Stop> {
        let filled = media::fill(self.media.as_ref(), at, bytes, unit, told);
        filled.map_err(|_| Stop::unreadable(&self.path, &"became shorter while it was read"))
    }
}

/// The pages of a tree, read as lookups come to them: one that was not read is zero, which no lookup passes.
pub struct Lazy<'a> {
    source: &'a Source,
    page_size: u64,
    pub read: Read,
    tried: BTreeSet<u64>,
}

impl<'a> Lazy<'a> {
    /// The pages of this tree, none of them read.
    pub fn new(source: &'a Source, tree: &Tree) -> Result<Lazy<'a>, Stop> {
        let fits = tree.geometry(source.length).is_ok();
        let bytes = source.room(if fits { tree.page_size * tree.page_count } else { 0 })?;
        let read = Read { bytes, ..Read::default() };
        Ok(Lazy { source, page_size: tree.page_size, read, tried: BTreeSet::new() })
    }

    /// Reads all pages on the way to a key.
    pub fn reach(&mut self, tree: &Tree, key: &[u8]) -> Result<(), Stop> {
        while let Err(fault) = Image::new(&self.read.bytes, *tree).lookup(key) {
            match fault.page.filter(|_| fault.number == Number::Header) {
                Some(page) if self.tried.insert(page) => self.read_block(page)?,
                _ => break,
            }
        }
        Ok(())
    }

    /// Reads a page below the page count, and its overflow pages where the image has them all.
    fn read_block(&mut self, page: u64) -> Result<(), Stop> {
        let size = self.page_size;
        let start = page * size;
        self.read_at(start, size)?;
        let overflow = layout::number(&self.read.bytes, start + OVERFLOW_AT).unwrap_or(0);
        let length = overflow.saturating_mul(size);
        let end = (start + size).saturating_add(length);
        if end <= self.read.bytes.len() as u64 {
            self.read_at(start + size, length)?;
        }
        Ok(())
    }

    /// Reads these bytes; pages that cannot be read are kept in mind.
    fn read_at(&mut self, at: u64, length: u64) -> Result<(), Stop> {
        let bytes = &mut self.read.bytes[at as usize..][..length as usize];
        let holes = self.source.fill(at, bytes, self.page_size, &|_| {})?;
        self.read.unread.extend(media::pages(&holes, self.page_size));
        self.read.holes.extend(holes);
        Ok(())
    }
}

#[cfg(test)]
mod tests {
    use tyvarmos::Meta;

    use super::*;
    use crate::media::tests::Failing;

    const EXAMPLE: &[u8] = include_bytes!("../../../../../examples/shard.db");

    #[test]
    fn a_lookup_reads_around_bad_pages() {
        let tree = Tree::from(Meta::of(EXAMPLE).unwrap());
        let all_but = |needed: &[u64]| {
            let bad = (2..160).filter(|page| !needed.contains(page)).map(|page| (page * 1_024, page * 1_024 + 1));
            let media = Failing { bytes: EXAMPLE.to_vec(), bad: bad.collect() };
            Source::new(Path::new("dying"), Box::new(media), EXAMPLE.len() as u64).unwrap()
        };
        let source = all_but(&[65]);
        let mut lazy = Lazy::new(&source, &tree).unwrap();
        lazy.reach(&tree, b"world").unwrap();
        let world = Image::new(&lazy.read.bytes, tree).bucket(b"world").unwrap().unwrap().tree();
        assert!(lazy.read.unread.is_empty());
        lazy.reach(&world, b"motto").unwrap();
        assert_eq!(lazy.read.unread, BTreeSet::from([world.root_page]));
        assert_eq!(lazy.read.holes[0].start, world.root_page * 1_024);
    }

    #[test]
    fn a_lookup_keeps_in_mind_which_overflow_page_is_bad() {
        let tree = Tree::from(Meta::of(EXAMPLE).unwrap());
        let world = Image::new(EXAMPLE, tree).bucket(b"world").unwrap().unwrap().tree();
        let bad = (world.root_page + 3) * 1_024;
        let media = Failing { bytes: EXAMPLE.to_vec(), bad: vec![(bad, bad + 1)] };
        let source = Source::new(Path::new("dying"), Box::new(media), EXAMPLE.len() as u64).unwrap();
        let mut lazy = Lazy::new(&source, &world).unwrap();
        lazy.reach(&world, b"motto").unwrap();
        assert_eq!(lazy.read.unread, BTreeSet::from([world.root_page + 3]));
    }
}
