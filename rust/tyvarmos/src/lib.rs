//! Judges [jammdb](https://crates.io/crates/jammdb) 0.11.0 files and looks up keys in them, by code that is proved.
//!
//! An image is judged once, and on an image that passed, no lookup can stumble or miss:
//!
//! ```
//! use tyvarmos::{Image, Kind};
//!
//! # fn main() -> Result<(), Box<dyn std::error::Error>> {
//! let bytes = std::fs::read("../../examples/shard.db")?;
//! let file = Image::of_file(&bytes)?.judge()?;
//! let world = file.bucket(b"world").expect("a bucket").judge()?;
//!
//! let motto = world.get(b"motto").expect("an entry");
//! assert_eq!((motto.kind, motto.value), (Kind::Data, b"Hold the wall.".as_slice()));
//! assert!(world.get(b"anthem").is_none());
//! # Ok(())
//! # }
//! ```
//!
//! [`Image::judge`] reads every page of one tree and the freelist page, and answers a [`Sound`] image or the first
//! [`Fault`]. A bucket has a tree of its own, judged by itself. [`Image::lookup`] needs no judge before it: it judges
//! each page that it meets, reads no other byte, and may refuse. [`Sound::get`] relies on the judge, and looks at little
//! of each page.
//!
//! ```
//! # fn main() -> Result<(), Box<dyn std::error::Error>> {
//! use tyvarmos::{Meta, Number};
//!
//! let mut bytes = std::fs::read("../../examples/shard.db")?;
//! let meta = Meta::of(&bytes)?;
//! let root = (meta.root_page * meta.page_size) as usize;
//! bytes[root + 32 + 8] = 0;
//! let fault = meta.image(&bytes).lookup(b"world").unwrap_err();
//! assert_eq!((fault.number, fault.page, fault.element), (Number::Element, Some(meta.root_page), Some(0)));
//! # Ok(())
//! # }
//! ```
//!
//! A file beyond the limits of this version, more than 32,768 pages or a page size other than the multiples of 8 from
//! 1,024 to 65,536, is refused as well, and [`Fault::is_limit`] tells that from damage.
//!
//! # What is proved and what is not
//!
//! Both lookups, the judge and the choice of the meta page are C functions of libshard.a, whose answers are proved for
//! every input; the repository's docs/PROMISES.md has the statements. This crate passes slices to them and gives types
//! to their answers. It is not proved, it is tested, and it has no `unsafe` besides these calls.
//!
//! # Mapped files
//!
//! A [`Sound`] image borrows its bytes, so nothing in the program can change them while it lives. All calls take
//! `&[u8]`, which the mappings of the crate memmap2 give as well: `Image::of_file(&mmap)`. To make such a mapping is
//! unsafe, since another process can change or shorten the file, which no borrow prevents; whoever maps a file answers
//! for that. The file is then another image than the one that was judged: [`Sound::get`] may panic or miss a key, where
//! [`Image::lookup`] might have refused, and a page that cannot be read ends the process by a signal. Where a file is in
//! use or its disk is in doubt, read it into memory.
//!
//! # Building
//!
//! The library is looked for in target/staticlib at the repository's top, where `tools/staticlib shard` writes it, or
//! in the folder that the environment variable `TYVARMOS_LIB` names by an absolute path. It is for 64-bit,
//! little-endian machines.
//!
//! `rust-version` is what the std calls used here need, as clippy sees it. Only Rust 1.95 was run.

#![deny(missing_docs, unsafe_code)]
#![warn(missing_debug_implementations, unreachable_pub)]
#![warn(clippy::must_use_candidate, clippy::missing_errors_doc, clippy::missing_panics_doc)]

mod entry;
mod fault;
mod geometry;
mod image;
mod meta;
mod metas;
mod number;
mod raw;
mod reach;
mod sound;
mod tree;

pub use entry::{Bucket, Entry, Kind};
pub use fault::Fault;
pub use geometry::Geometry;
pub use image::Image;
pub use meta::Meta;
pub use metas::Metas;
pub use number::Number;
pub use sound::Sound;
pub use tree::Tree;
