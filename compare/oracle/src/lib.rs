//! jammdb 0.11.0's own code, built from its files where they lie and unchanged, with a face for the comparison.
//!
//! The root below stands for the crate's lib.rs: the same modules (lifetimes.rs, documentation tests only, is empty)
//! and the same public names.

include!(concat!(env!("OUT_DIR"), "/root.rs"));

mod lifetimes {}
pub mod probe;

pub use crate::bytes::ToBytes;
pub use bucket::Bucket;
pub use cursor::{Buckets, Cursor, KVPairs, ToBuckets, ToKVPairs};
pub use data::*;
pub use db::{OpenOptions, DB};
pub use errors::*;
pub use tx::Tx;
