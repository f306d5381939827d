//! What a transaction knows of its file.

use super::meta_page::{fields_of, Fields};
use crate::{Bucket, Tx};

/// The meta a transaction works from.
pub fn meta(tx: &Tx) -> Fields {
    fields_of(&tx.inner.borrow().meta)
}

/// The root page of a bucket.
pub fn root(bucket: &Bucket) -> u64 {
    bucket.inner.borrow().meta.root_page
}
