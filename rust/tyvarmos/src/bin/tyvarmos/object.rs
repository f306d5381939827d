//! A verdict, or a lookup's answer, as a JSON object on a line.

mod context;

use std::os::unix::ffi::OsStrExt;
use std::path::Path;

use tyvarmos::{Entry, Geometry, Kind as EntryKind};

use crate::args::Options;
use crate::file::{Read, Source};
use crate::hex;
use crate::json::Object;
use crate::meant::Meant;
use crate::media;
use crate::metas::{Fields, Metas};
use crate::refusal::{Kind, Refusal};
use crate::verdict::{Outcome, Verdict};

/// What `judge` and `stat` print with --json.
pub fn of_verdict(verdict: &Verdict, options: &Options, source: &Source) -> String {
    let mut object = about(options, &source.path);
    object.number("file_bytes", source.length);
    object.list("metas", (0..2).map(|page| meta(&verdict.metas, page)));
    add_warnings(&mut object, &verdict.warnings);
    add_unread(&mut object, &verdict.read);
    if let Some(meant) = &verdict.meant {
        add_numbers(&mut object, meant);
    }
    object.number_or_null("scope", verdict.meant.as_ref().map(|meant| scope(meant, &verdict.outcome)));
    match &verdict.outcome {
        Outcome::Sound { entries, pages, free_pages, time, .. } => {
            object.text("verdict", "sound");
            object.number("entries", entries);
            object.number("pages", pages);
            object.number("free_pages", free_pages);
            object.number("seconds", format!("{:.6}", time.as_secs_f64()));
        }
        Outcome::Refused(refusal) => add_refusal(&mut object, refusal, verdict.meant.as_ref(), options),
        Outcome::Absent(why) => add_absence(&mut object, why),
    }
    format!("{object}\n")
}

/// What is printed with --json about a file that cannot be opened or read.
pub fn of_unreadable(options: &Options, path: &Path, why: &str) -> String {
    let mut object = about(options, path);
    object.text("verdict", "unreadable");
    object.text("sentence", why);
    format!("{object}\n")
}

/// What `get` asks about, to which its answer is added.
pub fn of_get(options: &Options, path: &Path, warnings: &[String]) -> Object {
    let mut object = about(options, path);
    object.bytes("key", &options.key);
    add_warnings(&mut object, warnings);
    object
}

/// Adds an entry found.
pub fn add_entry(object: &mut Object, entry: &Entry) {
    object.text("verdict", "found");
    object.text("kind", if entry.kind == EntryKind::Data { "data" } else { "bucket" });
    object.number("place", entry.place);
    object.number("length", entry.value.len());
    object.text("value_hex", &hex::digits(entry.value));
}

/// Adds that there is no such entry.
pub fn add_absence(object: &mut Object, why: &str) {
    object.text("verdict", "absent");
    object.text("sentence", why);
}

/// Adds a refusal, with what names the tree that broke.
pub fn add_refusal(object: &mut Object, refusal: &Refusal, meant: Option<&Meant>, options: &Options) {
    let towards = meant.and_then(|meant| options.buckets.get(meant.names.len()));
    if let Some(name) = towards {
        object.bytes("on_the_way_to_bucket", name);
    }
    match &refusal.kind {
        Kind::Broken => object.text("verdict", "refused"),
        Kind::Beyond => object.text("verdict", "beyond_limits"),
        Kind::Unread(pages) => {
            object.text("verdict", "unreadable");
            object.list("pages_needed", pages.iter());
        }
    }
    if let Some(fault) = &refusal.fault {
        object.number("number", fault.number.code());
        object.number_or_null("page", fault.page);
        object.number_or_null("element", fault.element);
        object.number("common", fault.common);
        object.number_or_null("sizes", fault.geometry.and_then(sizes));
    }
    object.text("sentence", &refusal.sentence);
    if let Some(more) = &refusal.to_go_on {
        object.text("to_go_on", more);
    }
    if let (Some(context), Some(meant)) = (&refusal.context, meant) {
        object.number("context", context::of(context, meant));
    }
}

/// The file and the buckets asked for.
fn about(options: &Options, path: &Path) -> Object {
    let mut object = Object::default();
    object.bytes("file", path.as_os_str().as_bytes());
    object.byte_strings("buckets", &options.buckets);
    object
}

fn add_warnings(object: &mut Object, warnings: &[String]) {
    object.texts("warnings", warnings.iter().cloned());
}

/// Adds the pages that could not be read, as runs from a first to a last.
fn add_unread(object: &mut Object, read: &Read) {
    object.number("unreadable_pages", read.unread.len());
    let runs = media::runs(&read.unread);
    object.list("unreadable", runs.iter().map(|[first, last]| format!("[{first},{last}]")));
}

fn add_numbers(object: &mut Object, meant: &Meant) {
    if let Some(meta) = &meant.meta {
        object.number("meta_page", meta.meta_page);
        object.number("tx_id", meta.tx_id);
        object.number("next_int", meta.next_int);
    }
    object.number("page_size", meant.tree.page_size);
    object.number("page_count", meant.tree.page_count);
    object.number("root", meant.tree.root_page);
    object.number("freelist", meant.tree.freelist_page);
    if let Some((_, bucket)) = &meant.bucket {
        object.number("bucket_next_int", bucket.next_int);
    }
}

/// Which tree the verdict is about: one of a file's, never the whole file.
fn scope(meant: &Meant, outcome: &Outcome) -> Object {
    let mut scope = Object::default();
    scope.text("tree", if meant.names.is_empty() { "main" } else { "bucket" });
    scope.byte_strings("path", &meant.names);
    scope.number("root", meant.tree.root_page);
    scope.number("whole_file", false);
    if let Outcome::Sound { buckets, .. } = outcome {
        scope.number("buckets_not_judged", buckets.count);
    }
    scope
}

/// A meta page: whether it can be used, why not, and what it says.
fn meta(metas: &Metas, page: usize) -> Object {
    let mut object = Object::default();
    object.number("page", page);
    object.number_or_null("byte", metas.pages[page].start);
    let usable = metas.usable(page);
    object.number("usable", usable.is_ok());
    if let Err(why) = &usable {
        object.text("sentence", why);
    }
    if let Some(fields) = &metas.pages[page].fields {
        add_fields(&mut object, fields);
    }
    object
}

fn add_fields(object: &mut Object, fields: &Fields) {
    object.number("type", fields.kind);
    object.number("tx_id", fields.tx_id);
    object.number("page_size", fields.page_size);
    object.number("page_count", fields.page_count);
    object.number("root", fields.root_page);
    object.number("freelist", fields.freelist_page);
    object.number("next_int", fields.next_int);
    object.text("hash_hex", &format!("{:016x}", fields.hash));
    object.text("hash_of_fields_hex", &format!("{:016x}", fields.hash_of_fields));
}

/// The sizes that are refused.
fn sizes(geometry: Geometry) -> Option<Object> {
    let mut object = Object::default();
    object.number("limit", geometry.is_limit());
    match geometry {
        Geometry::PageSize { page_size } => object.number("page_size", page_size),
        Geometry::PageCount { page_count } => object.number("page_count", page_count),
        Geometry::TooFewBytes { held, page_size, page_count } => {
            object.number("bytes", held);
            object.number("page_size", page_size);
            object.number("page_count", page_count);
            object.number("whole_pages", held / page_size);
        }
        Geometry::NoMeta { held } => object.number("bytes", held),
        _ => return None,
    }
    Some(object)
}
