//! A verdict in words.

mod context;

use std::fmt::Write;
use std::path::Path;
use std::time::Duration;

use tyvarmos::{Meta, Tree};

use crate::args::{Numbers, Options};
use crate::buckets::Buckets;
use crate::file::Source;
use crate::keys;
use crate::layout;
use crate::meant::Meant;
use crate::media;
use crate::metas::Metas;
use crate::refusal::{Kind, Refusal};
use crate::text;
use crate::verdict::{Outcome, Verdict};

/// What `judge` prints about one file.
pub fn of_judge(verdict: &Verdict, options: &Options, source: &Source) -> String {
    let mut text = format!("{}: {}\n", text::path(&source.path), headline(verdict, options));
    if let Outcome::Refused(refusal) = &verdict.outcome {
        let _ = writeln!(text, "  {}", refusal.sentence);
    }
    text += &warnings(verdict);
    if let Outcome::Absent(_) = verdict.outcome {
        return text;
    }
    text += &about(verdict, options);
    match &verdict.outcome {
        Outcome::Sound { entries, pages, buckets, time, .. } => {
            let _ = writeln!(text, "  counted   {entries} entries in {pages} pages, the freelist's included");
            let _ = writeln!(text, "  time      {}", took(*time));
            let _ = writeln!(text, "  buckets   {}", bucket_names(buckets));
        }
        Outcome::Refused(refusal) => {
            let _ = writeln!(text, "  file      {} bytes", source.length);
            text += &below(refusal, verdict.meant.as_ref());
            if verdict.meant.is_none() {
                text += &metas(&verdict.metas);
                text += &layout::first_meta(&source.head).map_or(String::new(), |part| part.rows());
            }
        }
        Outcome::Absent(_) => {}
    }
    text
}

/// What `judge` prints about one of many files.
pub fn of_many(verdict: &Verdict, options: &Options, path: &Path) -> String {
    let mut line = format!("{}: {}", text::path(path), headline(verdict, options));
    if let Outcome::Refused(refusal) = &verdict.outcome {
        let more = refusal.to_go_on.as_ref().map_or(String::new(), |more| format!("; {more}"));
        let _ = write!(line, ": {}{more}", refusal.sentence);
    }
    for warning in notes(verdict) {
        let _ = write!(line, "; {warning}");
    }
    line + "\n"
}

/// What `stat` prints.
pub fn of_stat(verdict: &Verdict, options: &Options, source: &Source) -> String {
    let mut text = format!("{}\n  file      {} bytes\n", text::path(&source.path), source.length);
    text += &metas(&verdict.metas);
    text += &warnings(verdict);
    text += &about(verdict, options);
    if let Some((_, bucket)) = verdict.meant.as_ref().and_then(|meant| meant.bucket) {
        let _ = writeln!(text, "  bucket    next number {}", bucket.next_int);
    }
    let headline = headline(verdict, options);
    match &verdict.outcome {
        Outcome::Sound { entries, pages, free_pages, .. } => {
            let _ = writeln!(text, "  free      {free_pages} pages");
            let counts = format!("{entries} entries in {pages} pages, the freelist's included");
            let _ = writeln!(text, "  verdict   {headline}: {counts}");
        }
        Outcome::Refused(refusal) => {
            let _ = writeln!(text, "  verdict   {headline}: {}", refusal.sentence);
            text += &to_go_on(refusal);
        }
        Outcome::Absent(_) => {
            let _ = writeln!(text, "  verdict   {headline}");
        }
    }
    text
}

/// What stands below the sentence of a refusal.
pub fn below(refusal: &Refusal, meant: Option<&Meant>) -> String {
    let page = refusal.fault.and_then(|fault| fault.page);
    let context = match (&refusal.context, meant, page) {
        (Some(context), Some(meant), Some(page)) => context::lines(context, meant, page),
        _ => String::new(),
    };
    to_go_on(refusal) + &context
}

/// Which tree was refused, or why none was, as the beginning of a sentence.
pub fn refused(refusal: &Refusal, meant: Option<&Meant>, options: &Options) -> String {
    let towards = meant.and_then(|meant| options.buckets.get(meant.names.len()));
    let way = towards.map_or(String::new(), |name| format!(" on the way to bucket {}", keys::shown(name)));
    match (&refusal.kind, meant) {
        (Kind::Beyond, _) => "beyond the limits of this version".to_string(),
        (Kind::Broken, None) => "refused, nothing judged".to_string(),
        (Kind::Unread(_), None) => "nothing judged".to_string(),
        (Kind::Broken, Some(meant)) => format!("{} refused{way}", meant.name()),
        (Kind::Unread(_), Some(meant)) => format!("{} not judged{way}", meant.name()),
    }
}

/// What was judged and what came of it, in a line.
fn headline(verdict: &Verdict, options: &Options) -> String {
    let meant = verdict.meant.as_ref();
    match &verdict.outcome {
        Outcome::Sound { buckets, .. } => {
            let within = if meant.is_some_and(|meant| meant.bucket.is_some()) { " in it" } else { "" };
            let count = match buckets.count {
                0 => "it has no buckets".to_string(),
                1 => format!("1 bucket{within} not judged"),
                count => format!("{count} buckets{within} not judged"),
            };
            format!("{} sound, {count}", meant.map_or(String::new(), Meant::name))
        }
        Outcome::Refused(refusal) => refused(refusal, meant, options),
        Outcome::Absent(why) => why.clone(),
    }
}

/// What is to be said besides the outcome.
fn notes(verdict: &Verdict) -> Vec<String> {
    let unread = &verdict.read.unread;
    let (pages, needs) = match unread.len() {
        1 => ("page", "does not need it"),
        _ => ("pages", "needs none of them"),
    };
    let told = match &verdict.outcome {
        Outcome::Sound { .. } => format!("; the tree {needs}"),
        _ => String::new(),
    };
    let lost = format!("{} {pages} could not be read: {}{told}", unread.len(), media::listed(unread));
    verdict.warnings.iter().cloned().chain((!unread.is_empty()).then_some(lost)).collect()
}

fn warnings(verdict: &Verdict) -> String {
    notes(verdict).iter().map(|note| format!("  warning   {note}\n")).collect()
}

fn to_go_on(refusal: &Refusal) -> String {
    refusal.to_go_on.as_ref().map_or(String::new(), |more| format!("  to go on  {more}\n"))
}

/// The tree and the pages that were judged, a line each.
fn about(verdict: &Verdict, options: &Options) -> String {
    let Some(meant) = &verdict.meant else {
        return String::new();
    };
    let the = if meant.names.is_empty() { "the " } else { "" };
    let Tree { page_size, page_count, root_page, freelist_page } = meant.tree;
    format!(
        "  tree      {the}{}, root page {root_page}, freelist page {freelist_page}\n  \
           image     {page_count} pages of {page_size} bytes\n  \
           by        {}\n",
        meant.name(),
        by_what(meant, options, &verdict.metas)
    )
}

/// Where the numbers of a tree come from.
fn by_what(meant: &Meant, options: &Options, metas: &Metas) -> String {
    let Some(meta) = &meant.meta else {
        let lost = if metas.chosen(None).is_err() { "; no meta page can be used" } else { "" };
        return format!("the command line{lost}");
    };
    let and = if options.numbers == Numbers::default() { "" } else { ", and the command line" };
    format!("meta page {}, transaction {}, next number {}{and}", meta.meta_page, meta.tx_id, meta.next_int)
}

/// Both meta pages, each with what is wrong with it.
fn metas(metas: &Metas) -> String {
    let mut text = String::new();
    for page in 0..2 {
        match metas.usable(page) {
            Ok(Meta { tx_id, root_page, freelist_page, page_count, page_size, next_int, .. }) => {
                let numbers = format!("{page_count} pages of {page_size} bytes, next number {next_int}");
                let pages = format!("root page {root_page}, freelist page {freelist_page}");
                let _ = writeln!(text, "  meta {page}    transaction {tx_id}, {pages}, {numbers}");
            }
            Err(why) => {
                let _ = writeln!(text, "  meta {page}    cannot be used: {why}");
                if let Some(fields) = &metas.pages[page].fields {
                    let _ = writeln!(text, "            it says: {fields}");
                }
            }
        }
    }
    text
}

/// The names of the buckets that were not judged.
fn bucket_names(buckets: &Buckets) -> String {
    if buckets.count == 0 {
        return "none".to_string();
    }
    let names: Vec<String> = buckets.names.iter().map(|name| keys::brief(name)).collect();
    let more = buckets.count - names.len() as u64;
    let more = if more > 0 { format!(" and {more} more") } else { String::new() };
    format!("{}{more}: not judged here, name one with --bucket", names.join(", "))
}

/// A time for a person.
fn took(time: Duration) -> String {
    let seconds = time.as_secs_f64();
    if seconds < 1.0 {
        format!("{:.3} ms", 1_000.0 * seconds)
    } else {
        format!("{seconds:.2} s")
    }
}
