//! `tyvarmos get`: the value of a key.

use std::io::{self, IsTerminal};
use std::path::Path;

use tyvarmos::Entry;

use crate::args::Options;
use crate::descent::{self, Lost};
use crate::file::{Lazy, Source};
use crate::json::Object;
use crate::keys;
use crate::meant::Meant;
use crate::metas::Metas;
use crate::object;
use crate::refusal::Refusal;
use crate::stop::{put, tell, Stop, ABSENT, UNREADABLE};
use crate::text;
use crate::words;

/// Writes the value, or says why there is none, and answers the exit status.
pub fn run(options: &Options) -> Result<u8, Stop> {
    let path = &options.files[0];
    match look(options, path) {
        Err(Stop::Unreadable { why, .. }) if options.json => {
            put(object::of_unreadable(options, path, &why).as_bytes()).map(|()| UNREADABLE)
        }
        done => done,
    }
}

/// Looks the key up and tells what came of it.
fn look(options: &Options, path: &Path) -> Result<u8, Stop> {
    let source = Source::open(path)?;
    let metas = Metas::of(&source.head, &source.holes, options.numbers.page_size);
    let mut meant = match Meant::main(options, &metas) {
        Ok(meant) => meant,
        Err(fault) => {
            let refusal = Refusal::without_tree(fault, options, &metas);
            return Asked::about(options, path, &[]).refused(&refusal, None);
        }
    };
    let warnings: Vec<String> = meant.meta.and_then(|meta| metas.warning(&meta)).into_iter().collect();
    let asked = Asked::about(options, path, &warnings);
    let mut lazy = Lazy::new(&source, &meant.tree)?;
    for name in &options.buckets {
        lazy.reach(&meant.tree, name)?;
        meant = match descent::to_bucket(&meant, &source, &lazy.read, name) {
            Ok(bucket) => bucket,
            Err(Lost::Absent(why)) => return asked.absent(&why),
            Err(Lost::Refused(refusal)) => return asked.refused(&refusal, Some(&meant)),
        };
    }
    lazy.reach(&meant.tree, &options.key)?;
    match descent::to_entry(&meant, &source, &lazy.read, &options.key) {
        Ok(Some(entry)) => asked.found(&entry),
        Ok(None) => asked.absent(&format!("there is no key {} in the {}", keys::shown(&options.key), meant.name())),
        Err(refusal) => asked.refused(&refusal, Some(&meant)),
    }
}

/// What was asked, and what is answered to it.
struct Asked<'a> {
    options: &'a Options,
    path: &'a Path,
    object: Object,
}

impl<'a> Asked<'a> {
    /// The question; its warnings are told on standard error, or go into the answer.
    fn about(options: &'a Options, path: &'a Path, warnings: &[String]) -> Asked<'a> {
        for warning in warnings.iter().filter(|_| !options.json) {
            tell(&format!("{}: warning: {warning}", text::path(path)));
        }
        Asked { options, path, object: object::of_get(options, path, warnings) }
    }

    /// Writes the value.
    fn found(mut self, entry: &Entry) -> Result<u8, Stop> {
        if self.options.json {
            object::add_entry(&mut self.object, entry);
            return self.put_object(0);
        }
        if let Some(bucket) = entry.bucket() {
            tell(&format!("{} is a bucket, root page {}", keys::shown(&self.options.key), bucket.root_page));
        }
        match for_terminal(entry.value).filter(|_| io::stdout().is_terminal()) {
            None => put(entry.value).map(|()| 0),
            Some(shown) => {
                tell("the value is shown with what a terminal would obey written out; a pipe or file gets it as it is");
                put(format!("{shown}\n").as_bytes()).map(|()| 0)
            }
        }
    }

    /// Says that there is no such entry.
    fn absent(mut self, why: &str) -> Result<u8, Stop> {
        if self.options.json {
            object::add_absence(&mut self.object, why);
            return self.put_object(ABSENT);
        }
        tell(&format!("{}: {why}", text::path(self.path)));
        Ok(ABSENT)
    }

    /// Says that the file was refused on the way.
    fn refused(mut self, refusal: &Refusal, meant: Option<&Meant>) -> Result<u8, Stop> {
        if self.options.json {
            object::add_refusal(&mut self.object, refusal, meant, self.options);
            return self.put_object(refusal.status());
        }
        let what = words::refused(refusal, meant, self.options);
        let below = words::below(refusal, meant);
        tell(format!("{}: {what}: {}\n{below}", text::path(self.path), refusal.sentence).trim_end());
        Ok(refusal.status())
    }

    fn put_object(self, status: u8) -> Result<u8, Stop> {
        put(format!("{}\n", self.object).as_bytes()).map(|()| status)
    }
}

/// The value written out, if a terminal would obey some of it.
fn for_terminal(value: &[u8]) -> Option<String> {
    let obeyed = |line: &[u8]| std::str::from_utf8(line).map_or(true, |line| line.chars().any(text::is_hidden));
    value.split(|byte| matches!(byte, b'\n' | b'\t')).any(obeyed).then(|| text::plain(value))
}

#[cfg(test)]
mod tests {
    use super::*;

    #[test]
    fn only_what_a_terminal_obeys_is_written_out() {
        assert_eq!(for_terminal("two\nlines,\ta tab, größe".as_bytes()), None);
        assert_eq!(for_terminal(b"\x1b[2J").as_deref(), Some("\\x1b[2J"));
        assert_eq!(for_terminal(&[0xFF, 0]).as_deref(), Some("\\xff\\x00"));
    }
}
