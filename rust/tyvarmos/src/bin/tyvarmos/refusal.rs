//! Why there is no verdict of sound, or no answer: a rule is broken, a limit passed, or a page could not be read.

use std::collections::BTreeSet;

use tyvarmos::{Fault, Geometry, Image, Number};

use crate::args::Options;
use crate::context::Context;
use crate::file::{Read, Source};
use crate::layout::Pages;
use crate::meant::Meant;
use crate::media::{self, Hole};
use crate::metas::Metas;
use crate::stop::{BEYOND, REFUSED, UNREADABLE};
use crate::trace::{self, Trace};

/// The pages that this version takes.
const MOST_PAGES: u64 = 32_768;

/// A refusal, as it is told.
pub struct Refusal {
    pub kind: Kind,
    pub sentence: String,
    /// What may be tried next.
    pub to_go_on: Option<String>,
    pub fault: Option<Fault>,
    pub context: Option<Context>,
}

/// What a refusal is about.
pub enum Kind {
    /// The file breaks a rule.
    Broken,
    /// The file is beyond the limits of this version.
    Beyond,
    /// These pages are needed and could not be read.
    Unread(BTreeSet<u64>),
}

impl Refusal {
    /// The exit status.
    pub fn status(&self) -> u8 {
        match self.kind {
            Kind::Broken => REFUSED,
            Kind::Beyond => BEYOND,
            Kind::Unread(_) => UNREADABLE,
        }
    }

    /// The refusal where no meta page, or not the one asked for, tells which tree is meant.
    pub fn without_tree(fault: Fault, options: &Options, metas: &Metas) -> Refusal {
        let (which, usable) = match options.meta {
            None => ("no meta page can be used".to_string(), None),
            Some(page) => (format!("meta page {page} cannot be used"), metas.usable(1 - page as usize).ok()),
        };
        let unread: BTreeSet<u64> = metas.unread().filter(|page| options.meta.unwrap_or(*page) == *page).collect();
        let (kind, sentence) = match metas.usable(unread.first().copied().unwrap_or(0) as usize) {
            _ if fault.is_limit() => (Kind::Beyond, fault.to_string()),
            Err(why) if !unread.is_empty() => (Kind::Unread(unread), format!("{which}: {why}")),
            _ => (Kind::Broken, format!("{which}: {fault}")),
        };
        let to_go_on = match usable {
            _ if fault.is_limit() => None,
            Some(meta) => Some(format!("meta page {} can be used: leave --meta out", meta.meta_page)),
            None => {
                let says = metas.as_options().map_or(String::new(), |says| format!("; {says}"));
                Some(format!("give --page-size, --page-count, --root and --freelist{says}"))
            }
        };
        Refusal { kind, sentence, to_go_on, fault: Some(fault), context: None }
    }

    /// The refusal by the judge of the tree that is meant. Where a page could not be read, all such pages of the tree are
    /// named, those behind the first too, where nothing is judged.
    pub fn judged(meant: &Meant, source: &Source, read: &Read, fault: Fault) -> Refusal {
        let image = meant.image(&read.bytes);
        let refusal = Refusal::traced(meant, source, read, fault, trace::judged(&image, Some(&fault)));
        match refusal.kind {
            Kind::Unread(_) => Refusal::of_passed(&image, read, None).unwrap_or(refusal),
            _ => refusal,
        }
    }

    /// The refusal by a lookup in the tree that is meant.
    pub fn looked(meant: &Meant, source: &Source, read: &Read, key: &[u8], fault: Fault) -> Refusal {
        let image = meant.image(&read.bytes);
        Refusal::traced(meant, source, read, fault, trace::looked(&image, key, Some(&fault)))
    }

    /// The refusal with the way to its fault.
    fn traced(meant: &Meant, source: &Source, read: &Read, fault: Fault, trace: Trace) -> Refusal {
        if fault.number == Number::Geometry {
            return Refusal::of_sizes(meant, source, fault);
        }
        let image = meant.image(&read.bytes);
        let needed = needed(&image, &trace, Some(&fault), &read.unread);
        if !needed.is_empty() {
            return Refusal::of_unread(&image, read, needed);
        }
        let context = Some(Context::of(&image, meant, &fault, trace));
        Refusal { kind: Kind::Broken, sentence: fault.to_string(), to_go_on: None, fault: Some(fault), context }
    }

    /// The refusal of sizes, by the length of the whole file.
    fn of_sizes(meant: &Meant, source: &Source, fault: Fault) -> Refusal {
        let fault = meant.tree.geometry(source.length).map_or_else(Fault::from, |()| fault);
        let kind = if fault.is_limit() { Kind::Beyond } else { Kind::Broken };
        let to_go_on = match fault.geometry {
            Some(Geometry::TooFewBytes { held, page_size, .. }) => Some(whole_pages(held, page_size)),
            _ => None,
        };
        Refusal { kind, sentence: fault.to_string(), to_go_on, fault: Some(fault), context: None }
    }

    /// The refusal for pages that are needed and could not be read.
    fn of_unread(image: &Image, read: &Read, needed: BTreeSet<u64>) -> Refusal {
        let (pages, are) = if needed.len() == 1 { ("page", "is") } else { ("pages", "are") };
        let page_size = image.tree().page_size;
        let touches = |hole: &&Hole| !media::pages([*hole], page_size).is_disjoint(&needed);
        let hole = read.holes.iter().find(touches);
        let why = hole.map_or(String::new(), |hole| format!(", from byte {} on: {}", hole.start, hole.why));
        let sentence = format!("{pages} {} {are} needed and could not be read{why}", media::listed(&needed));
        Refusal { kind: Kind::Unread(needed), sentence, to_go_on: None, fault: None, context: None }
    }

    /// The refusal where pages of a tree, or on the way to a key, could not be read though no rule is broken: their zeros
    /// may stand for anything.
    pub fn of_passed(image: &Image, read: &Read, key: Option<&[u8]>) -> Option<Refusal> {
        if read.unread.is_empty() {
            return None;
        }
        let trace = key.map_or_else(|| trace::judged(image, None), |key| trace::looked(image, key, None));
        let needed = needed(image, &trace, None, &read.unread);
        (!needed.is_empty()).then(|| Refusal::of_unread(image, read, needed))
    }
}

/// How many whole pages a short file has, and what may be done with them.
fn whole_pages(held: u64, page_size: u64) -> String {
    let whole = held / page_size;
    let then = match whole {
        0 | 1 => ", and two are the least".to_string(),
        2..=MOST_PAGES => format!(": --page-count {whole} asks about these"),
        _ => format!(", and this version takes {MOST_PAGES}"),
    };
    format!("the file has {whole} whole pages of {page_size} bytes{then}")
}

/// The pages of the blocks on a way that could not be read. Of the fault's own block those that its rule looks at.
fn needed(image: &Image, trace: &Trace, fault: Option<&Fault>, unread: &BTreeSet<u64>) -> BTreeSet<u64> {
    let pages = Pages::of(image);
    let whole = |page: u64| Some(page..=pages.block(page)?.last);
    let looked_at = |page: u64, fault: &Fault| match (fault.number, fault.element) {
        (Number::TooDeep | Number::PageNumber, _) => None,
        (Number::Header | Number::Table, _) | (Number::ReachedTwice, None) => Some(page..=page),
        _ => whole(page),
    };
    let own = trace.fault.as_ref().zip(fault).and_then(|(reached, fault)| looked_at(reached.page, fault));
    let looked_at = trace.met.iter().filter_map(|page| whole(*page)).chain(own);
    looked_at.flat_map(|pages| unread.range(pages)).copied().collect()
}
